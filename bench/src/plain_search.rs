//! The whole search in plain Rust, over any way in which a server makes its shares.

use crate::plain_combine::{self, Answer};
use crate::plain_idpf::add;
use crate::plain_share::well_formed;
use tally::{Reports, Settings};

/// Writes the totals of two shares, 8 bytes each.
fn write_totals(shares: &[Vec<u8>; 2], out: &mut [u8]) {
    let [zero, one] = shares;
    let numbers = zero.chunks_exact(8).zip(one.chunks_exact(8));
    for (place, (x, y)) in out.chunks_exact_mut(8).zip(numbers) {
        let [x, y] = [x, y].map(|bytes| u64::from_le_bytes(bytes.try_into().unwrap()));
        place.copy_from_slice(&add(x, y).to_le_bytes());
    }
}

/// Record and list of a search that is accepted, written into their areas; their lengths. The record begins with the number of reports.
/// `write_share` writes a server's share for a query.
pub fn search(
    settings: Settings,
    servers: [Reports; 2],
    mut write_share: impl FnMut(bool, &[u8], &mut [u8]),
    record: &mut [u8],
    list: &mut [u8],
) -> Option<(usize, usize)> {
    let (n, weighted, t) = (settings.n as usize, settings.weighted, settings.threshold);
    let [zero, one] = servers;
    if !well_formed(n, zero) || !well_formed(n, one) || zero.public_shares != one.public_shares {
        return None;
    }
    let mut query = vec![0, 0, 0, 0, 0, 2, 0, 128];
    let reports = (zero.seeds.len() as u64).to_be_bytes();
    let Some(heading) = record.first_chunk_mut() else {
        record.fill(0);
        return None;
    };
    *heading = reports;
    let mut used = reports.len();
    for length in 1..=n {
        let count = (query.len() - 6) / length.div_ceil(8);
        let totals_at = used + query.len();
        let end = totals_at + 8 * count;
        if record.len() < end {
            record.fill(0);
            return None;
        }
        record[used..totals_at].copy_from_slice(&query);
        let mut shares = [vec![0; 8 * count], vec![0; 8 * count]];
        for (server, out) in [false, true].into_iter().zip(&mut shares) {
            write_share(server, &query, out);
        }
        write_totals(&shares, &mut record[totals_at..end]);
        used = end;
        let mut out = vec![0; 6 + 2 * count * (length + 1).div_ceil(8)];
        match plain_combine::combine(n, weighted, t, &query, &shares[0], &shares[1], &mut out) {
            Answer::Next(size) => query = out[..size].to_vec(),
            Answer::Ended => return Some((used, 0)),
            Answer::List(size) if size <= list.len() => {
                list[..size].copy_from_slice(&out[..size]);
                return Some((used, size));
            }
            _ => {
                record.fill(0);
                return None;
            }
        }
    }
    None
}
