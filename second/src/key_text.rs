//! The key program: from one line on standard input to the public share and the shares of it.

use crate::expander::Expander;
use crate::keys::{head_size, public_share_size, Reader};
use crate::query::pack;
use crate::share::Reports;
use crate::text::{self, decimal, digits, hex, report, Line};
use crate::{field, key};

/// A key text as laid out.
struct Text {
    n: usize,
    expander: u64,
    report: Line,
}

/// The whole output for a standard input: 10 is judged first, then 1 and 3.
pub fn key_text(text: &[u8]) -> Vec<u8> {
    let outcome = read(text).ok_or(10).and_then(|text| judged(&text));
    outcome.unwrap_or_else(text::refused).into_bytes()
}

fn read(text: &[u8]) -> Option<Text> {
    let mut fields = text::body(text)?.splitn(3, |&byte| byte == b' ');
    let n = decimal(fields.next()?)?;
    let expander = decimal(fields.next()?)?;
    if n > 32 {
        return None;
    }
    let n = n as usize;
    let report = report(fields.next()?, n)?;
    Some(Text {
        n,
        expander,
        report,
    })
}

fn judged(text: &Text) -> Result<String, u64> {
    let Line {
        string,
        seed0,
        seed1,
    } = &text.report;
    let mut public_share = vec![0u8; public_share_size(text.n)];
    let made = key(
        text.n as u64,
        text.expander,
        1,
        &pack(string),
        seed0,
        seed1,
        &mut public_share,
    );
    if made.number != 0 {
        return Err(made.number);
    }
    Ok(corrections(text.n, &public_share) + &shares(text, &public_share))
}

/// The line of the packed control bits and the line of each level.
fn corrections(n: usize, public_share: &[u8]) -> String {
    let mut lines = format!("control {}\n", hex(&public_share[..head_size(n)]));
    let mut reader = Reader::of(n, public_share);
    for level in 1..=n {
        let (correction, payload) = reader.read();
        let [left, right] = correction.controls.map(u8::from);
        let (seed, payload) = (hex(&correction.seed), hex(&field::write(payload)));
        lines += &format!("level {level} {left} {right} {seed} {payload}\n");
    }
    lines
}

/// The two lines of each prefix of the string.
fn shares(text: &Text, public_shares: &[u8]) -> String {
    let expander = Expander::of(text.expander);
    let servers = [(false, &text.report.seed0), (true, &text.report.seed1)];
    let mut lines = String::new();
    for length in 1..=text.n {
        let mut prefix = text.report.string[..length].to_vec();
        for word in ["prefix", "beside"] {
            let packed = pack(&prefix);
            let [share0, share1] = servers.map(|(server, seeds)| {
                let reports = Reports {
                    n: text.n,
                    seeds,
                    public_shares,
                };
                reports.sum(expander, server, &packed, length)
            });
            let (bits, sum) = (digits(&prefix), field::add(share0, share1));
            lines += &format!("{word} {bits} {share0} {share1} {sum}\n");
            prefix[length - 1] ^= true;
        }
    }
    lines
}
