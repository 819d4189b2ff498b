//! A server's shares of two lists of reports, added, are its share of both laid together.

use tally::{
    add_shares, block, make_key, public_share_length, share, Expander, Refusal, Reports, Seed,
    Server,
};

/// A query for all prefixes of two bits.
const QUERY: [u8; 10] = [0, 1, 0, 0, 0, 4, 0x00, 0x40, 0x80, 0xc0];

/// Seven reports of four bits: each server's seeds, and the public shares.
fn lent(expander: Expander) -> Result<([Vec<Seed>; 2], Vec<u8>), Refusal> {
    let (mut seeds, mut public_shares) = ([vec![], vec![]], vec![]);
    for i in 0..7 {
        let own = [2 * i, 2 * i + 1].map(|j| block(Expander::Aes, &[9; 16], j));
        let [seed0, seed1] = [own[0]?, own[1]?];
        let string = [(i as u8 * 5) << 4];
        public_shares.extend(make_key(4, expander, &string, &seed0, &seed1)?);
        seeds[0].push(seed0);
        seeds[1].push(seed1);
    }
    Ok((seeds, public_shares))
}

#[test]
fn shares_of_two_parts_add_to_that_of_the_whole() -> Result<(), Refusal> {
    for expander in [Expander::Aes, Expander::Classroom] {
        let (seeds, public_shares) = lent(expander)?;
        for (server, seeds) in [(Server::Zero, &seeds[0]), (Server::One, &seeds[1])] {
            let of = |from: usize, to: usize| {
                let size = public_share_length(4);
                let reports = Reports {
                    seeds: &seeds[from..to],
                    public_shares: &public_shares[from * size..to * size],
                };
                share(4, expander, server, reports, &QUERY)
            };
            for cut in 0..=7 {
                assert_eq!(add_shares(&of(0, cut)?, &of(cut, 7)?)?, of(0, 7)?);
            }
        }
    }
    Ok(())
}
