//! What a server holds, for the examples.

use tally::{Reports, Seed, Server};

/// What one server was given: the other server's seeds are not here.
pub struct Holder {
    pub server: Server,
    pub seeds: Vec<Seed>,
    pub public_shares: Vec<u8>,
}

impl Holder {
    pub fn new(server: Server) -> Holder {
        Holder {
            server,
            seeds: Vec::new(),
            public_shares: Vec::new(),
        }
    }

    pub fn take(&mut self, seed: Seed, public_share: &[u8]) {
        self.seeds.push(seed);
        self.public_shares.extend(public_share);
    }

    pub fn reports(&self) -> Reports<'_> {
        Reports {
            seeds: &self.seeds,
            public_shares: &self.public_shares,
        }
    }
}
