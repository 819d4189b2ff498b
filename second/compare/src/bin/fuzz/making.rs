//! Each call made once and judged, with the numbers that it may return.

use crate::judged::{Call, Judged};
use compare::calls;
use second::field::{read, P};
use second::rng::Rng;

/// The number of a threshold outside its bounds.
fn threshold(weighted: bool) -> u64 {
    if weighted {
        12
    } else {
        2
    }
}

/// The generator and the judge that every call is given.
pub struct Fuzz<'a> {
    pub rng: Rng,
    pub judged: &'a mut Judged,
}

impl Fuzz<'_> {
    pub fn block(&mut self, expander: u64, j: u64, seed: &[u8], room: usize) {
        let call = Call {
            name: "block",
            may: &[0, 3, 4, 11],
            fields: &[expander, j],
        };
        let make = |[seed]: [&[u8]; 1], [block]: [&mut [u8]; 1]| {
            let reply = calls::block(expander, seed, j, block);
            (reply.number, [reply.length])
        };
        self.judged.call(&mut self.rng, &call, [seed], [room], make);
    }

    /// The public share, where it was made.
    pub fn key(
        &mut self,
        (n, expander, weight): (u64, u64, i16),
        inputs: [&[u8]; 3],
        room: usize,
    ) -> Vec<u8> {
        let call = Call {
            name: "key",
            may: &[0, 1, 3, 4, 7, 11],
            fields: &[n, expander, weight as u64],
        };
        let make = |[string, seed0, seed1]: [&[u8]; 3], [public]: [&mut [u8]; 1]| {
            let reply = calls::key(n, expander, weight, string, seed0, seed1, public);
            (reply.number, [reply.length])
        };
        let [public] = self.judged.call(&mut self.rng, &call, inputs, [room], make);
        public
    }

    /// The share, where it was made.
    pub fn share(
        &mut self,
        (n, expander, server): (u64, u64, bool),
        inputs: [&[u8]; 3],
        room: usize,
    ) -> Vec<u8> {
        let call = Call {
            name: "share",
            may: &[0, 1, 3, 4, 5, 6, 7, 9, 11],
            fields: &[n, expander, server as u64],
        };
        let make = |[seeds, public, query]: [&[u8]; 3], [share]: [&mut [u8]; 1]| {
            let reply = calls::share(n, expander, server, seeds, public, query, share);
            (reply.number, [reply.length])
        };
        let [share] = self.judged.call(&mut self.rng, &call, inputs, [room], make);
        share
    }

    /// An answer has the length of either share, and each of its numbers is below p.
    pub fn add(&mut self, inputs: [&[u8]; 2], room: usize) {
        let call = Call {
            name: "add",
            may: &[0, 4, 6, 11],
            fields: &[],
        };
        let mut right = true;
        let make = |[share0, share1]: [&[u8]; 2], [out]: [&mut [u8]; 1]| {
            let reply = calls::add(share0, share1, out);
            let length = reply.length as usize;
            right = reply.number != 0 || [share0, share1].iter().all(|share| share.len() == length);
            (reply.number, [reply.length])
        };
        let [sums] = self.judged.call(&mut self.rng, &call, inputs, [room], make);
        if !right || sums.chunks_exact(8).any(|sum| read(sum) >= P) {
            self.judged.fault("add: an answer that is no share");
        }
    }

    /// A refusal is of kind 0 and an answer is not; a search that ended has no bytes.
    pub fn combine(&mut self, (n, weighted, t): (u64, bool, u64), inputs: [&[u8]; 3], room: usize) {
        let call = Call {
            name: "combine",
            may: &[0, 1, threshold(weighted), 4, 6, 9, 11],
            fields: &[n, weighted as u64, t],
        };
        let mut right = true;
        let make = |[query, share0, share1]: [&[u8]; 3], [out]: [&mut [u8]; 1]| {
            let made = calls::combine(n, weighted, t, query, share0, share1, out);
            right = match made.kind {
                0 => made.number != 0,
                1 | 2 => made.number == 0,
                3 => made.number == 0 && made.length == 0,
                _ => false,
            };
            (made.number, [made.length])
        };
        self.judged.call(&mut self.rng, &call, inputs, [room], make);
        if !right {
            self.judged
                .fault("combine: a kind that its number rules out");
        }
    }

    /// The inputs are seeds and public shares of server 0, then those of server 1; the record of a
    /// success begins with the number of reports and has its first level whole.
    pub fn search(
        &mut self,
        (n, weighted, t, expander): (u64, bool, u64, u64),
        inputs: [&[u8]; 4],
        rooms: [usize; 2],
    ) {
        let call = Call {
            name: "search",
            may: &[0, 1, threshold(weighted), 3, 4, 5, 6, 7, 8, 11],
            fields: &[n, weighted as u64, t, expander],
        };
        let mut right = true;
        let make = |lent: [&[u8]; 4], [record, list]: [&mut [u8]; 2]| {
            let [seeds0, public0, seeds1, public1] = lent;
            let head = (seeds0.len() as u64 / 16).to_be_bytes();
            let found = calls::search(
                n, weighted, t, expander, seeds0, public0, seeds1, public1, record, list,
            );
            let whole = found.record_length >= 32 && record.starts_with(&head);
            right = found.number != 0 || whole;
            (found.number, [found.record_length, found.list_length])
        };
        self.judged.call(&mut self.rng, &call, inputs, rooms, make);
        if !right {
            self.judged
                .fault("search: a record that does not begin with the number of reports");
        }
    }

    #[cfg(feature = "exam")]
    pub fn exam(&mut self, text: &[u8], room: usize) {
        let call = Call {
            name: "exam",
            may: &[0, 1, 2, 3, 10, 11],
            fields: &[],
        };
        let make = |[text]: [&[u8]; 1], [out]: [&mut [u8]; 1]| {
            let reply = calls::exam(text, out);
            (reply.number, [reply.length])
        };
        self.judged.call(&mut self.rng, &call, [text], [room], make);
    }

    #[cfg(feature = "exam")]
    pub fn respond(&mut self, text: &[u8], room: usize) {
        let call = Call {
            name: "respond",
            may: &[0, 11],
            fields: &[],
        };
        let make = |[text]: [&[u8]; 1], [out]: [&mut [u8]; 1]| {
            let reply = calls::respond(text, out);
            (reply.number, [reply.length])
        };
        self.judged.call(&mut self.rng, &call, [text], [room], make);
    }
}
