//! The library's functions as `include/tally.h` declares them.

use super::{CombineReply, Found, Node, Reply};

#[link(name = "capi", kind = "static")]
extern "C" {
    pub fn tally_block(
        expander: u64,
        seed: *const u8,
        seed_length: usize,
        j: u64,
        block: *mut u8,
        block_length: usize,
    ) -> Reply;

    pub fn tally_key(
        n: u64,
        expander: u64,
        weight: i16,
        string: *const u8,
        string_length: usize,
        seed0: *const u8,
        seed0_length: usize,
        seed1: *const u8,
        seed1_length: usize,
        public_share: *mut u8,
        public_share_length: usize,
    ) -> Reply;

    pub fn tally_share(
        n: u64,
        expander: u64,
        server: bool,
        seeds: *const u8,
        seeds_length: usize,
        public_shares: *const u8,
        public_shares_length: usize,
        query: *const u8,
        query_length: usize,
        share: *mut u8,
        share_length: usize,
    ) -> Reply;

    pub fn tally_roots(
        server: bool,
        seeds: *const u8,
        seeds_length: usize,
        nodes: *mut Node,
        nodes_count: usize,
    ) -> u64;

    pub fn tally_share_kept(
        n: u64,
        expander: u64,
        server: bool,
        public_shares: *const u8,
        public_shares_length: usize,
        last_query: *const u8,
        last_query_length: usize,
        query: *const u8,
        query_length: usize,
        nodes: *mut Node,
        nodes_count: usize,
        share: *mut u8,
        share_length: usize,
    ) -> Reply;

    pub fn tally_add(
        share0: *const u8,
        share0_length: usize,
        share1: *const u8,
        share1_length: usize,
        out: *mut u8,
        out_length: usize,
    ) -> Reply;

    pub fn tally_combine(
        n: u64,
        weighted: bool,
        t: u64,
        query: *const u8,
        query_length: usize,
        share0: *const u8,
        share0_length: usize,
        share1: *const u8,
        share1_length: usize,
        out: *mut u8,
        out_length: usize,
    ) -> CombineReply;

    pub fn tally_record_space(n: u64, weighted: bool, t: u64, reports: u64) -> u64;

    pub fn tally_list_space(n: u64, weighted: bool, t: u64, reports: u64) -> u64;

    pub fn tally_search(
        n: u64,
        weighted: bool,
        t: u64,
        expander: u64,
        seeds0: *const u8,
        seeds0_length: usize,
        public_shares0: *const u8,
        public_shares0_length: usize,
        seeds1: *const u8,
        seeds1_length: usize,
        public_shares1: *const u8,
        public_shares1_length: usize,
        record: *mut u8,
        record_length: usize,
        list: *mut u8,
        list_length: usize,
    ) -> Found;

    pub fn tally_exam(
        text: *const u8,
        text_length: usize,
        out: *mut u8,
        out_length: usize,
    ) -> Reply;

    pub fn tally_respond(
        text: *const u8,
        text_length: usize,
        out: *mut u8,
        out_length: usize,
    ) -> Reply;
}
