//! The lowest cause that applies, and spaces left as they were.

use second::field::P;
use second::judge::query_as_laid_out;
use second::keys::public_share_size;
use second::query::{first, unpack, write, Query};
use second::{combine, key, search, share, Combined, Found, Reply};

const SEED: [u8; 16] = [3; 16];

fn refused(number: u64) -> Reply {
    Reply { number, length: 0 }
}

#[test]
fn causes_of_key() {
    let mut space = vec![0xee; public_share_size(3) + 1];
    let fit = public_share_size(3);
    assert_eq!(key(0, 3, 1, &[], &[], &[], &mut []), refused(1));
    assert_eq!(key(3, 3, 1, &[], &[], &[], &mut []), refused(3));
    assert_eq!(key(3, 1, 1, &[1, 1], &SEED, &SEED, &mut []), refused(4));
    assert_eq!(key(3, 1, 1, &[], &SEED, &SEED, &mut []), refused(4));
    assert_eq!(key(3, 1, 1, &[1], &SEED[..15], &SEED, &mut []), refused(4));
    assert_eq!(key(3, 1, 1, &[1], &SEED, &[], &mut []), refused(4));
    assert_eq!(key(3, 1, 1, &[0x10], &SEED, &SEED, &mut []), refused(7));
    let reply = key(3, 1, 1, &[0x20], &SEED, &SEED, &mut space[..fit - 1]);
    assert_eq!(reply, refused(11));
    assert!(space.iter().all(|&byte| byte == 0xee));
    let reply = key(3, 1, 1, &[0x20], &SEED, &SEED, &mut space);
    assert_eq!(
        (reply.number, reply.length, space[fit]),
        (0, fit as u64, 0xee)
    );
}

#[test]
fn causes_of_share() {
    let mut public = vec![0u8; public_share_size(3)];
    assert_eq!(key(3, 2, 1, &[0x20], &SEED, &SEED, &mut public).number, 0);
    let mut space = [0xee; 17];
    let mut call = |e, seeds: &[u8], public: &[u8], query: &[u8], room: usize| {
        let reply = share(3, e, true, seeds, public, query, &mut space[..room]);
        assert!(reply.number == 0 || space == [0xee; 17]);
        reply
    };
    let mut spare = public.clone();
    spare[0] |= 0x40;
    let mut both = spare.clone();
    both[17..25].copy_from_slice(&P.to_le_bytes());
    assert_eq!(call(0, &[], &public, &[], 0), refused(3));
    assert_eq!(call(1, &[], &public, &[], 0), refused(4));
    assert_eq!(call(1, &SEED, &both[1..], &[], 0), refused(4));
    assert_eq!(call(1, &SEED, &both, &[], 0), refused(6));
    assert_eq!(call(1, &SEED, &spare, &[], 0), refused(7));
    assert_eq!(call(1, &SEED, &public, &[], 0), refused(9));
    assert_eq!(
        call(1, &SEED, &public, &write(4, &[vec![0]]), 0),
        refused(9)
    );
    assert_eq!(call(1, &SEED, &public, &first(), 15), refused(11));
    let reply = call(1, &SEED, &public, &first(), 17);
    assert_eq!((reply.number, reply.length), (0, 16));
    assert_eq!(space[16], 0xee);
}

#[test]
fn too_many_reports() {
    let public = vec![0u8; 25 * 65_536];
    let seeds = vec![0u8; 16 * 65_536];
    let call = |count: usize, query: &[u8]| {
        let (seeds, public) = (&seeds[..16 * count], &public[..25 * count]);
        share(1, 2, false, seeds, public, query, &mut [0; 16]).number
    };
    assert_eq!(call(65_535, &first()), 0);
    assert_eq!(call(65_536, &first()), 5);
    assert_eq!(call(65_536, &[]), 5);
    let found = search(
        1,
        false,
        1,
        2,
        &seeds,
        &public,
        &seeds,
        &public,
        &mut [],
        &mut [],
    );
    assert_eq!(found.number, 5);
}

#[test]
fn causes_of_combine() {
    let mut out = [0xee; 16];
    let none = |number| Combined {
        number,
        kind: 0,
        length: 0,
    };
    let high = [0xff; 16];
    let bad = [9u8; 3];
    assert_eq!(combine(0, false, 0, &bad, &[], &[1], &mut []), none(1));
    assert_eq!(combine(2, false, 0, &bad, &[], &[1], &mut []), none(2));
    assert_eq!(combine(2, false, 1, &bad, &[], &[1], &mut []), none(4));
    assert_eq!(combine(2, false, 1, &bad, &[1], &[1], &mut []), none(4));
    assert_eq!(combine(2, false, 1, &first(), &[], &[], &mut []), none(4));
    assert_eq!(
        combine(2, false, 1, &first(), &high[..8], &high[..8], &mut []),
        none(4)
    );
    assert_eq!(
        combine(2, false, 1, &bad, &high[..8], &high[..8], &mut []),
        none(6)
    );
    assert_eq!(combine(2, false, 1, &bad, &[], &[], &mut []), none(9));
    assert_eq!(
        combine(2, false, 1, &bad, &[0; 8], &[0; 8], &mut []),
        none(9)
    );
    let mut kept = [0u8; 16];
    kept[0] = 2;
    kept[8] = 1;
    assert_eq!(
        combine(2, false, 2, &first(), &kept, &[0; 16], &mut out[..7]),
        none(11)
    );
    assert_eq!(
        combine(1, false, 2, &first(), &kept, &[0; 16], &mut []),
        none(11)
    );
    assert_eq!(out, [0xee; 16]);
    let answer = |kind, length| Combined {
        number: 0,
        kind,
        length,
    };
    assert_eq!(
        combine(2, false, 3, &first(), &kept, &[0; 16], &mut []),
        answer(3, 0)
    );
    assert_eq!(
        combine(1, false, 3, &first(), &kept, &[0; 16], &mut []),
        answer(2, 0)
    );
    assert_eq!(
        combine(1, false, 2, &first(), &kept, &[0; 16], &mut out),
        answer(2, 1)
    );
    assert_eq!((out[0], out[1]), (0, 0xee));
    assert_eq!(
        combine(2, false, 2, &first(), &kept, &[0; 16], &mut out),
        answer(1, 8)
    );
    assert_eq!(out[..9], [0, 1, 0, 0, 0, 2, 0x00, 0x40, 0xee]);
}

#[test]
fn next_query_at_its_limit() {
    let prefixes: Vec<Vec<u8>> = (0..65_536u32)
        .map(|i| i.to_be_bytes()[2..].to_vec())
        .collect();
    let mut out = vec![0u8; 500_000];
    for (count, wanted) in [(65_535, (0, 1, 393_216)), (65_536, (11, 0, 0))] {
        let query = write(16, &prefixes[..count]);
        let ones = [1u8, 0, 0, 0, 0, 0, 0, 0].repeat(count);
        let made = combine(17, false, 1, &query, &ones, &vec![0; 8 * count], &mut out);
        assert_eq!((made.number, made.kind, made.length), wanted);
        let made = combine(16, false, 1, &query, &ones, &vec![0; 8 * count], &mut out);
        assert_eq!((made.kind, made.length), (2, 2 * count as u64));
    }
}

#[test]
fn causes_of_search() {
    let mut public = vec![0u8; public_share_size(3)];
    assert_eq!(
        key(3, 1, 1, &[0x20], &SEED, &[4; 16], &mut public).number,
        0
    );
    let mut spare = public.clone();
    spare[0] |= 0x80;
    let mut large = spare.clone();
    large[17..25].copy_from_slice(&u64::MAX.to_le_bytes());
    let mut other = public.clone();
    other[3] ^= 1;
    let two = public.repeat(2);
    let seeds = [3u8; 32];
    let call = |n, t, e, s0: &[u8], p0: &[u8], s1: &[u8], p1: &[u8]| {
        let (mut record, mut list) = ([0xee; 100], [0xee; 9]);
        let found = search(n, false, t, e, s0, p0, s1, p1, &mut record, &mut list);
        let zero = found.number == 11;
        assert_eq!(record, [if zero { 0 } else { 0xee }; 100]);
        assert_eq!(list, [0xee; 9]);
        assert_eq!((found.record_length, found.list_length), (0, 0));
        found.number
    };
    assert_eq!(call(0, 0, 0, &[], &two, &SEED, &large), 1);
    assert_eq!(call(3, 0, 0, &[], &two, &SEED, &large), 2);
    assert_eq!(call(3, 1, 0, &[], &two, &SEED, &large), 3);
    assert_eq!(call(3, 1, 1, &[], &[], &SEED, &large), 4);
    assert_eq!(call(3, 1, 1, &seeds, &two, &SEED, &public), 4);
    assert_eq!(call(3, 1, 1, &seeds, &public, &SEED, &two), 4);
    assert_eq!(call(3, 1, 1, &SEED, &spare, &SEED, &large), 6);
    assert_eq!(call(3, 1, 1, &SEED, &public, &SEED, &spare), 7);
    assert_eq!(call(3, 1, 1, &SEED, &public, &SEED, &other), 8);
    let into = |record: &mut [u8], list: &mut [u8]| {
        search(
            3, false, 1, 1, &SEED, &public, &[4; 16], &public, record, list,
        )
    };
    let mut record = [0xee; 200];
    let found = into(&mut record, &mut []);
    let refused = Found {
        number: 11,
        record_length: 0,
        list_length: 0,
    };
    assert_eq!((found, record), (refused, [0; 200]));
    let found = into(&mut record, &mut [0; 1]);
    assert_eq!(
        (found.number, found.record_length, found.list_length),
        (0, 80, 1)
    );
}

#[test]
fn queries_as_laid_out() {
    assert_eq!(first(), [0, 0, 0, 0, 0, 2, 0x00, 0x80]);
    assert!(query_as_laid_out(1, &first()));
    let good = [0, 2, 0, 0, 0, 2, 0x20, 0xe0];
    assert!(query_as_laid_out(3, &good));
    let query = Query::of(&good);
    assert_eq!((query.length, query.count), (3, 2));
    assert_eq!(unpack(query.prefix(0), 3), [false, false, true]);
    assert!(!query_as_laid_out(2, &good));
    for i in 0..good.len() {
        assert!(!query_as_laid_out(3, &good[..i]));
    }
    for bad in [
        [0, 2, 0, 0, 0, 2, 0x21, 0xe0],
        [0, 2, 0, 0, 0, 2, 0xe0, 0x20],
        [0, 2, 0, 0, 0, 2, 0x20, 0x20],
        [0, 2, 0, 0, 0, 1, 0x20, 0xe0],
        [0, 2, 0, 0, 0, 3, 0x20, 0xe0],
        [0, 1, 0, 0, 0, 2, 0x20, 0xe0],
        [1, 2, 0, 0, 0, 2, 0x20, 0xe0],
    ] {
        assert!(!query_as_laid_out(3, &bad));
    }
    assert!(!query_as_laid_out(3, &[0, 2, 0, 0, 0, 0]));
}
