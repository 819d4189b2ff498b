//! What only the library's own numbers and slices can meet.

use tally::FIRST_QUERY;
use tally_sys::{block, key, search, share, Reply};

// The safe functions take an `Expander`, so the library's own 3 can only be met here.
#[test]
fn an_unknown_expander_is_refused_with_3_and_writes_nothing() {
    let refused = Reply {
        number: 3,
        length: 0,
    };
    let mut space = [7; 64];
    for expander in [0, 3, u64::MAX] {
        assert_eq!(block(expander, &[0; 16], 0, &mut space), refused);
        assert_eq!(
            key(1, expander, 1, &[0x80], &[0; 16], &[0; 16], &mut space),
            refused
        );
        assert_eq!(
            share(1, expander, false, &[], &[], &FIRST_QUERY, &mut space),
            refused
        );
        let mut list = [7; 8];
        let reply = search(
            1,
            false,
            1,
            expander,
            &[],
            &[],
            &[],
            &[],
            &mut space,
            &mut list,
        );
        assert_eq!(
            (reply.number, reply.record_length, reply.list_length),
            (3, 0, 0)
        );
        assert_eq!(list, [7; 8]);
    }
    assert_eq!(space, [7; 64]);
}

#[test]
fn seeds_of_another_length_are_refused_with_4() {
    let refused = Reply {
        number: 4,
        length: 0,
    };
    assert_eq!(block(2, &[0; 15], 0, &mut [0; 16]), refused);
    assert_eq!(
        key(1, 2, 1, &[0x80], &[0; 17], &[0; 16], &mut [0; 25]),
        refused
    );
}
