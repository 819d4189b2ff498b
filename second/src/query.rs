//! Packed strings and prefixes, and the query.

/// The bytes of the two fields before a query's prefixes.
const FIELDS: usize = 6;

/// The bytes of a packed string or prefix of so many bits.
pub fn packed_size(bits: usize) -> usize {
    bits.div_ceil(8)
}

/// Bit i of a packed string, counted from 0, the first bit highest in its byte.
pub fn bit(packed: &[u8], i: usize) -> bool {
    packed[i / 8] >> (7 - i % 8) & 1 == 1
}

/// A string packed, spare bits zero.
pub fn pack(string: &[bool]) -> Vec<u8> {
    let mut packed = vec![0; packed_size(string.len())];
    for (i, &bit) in string.iter().enumerate() {
        packed[i / 8] |= u8::from(bit) << (7 - i % 8);
    }
    packed
}

/// The string of so many bits in a packed string.
pub fn unpack(packed: &[u8], bits: usize) -> Vec<bool> {
    (0..bits).map(|i| bit(packed, i)).collect()
}

/// A lent query, read.
pub struct Query<'a> {
    /// The bits of each prefix.
    pub length: usize,
    /// The number of prefixes.
    pub count: usize,
    /// The packed prefixes, one after the other.
    prefixes: &'a [u8],
}

impl<'a> Query<'a> {
    /// The query in some bytes.
    pub fn of(bytes: &'a [u8]) -> Query<'a> {
        let (fields, prefixes) = bytes.split_at(FIELDS);
        let field = |bytes: &[u8]| {
            bytes
                .iter()
                .fold(0, |sum, &byte| sum << 8 | usize::from(byte))
        };
        Query {
            length: field(&fields[..2]) + 1,
            count: field(&fields[2..]),
            prefixes,
        }
    }

    /// The last query in some bytes; no bytes are the empty prefix alone.
    pub fn last(bytes: &'a [u8]) -> Query<'a> {
        if bytes.is_empty() {
            Query {
                length: 0,
                count: 1,
                prefixes: &[],
            }
        } else {
            Query::of(bytes)
        }
    }

    /// Prefix i, packed, counted from 0.
    pub fn prefix(&self, i: usize) -> &'a [u8] {
        let size = packed_size(self.length);
        &self.prefixes[i * size..(i + 1) * size]
    }
}

/// The query of some packed prefixes of so many bits.
pub fn write(length: usize, prefixes: &[Vec<u8>]) -> Vec<u8> {
    let mut query = Vec::with_capacity(FIELDS + prefixes.len() * packed_size(length));
    query.extend(((length - 1) as u16).to_be_bytes());
    query.extend((prefixes.len() as u32).to_be_bytes());
    for prefix in prefixes {
        query.extend(prefix);
    }
    query
}

/// The first query of a search: the prefixes `0` and `1`.
pub fn first() -> Vec<u8> {
    write(1, &[pack(&[false]), pack(&[true])])
}

/// A packed prefix of so many bits, with one bit added at its end.
pub fn child(prefix: &[u8], length: usize, last: bool) -> Vec<u8> {
    let mut child = prefix.to_vec();
    child.resize(packed_size(length + 1), 0);
    child[length / 8] |= u8::from(last) << (7 - length % 8);
    child
}

/// A packed prefix of so many bits, 1 or more, without its last bit.
pub fn parent(prefix: &[u8], length: usize) -> Vec<u8> {
    pack(&unpack(prefix, length - 1))
}

#[cfg(test)]
mod tests {
    use super::*;
    use crate::chance::Chance;

    #[test]
    fn strings_pack_and_unpack() {
        assert_eq!(pack(&[true]), [0x80]);
        assert_eq!(pack(&[false, true, true]), [0x60]);
        let mut chance = Chance(2);
        for bits in 0..=256 {
            let string = chance.string(bits);
            let packed = pack(&string);
            assert_eq!(packed.len(), packed_size(bits));
            assert_eq!(unpack(&packed, bits), string);
            assert!((bits..8 * packed.len()).all(|i| !bit(&packed, i)));
        }
    }

    #[test]
    fn a_child_is_its_string_packed() {
        let mut chance = Chance(3);
        for bits in 0..256 {
            let string = chance.string(bits);
            for last in [false, true] {
                let longer: Vec<bool> = string.iter().copied().chain([last]).collect();
                assert_eq!(child(&pack(&string), bits, last), pack(&longer));
            }
        }
    }

    #[test]
    fn a_parent_is_what_its_children_were_made_of() {
        let mut chance = Chance(8);
        for bits in 0..256 {
            let string = pack(&chance.string(bits));
            for last in [false, true] {
                assert_eq!(parent(&child(&string, bits, last), bits + 1), string);
            }
        }
    }

    #[test]
    fn a_last_query_of_no_bytes() {
        let query = Query::last(&[]);
        assert_eq!((query.length, query.count), (0, 1));
        assert!(query.prefix(0).is_empty());
        let first = first();
        let query = Query::last(&first);
        assert_eq!((query.length, query.count), (1, 2));
        assert_eq!((query.prefix(0), query.prefix(1)), (&[0][..], &[0x80][..]));
    }

    #[test]
    fn the_first_query() {
        assert_eq!(first(), [0, 0, 0, 0, 0, 2, 0x00, 0x80]);
    }

    #[test]
    fn queries_are_read_as_written() {
        let mut chance = Chance(4);
        for length in [1, 7, 8, 9, 31, 255, 256] {
            for count in [0, 1, 2, 300] {
                let prefixes: Vec<_> = (0..count).map(|_| pack(&chance.string(length))).collect();
                let bytes = write(length, &prefixes);
                assert_eq!(bytes.len(), 6 + count * packed_size(length));
                let query = Query::of(&bytes);
                assert_eq!((query.length, query.count), (length, count));
                assert!((0..count).all(|i| query.prefix(i) == prefixes[i]));
            }
        }
    }

    #[test]
    fn the_fields_are_big_endian() {
        let bytes = [0x00, 0xff, 0x00, 0x01, 0xff, 0xfe];
        let query = Query::of(&bytes);
        assert_eq!((query.length, query.count), (256, 131_070));
    }
}
