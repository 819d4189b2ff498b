//! Bit strings of at most 256 bits: strings and prefixes.

use crate::{digits, packed_length, BITS_MOST};
use std::fmt;

/// The bytes of the longest string.
const BYTES_MOST: usize = 32;

/// A string or a prefix: at most 256 bits. `Display` writes its digits; the order is that of dictionaries, a prefix before what it begins; the
/// default is the empty string.
///
/// ```
/// use tally::BitString;
///
/// let string = BitString::new(4, &[0b0101_0000]).unwrap();
/// assert_eq!(string.to_string(), "0101");
/// assert_eq!(BitString::from_digits("0101"), Some(string));
/// ```
#[derive(Clone, Copy, Default, PartialEq, Eq, PartialOrd, Ord, Hash)]
pub struct BitString {
    // Bits past the length are zero, so that the order by these fields is the dictionary's.
    packed: [u8; BYTES_MOST],
    length: u16,
}

impl BitString {
    /// The string of that many bits that is packed in some bytes, first bit highest.
    ///
    /// `None` where there are more than 256 bits, the bytes are not [`packed_length`] many, or a spare bit is set.
    ///
    /// ```
    /// use tally::BitString;
    ///
    /// assert!(BitString::new(9, &[0xff, 0x80]).is_some());
    /// assert!(BitString::new(9, &[0xff]).is_none());
    /// assert!(BitString::new(9, &[0xff, 0x81]).is_none());
    /// ```
    pub fn new(bits: u64, bytes: &[u8]) -> Option<BitString> {
        if BITS_MOST < bits || bytes.len() != packed_length(bits) {
            return None;
        }
        let mut packed = [0; BYTES_MOST];
        packed.get_mut(..bytes.len())?.copy_from_slice(bytes);
        let length = u16::try_from(bits).ok()?;
        let spare = (1u8 << (bits.next_multiple_of(8) - bits)) - 1;
        let last = bytes.last().copied().unwrap_or_default();
        (last & spare == 0).then_some(BitString { packed, length })
    }

    /// The string with these digits `0` and `1`.
    ///
    /// `None` where there are more than 256, or another character.
    ///
    /// ```
    /// use tally::BitString;
    ///
    /// assert_eq!(BitString::from_digits("011").unwrap().bytes(), [0b0110_0000]);
    /// assert!(BitString::from_digits("012").is_none());
    /// ```
    pub fn from_digits(digits: &str) -> Option<BitString> {
        let mut packed = [0; BYTES_MOST];
        for (i, digit) in digits.bytes().enumerate() {
            let byte = packed.get_mut(i / 8)?;
            match digit {
                b'0' => {}
                b'1' => *byte |= 0x80u8 >> (i % 8),
                _ => return None,
            }
        }
        let length = u16::try_from(digits.len()).ok()?;
        Some(BitString { packed, length })
    }

    /// How many bits there are.
    ///
    /// ```
    /// assert_eq!(tally::BitString::from_digits("0101").unwrap().length(), 4);
    /// ```
    pub fn length(&self) -> u64 {
        u64::from(self.length)
    }

    /// The packed bytes, as calls take them.
    ///
    /// ```
    /// assert_eq!(tally::BitString::from_digits("110000001").unwrap().bytes(), [0xc0, 0x80]);
    /// ```
    pub fn bytes(&self) -> &[u8] {
        let size = packed_length(self.length());
        self.packed.get(..size).unwrap_or_default()
    }

    /// The bits, first to last.
    ///
    /// ```
    /// let string = tally::BitString::from_digits("011").unwrap();
    /// assert_eq!(string.bits().collect::<Vec<_>>(), [false, true, true]);
    /// ```
    pub fn bits(&self) -> impl Iterator<Item = bool> {
        let each = |byte: u8| (0..8).map(move |i| byte << i & 0x80 != 0);
        let all = self.packed.into_iter().flat_map(each);
        all.take(usize::from(self.length))
    }
}

impl fmt::Display for BitString {
    fn fmt(&self, f: &mut fmt::Formatter<'_>) -> fmt::Result {
        f.pad(&digits(self.length(), self.bytes()))
    }
}

impl fmt::Debug for BitString {
    fn fmt(&self, f: &mut fmt::Formatter<'_>) -> fmt::Result {
        write!(f, "BitString({self})")
    }
}
