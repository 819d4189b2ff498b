//! The group of the numbers below p, and their bytes.

/// The number p, which is 2^64 - 2^32 + 1.
pub const P: u64 = 18446744069414584321;

/// A number modulo p.
pub fn reduce(number: u64) -> u64 {
    if number < P {
        number
    } else {
        number - P
    }
}

/// The sum of two numbers modulo p.
pub fn add(a: u64, b: u64) -> u64 {
    let (a, b) = (reduce(a), reduce(b));
    let room = P - b;
    if a < room {
        a + b
    } else {
        a - room
    }
}

/// The negative of a number modulo p.
pub fn negate(a: u64) -> u64 {
    reduce(P - reduce(a))
}

/// The group number of a weight: the weight itself, or where it is negative p less its size.
pub fn of_weight(weight: i16) -> u64 {
    let size = u64::from(weight.unsigned_abs());
    if weight < 0 {
        P - size
    } else {
        size
    }
}

/// A total as a weighted search reads it: up to (p - 1) / 2 itself, a larger one itself minus p.
pub fn signed(total: u64) -> i64 {
    if total <= (P - 1) / 2 {
        total as i64
    } else {
        -((P - total) as i64)
    }
}

/// The number in 8 bytes of the wire, least significant first, not reduced.
pub fn read(bytes: &[u8]) -> u64 {
    u64::from_le_bytes(bytes.try_into().expect("a number has 8 bytes"))
}

/// The 8 bytes of a number on the wire, least significant first.
pub fn write(number: u64) -> [u8; 8] {
    number.to_le_bytes()
}

#[cfg(test)]
mod tests {
    use super::*;
    use crate::chance::Chance;

    /// Numbers at the edges and some others.
    fn numbers() -> Vec<u64> {
        let mut numbers = vec![0, 1, 2, P / 2, P / 2 + 1, P - 2, P - 1, P, P + 1];
        numbers.extend([1 << 32, (1 << 32) - 1, u64::MAX - 1, u64::MAX]);
        let mut chance = Chance(1);
        numbers.extend((0..50).map(|_| chance.number()));
        numbers
    }

    #[test]
    fn p_is_its_formula() {
        assert_eq!(u128::from(P), (1u128 << 64) - (1u128 << 32) + 1);
    }

    #[test]
    fn sums_and_negatives_agree_with_wide_numbers() {
        let p = u128::from(P);
        for a in numbers() {
            assert_eq!(u128::from(reduce(a)), u128::from(a) % p);
            assert_eq!(u128::from(negate(a)), (2 * p - u128::from(a)) % p);
            for b in numbers() {
                assert_eq!(u128::from(add(a, b)), (u128::from(a) + u128::from(b)) % p);
            }
        }
    }

    #[test]
    fn weights_are_read_back() {
        let wide = |weight: i16| (i128::from(P) + i128::from(weight)) % i128::from(P);
        for weight in i16::MIN..=i16::MAX {
            let number = of_weight(weight);
            assert!(number < P && i128::from(number) == wide(weight));
            assert_eq!(signed(number), i64::from(weight));
        }
        assert_eq!(of_weight(-32_768), P - 32_768);
        assert_eq!(of_weight(-1), P - 1);
        assert_eq!([0, 1, 32_767].map(of_weight), [0, 1, 32_767]);
    }

    #[test]
    fn both_ends_of_the_signed_reading() {
        let half = 9_223_372_034_707_292_160;
        assert_eq!((P - 1) / 2, half);
        assert_eq!(signed(half), half as i64);
        assert_eq!(signed(half + 1), -(half as i64));
        assert_eq!(
            (signed(half - 1), signed(half + 2)),
            (half as i64 - 1, 1 - half as i64)
        );
        assert_eq!((signed(0), signed(P - 1)), (0, -1));
        for total in numbers().into_iter().map(reduce) {
            let more = i128::from(total) - i128::from(signed(total));
            assert!(more == 0 || more == i128::from(P));
            assert!(signed(total).unsigned_abs() <= half);
        }
    }

    #[test]
    fn bytes_go_and_come() {
        assert_eq!(write(0x0102_0304_0506_0708), [8, 7, 6, 5, 4, 3, 2, 1]);
        assert_eq!(read(&[255; 8]), u64::MAX);
        for number in numbers() {
            assert_eq!(read(&write(number)), number);
        }
    }
}
