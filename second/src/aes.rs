//! The cipher AES-128 of FIPS 197, in the forward direction.

/// The S-box, as its 256 numbers.
const SBOX: [u8; 256] = [
    0x63, 0x7c, 0x77, 0x7b, 0xf2, 0x6b, 0x6f, 0xc5, 0x30, 0x01, 0x67, 0x2b, 0xfe, 0xd7, 0xab, 0x76,
    0xca, 0x82, 0xc9, 0x7d, 0xfa, 0x59, 0x47, 0xf0, 0xad, 0xd4, 0xa2, 0xaf, 0x9c, 0xa4, 0x72, 0xc0,
    0xb7, 0xfd, 0x93, 0x26, 0x36, 0x3f, 0xf7, 0xcc, 0x34, 0xa5, 0xe5, 0xf1, 0x71, 0xd8, 0x31, 0x15,
    0x04, 0xc7, 0x23, 0xc3, 0x18, 0x96, 0x05, 0x9a, 0x07, 0x12, 0x80, 0xe2, 0xeb, 0x27, 0xb2, 0x75,
    0x09, 0x83, 0x2c, 0x1a, 0x1b, 0x6e, 0x5a, 0xa0, 0x52, 0x3b, 0xd6, 0xb3, 0x29, 0xe3, 0x2f, 0x84,
    0x53, 0xd1, 0x00, 0xed, 0x20, 0xfc, 0xb1, 0x5b, 0x6a, 0xcb, 0xbe, 0x39, 0x4a, 0x4c, 0x58, 0xcf,
    0xd0, 0xef, 0xaa, 0xfb, 0x43, 0x4d, 0x33, 0x85, 0x45, 0xf9, 0x02, 0x7f, 0x50, 0x3c, 0x9f, 0xa8,
    0x51, 0xa3, 0x40, 0x8f, 0x92, 0x9d, 0x38, 0xf5, 0xbc, 0xb6, 0xda, 0x21, 0x10, 0xff, 0xf3, 0xd2,
    0xcd, 0x0c, 0x13, 0xec, 0x5f, 0x97, 0x44, 0x17, 0xc4, 0xa7, 0x7e, 0x3d, 0x64, 0x5d, 0x19, 0x73,
    0x60, 0x81, 0x4f, 0xdc, 0x22, 0x2a, 0x90, 0x88, 0x46, 0xee, 0xb8, 0x14, 0xde, 0x5e, 0x0b, 0xdb,
    0xe0, 0x32, 0x3a, 0x0a, 0x49, 0x06, 0x24, 0x5c, 0xc2, 0xd3, 0xac, 0x62, 0x91, 0x95, 0xe4, 0x79,
    0xe7, 0xc8, 0x37, 0x6d, 0x8d, 0xd5, 0x4e, 0xa9, 0x6c, 0x56, 0xf4, 0xea, 0x65, 0x7a, 0xae, 0x08,
    0xba, 0x78, 0x25, 0x2e, 0x1c, 0xa6, 0xb4, 0xc6, 0xe8, 0xdd, 0x74, 0x1f, 0x4b, 0xbd, 0x8b, 0x8a,
    0x70, 0x3e, 0xb5, 0x66, 0x48, 0x03, 0xf6, 0x0e, 0x61, 0x35, 0x57, 0xb9, 0x86, 0xc1, 0x1d, 0x9e,
    0xe1, 0xf8, 0x98, 0x11, 0x69, 0xd9, 0x8e, 0x94, 0x9b, 0x1e, 0x87, 0xe9, 0xce, 0x55, 0x28, 0xdf,
    0x8c, 0xa1, 0x89, 0x0d, 0xbf, 0xe6, 0x42, 0x68, 0x41, 0x99, 0x2d, 0x0f, 0xb0, 0x54, 0xbb, 0x16,
];

/// The ten round constants of the key schedule.
const ROUND_CONSTANTS: [u8; 10] = [0x01, 0x02, 0x04, 0x08, 0x10, 0x20, 0x40, 0x80, 0x1b, 0x36];

/// The S-box's number for a byte.
fn sub(byte: u8) -> u8 {
    SBOX[usize::from(byte)]
}

/// A byte times 2 in GF(2^8).
fn double(byte: u8) -> u8 {
    (byte << 1) ^ ((byte >> 7) * 0x1b)
}

/// The round key after `key`, made with one round constant.
fn next_key(mut key: [u8; 16], constant: u8) -> [u8; 16] {
    key[0] ^= sub(key[13]) ^ constant;
    key[1] ^= sub(key[14]);
    key[2] ^= sub(key[15]);
    key[3] ^= sub(key[12]);
    for i in 4..16 {
        key[i] ^= key[i - 4];
    }
    key
}

/// The cipher's state: byte r + 4c stands in row r and column c.
struct State([u8; 16]);

impl State {
    /// The round key is XORed in.
    fn add_round_key(mut self, key: &[u8; 16]) -> State {
        for (byte, key_byte) in self.0.iter_mut().zip(key) {
            *byte ^= key_byte;
        }
        self
    }

    /// Each byte goes through the S-box.
    fn sub_bytes(mut self) -> State {
        for byte in &mut self.0 {
            *byte = sub(*byte);
        }
        self
    }

    /// Row r turns left by r places.
    fn shift_rows(mut self) -> State {
        let old = self.0;
        for (i, byte) in self.0.iter_mut().enumerate() {
            *byte = old[(i + 4 * (i % 4)) % 16];
        }
        self
    }

    /// Each column is multiplied by the matrix of FIPS 197, whose first row is 2, 3, 1, 1.
    fn mix_columns(mut self) -> State {
        for column in self.0.chunks_exact_mut(4) {
            let (a, b, c, d) = (column[0], column[1], column[2], column[3]);
            let all = a ^ b ^ c ^ d;
            column[0] = a ^ all ^ double(a ^ b);
            column[1] = b ^ all ^ double(b ^ c);
            column[2] = c ^ all ^ double(c ^ d);
            column[3] = d ^ all ^ double(d ^ a);
        }
        self
    }
}

/// One block encrypted under one key.
pub fn encrypt(key: &[u8; 16], block: &[u8; 16]) -> [u8; 16] {
    let mut round_key = *key;
    let mut state = State(*block).add_round_key(&round_key);
    for (round, &constant) in ROUND_CONSTANTS.iter().enumerate() {
        round_key = next_key(round_key, constant);
        state = state.sub_bytes().shift_rows();
        if round < 9 {
            state = state.mix_columns();
        }
        state = state.add_round_key(&round_key);
    }
    state.0
}

#[cfg(test)]
mod tests {
    use super::*;

    /// The 16 bytes of a number, highest first, as the papers print them.
    fn bytes(number: u128) -> [u8; 16] {
        number.to_be_bytes()
    }

    /// A product in GF(2^8) with reduction number 11b.
    fn product(a: u8, b: u8) -> u8 {
        let mut product = 0u16;
        for i in 0..8 {
            if b >> i & 1 == 1 {
                product ^= u16::from(a) << i;
            }
        }
        for i in (8..16).rev() {
            if product >> i & 1 == 1 {
                product ^= 0x11b << (i - 8);
            }
        }
        product as u8
    }

    #[test]
    fn sbox_follows_its_rule() {
        for byte in 0..=255u8 {
            let inverse = (0..=255).find(|&c| product(byte, c) == 1).unwrap_or(0);
            let turned = (1..5).fold(inverse, |sum, i| sum ^ inverse.rotate_left(i));
            assert_eq!(sub(byte), turned ^ 0x63);
            assert_eq!(double(byte), product(byte, 2));
        }
    }

    #[test]
    fn round_constants_are_powers_of_two() {
        let mut power = 1;
        for constant in ROUND_CONSTANTS {
            assert_eq!(constant, power);
            power = product(power, 2);
        }
    }

    #[test]
    fn last_round_key_of_fips_197() {
        let key = bytes(0x2b7e151628aed2a6abf7158809cf4f3c);
        let last = ROUND_CONSTANTS.into_iter().fold(key, next_key);
        assert_eq!(last, bytes(0xd014f9a8c9ee2589e13f0cc8b6630ca6));
    }

    #[test]
    fn fips_197_appendix_c() {
        let key = bytes(0x000102030405060708090a0b0c0d0e0f);
        let plain = bytes(0x00112233445566778899aabbccddeeff);
        let cipher = bytes(0x69c4e0d86a7b0430d8cdb78070b4c55a);
        assert_eq!(encrypt(&key, &plain), cipher);
    }

    /// FIPS 197 appendix B, the four of SP 800-38A F.1.1, and the first counter block of its F.5.1.
    #[test]
    fn published_vectors_of_one_key() {
        let plain = [
            0x3243f6a8885a308d313198a2e0370734,
            0x6bc1bee22e409f96e93d7e117393172a,
            0xae2d8a571e03ac9c9eb76fac45af8e51,
            0x30c81c46a35ce411e5fbc1191a0a52ef,
            0xf69f2445df4f9b17ad2b417be66c3710,
            0xf0f1f2f3f4f5f6f7f8f9fafbfcfdfeff,
        ];
        let cipher = [
            0x3925841d02dc09fbdc118597196a0b32,
            0x3ad77bb40d7a3660a89ecaf32466ef97,
            0xf5d3d58503b9699de785895a96fdbaaf,
            0x43b1cd7f598ece23881b00e3ed030688,
            0x7b0c785e27e8ad3f8223207104725dd4,
            0xec8cdf7398607cb0f2d21675ea9ea1e4,
        ];
        let key = bytes(0x2b7e151628aed2a6abf7158809cf4f3c);
        assert_eq!(
            plain.map(|plain| encrypt(&key, &bytes(plain))),
            cipher.map(bytes)
        );
    }
}
