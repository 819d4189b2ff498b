//! AES-128 with the structs and steps of the proved code, written in Rust over any way to double a word.
//! Where `inline(always)` stands, calls would make a block one and a half to three times as slow.

use crate::tables::{RCON, SBOX};

/// A way to double the four bytes of a word.
pub trait Doubling: Copy {
    fn doubled(word: Word) -> Word;
}

#[derive(Clone, Copy)]
pub struct Word {
    pub bits: u32,
}

impl Word {
    pub fn load(bytes: [u8; 4]) -> Word {
        let [a, b, c, d] = bytes.map(u32::from);
        Word {
            bits: a + 256 * b + 65536 * c + 16777216 * d,
        }
    }

    pub fn store(self) -> [u8; 4] {
        let bits = self.bits;
        [
            (bits % 256) as u8,
            (bits / 256 % 256) as u8,
            (bits / 65536 % 256) as u8,
            (bits / 16777216 % 256) as u8,
        ]
    }

    fn round_constant(i: usize) -> Word {
        Word::load([RCON[i], 0, 0, 0])
    }

    fn plus(self, other: Word) -> Word {
        Word {
            bits: self.bits ^ other.bits,
        }
    }

    fn rot_word(self) -> Word {
        let bits = self.bits;
        Word {
            bits: bits / 256 + bits % 256 * 16777216,
        }
    }

    fn sub_word(self, table: &[u8; 256]) -> Word {
        let bytes = self.store();
        Word::load([
            table[bytes[0] as usize],
            table[bytes[1] as usize],
            table[bytes[2] as usize],
            table[bytes[3] as usize],
        ])
    }

    fn diagonal(first: Word, second: Word, third: Word, fourth: Word) -> Word {
        let a = first.store();
        let b = second.store();
        let c = third.store();
        let d = fourth.store();
        Word::load([a[0], b[1], c[2], d[3]])
    }

    fn mix_column<D: Doubling>(self) -> Word {
        let twice = D::doubled(self);
        let third = self.rot_word().rot_word();
        let fourth = third.rot_word();
        let next = twice.plus(self).rot_word();
        twice.plus(next).plus(third).plus(fourth)
    }
}

#[derive(Clone, Copy)]
struct State {
    w0: Word,
    w1: Word,
    w2: Word,
    w3: Word,
}

impl State {
    fn load(b: [u8; 16]) -> State {
        State {
            w0: Word::load([b[0], b[1], b[2], b[3]]),
            w1: Word::load([b[4], b[5], b[6], b[7]]),
            w2: Word::load([b[8], b[9], b[10], b[11]]),
            w3: Word::load([b[12], b[13], b[14], b[15]]),
        }
    }

    fn store(self) -> [u8; 16] {
        let a = self.w0.store();
        let b = self.w1.store();
        let c = self.w2.store();
        let d = self.w3.store();
        [
            a[0], a[1], a[2], a[3], b[0], b[1], b[2], b[3], c[0], c[1], c[2], c[3], d[0], d[1],
            d[2], d[3],
        ]
    }

    fn sub_bytes(mut self, table: &[u8; 256]) -> State {
        self.w0 = self.w0.sub_word(table);
        self.w1 = self.w1.sub_word(table);
        self.w2 = self.w2.sub_word(table);
        self.w3 = self.w3.sub_word(table);
        self
    }

    fn shift_rows(mut self) -> State {
        let s = self;
        self.w0 = Word::diagonal(s.w0, s.w1, s.w2, s.w3);
        self.w1 = Word::diagonal(s.w1, s.w2, s.w3, s.w0);
        self.w2 = Word::diagonal(s.w2, s.w3, s.w0, s.w1);
        self.w3 = Word::diagonal(s.w3, s.w0, s.w1, s.w2);
        self
    }

    #[inline(always)]
    fn mix_columns<D: Doubling>(mut self) -> State {
        self.w0 = self.w0.mix_column::<D>();
        self.w1 = self.w1.mix_column::<D>();
        self.w2 = self.w2.mix_column::<D>();
        self.w3 = self.w3.mix_column::<D>();
        self
    }

    fn add_round_key(mut self, key: State) -> State {
        self.w0 = self.w0.plus(key.w0);
        self.w1 = self.w1.plus(key.w1);
        self.w2 = self.w2.plus(key.w2);
        self.w3 = self.w3.plus(key.w3);
        self
    }

    fn begin(block: [u8; 16], key: State) -> State {
        State::load(block).add_round_key(key)
    }

    #[inline(always)]
    fn round<D: Doubling>(mut self, table: &[u8; 256], key: State) -> State {
        self = self.shift_rows();
        self = self.sub_bytes(table);
        self = self.mix_columns::<D>();
        self.add_round_key(key)
    }

    #[inline(always)]
    fn last_round(mut self, table: &[u8; 256], key: State) -> State {
        self = self.shift_rows();
        self = self.sub_bytes(table);
        self.add_round_key(key)
    }

    fn next_round_key(mut self, table: &[u8; 256], i: usize) -> State {
        let temp = self
            .w3
            .rot_word()
            .sub_word(table)
            .plus(Word::round_constant(i));
        self.w0 = self.w0.plus(temp);
        self.w1 = self.w1.plus(self.w0);
        self.w2 = self.w2.plus(self.w1);
        self.w3 = self.w3.plus(self.w2);
        self
    }
}

pub fn encrypt<D: Doubling>(key: [u8; 16], block: [u8; 16]) -> [u8; 16] {
    let table = &SBOX;
    let mut k = State::load(key);
    let mut s = State::begin(block, k);
    for i in 0..9 {
        k = k.next_round_key(table, i);
        s = s.round::<D>(table, k);
    }
    k = k.next_round_key(table, 9);
    s.last_round(table, k).store()
}

/// Two blocks with one key schedule.
pub fn encrypt_two<D: Doubling>(key: [u8; 16], first: [u8; 16], second: [u8; 16]) -> [[u8; 16]; 2] {
    let table = &SBOX;
    let mut k = State::load(key);
    let mut s = State::begin(first, k);
    let mut u = State::begin(second, k);
    for i in 0..9 {
        k = k.next_round_key(table, i);
        s = s.round::<D>(table, k);
        u = u.round::<D>(table, k);
    }
    k = k.next_round_key(table, 9);
    [
        s.last_round(table, k).store(),
        u.last_round(table, k).store(),
    ]
}
