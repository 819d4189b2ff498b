//! AES-128 as it is often written: a state of 16 bytes, a byte table, loops over indices.

use crate::tables::{RCON, SBOX};

fn double(x: u8) -> u8 {
    (x << 1) ^ (if x & 0x80 != 0 { 0x1b } else { 0 })
}

/// The eleven round keys.
fn expand_key(key: &[u8; 16]) -> [u8; 176] {
    let mut w = [0u8; 176];
    w[..16].copy_from_slice(key);
    for i in 4..44 {
        let mut t = [w[4 * i - 4], w[4 * i - 3], w[4 * i - 2], w[4 * i - 1]];
        if i % 4 == 0 {
            t.rotate_left(1);
            for b in &mut t {
                *b = SBOX[*b as usize];
            }
            t[0] ^= RCON[i / 4 - 1];
        }
        for k in 0..4 {
            w[4 * i + k] = w[4 * i - 16 + k] ^ t[k];
        }
    }
    w
}

fn add_round_key(s: &mut [u8; 16], k: &[u8]) {
    for i in 0..16 {
        s[i] ^= k[i];
    }
}

fn sub_bytes(s: &mut [u8; 16]) {
    for b in s.iter_mut() {
        *b = SBOX[*b as usize];
    }
}

fn shift_rows(s: &mut [u8; 16]) {
    let t = *s;
    for c in 0..4 {
        for r in 0..4 {
            s[4 * c + r] = t[4 * ((c + r) % 4) + r];
        }
    }
}

fn mix_columns(s: &mut [u8; 16]) {
    for c in 0..4 {
        let a = [s[4 * c], s[4 * c + 1], s[4 * c + 2], s[4 * c + 3]];
        for r in 0..4 {
            let b = a[(r + 1) % 4];
            s[4 * c + r] = double(a[r]) ^ (double(b) ^ b) ^ a[(r + 2) % 4] ^ a[(r + 3) % 4];
        }
    }
}

pub fn encrypt(key: &[u8; 16], block: &[u8; 16]) -> [u8; 16] {
    encrypt_under(&expand_key(key), block)
}

/// Two blocks with one key schedule.
pub fn encrypt_two(key: &[u8; 16], first: &[u8; 16], second: &[u8; 16]) -> [[u8; 16]; 2] {
    let w = expand_key(key);
    [first, second].map(|block| encrypt_under(&w, block))
}

/// A block under the eleven round keys.
fn encrypt_under(w: &[u8; 176], block: &[u8; 16]) -> [u8; 16] {
    let mut s = *block;
    add_round_key(&mut s, &w[..16]);
    for round in 1..10 {
        sub_bytes(&mut s);
        shift_rows(&mut s);
        mix_columns(&mut s);
        add_round_key(&mut s, &w[16 * round..16 * round + 16]);
    }
    sub_bytes(&mut s);
    shift_rows(&mut s);
    add_round_key(&mut s, &w[160..]);
    s
}
