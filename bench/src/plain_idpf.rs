//! The key maker and a server's walk in plain Rust, over any AES.

use crate::aes::{Aes, Seed};

pub const P: u64 = 0xffff_ffff_0000_0001;

pub fn add(x: u64, y: u64) -> u64 {
    ((x as u128 + y as u128) % P as u128) as u64
}

fn negate(x: u64) -> u64 {
    (P - x % P) % P
}

/// The group number of a weight.
fn of_weight(weight: i16) -> u64 {
    match weight {
        0.. => weight as u64,
        _ => negate(weight.unsigned_abs() as u64),
    }
}

fn xor(a: Seed, b: Seed) -> Seed {
    (u128::from_ne_bytes(a) ^ u128::from_ne_bytes(b)).to_ne_bytes()
}

pub fn bit(bytes: &[u8], i: usize) -> bool {
    bytes[i / 8] >> (7 - i % 8) & 1 == 1
}

/// The child that a block gives: its seed and its control bit.
fn split(mut block: Seed) -> (Seed, bool) {
    let bit = block[0] & 1 == 1;
    block[0] &= 0xfe;
    (block, bit)
}

fn draw(block: Seed) -> u64 {
    u64::from_le_bytes(block[..8].try_into().unwrap()) % P
}

pub fn public_share_length(n: usize) -> usize {
    n.div_ceil(4) + 24 * n
}

/// The public share of a string of n bits with a weight.
pub fn make_key(
    aes: impl Aes,
    n: usize,
    weight: i16,
    string: &[u8],
    seeds: [Seed; 2],
    out: &mut [u8],
) {
    let head = n.div_ceil(4);
    out[..head].fill(0);
    let mut nodes = [(seeds[0], false), (seeds[1], true)];
    for k in 0..n {
        let a = bit(string, k);
        let children = nodes.map(|(s, _)| [split(aes.block(&s, 0)), split(aes.block(&s, 1))]);
        let lose = !a as usize;
        let seed = xor(children[0][lose].0, children[1][lose].0);
        let left = children[0][0].1 ^ children[1][0].1 ^ a ^ true;
        let right = children[0][1].1 ^ children[1][1].1 ^ a;
        let keep = if a { right } else { left };
        let mut drawn = [0; 2];
        for b in 0..2 {
            let (mut s, mut t) = children[b][a as usize];
            if nodes[b].1 {
                s = xor(s, seed);
                t ^= keep;
            }
            drawn[b] = draw(aes.block(&s, 3));
            nodes[b] = (aes.block(&s, 2), t);
        }
        let mut payload = add(add(of_weight(weight), negate(drawn[0])), drawn[1]);
        if nodes[1].1 {
            payload = negate(payload);
        }
        out[k / 4] |= (left as u8 | (right as u8) << 1) << (2 * (k % 4));
        let at = head + 24 * k;
        out[at..at + 16].copy_from_slice(&seed);
        out[at + 16..at + 24].copy_from_slice(&payload.to_le_bytes());
    }
}

fn payload_at(n: usize, share: &[u8], k: usize) -> u64 {
    let at = n.div_ceil(4) + 24 * k + 16;
    u64::from_le_bytes(share[at..at + 8].try_into().unwrap())
}

/// Whether a public share's payloads are below p and its spare bits zero.
pub fn is_public_share(n: usize, share: &[u8]) -> bool {
    (0..n).all(|k| payload_at(n, share, k) < P)
        && (n % 4 == 0 || share[n / 4] >> (2 * (n % 4)) == 0)
}

/// Server b's node at the first `length` bits of a packed prefix: its seed and its control bit.
pub fn node(
    aes: impl Aes,
    n: usize,
    b: bool,
    seed: Seed,
    share: &[u8],
    prefix: &[u8],
    length: usize,
) -> (Seed, bool) {
    let mut node = (seed, b);
    for k in 0..length {
        let (child, control) = corrected_child(aes, n, share, node, k, bit(prefix, k));
        node = (aes.block(&child, 2), control);
    }
    node
}

/// The child of a node of k bits on side x, corrected.
fn corrected_child(
    aes: impl Aes,
    n: usize,
    share: &[u8],
    (seed, t): (Seed, bool),
    k: usize,
    x: bool,
) -> (Seed, bool) {
    let (mut child, mut control) = split(aes.block(&seed, x as u64));
    if t {
        let at = n.div_ceil(4) + 24 * k;
        child = xor(child, share[at..at + 16].try_into().unwrap());
        control ^= share[k / 4] >> (2 * (k % 4) + x as usize) & 1 == 1;
    }
    (child, control)
}

/// Server b's share of one report, one bit further down than a node of k bits.
pub fn share_below(
    aes: impl Aes,
    n: usize,
    b: bool,
    share: &[u8],
    node: (Seed, bool),
    k: usize,
    x: bool,
) -> u64 {
    let child = corrected_child(aes, n, share, node, k, x);
    value(n, b, share, child.1, k, aes.block(&child.0, 3))
}

/// Server b's share of one report one bit further down than a node of k bits, from the control bit and block 3 there.
fn value(n: usize, b: bool, share: &[u8], control: bool, k: usize, block: Seed) -> u64 {
    let mut value = draw(block);
    if control {
        value = add(value, payload_at(n, share, k));
    }
    if b {
        negate(value)
    } else {
        value
    }
}

/// The node one bit further down than a node of k bits, and server b's share of one report there.
pub fn step_below(
    aes: impl Aes,
    n: usize,
    b: bool,
    share: &[u8],
    node: (Seed, bool),
    k: usize,
    x: bool,
) -> ((Seed, bool), u64) {
    let (child, control) = corrected_child(aes, n, share, node, k, x);
    let [seed, block] = aes.two_blocks(&child, 2, 3);
    ((seed, control), value(n, b, share, control, k, block))
}
