//! The S-box and the round constants of FIPS 197, worked out from their rule when the program is compiled.

const fn double(x: u8) -> u8 {
    if x < 128 {
        x << 1
    } else {
        (x << 1) ^ 0x1b
    }
}

const fn product(mut a: u8, mut b: u8) -> u8 {
    let mut r = 0;
    while b != 0 {
        if b & 1 == 1 {
            r ^= a;
        }
        a = double(a);
        b >>= 1;
    }
    r
}

/// x to the power 254: the product of x^2, x^4, .. x^128.
const fn inverse(x: u8) -> u8 {
    let mut power = x;
    let mut r = 1;
    let mut i = 0;
    while i < 7 {
        power = product(power, power);
        r = product(r, power);
        i += 1;
    }
    r
}

const fn sbox() -> [u8; 256] {
    let mut t = [0; 256];
    let mut x = 0;
    while x < 256 {
        let v = inverse(x as u8);
        t[x] = v ^ v.rotate_left(1) ^ v.rotate_left(2) ^ v.rotate_left(3) ^ v.rotate_left(4) ^ 0x63;
        x += 1;
    }
    t
}

const fn rcon() -> [u8; 10] {
    let mut t = [1; 10];
    let mut i = 1;
    while i < 10 {
        t[i] = double(t[i - 1]);
        i += 1;
    }
    t
}

pub static SBOX: [u8; 256] = sbox();
pub static RCON: [u8; 10] = rcon();
