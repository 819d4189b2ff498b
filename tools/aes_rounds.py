#!/usr/bin/env python3
"""aes_rounds.py KEY BLOCK: AES-128 by FIPS 197, round by round, as appendix B has it. KEY and BLOCK are 32 hexadecimal digits each.

    python3 tools/aes_rounds.py 2b7e151628aed2a6abf7158809cf4f3c 3243f6a8885a308d313198a2e0370734

For each round it prints the state at its start, after SubBytes (s_box), ShiftRows (s_row) and MixColumns (m_col), and the round key (k_sch), in the names of appendix C.
It follows the standard section by section (the update of 2023), is not proved, and is meant for classes: docs/AES.md.
"""
import re
import sys

ROUNDS = 10


# Section 4: bytes as elements of GF(2^8)

def add(a, b):
    """4.1: the sum."""
    return a ^ b


def add_each(a, b):
    """The sum of two lists of bytes, byte by byte."""
    return [add(x, y) for x, y in zip(a, b)]


def xtimes(b):
    """4.2: twice a byte."""
    if b < 0x80:  # the top bit is clear
        return b << 1
    return ((b << 1) & 0xFF) ^ 0x1B  # the top bit is set


def product(a, b):
    """4.2: the product, as a sum of a doubled over and over."""
    total = 0
    for i in range(8):
        if b >> i & 1:
            total = add(total, a)
        a = xtimes(a)
    return total


def inverse(b):
    """4.4: the byte whose product with b is 1; for 0 it is 0."""
    return next((c for c in range(256) if product(b, c) == 1), 0)


# Section 5.1: the cipher; byte r + 4c of a state stands in row r, column c (3.4)

def s_box(b):
    """5.1.1: the inverse, and then the affine map, bit by bit."""
    b = inverse(b)
    bits = [b >> i & 1 for i in range(8)]
    constant = [0x63 >> i & 1 for i in range(8)]
    mapped = [bits[i] ^ bits[(i + 4) % 8] ^ bits[(i + 5) % 8] ^ bits[(i + 6) % 8] ^ bits[(i + 7) % 8] ^ constant[i] for i in range(8)]
    return sum(mapped[i] << i for i in range(8))


def sub_bytes(state):
    """5.1.1: the S-box at each byte."""
    return [s_box(b) for b in state]


def shift_rows(state):
    """5.1.2: what stood in row r, column c + r comes to column c."""
    return [state[r + 4 * ((c + r) % 4)] for c in range(4) for r in range(4)]


MATRIX = [
    [2, 3, 1, 1],
    [1, 2, 3, 1],
    [1, 1, 2, 3],
    [3, 1, 1, 2],
]


def mix_columns(state):
    """5.1.3: the matrix times each column."""
    mixed = []
    for c in range(4):
        for r in range(4):
            total = 0
            for i in range(4):
                total = add(total, product(MATRIX[r][i], state[i + 4 * c]))
            mixed.append(total)
    return mixed


def add_round_key(state, key):
    """5.1.4: the sum with a round key."""
    return add_each(state, key)


# Section 5.2: the key schedule

def rot_word(word):
    """Each byte goes one place to the left."""
    return word[1:] + word[:1]


def sub_word(word):
    """The S-box at each byte."""
    return [s_box(b) for b in word]


def rcon(j):
    """The round constant of round j, from 1: x to the power j - 1, and three zeros."""
    power = 1
    for _ in range(j - 1):
        power = xtimes(power)
    return [power, 0, 0, 0]


def key_expansion(key):
    """The 44 words, as 11 round keys of 16 bytes."""
    words = [key[4 * i:4 * i + 4] for i in range(4)]
    for i in range(4, 4 * (ROUNDS + 1)):
        temp = words[i - 1]
        if i % 4 == 0:
            temp = add_each(sub_word(rot_word(temp)), rcon(i // 4))
        words.append(add_each(words[i - 4], temp))
    return [sum(words[4 * i:4 * i + 4], []) for i in range(ROUNDS + 1)]


def rounds(key, block):
    """5.1: every step of the cipher, as its round, its name and 16 bytes."""
    keys = key_expansion(key)
    yield 0, "input", block
    yield 0, "k_sch", keys[0]
    state = add_round_key(block, keys[0])
    for i in range(1, ROUNDS + 1):
        yield i, "start", state
        state = sub_bytes(state)
        yield i, "s_box", state
        state = shift_rows(state)
        yield i, "s_row", state
        if i < ROUNDS:
            state = mix_columns(state)
            yield i, "m_col", state
        yield i, "k_sch", keys[i]
        state = add_round_key(state, keys[i])
    yield ROUNDS, "output", state


def main():
    if len(sys.argv) != 3 or not all(re.fullmatch("[0-9A-Fa-f]{32}", argument) for argument in sys.argv[1:]):
        sys.stderr.write("usage: python3 tools/aes_rounds.py KEY BLOCK, each of 32 hexadecimal digits\n")
        sys.exit(2)
    key, block = (list(bytes.fromhex(argument)) for argument in sys.argv[1:])
    for i, name, state in rounds(key, block):
        print("round[%2d].%-6s %s" % (i, name, bytes(state).hex()))


if __name__ == "__main__":
    main()
