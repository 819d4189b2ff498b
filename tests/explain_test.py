#!/usr/bin/env python3
"""The explanation finds a fault in a text exactly where the proved program refuses it with 10: on the sheets of docs, the gate's texts, and damaged copies."""
import glob
import os
import random
import subprocess
import sys

sys.path.insert(0, "tools")
sys.dont_write_bytecode = True
import explain

PROGRAM = "target/bin/exam"
DAMAGED = 1500
SAID = {
    b"33 1 0\n": "line 1, column 1: expected n of at most 32, found 33",
    b"99999 1 0\n": "line 1, column 1: expected n of at most 32, found 99999",
    b"1 1 33 2\n": "line 1, column 5: expected C of at most 32, found 33",
    b"01 1 0\n": "line 1, column 1: expected n without a leading zero, found byte 48 ('0')",
    b"1 100000 0\n": "line 1, column 8: expected t of at most 5 digits, found byte 48 ('0')",
}


def refused(text):
    return subprocess.run([PROGRAM], input=text, stdout=subprocess.PIPE, check=True).stdout == b"refused 10\n"


def damage(rng, text):
    text = bytearray(text)
    for _ in range(rng.randint(1, 2)):
        at = rng.randrange(len(text) + 1)
        way = rng.randrange(4)
        if way == 0 and at < len(text):
            text[at] = rng.choice(b"0123456789abcdefg \n\r\tA/:")
        elif way == 1:
            text[at:at] = bytes([rng.choice(b"0123456789af \n\r")])
        elif way == 2:
            del text[at:at + rng.randint(1, 3)]
        else:
            del text[at:]
    return bytes(text)


def main():
    if not os.access(PROGRAM, os.X_OK):
        sys.exit("explain_test: %s is not built" % PROGRAM)
    texts = [open(path, "rb").read() for path in sorted(glob.glob("docs/sheets/*.txt") + glob.glob("crates/exam_sheets/data/*"))]
    for text, wanted in SAID.items():
        said = explain.explanation(text)
        if said != wanted:
            sys.exit("explain_test: of %r was said: %s" % (text, said))
    texts += list(SAID)
    rng = random.Random(1)
    small = [text for text in texts if len(text) < 600]
    texts += [damage(rng, rng.choice(small)) for _ in range(DAMAGED)]
    met = [0, 0]
    for text in texts:
        said = explain.explanation(text)
        if refused(text) != (said is not None):
            sys.exit("explain_test: the program and the explanation (%s) differ on %r" % (said, text))
        met[said is not None] += 1
    if min(met) < 50:
        sys.exit("explain_test: too few texts of one kind: %s" % met)


main()
