#!/usr/bin/env python3
"""explain.py [--run PROGRAM] < TEXT: where a text is not laid out as an exam sheet: line, column, what was expected there and what stands there.

With --run it first runs the program on the text, passes on all that it writes, and explains only a text that the program refuses with 10.
It is not proved, and decides nothing: the program's answer stands, whatever is said here."""
import os
import subprocess
import sys

MOST = {"n": 32, "C": 32}


class Fault(Exception):
    pass


def shown(text, at):
    return "the end of the text" if at == len(text) else "a newline" if text[at] == 10 else "byte %d (%s)" % (text[at], repr(chr(text[at])))


class Reader:
    def __init__(self, text):
        self.text, self.at = text, 0

    def fault(self, expected, at=None, found=None):
        at = self.at if at is None else at
        line = self.text.count(b"\n", 0, at) + 1
        column = at - (self.text.rfind(b"\n", 0, at) + 1) + 1
        raise Fault("line %d, column %d: expected %s, found %s" % (line, column, expected, found or shown(self.text, at)))

    def peek(self):
        return self.text[self.at:self.at + 1]

    def expect(self, character, name):
        if self.peek() != character:
            self.fault(name)
        self.at += 1

    def digits(self, count, allowed, name):
        for _ in range(count):
            if not self.peek() or self.peek() not in allowed:
                self.fault(name)
            self.at += 1

    def number(self, name):
        start = self.at
        while self.peek().isdigit():
            self.at += 1
        word = self.text[start:self.at]
        if not word:
            self.fault("a decimal digit of %s" % name)
        if len(word) > 1 and word[0] == 48:
            self.fault("%s without a leading zero" % name, start)
        if len(word) > 5:
            self.fault("%s of at most 5 digits" % name, start + 5)
        if int(word) > MOST.get(name, 99999):
            self.fault("%s of at most %d" % (name, MOST[name]), start, "%d" % int(word))
        return int(word)


def read(text):
    """Raises a Fault where the text is not that of a sheet within its bounds."""
    reader = Reader(text)
    n = reader.number("n")
    reader.expect(b" ", "a space")
    reader.number("t")
    reader.expect(b" ", "a space")
    count = reader.number("C")
    if reader.peek() == b" ":
        reader.at += 1
        reader.number("e")
        reader.expect(b"\n", "a newline")
    else:
        reader.expect(b"\n", "a space or a newline")
    bits = [bytes([c]) for c in b"01"]
    hexadecimal = [bytes([c]) for c in b"0123456789abcdef"]
    for _ in range(count):
        reader.digits(n, bits, "`0` or `1`, one of %d digits" % n)
        reader.expect(b" ", "a space")
        reader.digits(32, hexadecimal, "a digit `0` to `9` or `a` to `f`, one of 32")
        reader.expect(b" ", "a space")
        reader.digits(32, hexadecimal, "a digit `0` to `9` or `a` to `f`, one of 32")
        reader.expect(b"\n", "a newline")
    if reader.at != len(text):
        reader.fault("the end of the text, after %d lines" % count)
    if len(text) > 4096:
        reader.fault("a text of at most 4,096 bytes", 4096)


def explanation(text):
    try:
        read(text)
    except Fault as fault:
        return str(fault)
    return None


def main():
    text = sys.stdin.buffer.read()
    if sys.argv[1:2] == ["--run"]:
        run = subprocess.run([sys.argv[2]], input=text, stdout=subprocess.PIPE, stderr=subprocess.PIPE)
        sys.stdout.buffer.write(run.stdout)
        sys.stdout.buffer.flush()
        sys.stderr.buffer.write(run.stderr)
        sys.stderr.buffer.flush()
        if run.returncode or run.stderr:
            sys.exit(1)
        if run.stdout != b"refused 10\n":
            return
    said = explanation(text)
    sys.stderr.write("exam: %s\n" % (said or "no fault was found in this text"))


if __name__ == "__main__":
    try:
        main()
    except BrokenPipeError:
        sys.stderr.write("exam: standard output was closed before the answer was written\n")
        os._exit(1)
    except OSError:
        sys.stderr.write("exam: standard output cannot be written\n")
        os._exit(1)
