#!/usr/bin/env python3
"""slowly.py FILE: writes a file to standard output in pieces of 97 bytes, with a pause before each, so that a reader gets it in many reads."""
import sys
import time


def main():
    data = open(sys.argv[1], "rb").read()
    for i in range(0, len(data), 97):
        time.sleep(0.02)
        sys.stdout.buffer.write(data[i:i + 97])
        sys.stdout.buffer.flush()


main()
