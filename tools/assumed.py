#!/usr/bin/env python3
"""assumed.py LOG: from what `rt ci` printed and from the sources, that every crate is proved and that none assumes anything, but the programs what the
library says of the system.

- Of a crate that an earlier run proved, `rt ci` says only that it is kept; it refuses C functions of the repository's own in every run, and antt every axiom.
- Of a program and of the library for C that this run proved, it names the C functions whose contracts the proof reached: the library for C reaches none.
- Of a library it names none; so its sources, outside tests, may name nothing of the system, but the traits of a reader and a writer that a caller lends."""
import glob
import re
import sys

PROGRAMS = {"exam", "exam_sheets", "key", "vectors"}
# The kit's libraries that declare what C does.
SYSTEM = {"libc", "os", "std"}
# Words of the verdict that no crate has: its own C functions, contracts that may say nothing, a way out of a contract, faults of the prover.
NEVER = re.compile(r" (foreign|hides|may-abort|may-wait|may-serve|partial|bugs|main|pinned|cache)=")
LENT = "use std::io::{Read, Write};"
REACHES = re.compile(r"\bHostRuntime\b|\bGlobal\b|\bstd::(?:\{[^;]*\b)?(?:alloc|env|fs|io|net|os|process|rt|sync|thread|time)\b|\bextern\b|\b(?:io|libc|os)::")


def of_log(text):
    """What the log says: crates that are proved, and what is wrong."""
    proved, faults, crate, block = set(), [], "", []
    for line in text.split("\n"):
        named = re.match(r"== (\w+)(: its tests)?$", line)
        if named:
            crate, block = "" if named[2] else named[1], []
        block.append(line)
        kept = re.match(r"rt: (\w+) is kept: ", line)
        if kept:
            proved.add(kept[1])
        if crate and line == "rt: %s proved" % crate:
            last = [it for it in block if it.startswith("logic=")][-1:] or ["no verdict"]
            if not last[0].startswith("logic=proved ") or NEVER.search(last[0]):
                faults.append("%s: %s" % (crate, last[0]))
            for reached in re.findall(r"(?m)^axioms (\w+): (?!none reached)(.*)$", "\n".join(block)):
                if reached[0] not in SYSTEM or crate not in PROGRAMS:
                    faults.append("%s assumes what %s says: %s" % (crate, reached[0], reached[1]))
            proved.add(crate)
            crate = ""
    return proved, faults


def of_sources(crate):
    """Where a crate that is no program names the system, outside comments and tests."""
    for path in sorted(glob.glob("crates/%s/src/**/*.rt" % crate, recursive=True)):
        text = open(path, encoding="utf-8").read().split("#[cfg(test)]")[0]
        for number, line in enumerate(text.split("\n"), 1):
            export = crate == "capi_c" and line.startswith('pub extern "C" fn tally_')
            if REACHES.search(line.split("//")[0]) and line != LENT and not export:
                yield "%s:%d: %s" % (path, number, line.strip())


def main():
    wanted = {line.split("#")[0].split(":")[0].split()[0] for line in open("crates.txt", encoding="utf-8") if line.split("#")[0].strip()}
    proved, faults = of_log(open(sys.argv[1], encoding="utf-8", errors="replace").read())
    for crate in sorted(wanted - PROGRAMS):
        faults += of_sources(crate)
    faults += ["%s is not proved here" % crate for crate in sorted(wanted - proved)]
    if faults:
        sys.exit("\n".join(faults))
    print("%d crates proved; only %s ask the system" % (len(wanted), ", ".join(sorted(PROGRAMS))))


main()
