#!/usr/bin/env python3
"""deps.py: holds crates.txt to what the crates' files name.

Prints each dependency that no file names and each that is missing; status 1 if any. A crate whose types a caller sees in what it is
returned may be listed though no file names it: `calls` has the reply of a call. A path that begins with a crate's own module names no
crate.
"""
import glob
import re
import sys

wrong = 0
crates = {}
for line in open("crates.txt"):
    line = line.split("#")[0].strip()
    if line:
        name, deps = line.split(":")
        crates[name.split()[0]] = deps.split()
known = set(crates) | {d for deps in crates.values() for d in deps}
for name, deps in crates.items():
    text = ""
    for part in ("src/**/*.rt", "specs/**/*.antt", "proofs/**/*.antt"):
        for path in glob.glob("crates/%s/%s" % (name, part), recursive=True):
            text += re.sub(r"(?m)(//|--).*$", "", open(path).read())
    own = set(re.findall(r"(?m)^(?:pub )?mod (\w+);", text))
    named = {d for d in known if re.search(r"\bRattle\.%s\." % d, text) or d not in own and re.search(r"(?<![\w:])%s::" % d, text)} - {name}
    for d in deps:
        if d not in named and d != "calls":
            print("%s: no file names %s" % (name, d))
            wrong = 1
    for d in sorted(named - set(deps)):
        print("%s: %s is missing" % (name, d))
        wrong = 1
sys.exit(wrong)
