#!/usr/bin/env python3
"""edits.py: sees that each must-fail edit can be applied: its file is there, and each `old` text stands in it exactly once. Prints those that cannot;
status 1 if any. Whether an edit is refused is the checker's to say."""
import glob
import os
import sys

wrong = 0
for edit in sorted(glob.glob("crates/*/must-fail/*.edit")):
    crate, path, old, texts, said = edit.split("/must-fail/")[0], "", "", {}, "no pair of `old` and `new`"
    for line in open(edit).read().split("\n"):
        if line.startswith("file: "):
            path = os.path.join(crate, line[6:])
        elif line.startswith("old: "):
            old = line[5:]
        elif line.startswith("new:"):
            text = texts.get(path) or (open(path).read() if os.path.isfile(path) else "")
            said = "" if text.count(old) == 1 else "%d times in %s: %s" % (text.count(old), path, old)
            texts[path] = text.replace(old, line[5:])
            if said:
                break
    if said:
        print("%s: %s" % (edit, said))
        wrong = 1
sys.exit(wrong)
