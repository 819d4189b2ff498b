#!/usr/bin/env python3
"""facts.py LOG: from what `rt ci` printed, that each must-fail edit was refused because a fact no longer holds: not because a name, a field or a step of a
proof is missing, nor only by a limit of the prover. Prints the others, and then its status is 1.

`rt ci` prints a line for each edit, also where an earlier run tried it: what the prover said first, past the proof files that name what the edit took away."""
import glob
import re
import sys

LINE = re.compile(r"(?m)^(?:rt: )?must-fail (\w+)/([\w.-]+)\.edit: (.*)$")
REFUSED = "refused, as it must be: "
MISSING = re.compile(r"is not in scope|has no field|has no `|has no cases|is no name|cannot be applied|does not take|expected answers in|was not admitted")


def main():
    said = {(crate, name): words for crate, name, words in LINE.findall(open(sys.argv[1], encoding="utf-8", errors="replace").read())}
    faults = []
    for edit in sorted(glob.glob("crates/*/must-fail/*.edit")):
        crate, name = edit.split("/")[1], edit.split("/")[3][:-len(".edit")]
        words = said.get((crate, name), "rt ci says nothing of it")
        if not words.startswith(REFUSED) or MISSING.search(words):
            faults.append("%s/%s: %s" % (crate, name, words[-300:]))
    if faults:
        sys.exit("refused for another reason than a fact:\n" + "\n".join(faults))
    print("every edit was refused at a fact")


main()
