#!/usr/bin/env python3
"""kinds.py [--check]: writes the last section of docs/CONTRACTS.md, every must-fail edit by what it changes; with --check, compares.

An edit changes code (src/), a contract (a clause in src/) or a definition (specs/).
"""
import glob
import os
import re
import sys

PAGE = "docs/CONTRACTS.md"
TITLE = "## Every edit, by what it changes\n"


CLAUSE = re.compile(r"(?:\b(?:requires|ensures|invariant|decreases)\b\*?[^{};\n]*|\bghost \w+[^{};\n]*)\{|\bghost use [^;]*;")


def clauses(text):
    """Where clauses and ghost items stand in a file of src/: from the word to the brace that closes it."""
    for found in CLAUSE.finditer(text):
        end, depth = found.end(), 1 if found[0].endswith("{") else 0
        while depth and end < len(text):
            depth += {"{": 1, "}": -1}.get(text[end], 0)
            end += 1
        yield found.start(), end


def in_clause(path, old):
    """Whether a text of a file in src/ stands in a clause, or has an end of one in it."""
    text = open(path, encoding="utf-8").read()
    at = text.find(old)
    return at >= 0 and any(start < at + len(old) and at < end for start, end in clauses(text))


def kinds(path):
    found = set()
    file = ""
    for line in open(path):
        if line.startswith("file: "):
            file = line[6:].strip()
        elif line.startswith("old: ghost use "):  # an import that a clause's new text needs
            continue
        elif line.startswith("old: "):
            if file.startswith("specs/"):
                found.add("definition")
            elif in_clause(os.path.join(path.split("/must-fail/")[0], file), line[5:].rstrip("\n")):
                found.add("contract")
            else:
                found.add("code")
    return found


def section():
    rows = []
    for crate in sorted(os.listdir("crates")):
        by = {"code": [], "contract": [], "definition": []}
        for path in sorted(glob.glob("crates/%s/must-fail/*.edit" % crate)):
            found = kinds(path)
            if len(found) != 1:
                sys.exit("%s changes %s" % (path, " and ".join(sorted(found))))
            by[found.pop()].append("`%s`" % os.path.basename(path)[:-5])
        if any(by.values()):
            rows.append("| `%s` | %s |" % (crate, " | ".join(", ".join(by[k]) for k in ("code", "contract", "definition"))))
    return TITLE + "\nWritten by `tools/kinds.py`; the gate compares it.\n\n| crate | code | a contract | a definition |\n|---|---|---|---|\n" + "\n".join(rows) + "\n"


def main():
    page = open(PAGE).read()
    head = page.split(TITLE)[0].rstrip("\n") + "\n\n"
    wanted = head + section()
    if "--check" in sys.argv:
        if page != wanted:
            sys.exit("%s: the last section is not what tools/kinds.py writes" % PAGE)
        return
    with open(PAGE, "w") as f:
        f.write(wanted)


main()
