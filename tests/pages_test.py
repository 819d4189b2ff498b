#!/usr/bin/env python3
"""Each line of a program that docs/SERVERS.md, docs/WEIGHTS.md, docs/KEPT.md and docs/COLLECTORS.md quote stands in a program that the gate runs, or in tally.h; each output that these, the README and docs/EXAM.md quote is that of
a sheet, a key or a C example, and refusals are what the programs print; the pages say what examiners and candidates asked for; the README leads to every page of
docs, and no link of these is broken."""
import glob
import os
import re
import subprocess
import sys

# the programs whose lines a page quotes, and how many blocks it has at least
PROGRAMS = {
    "docs/SERVERS.md": ({"c": ["examples/c/two_servers.c", "examples/c/split_server.c"], "rust": ["rust/examples/two_servers.rs"]}, 5),
    "docs/WEIGHTS.md": ({"c": ["examples/c/weights.c"]}, 3),
    "docs/KEPT.md": ({"c": ["examples/c/kept_nodes.c"], "rust": ["rust/examples/kept_nodes.rs"]}, 4),
    "docs/COLLECTORS.md": ({"c": ["examples/c/report_count.c", "examples/c/two_servers.c", "include/tally.h"], "rust": ["rust/examples/report_count.rs"]}, 5),
}

# what a page has to say, once, in whatever lines
SAID = {
    "docs/EXAM.md": [
        "the scope paper that candidates are given with the sitting; it is not part of these sources",
        "several answers stand each under the name of its file, with an empty line between two; where one of the files cannot be read, none is answered",
        "the commit that it was built of",
        "which writes it into `target/package`, or `tools/package FOLDER`; a checksum file stands beside it",
        "`tools/mark TEXTS HANDED-IN`",
        "a text whose first line has five fields, separated by single spaces, is a key's",
        "byte for byte: CR LF at the end of a line, a space at its end and a missing last newline count as wrong, and a file whose name is in another case as missing",
        "2 for a wrong use, or where a folder is missing or holds nothing to mark",
        "`--help` and `--version` stand alone",
    ],
    "README.md": ["`tools/mark` compares what candidates handed in, sheets and keys, with what the two programs print"],
}
# the rules for work by hand, which docs/EXAM.md has before A
RULES = [
    "level K takes the next two bits upward, left then right, four levels a byte",
    "Both sums are modulo 2^64",
    "reduced modulo p",
    "No sum in A and H needs it",
    "The root's control bits are always 0 for server 0 and 1 for server 1",
    "At every level the server whose control bit at the parent is 1 corrects its kept child",
    "negated where the new t1 is 1",
]


def says(page, text, sentences):
    text = " ".join(text.split())
    for sentence in sentences:
        if text.count(sentence) != 1:
            sys.exit("pages_test: %s does not say once: %s" % (page, sentence))


def links(page):
    text = open(page, encoding="utf-8").read()
    here = os.path.dirname(page)
    return {os.path.normpath(os.path.join(here, link)) for link in re.findall(r"\]\(([^)#:]+)\)", text)}


def quoted(page):
    """Texts and outputs that a page quotes, each the whole of a file."""
    files = {open(path, encoding="utf-8").read() for path in glob.glob("docs/sheets/*") + glob.glob("docs/keys/*") + glob.glob("examples/c/*.out")}
    blocks = [re.sub("^    ", "", block, flags=re.M) for block in re.findall(r"(?:^    .+\n)+", open(page, encoding="utf-8").read(), re.M)]
    found = [block for block in blocks if re.match(r"control |[01]+ -?\d+\n|\d+ \d+ [01]+ [0-9a-f]{32} |[0-9a-f]{16}  the ", block)]
    for block in found:
        if block not in files:
            sys.exit("pages_test: %s quotes what no sheet, key or example has: %s" % (page, block))
    return len(found)


def records():
    """Example D's record as docs/EXAM.md and docs/COLLECTORS.md state it, beside the pieces that an example prints of it."""
    printed = "".join(re.findall(r"^([0-9a-f]{16})  ", open("examples/c/report_count.out", encoding="utf-8").read().split("56 bytes")[0], re.M))
    worked = re.search(r"^## D$.*?^((?:    [0-9a-f]{2}(?: +[0-9a-f]{2})+\n)+)", open("docs/EXAM.md", encoding="utf-8").read(), re.M | re.S)
    table = ""
    for place, cell in re.findall(r"^\| (\d+) \| (`[^|]*) \|", open("docs/COLLECTORS.md", encoding="utf-8").read(), re.M):
        if 2 * int(place) != len(table):
            sys.exit("pages_test: docs/COLLECTORS.md has other bytes before byte %s" % place)
        table += re.sub("[^0-9a-f]", "", cell)
    if len(printed) != 2 * 56 or printed != "".join(worked[1].split()) or printed != table:
        sys.exit("pages_test: a page states another record of example D than examples/c/report_count.out")


def program_lines(page, programs, least):
    """Blocks of a program that a page quotes, each line of which stands in one of its programs."""
    blocks = re.findall(r"^```(.*)\n((?:.*\n)*?)```$", open(page, encoding="utf-8").read(), re.M)
    if len(blocks) < least:
        sys.exit("pages_test: %s quotes %d blocks only" % (page, len(blocks)))
    for language, block in blocks:
        if language not in programs:
            sys.exit("pages_test: a block of %s names no language of a program: '%s'" % (page, language))
        lines = {line for path in programs[language] for line in open(path, encoding="utf-8").read().splitlines()}
        for line in block.splitlines():
            if line not in lines:
                sys.exit("pages_test: %s quotes a line that no program has: %s" % (page, line))


def refusals(program, text):
    """The texts that a table of refusals names, and what the program prints for them."""
    tried = 0
    for number, cell in re.findall(r"^\| (\d+) \| [^|]* \| (`[^|]*) \|$", text, re.M):
        for line in re.findall("`([^`]+)`", cell):
            said = subprocess.run([program], input=line.encode() + b"\n", stdout=subprocess.PIPE, check=True).stdout
            if said != b"refused %s\n" % number.encode():
                sys.exit("pages_test: docs/EXAM.md says %s of '%s', and %s prints %s" % (number, line, program, said))
            tried += 1
    return tried


def main():
    exam, key = open("docs/EXAM.md", encoding="utf-8").read().split("\n## The key program\n")
    for page, least in [("docs/EXAM.md", 6), ("README.md", 3), ("docs/WEIGHTS.md", 1), ("docs/KEPT.md", 1), ("docs/COLLECTORS.md", 1)]:
        if quoted(page) < least:
            sys.exit("pages_test: %s quotes too little" % page)
    for program, text, least in [("target/bin/exam", exam, 13), ("target/bin/key", key, 8)]:
        if not os.access(program, os.X_OK):
            sys.exit("pages_test: %s is not built" % program)
        if refusals(program, text) < least:
            sys.exit("pages_test: docs/EXAM.md names too few texts that %s refuses" % program)
    records()
    for page, sentences in SAID.items():
        says(page, open(page, encoding="utf-8").read(), sentences)
    says("docs/EXAM.md before A", key.split("\n## A\n")[0], RULES)
    for page, (programs, least) in PROGRAMS.items():
        program_lines(page, programs, least)
    led = links("README.md")
    for path in sorted(glob.glob("docs/*.md") + glob.glob("docs/landings/*.md") + ["CHANGELOG.md"]):
        if path not in led:
            sys.exit("pages_test: the README does not lead to %s" % path)
    for path in sorted(led | links("docs/SERVERS.md") | links("docs/WEIGHTS.md") | links("docs/KEPT.md") | links("docs/COLLECTORS.md") | links("docs/EXAM.md") | links("docs/AES.md") | links("CHANGELOG.md")):
        if not os.path.exists(path):
            sys.exit("pages_test: a link leads to %s, which is not there" % path)


main()
