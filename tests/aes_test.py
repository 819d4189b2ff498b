#!/usr/bin/env python3
"""docs/AES.md quotes the sources as they stand, and names edits that are there; tools/aes_rounds.py prints docs/aes/*.out, ends as the program of the published vectors does, and
doubles each of the 256 bytes as the product under 11b."""
import glob
import os
import re
import subprocess
import sys

sys.path.insert(0, "tools")
sys.dont_write_bytecode = True
import aes_rounds

PAGE = "docs/AES.md"
TOOL = ["python3", "tools/aes_rounds.py"]
SOURCES = {
    "rt": ["crates/gf256/src/lib.rt"] + sorted(glob.glob("crates/aes/src/*.rt")),
    "antt": ["crates/gf256/specs/Field.antt", "crates/gf256/proofs/Products.antt", "crates/aes/proofs/SBoxTable.antt"] + sorted(glob.glob("crates/aes/specs/*.antt")),
}
B = ["2b7e151628aed2a6abf7158809cf4f3c", "3243f6a8885a308d313198a2e0370734"]
C1 = ["000102030405060708090a0b0c0d0e0f", "00112233445566778899aabbccddeeff"]
# from the appendices: the first round key after the key itself, and the states of the first round
PUBLISHED = {
    "docs/aes/b.out": ["round[ 1].k_sch  a0fafe1788542cb123a339392a6c7605", "round[ 1].s_box  d42711aee0bf98f1b8b45de51e415230"],
    "docs/aes/c1.out": [
        "round[ 1].start  00102030405060708090a0b0c0d0e0f0",
        "round[ 1].s_box  63cab7040953d051cd60e0e7ba70e18c",
        "round[ 1].s_row  6353e08c0960e104cd70b751bacad0e7",
        "round[ 1].m_col  5f72641557f5bc92f7be3b291db9f91a",
        "round[ 1].k_sch  d6aa74fdd2af72fadaa678f1d6ab76fe",
    ],
}
WRONG = [[], B[:1], B + C1, [B[0], B[1][:30]], [B[0], B[1] + "00"], [B[0], "g" * 32], [B[0], " " * 32], ["--help", B[1]]]


def fail(words):
    sys.exit("aes_test: " + words)


def read(path):
    return open(path, encoding="utf-8").read()


def printed(arguments):
    return subprocess.run(TOOL + arguments, stdout=subprocess.PIPE, check=True, universal_newlines=True).stdout


def product(a, b):
    """The product of two polynomials, and its remainder by 11b."""
    wide = 0
    for i in range(8):
        wide ^= (a << i) * (b >> i & 1)
    for i in range(7, -1, -1):
        wide ^= (0x11B << i) * (wide >> (i + 8) & 1)
    return wide


def field():
    for x in range(256):
        if aes_rounds.xtimes(x) != product(2, x):
            fail("XTIMES of %02x is not its product with 2" % x)
        if aes_rounds.product(x, aes_rounds.inverse(x)) != (x > 0):
            fail("the inverse of %02x is wrong" % x)


def outputs():
    vectors = dict(re.findall(r"^FIPS-197 (.*) ([0-9a-f]{32})$", read("crates/vectors/stdout"), re.M))
    for path, arguments, wanted in [
        ("docs/aes/b.out", B, {"output": vectors["B"], "k_sch": vectors["A.1 last round key"]}),
        ("docs/aes/c1.out", C1, {"output": vectors["C.1"]}),
    ]:
        text = printed(arguments)
        if text != read(path) or text != printed([argument.upper() for argument in arguments]):
            fail("tools/aes_rounds.py does not print %s" % path)
        last = dict(re.findall(r"^round\[10\]\.(\w+) +([0-9a-f]{32})$", text, re.M))
        for name, value in wanted.items():
            if last.get(name) != value:
                fail("the last %s of %s is not that of crates/vectors/stdout" % (name, path))
        for line in PUBLISHED[path]:
            if line not in text.splitlines():
                fail("%s has no line %s" % (path, line))
    for arguments in WRONG:
        run = subprocess.run(TOOL + arguments, stdout=subprocess.PIPE, stderr=subprocess.PIPE, universal_newlines=True)
        if run.returncode != 2 or run.stdout or not re.fullmatch("usage: .*\n", run.stderr):
            fail("a wrong use is not told: %s" % arguments)


def passages(lines):
    """Lines without their leading spaces, a list for each run of them between empty lines."""
    found = [[]]
    for line in lines:
        if line.strip():
            found[-1].append(line.strip())
        elif found[-1]:
            found.append([])
    return [passage for passage in found if passage]


def source(path):
    """The lines of a source without comments and empty lines; and those without the types of definitions."""
    lines = [line.strip() for line in read(path).splitlines()]
    lines = [line for line in lines if line and not re.match("--|//", line)]
    return [lines, [line for line in lines if not re.match("infixl |(?:(?:abbrev|unfoldable) )?(?:pub )?[^ =]+ : ", line)]]


def stands(passage, lines):
    return any(lines[i:i + len(passage)] == passage for i in range(len(lines)))


def quoted(text):
    """Each passage of a block stands, without a gap but for comments and types, in a file that the block's section names, or in an output; each command prints one of the outputs."""
    outs = [read(path).splitlines() for path in sorted(glob.glob("docs/aes/*.out")) + ["crates/vectors/stdout"]]
    count = {"rt": 0, "antt": 0, "": 0}
    for section in re.split("^## ", text, flags=re.M):
        blocks = re.findall(r"^```(.*)\n((?:.*\n)*?)```$", section, re.M)
        rest = re.sub(r"^```.*\n(?:.*\n)*?```$", "", section, flags=re.M)
        blocks += [("", block) for block in re.findall(r"(?:^    .+\n)+", rest, re.M)]
        for language, block in blocks:
            if language not in count:
                fail("a block of %s names no language of a source: '%s'" % (PAGE, language))
            if language:
                files = [lines for path in SOURCES[language] if "`%s`" % path in rest for lines in source(path)]
            else:
                files = outs
            for passage in passages(block.splitlines()):
                if passage[0].startswith("python3 "):
                    run = passage[0].split(" ")
                    if run[:2] != TOOL or len(passage) != 1 or printed(run[2:]).splitlines() not in outs:
                        fail("%s names a command that prints no output of docs/aes: %s" % (PAGE, passage[0]))
                elif not any(stands(passage, lines) for lines in files):
                    fail("%s quotes what no file that its section names has:\n%s" % (PAGE, "\n".join(passage)))
                count[language] += 1
    if count["rt"] < 9 or count["antt"] < 9 or count[""] < 3:
        fail("%s quotes too little: %s" % (PAGE, count))


def doublings(text):
    """The worked example of section 4.2, and the names of the edits."""
    rows = re.findall(r"^\| \{(..)\} \| [01]{8} \| (clear|set) \| \{(..)\} \| \{(..)\} \| \{(..)\} \|", text, re.M)
    if [row[0] for row in rows] != ["57", "ae", "47", "8e"]:
        fail("%s does not work the example of section 4.2" % PAGE)
    for row in rows:
        x, shifted, added, double = (int(row[i], 16) for i in (0, 2, 3, 4))
        if (row[1] == "set") != (x > 127) or shifted != x * 2 % 256 or added != (x > 127) * 0x1B or double != shifted ^ added or double != product(2, x):
            fail("%s doubles {%s} wrongly" % (PAGE, row[0]))
    edits = re.findall(r"^\| `(\w+)` of `(\w+)` \|", text, re.M)
    for name, crate in edits:
        if not os.path.exists("crates/%s/must-fail/%s.edit" % (crate, name)):
            fail("%s names an edit that is not there: %s" % (PAGE, name))
    for path in glob.glob("crates/gf256/must-fail/*.edit"):
        if (os.path.basename(path)[:-len(".edit")], "gf256") not in edits:
            fail("%s does not name %s" % (PAGE, path))


def main():
    field()
    outputs()
    text = read(PAGE)
    quoted(text)
    doublings(text)


main()
