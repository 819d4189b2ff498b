#!/usr/bin/env python3
"""respell.py: after the toolchain's port.py, once, at the top of the repository: the repository's own definitions, lemmas, fields and variables in snake case.

A name of the form `packedLength` becomes `packed_length`, in sources, specifications, proofs, must-fail edits and pages, and a name of the repository's own
that a dash joins becomes one with underscores. A lemma whose name a definition takes by this ends in `_lem` from here on. Names of functions, types and
modules stay, and so do the names that the toolchain makes of the code, as a goal's."""
import glob
import re

WORD = re.compile(r"(?<![\w'·-])[A-Za-z_][\w'-]*")
PART = re.compile(r"[a-z][a-z0-9]*(?:[A-Z][a-z0-9]*)+'*$")
# Lemmas and fields that stood under the new name of a definition.
TAKEN = ["four_bytes", "last_bit", "list_length", "list_read", "next_place", "no_line", "no_room", "none_read", "too_large"]
FIELDS = {"no_room", "list_read", "no_line", "too_large"}


# Lemmas and fields whose name without a dash is another's.
MET = set("""
a-query answer-read below-all below-none bit-of child-length control-byte count-read decimal-length filling-next first-place first-query fits-from
heading-length heavy-lines hex-digit honest-fits honest-list is-key-line is-line is-number is-sheet kept-number kept-played key-bytes key-line-text
last-count last-query lent-share level-length levels-length line-at line-length line-tests lines-most list-area list-bytes list-end list-room
list-size list-space looked-up most-threshold new-count next-query next-size no-first-line no-sheet number-due packed-length page-read path-lines
prefix-at prefix-length public-bytes queries-fit query-length read-correction read-line read-seed read-text record-area record-end record-left
record-length record-read record-space refused-task reports-made round-key round-length round-lines search-number seed-at seed0-part seed1-part
share-count share-whole space-from spares-zero string-part sum-at turned-node turned-sums write-level write-levels wrong-shares
""".split())
# Fields of specifications among them have a name of their own.
SAID = {"count-read": "count_is_read", "lines-most": "lines_at_most", "list-space": "enough_list_space", "record-space": "enough_record_space"}
# What declares a name, and what declares the answer to a goal.
DECLARED = re.compile(
    r"(?m)^\s*(?:(?:pub|abbrev|unfoldable|data|record|ruleset) )*([A-Za-z_][\w'-]*)((?: \([^\n]*?\)| \{[^\n]*?\})*) :(?= |\n)([^\n]*)")
OF_FUNCTION = re.compile(r"/(Answers|Invariants|Proof)\.antt$")


def snake(part):
    if not PART.match(part):
        return part
    return re.sub(r"(?<!^)([A-Z])", lambda m: "_" + m[1].lower(), part)


def respelled(word):
    return "-".join(snake(p) for p in word.split("-"))


def lemmas_aside(text):
    for name in TAKEN:
        before = r"(?<![\w'·-])" if name in FIELDS else r"(?<![\w'·.-])"
        text = re.sub(before + name + r"(?![\w'-])", name + "_lem", text)
    return text


def undashed(name):
    if name in SAID:
        return SAID[name]
    parts = [p.lower() if re.fullmatch(r"[A-Z]\d?'*", p) else p for p in name.split("-")]
    return "_".join(parts) + ("_lem" if name in MET else "")


def dashed(antt):
    """The names with a dash that the repository's own texts declare, but for `true-T`, which joins a name to one of the logic's."""
    found = set()
    for path in antt:
        for m in DECLARED.finditer(open(path, encoding="utf-8").read()):
            if "-" in m[1] and not (OF_FUNCTION.search(path) and re.match(r"\s*(goal|tie)\.", m[3])):
                found.add(m[1])
    return found - {"true-T"}


def without_dashes(path, text, names):
    made = set()
    crates = {c.split("/")[1] for c in glob.glob("crates/*/src")}
    for m in re.finditer(r"\buse ([\w.'·+-]+)\.\{([^}]*)\}", text):
        first = m[1].split(".")
        if not (first[0] == "Rattle" and first[1] in crates):
            made |= {name.strip() for item in m[2].split(",") for name in item.split(" as ")[:1]}
    places = re.findall(r"\(([a-z]\w*) : (?:After|In|Else|Then|At|Start)[\w'+-]*\)", text)
    steps = r"(?<![\w'.-])(%s|goal\.at)\.$" % "|".join(["c", "w", "l", "goal", "tie", *places]) if OF_FUNCTION.search(path) else r"(?!)"
    if OF_FUNCTION.search(path):
        made |= {m[1] for m in DECLARED.finditer(text) if re.match(r"\s*(goal|tie)\.", m[3])}
    lines = []
    for line in text.split("\n"):
        if re.match(r"use .*\.(Goals|Given)\b", line):
            lines.append(line)
            continue

        def turn(m):
            before = line[:m.start()]
            if m[0] not in names or m[0] in made or re.search(steps, before):
                return m[0]
            return undashed(m[0])

        lines.append(re.sub(r"(?<![\w'·-])[A-Za-z_][\w'-]*", turn, line))
    return "\n".join(lines)


def in_code(text, turned):
    """A page with what stands in backquotes or in blocks of code turned."""
    parts = re.split(r"(?s)(```.*?```|`[^`\n]+`)", text)
    return "".join(turned(p) if p.startswith("`") else p for p in parts)


def main():
    antt = glob.glob("crates/*/specs/**/*.antt", recursive=True) + glob.glob("crates/*/proofs/**/*.antt", recursive=True)
    rt = glob.glob("crates/*/src/**/*.rt", recursive=True)
    edits = glob.glob("crates/*/must-fail/*.edit")
    pages = ["README.md"] + glob.glob("docs/**/*.md", recursive=True)
    words = {w for path in antt + rt for w in WORD.findall(open(path, encoding="utf-8").read())}
    names = {w for w in words if respelled(w) != w}
    known = words | {respelled(w) for w in names}
    count = 0
    for path in antt + rt + edits + pages:
        text = open(path, encoding="utf-8").read()
        new = lemmas_aside(text) if path in antt else text
        turned = known if path in edits + pages else names
        new = WORD.sub(lambda m: respelled(m[0]) if m[0] in names or respelled(m[0]) in turned else m[0], new)
        if new != text:
            open(path, "w", encoding="utf-8").write(new)
            count += 1
    print("respell: %d names, %d files" % (len(names), count))
    names = dashed(antt)
    count = 0
    for path in antt + rt + edits + pages:
        text = open(path, encoding="utf-8").read()
        if path in pages:
            new = in_code(text, lambda t: without_dashes(path, t, names))
        elif path in rt:
            new = "\n".join(without_dashes(path, l, names) if re.match(r"\s*(ghost|requires|ensures|×|≡|//)", l) else l for l in text.split("\n"))
        else:
            new = without_dashes(path, text, names)
        if new != text:
            open(path, "w", encoding="utf-8").write(new)
            count += 1
    print("respell: %d names with a dash, %d files" % (len(names), count))


main()
