#!/usr/bin/env python3
"""prose.py [--fix] [FILE ..]: holds Markdown to one sentence a line, at most 40 words a sentence and at most 200 characters a table cell.

Without FILE it reads every Markdown file that git knows of. It prints each place and has status 1 if there is any; with --fix it first lays
paragraphs and list items out anew, a sentence a line. Code blocks, headings and links' targets are left alone; a code span is one word."""
import re
import subprocess
import sys

MOST_WORDS, MOST_CELL = 40, 200
ITEM = re.compile(r"^(\s*)([-*+]|\d+[.)])(\s+)")
# an end of a sentence: a stop with what closes behind it, and then what begins one
END = re.compile(r"(?<=[.?!])((?:\*\*|['\"”’)\]])*)\s+(?=(?:\*\*|['\"“‘(\[])*[A-Z0-9`Ͱ-Ͽ])")
SHORT = re.compile(r"(?:^|[\s(])(?:e\.g|i\.e|cf|vs|No|[A-Z])\.$")


def held(text):
    """The text with code spans and link targets as one word each, and those pieces."""
    pieces = []

    def keep(found):
        pieces.append(found[0])
        return "Q%dQ" % (len(pieces) - 1)

    text = re.sub(r"(`+)(?:(?!\1).|(?<=`)`)*?\1", keep, text)
    return re.sub(r"(?<=\])\([^)]*\)", lambda found: keep(found), text), pieces


def freed(text, pieces):
    for i in range(len(pieces) - 1, -1, -1):
        text = text.replace("Q%dQ" % i, pieces[i])
    return text


def sentences(text):
    text, pieces = held(" ".join(text.split()))
    found, start = [], 0
    for end in END.finditer(text):
        one = text[start:end.start()]
        if SHORT.search(one) or one.endswith("..") and not one.endswith("...."):
            continue
        found.append(text[start:end.end(1)])
        start = end.end()
    found.append(text[start:])
    return [freed(one.strip(), pieces) for one in found if one.strip()]


def words(sentence):
    text, _ = held(sentence)
    return len([word for word in re.sub(r"(?<=\])Q\d+Q", "", text).split() if re.search(r"\w", word)])


def blocks(text):
    """Pieces of a page: kind ('text', 'table' or 'kept'), first line, lines, indents of the first and of the other lines."""
    lines, at, found = text.split("\n"), 0, []
    while at < len(lines):
        line, begin = lines[at], at
        fence = re.match(r"\s*(```+|~~~+)", line)
        if fence:
            at += 1
            while at < len(lines) and not lines[at].strip().startswith(fence[1]):
                at += 1
            at += 1
            found.append(("kept", begin, lines[begin:at], "", ""))
        elif re.match(r"\s*\|", line):
            while at < len(lines) and re.match(r"\s*\|", lines[at]):
                at += 1
            found.append(("table", begin, lines[begin:at], "", ""))
        elif not line.strip() or re.match(r"#|<|\s{0,3}\[[^\]]+\]:", line) or re.fullmatch(r"\s*([-*_]\s*){3,}", line):
            at += 1
            found.append(("kept", begin, [line], "", ""))
        elif re.match(r" {4}", line) and not (found and found[-1][0] == "text") and not ITEM.match(line):
            while at < len(lines) and (re.match(r" {4}", lines[at]) or not lines[at].strip()):
                at += 1
            found.append(("kept", begin, lines[begin:at], "", ""))
        else:
            item = ITEM.match(line)
            first = item[0] if item else re.match(r"\s*(> )?", line)[0]
            rest = " " * len(first) if item else first
            at += 1
            while at < len(lines) and lines[at].strip() and not re.match(r"\s*(\||```|~~~)|#", lines[at]) and not ITEM.match(lines[at]):
                at += 1
            found.append(("text", begin, [lines[begin][len(first):]] + [re.sub(r"^\s*> ?", "", one) if ">" in first else one for one in lines[begin + 1:at]], first, rest))
    return found


def cells(row):
    return [cell.strip() for cell in re.split(r"(?<!\\)\|", row.strip().strip("|"))]


def laid_out(text):
    out = []
    for kind, _, lines, first, rest in blocks(text):
        if kind == "text":
            found = sentences(" ".join(lines))
            out += [(first if i == 0 else rest) + one for i, one in enumerate(found)]
        else:
            out += lines
    return "\n".join(out)


def faults(path, text):
    found = []
    for kind, begin, lines, first, rest in blocks(text):
        if kind == "table":
            for i, row in enumerate(lines):
                found += ["%s:%d: a cell of %d characters: %s .." % (path, begin + i + 1, len(cell), cell[:60]) for cell in cells(row) if len(cell) > MOST_CELL]
                found += long_ones(path, begin + i + 1, [one for cell in cells(row) for one in sentences(cell)])
        elif kind == "text":
            one_each = sentences(" ".join(lines))
            if [line.strip() for line in lines] != one_each:
                found.append("%s:%d: not one sentence a line" % (path, begin + 1))
            for i, one in enumerate(one_each):
                found += long_ones(path, begin + 1 + (i if len(one_each) == len(lines) else 0), [one])
    return found


def long_ones(path, line, some):
    return ["%s:%d: a sentence of %d words: %s .." % (path, line, words(one), one[:60]) for one in some if words(one) > MOST_WORDS]


def main(given):
    if "--help" in given:
        sys.exit(print(__doc__))
    fix = "--fix" in given
    paths = [one for one in given if one != "--fix"] or subprocess.run(["git", "ls-files", "*.md"], capture_output=True, text=True, check=True).stdout.split()
    wrong = []
    for path in paths:
        text = open(path, encoding="utf-8").read()
        if fix and laid_out(text) != text:
            text = laid_out(text)
            with open(path, "w", encoding="utf-8") as page:
                page.write(text)
        wrong += faults(path, text)
    print("".join(row + "\n" for row in wrong), end="")
    return bool(wrong)


sys.exit(main(sys.argv[1:]))
