#!/usr/bin/env python3
"""dead.py: lists lemmas and definitions of crates/*/specs and crates/*/proofs that are named nowhere else, and imports that their file never uses.
A name is used in its file outside its own declaration, in a file that imports it and names it (.antt, or a contract in .rt), where a line
`#[tactic(..)]` of .rt names it by its path, or where docs/READING.md or docs/CONTRACTS.md has it in backquotes. What a proof's Answers or Invariants
export and `F-spec` of a Proof file stand for themselves, and so does what is in a module Examples or in the crate examples. `then` marks a name that
only listed names name. Each row is a place to look; where there are none it prints nothing, and its status is 0."""
import glob
import re
from collections import Counter

USE = re.compile(r"(?m)^ *(pub |ghost )?use ([^\s{;]+?)(?:\.\{([^}]*)\}|::(\w+))?(?: as \S+?)?;?$")
DECLARED = re.compile(r" *(?:(pub) |(?:pattern|unfoldable|abbrev|opaque|axiom) )*(?:(record|data|module) (\S+)|([^\s:(){}=]+(?: [^\s:(){}=]+)*) :(?=\s))")
WORD = re.compile(r"(?:[!&](?!\w)|[^\s(){};:,.`\"@!&])+")
PATH = re.compile(r"\b(\w+)::((?:specs|proofs)(?:::\w+)+)::([^\s,()\[\]]+)")


def token(name):  # what stands for a name where it is used: `▹` for `◌▹◌`
    return name.strip("◌").split("◌")[0] if "◌" in name else name


def read(path):
    """The imports of a file: line, module, name there and here, whether exported again; and its pieces: line, names declared, words."""
    text = re.sub(r"(?m)(--|//).*$", "", open(path).read())
    imports, pieces, levels, header = [], [(1, [], set())], [0], False
    for use in USE.finditer(text):
        line, module = text.count("\n", 0, use.start()) + 1, re.sub(r"^Rattle\.", "", use[2])
        for name, _, here in (one.strip().partition(" as ") for one in (use[3] or use[4] or "").split(",")):
            imports.append((line, module, name, here or name, use[1] == "pub "))
    for at, line in enumerate(USE.sub(lambda use: "\n" * use[0].count("\n"), text).split("\n"), 1):
        indent, begins = len(line) - len(line.lstrip()), DECLARED.match(line)
        if line.strip() and path.endswith(".antt"):
            levels = [level for level in levels if level < indent] + [indent] if header is None else [level for level in levels if level <= indent]
            if begins and indent == levels[-1]:
                header = begins[2] == "module"
                stands = begins[1] and re.search("/proofs/.*/(Answers|Invariants).antt$", path)
                pieces.append((at, [] if header or stands else [begins[3]] if begins[3] else begins[4].split(), set()))
            header = None if header and line.rstrip().endswith("where") else bool(header)
        pieces[-1][2].update(WORD.findall(line))
    for found in PATH.finditer(text) if path.endswith(".rt") else ():
        module = (path.split("/")[1] if found[1] == "crate" else found[1]) + "." + found[2].replace("::", ".")
        imports.append((1, module, found[3], found[3], True))
    return imports, pieces


files = {path: read(path) for path in sorted(glob.glob("crates/*/[sp]*/**/*t", recursive=True)) if path.endswith((".rt", ".antt"))}
shown = set(WORD.findall(" ".join(code for name in ("READING", "CONTRACTS") for code in re.findall(r"`[^`]+`", open("docs/%s.md" % name).read()))))
rows, dead, after = [], True, ""
while dead:
    dead, taken = [], set()
    counts = {path: Counter(word for piece in pieces for word in piece[2]) for path, (_, pieces) in files.items()}
    for path, (imports, _) in files.items():
        for line, module, name, here, again in imports:
            used = again or token(here) in counts[path] or bool(name) and here in USE.sub("", open(path).read())
            taken |= {(module, name)} if used else {(module, word) for word in counts[path] if not name}
            rows += ["%s:%d: import %s" % (path, line, here)] if name and not used and not after else []
    for path, (_, pieces) in files.items():
        module, own = path[len("crates/"):-len(".antt")].replace("/", "."), ("-spec", "_spec") if path.endswith("/Proof.antt") else "\n"
        for at, names, words in [] if "/examples/" in path or path.endswith("/Examples.antt") else pieces[:]:
            met = {n for n in names if counts[path][token(n)] > (token(n) in words) or token(n) in shown or (module, n) in taken or n.endswith(own)}
            if names and not met:
                pieces.remove((at, names, words))
                dead.append("%s:%d: %s%s" % (path, at, " ".join(names), after))
    rows, after = rows + dead, " then"
print("".join(row + "\n" for row in sorted(rows)), end="")
raise SystemExit(bool(rows))
