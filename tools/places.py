#!/usr/bin/env python3
"""Counts, in crates/*/src, the places that docs/DESIGN-PASS.md speaks of; with -v prints each one.

Test modules and what stands in a `ghost use`, a `requires` or an `ensures` is left out, but for point 5."""

import re
import sys
from collections import Counter, defaultdict
from pathlib import Path

TOP = Path(__file__).resolve().parent.parent
VERBOSE = "-v" in sys.argv
# An older tree's sources may be named in the place of this one's.
ROOT = Path(next((a for a in sys.argv[1:] if a != "-v"), TOP))


class Function:
    def __init__(self, where, name, parameters, clauses, body):
        self.where, self.name, self.parameters, self.clauses, self.body = where, name, parameters, clauses, body


def sources():
    for path in sorted(ROOT.glob("crates/*/src/**/*.rt")):
        text = path.read_text()
        cut = text.find("#[cfg(test)]")
        yield path.relative_to(ROOT), text if cut < 0 else text[:cut]


def functions():
    for path, text in sources():
        if path.parts[1] == "capi_c":
            continue
        for m in re.finditer(r"^( *)(?:pub(?:\(crate\))? )?fn (\w+)(?:<[^(]*>)?\(", text, re.M):
            indent = m.group(1)
            i, depth = m.end(), 1
            while depth:
                depth += {"(": 1, ")": -1}.get(text[i], 0)
                i += 1
            parameters = [p.strip() for p in re.split(r",(?![^<\[(]*[>\])])", text[m.end():i - 1]) if p.strip()]
            opening = re.compile(rf"^{indent}\{{$|^.*\{{$", re.M)
            b = text.find(f"\n{indent}{{\n", i)
            line_end = text.find("\n", i)
            if text[i:line_end].rstrip().endswith("{") and "ensures" not in text[i:line_end]:
                b = line_end - 1
            end = text.find(f"\n{indent}}}", b)
            if b < 0 or end < 0:
                continue
            yield Function(path, m.group(2), parameters, text[i:b], text[b:end])


def structs():
    for path, text in sources():
        for m in re.finditer(r"^(?:pub(?:\(crate\))? )?struct (\w+)(?:<[^{(]*>)? \{\n(.*?)^\}", text, re.M | re.S):
            fields = re.findall(r"^ +(?:pub(?:\(crate\))? )?(\w+): (.*),$", m.group(2), re.M)
            yield path, m.group(1), fields


def lines(pattern):
    found = []
    for path, text in sources():
        for number, line in enumerate(text.split("\n"), 1):
            if re.search(pattern, line) and not re.match(r"\s*(//|requires|ensures|ghost)", line):
                found.append(f"{path}:{number}: {line.strip()}")
    return found


FLAG = r"laid_out|is_\w+|failed|found|known"


def point_1():
    found = []
    for path, text in sources():
        for m in re.finditer(r"enum (\w+) \{\n(.*?)^\}", text, re.M | re.S):
            variants = re.findall(r"^ +(\w+)(\(.*\))?,", m.group(2), re.M)
            if any(v in ("Unknown", "Refused", "Missing", "None", "Nothing") for v, _ in variants):
                found.append(f"{path}: enum {m.group(1)} has the shape of an Option or a Result")
    for path, name, fields in structs():
        if any(t == "bool" and re.fullmatch(FLAG, f) for f, t in fields):
            found.append(f"{path}: struct {name} is a flag with values beside it")
        if any(f == "number" and t == "u64" for f, t in fields):
            found.append(f"{path}: struct {name} has the number of a refusal beside its values")
    for f in functions():
        if re.search(r"return \d+;", f.body) and re.search(r"cause", f.name) and f.clauses.strip().startswith("-> u64"):
            found.append(f"{f.where}: fn {f.name} returns numbers of refusals")
    found += [f"{x} (the number of a refusal)" for x in lines(r"(refused|refusal|refused_line|Refused)\(\d+|number: [1-9]\d*,")]
    return found


def point_2():
    found = []
    shapes = defaultdict(list)
    for path, name, fields in structs():
        if len(fields) > 1 and len({t for _, t in fields}) == 1 and {f for f, _ in fields} <= {"first", "second", "left", "right", "node0", "node1"}:
            found.append(f"{path}: struct {name} is two values of one type")
    for f in functions():
        body = re.sub(r"//.*", "", f.body)
        body = re.sub(r"\b\d[\d_xa-f]*\b", "N", body)
        body = re.sub(r"\b([a-z_]+?)(_?(be|le))?\d+\b", r"\1N", body)
        body = re.sub(r"\b(u8|u16|u32|u64|usize|i64)\b", "T", body)
        body = re.sub(r"[A-Z][A-Z_]{2,}", "WORD", body)
        body = re.sub(r"\s+", " ", body)
        shape = (len(f.parameters), body)
        if len(body) > 60:
            shapes[shape].append(f"{f.where}: fn {f.name}")
    for names in shapes.values():
        if len(names) > 1:
            found.append("twins: " + ", ".join(names))
    return found


def point_3():
    return lines(r"^\s*while ")


def point_4():
    found = lines(r"if [!\w.]+ \{ 1 \} else \{ 0 \}")
    for f in functions():
        if re.fullmatch(r"wide|bit|digit|least|most|same_\w+|before|choose|digit_value", f.name):
            found.append(f"{f.where}: fn {f.name} converts or compares by hand")
    return found


def point_5():
    found = []
    for f in functions():
        if len(f.parameters) >= 7:
            found.append(f"{f.where}: fn {f.name} has {len(f.parameters)} parameters")
    facts = Counter()
    for f in functions():
        for clause in re.findall(r"requires \w* ?\{(.*?)\}(?=\s*(?:requires|ensures|$))", f.clauses, re.S):
            for fact in clause.split("×"):
                facts[re.sub(r"[\s()]+", " ", fact).strip()] += 1
    found += [f"required by {n} functions: {fact}" for fact, n in facts.items() if n > 2]
    return found


def point_6():
    found = []
    for f in functions():
        names = [p.split(":")[0].replace("mut ", "") for p in f.parameters]
        if "at" in names and ("out" in names or "text" in names or "area" in names):
            found.append(f"{f.where}: fn {f.name} takes a buffer with a place beside it")
        if "seeds" in names and "shares" in names or "seeds0" in names and any(s.endswith("shares0") for s in names):
            found.append(f"{f.where}: fn {f.name} takes parallel slices")
    return found


def point_7():
    found = []
    for f in functions():
        for p in f.parameters:
            m = re.fullmatch(r"(payloads|last|up|kept|on): bool", p)
            if m:
                found.append(f"{f.where}: fn {f.name} takes the switch `{m.group(1)}`")
    return found


def point_8():
    answers = list(ROOT.glob("crates/*/proofs/**/Answers.antt"))
    return [f"{p.relative_to(ROOT)}: {m}" for p in answers for m in re.findall(r"^pub (\S+) :", p.read_text(), re.M)]


def main():
    for number, point in enumerate([point_1, point_2, point_3, point_4, point_5, point_6, point_7, point_8], 1):
        found = point()
        print(f"point {number}: {len(found)}")
        if VERBOSE and number != 8:
            for place in found:
                print("   ", place)


main()
