#!/usr/bin/env python3
"""exports.py [--check]: writes crates/capi_c, the exports for C, of the functions of crate `capi`: each with the name, the parameters, the result and the
clauses of the function that it calls. With --check it compares the two, whatever their layout, and its status is 1 where they differ."""
import re
import sys

FROM, TO = "crates/capi/src/lib.rt", "crates/capi_c/src/lib.rt"
EXPORTED = '#[unsafe(no_mangle)]\npub extern "C" fn'
FUNCTION = re.compile(r"((?://[^\n]*\n)+)(?:#\[[^\]]*\]\n)*(pub(?: extern \"C\")? fn) (\w+)\((.*?)\)( -> \w+)?\n((?:    (?:ensures|requires)\b.*?\n)+?)\{\n.*?\n\}\n", re.S)
HEAD = "// The exports of the static library: each calls the function of crate `capi` that has its name.\n#![tactic(auto)]\n"


def main():
    text = open(FROM, encoding="utf-8").read()
    ghost = re.findall(r"(?ms)^ghost use .*?;$", text)
    types = re.findall(r"(?m)^use (?!super|crate)\w+::(?:\w+);$", text)
    own = re.findall(r"(?m)^pub struct (\w+)", text)
    functions = FUNCTION.findall(text)
    if len(functions) != len(re.findall(r"(?m)^pub fn ", text)) or "no_mangle" in text:
        sys.exit("%s: a function was not read, or is exported" % FROM)
    results = {result.split()[-1] for _, _, _, _, result, _ in functions if result} | set(re.findall(r"\[(\w+)\]", " ".join(f[3] for f in functions)))
    uses = sorted([use for use in types if use[:-1].split("::")[1] in results] + ["use capi::%s;" % name for name in own if name in results])
    pieces = [HEAD, "\n".join(ghost) + "\n", "\n".join(uses) + "\n"]
    for said, _, name, parameters, result, clauses in functions:
        given = re.findall(r"(?:^|,)\s*(\w+):", parameters)
        call = "capi::%s(%s)" % (name, ", ".join(given))
        if len(call) > 88:
            call = "capi::%s(\n%s    )" % (name, "".join("        %s,\n" % one for one in given))
        pieces.append("%s%s %s(%s)%s\n%s{\n    %s\n}\n" % (said, EXPORTED, name, parameters, result, clauses, call))
    wanted = "\n".join(pieces)
    if "--check" in sys.argv:
        if "".join(open(TO, encoding="utf-8").read().split()) != "".join(wanted.split()):
            sys.exit("%s is not what tools/exports.py writes" % TO)
        return
    with open(TO, "w", encoding="utf-8") as file:
        file.write(wanted)


main()
