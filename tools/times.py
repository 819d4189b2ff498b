#!/usr/bin/env python3
"""times.py LOG [WHOLE]: the times of a run of the gate, of a log of `rt ci` that has them: prints a table by crate and writes target/times.txt.
Since the kit rattle-kit-13f `rt ci` prints no times of crates and edits, and it is then said that the log has none.
times.py OLD NEW TITLE: sets two such files side by side, the old one scaled to the machine of the new one, and prints the rows for a landing's note.

WHOLE is how many seconds the whole gate took so far. Times of crates are seconds of one core. A line of the file is a crate, the fingerprint of
its code, the seconds of its check, how many edits it has and their seconds; lines for all of `rt ci`, the whole gate and processor time follow.
The scale is that of the crates whose code is the same in both: their checks, and what one of their edits takes."""
import glob
import hashlib
import os
import re
import sys

PROVED = re.compile(r"rt: (\w+) proved \((\d+) s\)")
REFUSED = re.compile(r"rt: must-fail (\w+)/(\w+): refused, as it must be \(.*?(\d+) s\)")
SUMS = ("rt-ci", "whole", "processor")


def fingerprint(crate):
    """Of a crate's code, definitions and proofs, without its edits."""
    found = hashlib.sha256()
    for part in ("src/**/*.rt", "specs/**/*.antt", "proofs/**/*.antt"):
        for path in sorted(glob.glob("crates/%s/%s" % (crate, part), recursive=True)):
            found.update(path.encode() + b"\0" + open(path, "rb").read())
    return found.hexdigest()[:12]


def of_log(text):
    """Crates with fingerprint, seconds of the check, edits and their seconds, in the order of the log."""
    checks, edits = {}, {}
    for name, seconds in PROVED.findall(text):
        checks[name] = int(seconds)
    for name, _, seconds in REFUSED.findall(text):
        edits.setdefault(name, []).append(int(seconds))
    return {name: (fingerprint(name), checks[name], len(edits.get(name, [])), sum(edits.get(name, []))) for name in checks}


def read(path):
    crates, sums = {}, {}
    for line in open(path):
        fields = line.split()
        if len(fields) == 5:
            crates[fields[0]] = (fields[1], int(fields[2]), int(fields[3]), int(fields[4]))
        elif len(fields) == 2:
            sums[fields[0]] = int(fields[1])
    return crates, sums


def minutes(seconds):
    return "%d min %d s" % (seconds // 60, seconds % 60)


def all_of(crates):
    return sum(c[1] for c in crates.values()), sum(c[2] for c in crates.values()), sum(c[3] for c in crates.values())


def processor_seconds():
    """Of what the shell that runs the gate has waited for so far, both cores together."""
    stat = open("/proc/%d/stat" % os.getppid()).read().rsplit(")", 1)[1].split()
    return (int(stat[13]) + int(stat[14])) // os.sysconf("SC_CLK_TCK")


def table(crates):
    rows = ["| crate | check | edits | their time |", "|---|---|---|---|"]
    rows += ["| `%s` | %d s | %d | %s |" % (name, c[1], c[2], "%d s" % c[3] if c[2] else "") for name, c in crates.items()]
    return "\n".join(rows + ["| all %d | %d s | %d | %d s |" % ((len(crates),) + all_of(crates))])


def record(log, whole):
    crates = of_log(open(log).read())
    if not crates:
        sys.exit("times: %s has no times of crates" % log)
    checks, _, edits = all_of(crates)
    sums = dict(zip(SUMS, (checks + edits, whole, processor_seconds())))
    os.makedirs("target", exist_ok=True)
    with open("target/times.txt", "w") as file:
        file.write("".join("%s %s %d %d %d\n" % ((name,) + c) for name, c in crates.items()))
        file.write("".join("%s %d\n" % (name, sums[name]) for name in SUMS))
    print(table(crates))
    print("so far %s, processor time of both cores %s; written to target/times.txt" % (minutes(whole), minutes(sums["processor"])))


def scale(old, new):
    """How much longer the new machine takes for the same work, and by how many crates."""
    same = [name for name in old if name in new and old[name][0] == new[name][0]]
    before = after = 0.0
    for name in same:
        _, check, edits, seconds = old[name]
        before += check
        after += new[name][1]
        if edits and new[name][2]:
            before += seconds
            after += new[name][3] * edits / new[name][2]
    return (after / before if before else 1.0), len(same)


def beside(old_path, new_path, title):
    (old, old_sums), (new, new_sums) = read(old_path), read(new_path)
    factor, same = scale(old, new)
    print("| %s | before | before, on this machine | after |\n|---|---|---|---|" % title)
    for name, word in (("whole", "the whole gate"), ("processor", "processor time of both cores")):
        if name in old_sums and name in new_sums:
            print("| %s | %s | %s | %s |" % (word, minutes(old_sums[name]), minutes(round(old_sums[name] * factor)), minutes(new_sums[name])))
    for word, at in (("checks, one core", 0), ("edits, one core", 2)):
        print("| %s | %s | %s | %s |" % (word, minutes(all_of(old)[at]), minutes(round(all_of(old)[at] * factor)), minutes(all_of(new)[at])))
    print("| crates, edits | %d, %d | | %d, %d |" % (len(old), all_of(old)[1], len(new), all_of(new)[1]))
    print("\nThis machine takes %.2f of the time of the other, by the %d crates whose code did not change.\n" % (factor, same))
    print("| crate | before, on this machine | after | edits |\n|---|---|---|---|")
    for name in list(old) + [name for name in new if name not in old]:
        was, now = old.get(name, ("", 0, 0, 0)), new.get(name, ("", 0, 0, 0))
        spent = round((was[1] + was[3]) * factor), now[1] + now[3]
        if abs(spent[0] - spent[1]) > 15:
            print("| `%s` | %d s | %d s | %d, then %d |" % ((name,) + spent + (was[2], now[2])))


if len(sys.argv) == 4:
    beside(*sys.argv[1:])
elif len(sys.argv) in (2, 3) and not sys.argv[1].startswith("-"):
    record(sys.argv[1], int(sys.argv[2]) if len(sys.argv) == 3 else 0)
else:
    print(__doc__)
