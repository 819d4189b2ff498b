#!/usr/bin/env bash
# tools/mark on sheets and keys of docs: what is right, wrong and missing, at which line, and each failure with its own sentence and status.
set -euo pipefail
cd "$(dirname "$0")/.."
work=$(mktemp -d)
trap 'rm -rf "$work"' EXIT

fault() {
    echo "mark_test: $1" >&2
    exit 1
}

# expect STATUS SENTENCE ARGUMENTS ..: runs tools/mark, and looks for its status and for a line in what it says
expect() {
    local status=$1 sentence=$2 got=0
    shift 2
    tools/mark "$@" >"$work/out" 2>"$work/err" || got=$?
    [ "$got" -eq "$status" ] || fault "status $got and not $status for $* ($(cat "$work/out" "$work/err"))"
    cat "$work/out" "$work/err" | grep -q -- "$sentence" || fault "'$sentence' was not said: $(cat "$work/out" "$work/err")"
}

# sheets and keys in one folder, two of them refused
texts=$work/texts
mkdir "$texts"
cp docs/sheets/d.txt docs/sheets/g.txt docs/keys/a.txt docs/keys/classroom.txt "$texts/"
printf '0 2  00000000000000000000000000000000 01000000000000000000000000000000\n' >"$texts/empty.txt"
printf '1 1 0 3\n' >"$texts/three.txt"
handed=$work/handed
mkdir -p "$handed/ann"
cp docs/sheets/d.out docs/sheets/g.out docs/keys/a.out docs/keys/classroom.out "$handed/ann/"
echo 'refused 1' >"$handed/ann/empty.out"
echo 'refused 3' >"$handed/ann/three.out"
expect 0 '^ann a: right$' "$texts" "$handed/ann"
expect 0 '^ann  *6  *0  *0$' "$texts" "$handed"

# the first line that differs, by its number
one=$work/one
mkdir "$one"
cp docs/sheets/d.txt "$one/"
tried=$work/bob
mkdir "$tried"
wrong() {
    printf "$1" >"$tried/d.out"
    expect 1 "^bob d: wrong$2\$" "$one" "$tried"
}
wrong '0 2\n1 1\n00 0\n01 2\nheavy 01\nheavy 11\n' " at line 6: 'heavy 11' and not nothing"
wrong '0 2\n1 1\n00 0\n01 2\nheavy 01\n\n' ' at line 6: an empty line and not nothing'
wrong '0 2\n1 1\n00 0\n01 2\n' " at line 5: nothing and not 'heavy 01'"
wrong '0 2\n1 1\n00 0\n01 2' " at line 5: nothing and not 'heavy 01'"
wrong '' " at line 1: nothing and not '0 2'"
wrong '0 2\n\n1 1\n00 0\n01 2\nheavy 01\n' " at line 2: an empty line and not '1 1'"
wrong '0 2\n1 1\n00 0\n01 3\nheavy 01\n' " at line 4: '01 3' and not '01 2'"
wrong '0 2\r\n1 1\r\n00 0\r\n01 2\r\nheavy 01\r\n' " at line 1: '0 2\\\\r' and not '0 2'"
wrong '0 2\n1 1 \n00 0\n01 2\nheavy 01\n' " at line 2: '1 1 ' and not '1 1'"
wrong '0 2\n1 1\n00 0\n01 2\nheavy 01' ': the last newline is missing'
mv "$tried/d.out" "$tried/D.out"
expect 1 '^bob d: missing$' "$one" "$tried"
printf '0 2\n1 1\n00 0\n01 2\nheavy \xff1\n' >"$tried/d.out"
PYTHONIOENCODING=ascii expect 1 '^bob d: wrong at line 5: ' "$one" "$tried"
[ ! -s "$work/err" ] || fault "a byte that is no text: $(cat "$work/err")"

# folders that are missing or hold nothing to mark, and a file beside candidates' folders
mkdir "$work/nothing"
expect 2 "^mark: there is no folder '$work/missing'" "$work/missing" "$handed"
expect 2 "^mark: there is no folder '$work/missing'" "$texts" "$work/missing"
expect 2 "^mark: the folder '$work/nothing' is empty" "$texts" "$work/nothing"
expect 2 "^mark: there is no text NAME.txt in '$work/nothing'" "$work/nothing" "$handed"
cp docs/sheets/d.out "$handed/d.out"
expect 0 "^mark: '$handed/d.out' is ignored" "$texts" "$handed"

# options and wrong uses
expect 0 '^usage: mark TEXTS HANDED-IN' --help
[ ! -s "$work/err" ] || fault 'the usage that was asked for is on standard error'
expect 2 '^usage: mark' --help "$texts"
expect 2 '^usage: mark' --wrong "$texts"
expect 2 '^usage: mark' "$texts"
expect 2 '^usage: mark'

# an output that is closed or full
for arguments in "$one $tried" --help; do
    got=0
    tools/mark $arguments >/dev/full 2>"$work/err" || got=$?
    [ "$got" -eq 1 ] && [ "$(cat "$work/err")" = 'mark: standard output cannot be written' ] || fault "status $got into a full output: $(cat "$work/err")"
    got=0
    tools/mark $arguments >&- 2>"$work/err" || got=$?
    [ "$got" -eq 1 ] && [ "$(cat "$work/err")" = 'mark: standard output is closed' ] || fault "status $got with standard output closed: $(cat "$work/err")"
done
{ { sleep 0.2; tools/mark "$one" "$tried" 2>"$work/err"; echo $? >"$work/status"; } | true; } || true
[ "$(cat "$work/status")" -eq 1 ] && [ "$(cat "$work/err")" = 'mark: standard output was closed before all was written' ] || fault "into a closed pipe: $(cat "$work/err")"
