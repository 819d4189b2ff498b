#!/usr/bin/env bash
# The scripts `exam` and `key` around their programs: first uses at once, failures with their own sentences, staleness, options. A stand-in for the kit builds
# a stand-in for the program, so that a build takes half a second.
set -euo pipefail
cd "$(dirname "$0")/.."
work=$(mktemp -d)
trap 'chmod -R u+w "$work"; rm -rf "$work"' EXIT

fault() {
    echo "exam_script_test: $1" >&2
    exit 1
}

# tree NAME: a fresh checkout with nothing built
tree() {
    here=$work/$1
    mkdir -p "$here/crates/exam/src" "$here/crates/key" "$here/tools" "$here/kit"
    cp exam key "$here/"
    cp tools/program.sh tools/explain.py "$here/tools/"
    echo 'exam:' >"$here/crates.txt"
    echo '// source' >"$here/crates/exam/src/main.rt"
    echo 'kit one' >"$here/kit/version"
    : >"$here/kit/builds"
    echo good >"$here/kit/behaviour"
    cat >"$here/kit/program" <<'END'
#!/usr/bin/env bash
text=$(cat)
case $text in
    bad*) echo 'refused 10' ;;
    fail*) exit 3 ;;
    mute*) echo "${0##*/}: standard input cannot be read" >&2 ;;
    *) echo "answer to $text" ;;
esac
END
    cat >"$here/kit/rt" <<'END'
#!/usr/bin/env bash
kit=$(dirname "$0")
case $1 in
    version) cat "$kit/version" ;;
    run)
        crate=${PWD##*/}
        echo "$crate" >>"$kit/builds"
        mkdir "$kit/busy" || echo 'two builds at once' >>"$kit/builds"
        sleep 0.5
        rmdir "$kit/busy"
        case $(cat "$kit/behaviour") in
            unproved) echo 'logic=not-proved'; exit 1 ;;
            broken) echo 'no space left on device'; exit 1 ;;
            slow) sleep 300 & echo $! >"$kit/worker"; wait ;;
            changing) echo '// meanwhile' >>../exam/src/main.rt ;;
        esac
        mkdir -p out
        cp "$kit/program" "out/$crate"
        ;;
esac
END
    chmod +x "$here/kit/rt" "$here/kit/program"
    PATH=$here/kit:$plain
}
# the path without the kit
plain=
IFS=: read -ra folders <<<"$PATH"
for folder in "${folders[@]}"; do
    [ -x "$folder/rt" ] || plain=${plain:+$plain:}$folder
done
name=exam
builds() { grep -cx "$name" "$here/kit/builds" || true; }

# expect STATUS TEXT SENTENCE ARGUMENTS ..: runs the script on the text, and looks for its status and for a sentence in what it says
expect() {
    local status=$1 text=$2 sentence=$3 got=0
    shift 3
    printf '%s\n' "$text" | "$here/$name" "$@" >"$work/out" 2>"$work/err" || got=$?
    [ "$got" -eq "$status" ] || fault "status $got and not $status for '$text' ($(cat "$work/err"))"
    grep -q -- "$sentence" "$work/out" "$work/err" || fault "'$sentence' was not said: $(cat "$work/out" "$work/err")"
}

# two first uses at once: one build, two answers
tree together
echo one | "$here/exam" >"$work/one" 2>"$work/one.err" &
first=$!
echo two | "$here/exam" >"$work/two" 2>"$work/two.err" || fault 'the second use failed'
wait "$first" || fault 'the first use failed'
[ "$(cat "$work/one" "$work/two")" = "$(printf 'answer to one\nanswer to two')" ] || fault 'the answers of two uses at once'
[ "$(builds)" -eq 1 ] || fault 'two builds for two uses at once'

# each failure has its own sentence
tree failures
expect 0 hello 'answer to hello'
expect 1 fail 'the run failed with status 3'
expect 1 mute 'standard input cannot be read'
tree unproved
echo unproved >"$here/kit/behaviour"
expect 1 hello 'is not proved'
tree broken
echo broken >"$here/kit/behaviour"
expect 1 hello 'could not be built'
tree nokit
PATH=$plain expect 1 hello 'the Rattle kit is needed'
tree unwritable
: >"$here/target"
expect 1 hello 'no right to write'

# an interrupted build stops all that it started, and is made again
tree interrupted
echo slow >"$here/kit/behaviour"
echo hello | "$here/exam" >"$work/out" 2>"$work/err" &
script=$!
for _ in $(seq 100); do [ -s "$here/kit/worker" ] && break; sleep 0.1; done
kill -TERM "$script"
wait "$script" && fault 'an interrupted build gave status 0'
grep -q 'interrupted' "$work/err" || fault "an interrupted build said: $(cat "$work/err")"
sleep 0.5
worker=$(cat "$here/kit/worker")
[ -e "/proc/$worker/stat" ] && ! grep -q ') Z ' "/proc/$worker/stat" && fault 'what the build started still runs'
echo good >"$here/kit/behaviour"
expect 0 hello 'answer to hello'

# by a symbolic link, with CDPATH, without TMPDIR, and from a tree that nobody can write
tree places
expect 0 hello 'answer to hello'
ln -s "$here/exam" "$work/link"
[ "$(echo hello | "$work/link")" = 'answer to hello' ] || fault 'by a symbolic link'
[ "$(cd "$here" && echo hello | CDPATH=/ ./exam)" = 'answer to hello' ] || fault 'with CDPATH'
[ "$(echo hello | TMPDIR=/missing "$here/exam")" = 'answer to hello' ] || fault 'without TMPDIR'
chmod -R a-w "$here"
if [ "$(id -u)" -eq 0 ]; then
    chmod a+rx "$work"
    [ "$(echo hello | setpriv --reuid=65534 --regid=65534 --clear-groups "$here/exam")" = 'answer to hello' ] || fault 'from a tree that cannot be written'
else
    [ "$(echo hello | "$here/exam")" = 'answer to hello' ] || fault 'from a tree that cannot be written'
fi
chmod -R u+w "$here"

# never stale, and never used after a failed build
tree stale
expect 0 hello 'answer to hello'
[ "$(builds)" -eq 1 ] || fault 'the first use did not build once'
expect 0 hello 'answer to hello'
[ "$(builds)" -eq 1 ] || fault 'built again though nothing changed'
echo '// another' >>"$here/crates/exam/src/main.rt"
expect 0 hello 'answer to hello'
[ "$(builds)" -eq 2 ] || fault 'not built again for another source'
echo 'kit two' >"$here/kit/version"
expect 0 hello 'answer to hello'
[ "$(builds)" -eq 3 ] || fault 'not built again for another kit'
echo '// a third' >>"$here/crates/exam/src/main.rt"
echo unproved >"$here/kit/behaviour"
expect 1 hello 'is not proved'
expect 1 hello 'is not proved'

# what the kit leaves beside the sources counts as none of them, and what the gate has just proved is taken as it is
tree taken
expect 0 hello 'answer to hello'
echo '// left' >"$here/crates/exam/out/left.rt"
expect 0 hello 'answer to hello'
[ "$(builds)" -eq 1 ] || fault 'built again for what the kit left'
echo '// another' >>"$here/crates/exam/src/main.rt"
PROVED_HERE=yes expect 0 hello 'answer to hello'
[ "$(builds)" -eq 1 ] || fault 'built again though the gate has just proved it'
expect 0 hello 'answer to hello'
[ "$(builds)" -eq 1 ] || fault 'built again after the gate'

# a source that changes during the build
tree changing
echo changing >"$here/kit/behaviour"
expect 1 hello 'a source was changed while the program was built'
echo good >"$here/kit/behaviour"
expect 0 hello 'answer to hello'
[ "$(builds)" -eq 2 ] || fault 'a program of changed sources was used'

# the version: the commit that the program was built of, whatever the checkout and git say later
tree version
inside() { git -C "$here" -c user.name=test -c user.email=test@test.invalid "$@"; }
commit() { inside commit -q --allow-empty -m "$1" && inside rev-parse HEAD; }
inside init -q
inside add crates crates.txt
one=$(commit one)
expect 0 '' "^no program is built of these sources by kit kit one; the checkout is at commit $one\$" --version
expect 0 hello 'answer to hello'
two=$(commit two)
expect 0 '' "^kit kit one, commit $one\$" --version
PATH=$plain expect 0 '' "^kit kit one, commit $one\$" --version
printf '#!/bin/sh\nexit 128\n' >"$here/kit/git"
chmod +x "$here/kit/git"
expect 0 '' "^kit kit one, commit $one\$" --version
name=key expect 0 '' '^no program is built of these sources by kit kit one; the checkout is at commit not known$' --version
rm "$here/kit/git"
if [ "$(id -u)" -eq 0 ]; then
    chmod a+rx "$work"
    said=$(HOME=$work setpriv --reuid=65534 --regid=65534 --clear-groups "$here/exam" --version)
    [ "$said" = "kit kit one, commit $one" ] || fault "another user was told: $said"
fi
echo '// another' >>"$here/crates/exam/src/main.rt"
expect 0 '' "^no program is built of these sources by kit kit one; the checkout is at commit $two and changes since\$" --version
PATH=$plain expect 0 '' "^no program is built of these sources; the checkout is at commit $two and changes since\$" --version
name=key expect 0 hello 'answer to hello'
name=key expect 0 '' "^kit kit one, commit $two and changes since\$" --version
inside add crates
three=$(commit three)
expect 0 hello 'answer to hello'
expect 0 '' "^kit kit one, commit $three\$" --version
echo 'kit two' >"$here/kit/version"
expect 0 '' "^no program is built of these sources by kit kit two; the checkout is at commit $three\$" --version

# a closed output
tree closed
expect 0 hello 'answer to hello'
got=0
echo hello | "$here/exam" >&- 2>"$work/err" || got=$?
[ "$got" -eq 1 ] && grep -q 'standard output is closed' "$work/err" || fault "status $got with standard output closed: $(cat "$work/err")"
{ { sleep 0.5; echo hello; } | { "$here/exam" 2>"$work/err"; echo $? >"$work/status"; } | true; } || true
for _ in $(seq 50); do [ -s "$work/status" ] && break; sleep 0.1; done
[ "$(cat "$work/status")" -eq 1 ] && [ -s "$work/err" ] || fault "status $(cat "$work/status") into a closed pipe: $(cat "$work/err")"

got=0
"$here/exam" <&- >"$work/out" 2>"$work/err" || got=$?
[ "$got" -eq 1 ] && grep -q 'standard input is closed' "$work/err" || fault "status $got with standard input closed: $(cat "$work/err")"
got=0
"$here/exam" --explain <"$work" >"$work/out" 2>"$work/err" || got=$?
[ "$got" -eq 1 ] && grep -q 'standard input is a folder' "$work/err" || fault "status $got for a folder: $(cat "$work/err")"
for option in --help --version; do
    got=0
    "$here/exam" $option >&- 2>"$work/err" || got=$?
    [ "$got" -eq 1 ] || fault "status $got for $option with standard output closed"
done
echo hello >"$work/a"
{ { sleep 0.5; "$here/exam" "$work/a" "$work/a" "$work/a" 2>"$work/err"; echo $? >"$work/many"; } | true; } || true
for _ in $(seq 50); do [ -s "$work/many" ] && break; sleep 0.1; done
[ "$(cat "$work/many")" -eq 1 ] && [ -s "$work/err" ] || fault "status $(cat "$work/many") for several files into a closed pipe"

# options and files
tree options
expect 0 '' 'usage: exam' --help
expect 0 '' 'the program is proved and built' --help
expect 2 '' 'there is no option --wrong' --wrong
for option in --help --version; do
    expect 2 '' "^exam: $option stands alone" $option extra
    expect 2 '' "^exam: $option stands alone" $option ''
    expect 2 '' "^exam: $option stands alone" "$work/a" $option
    expect 2 '' "^exam: $option stands alone" --explain $option
done
[ "$(builds)" -eq 0 ] || fault 'a wrong use built the program'
expect 0 '' 'kit ' --version
echo first >"$work/a"
echo bad >"$work/b"
expect 0 '' 'answer to first' "$work/a"
"$here/exam" "$work/a" "$work/b" >"$work/out"
[ "$(cat "$work/out")" = "$(printf '%s\nanswer to first\n\n%s\nrefused 10' "$work/a" "$work/b")" ] || fault "several files: $(cat "$work/out")"
expect 1 '' "^exam: the file '$work/missing' cannot be read" "$work/missing"
expect 1 '' "^exam: the file '$work/missing' cannot be read" "$work/a" "$work/missing"
[ ! -s "$work/out" ] || fault "answered though one of several files cannot be read: $(cat "$work/out")"
expect 0 bad 'line 1, column 1: expected a decimal digit of n' --explain
[ "$(cat "$work/out")" = 'refused 10' ] || fault 'with --explain another output'

# the script `key`: a first use beside one of `exam`, each program built once and one after the other
name=key
tree beside
echo one | "$here/exam" >"$work/one" 2>"$work/one.err" &
first=$!
expect 0 two 'answer to two'
wait "$first" || fault 'the use of exam beside one of key failed'
[ "$(cat "$work/one" "$work/out")" = "$(printf 'answer to one\nanswer to two')" ] || fault 'the answers of exam and key at once'
[ "$(sort "$here/kit/builds")" = "$(printf 'exam\nkey')" ] || fault "built for exam and key at once: $(cat "$here/kit/builds")"

# its failures, in its own name
expect 1 fail '^key: the run failed with status 3'
expect 1 mute '^key: standard input cannot be read'
expect 1 '' "^key: the file '$work/missing' cannot be read" "$work/missing"
expect 1 '' "^key: the file '' cannot be read" ''
got=0
echo hello | "$here/key" >&- 2>"$work/err" || got=$?
[ "$got" -eq 1 ] && grep -q '^key: standard output is closed' "$work/err" || fault "status $got with standard output closed: $(cat "$work/err")"

# its options and files
expect 0 '' 'usage: key \[FILE' --help
expect 0 '' '^kit kit one, commit ' --version
expect 2 hello '^key: there is no option --explain' --explain
expect 2 '' '^key: --version stands alone' "$work/a" --version
"$here/key" "$work/a" "$work/b" >"$work/out"
[ "$(cat "$work/out")" = "$(printf '%s\nanswer to first\n\n%s\nrefused 10' "$work/a" "$work/b")" ] || fault "several files: $(cat "$work/out")"
ln -s "$here/key" "$work/exam"
[ "$(cd "$here" && echo hello | CDPATH=/ "$work/exam")" = 'answer to hello' ] || fault 'key by a symbolic link of another name'
[ "$(builds)" -eq 1 ] || fault 'key was built again though nothing changed'

# each program is stale for itself, and one that failed to build leaves the other as it was
echo '// another' >>"$here/crates/exam/src/main.rt"
expect 0 hello 'answer to hello'
[ "$(builds)" -eq 2 ] || fault 'key was not built again for another source'
echo unproved >"$here/kit/behaviour"
name=exam expect 1 hello '^exam: the program is not proved'
expect 0 hello 'answer to hello'
echo 'kit two' >"$here/kit/version"
expect 1 hello '^key: the program is not proved'
echo broken >"$here/kit/behaviour"
expect 1 hello '^key: the program could not be built'
PATH=$plain expect 1 hello '^key: the Rattle kit is needed'
rm "$here/tools/program.sh"
expect 1 hello '^key: tools/program.sh cannot be read'
