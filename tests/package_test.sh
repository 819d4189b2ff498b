#!/usr/bin/env bash
# The archive for a sitting, taken apart in an empty folder by another user without the kit, answers the sheets and the keys, and marks what is handed in; it names the commits
# that its programs were built of; and each wrong use and failure of tools/package has its status.
set -euo pipefail
cd "$(dirname "$0")/.."
work=$(mktemp -d)
trap 'rm -rf "$work"' EXIT
chmod a+rwx "$work"

fault() {
    echo "package_test: $1" >&2
    exit 1
}

# expect STATUS SENTENCE ARGUMENTS ..: runs tools/package, and looks for its status and for a sentence in what it says
expect() {
    local status=$1 sentence=$2 got=0
    shift 2
    tools/package "$@" >"$work/out" 2>"$work/err" || got=$?
    [ "$got" -eq "$status" ] || fault "status $got and not $status for '$*' ($(cat "$work/out" "$work/err"))"
    cat "$work/out" "$work/err" | grep -q -- "$sentence" || fault "'$sentence' was not said: $(cat "$work/out" "$work/err")"
}

expect 0 '^usage: package \[FOLDER\]' --help
grep -q 'target/package' "$work/out" && grep -q '\.sha256' "$work/out" || fault "the usage does not say where the archive goes: $(cat "$work/out")"
expect 2 '^usage: package' --wrong
expect 2 '^usage: package' --help extra
expect 2 '^usage: package' ''
expect 2 '^usage: package' "$work/made" "$work/other"
[ ! -e "$work/made" ] && [ ! -e "$work/other" ] || fault 'a wrong use made a folder'
: >"$work/file"
expect 1 "^package: the folder $work/file cannot be made or written" "$work/file"

archive=$(tools/package "$work/made")
[ "$(ls "$work/made")" = "$(printf '%s\n' "${archive##*/}" "${archive##*/}.sha256")" ] || fault "it made $(ls "$work/made")"
(cd "$work/made" && sha256sum --quiet -c ./*.sha256)
cat >"$work/try" <<'END'
set -euo pipefail
trap 'echo "package_test: this does not hold in the archive: $BASH_COMMAND" >&2' ERR
cd "$1"
mkdir empty
tar -C empty -xzf "$2"
cd empty/*
sha256sum --quiet -c SHA256SUMS
for sheet in sheets/*.txt; do
    ./exam <"$sheet" | cmp - "${sheet%.txt}.out"
done
for key in keys/*.txt; do
    ./key <"$key" | cmp - "${key%.txt}.out"
done
[ "$(printf '1 1 0 3\n' | ./exam)" = 'refused 3' ]
[ "$(printf '1 1 0\n' | ./key)" = 'refused 10' ]
for program in exam key; do
    ./$program --version | grep -q '^kit .*, commit '
    grep -qxF "    $program: $(./$program --version)" README
    ./$program --help >../help
    grep -q "^usage: $program " ../help
    [ "$(grep -c 'is proved and built\|Rattle kit' ../help)" -eq 0 ]
done
grep -q '^Nothing is proved or built here: what EXAM.md says of a first use, of building and of READING.md is about the full sources' README
mkdir ../handed ../handed/ann ../handed/bob
cp sheets/*.out ../handed/ann/
cp sheets/*.out ../handed/bob/
echo 'heavy 00' >>../handed/bob/d.out
rm ../handed/bob/g.out
tools/mark sheets ../handed/ann >/dev/null
status=0
tools/mark sheets ../handed >../marked || status=$?
[ "$status" -eq 1 ]
grep -q '^bob d: wrong at line' ../marked
grep -q '^bob g: missing' ../marked
grep -qE '^ann +5 +0 +0$' ../marked
mkdir ../both ../both/texts ../both/cid
cp sheets/d.txt keys/a.txt ../both/texts/
cp sheets/d.out keys/a.out ../both/cid/
tools/mark ../both/texts ../both/cid >/dev/null
mv bin/key.built bin/kept
[ "$(./key --version 2>&1)" = "key: this package is not whole: $PWD/bin/key or $PWD/bin/key.built is missing" ]
mv bin/kept bin/key.built
END
run=(env -i PATH=/usr/bin:/bin HOME="$work")
[ "$(id -u)" -ne 0 ] || run=(setpriv --reuid=65534 --regid=65534 --clear-groups "${run[@]}")
"${run[@]}" bash "$work/try" "$work" "$archive"

# the commits in an archive of a checkout that went on after its programs were built, with a stand-in for the kit that builds what is built here
tree=$work/tree
mkdir -p "$tree/kit" "$tree/tools" "$tree/crates/exam" "$tree/crates/key" "$tree/docs"
cp exam key "$tree/"
cp tools/program.sh tools/package tools/explain.py tools/mark "$tree/tools/"
cp -r docs/EXAM.md docs/sheets docs/keys docs/drawings "$tree/docs/"
echo '// source' >"$tree/crates/exam/main.rt"
echo 'exam:' >"$tree/crates.txt"
cat >"$tree/kit/rt" <<END
#!/usr/bin/env bash
case \$1 in
    version) echo kit one ;;
    run) mkdir -p out && cp "$PWD/target/bin/\${PWD##*/}" out/ ;;
esac
END
chmod +x "$tree/kit/rt"
PATH=$tree/kit:$PATH
inside() { git -C "$tree" -c user.name=test -c user.email=test@test.invalid "$@"; }
commit() { inside add crates crates.txt exam key tools docs && inside commit -q -m "$1" && inside rev-parse HEAD; }
inside init -q
one=$(commit one)
"$tree/exam" "$tree/docs/sheets/g.txt" >/dev/null 2>&1
echo 'Another line.' >>"$tree/docs/EXAM.md"
two=$(commit two)
"$tree/key" "$tree/docs/keys/a.txt" >/dev/null 2>&1
echo 'A third line.' >>"$tree/docs/EXAM.md"
three=$(commit three)
archive=$("$tree/tools/package")
[ "$archive" = "$tree/target/package/vembuzsa-exam-${three:0:12}.tar.gz" ] || fault "the archive is $archive"
[ -f "$archive.sha256" ] || fault 'there is no checksum beside the archive'
mkdir "$work/apart"
tar -C "$work/apart" --strip-components=1 -xzf "$archive"
[ "$("$work/apart/exam" --version)" = "kit kit one, commit $one" ] || fault "the archive's exam says: $("$work/apart/exam" --version)"
[ "$("$work/apart/key" --version)" = "kit kit one, commit $two" ] || fault "the archive's key says: $("$work/apart/key" --version)"
grep -q "Scripts and pages are those of commit $three\\.$" "$work/apart/README" || fault "the archive's page says: $(cat "$work/apart/README")"
