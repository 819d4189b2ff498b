#!/usr/bin/env bash
# The library put under a prefix by tools/install: a program compiled with the flags of its pkg-config file prints what it should; and each failure
# has its sentence.
set -euo pipefail
cd "$(dirname "$0")/.."
work=$(mktemp -d)
trap 'rm -rf "$work"' EXIT

fault() {
    echo "install_test: $1" >&2
    exit 1
}

[ -f target/staticlib/libcapi.a ] || fault 'target/staticlib/libcapi.a is not built'

# by_hand FILE: the flags of a pkg-config file, whose variables are written as a shell's
by_hand() (
    eval "$(grep -E '^[a-z]+=' "$1")"
    eval "echo $(sed -n -E 's/^(Cflags|Libs): //p' "$1" | tr '\n' ' ')"
)

# installed: the three files, what was said of them, and a program over them
prefix=$work/prefix
tools/install "$prefix" >"$work/said"
[ "$(cat "$work/said")" = "$(printf '%s\n' "$prefix/include/tally.h" "$prefix/lib/libcapi.a" "$prefix/lib/pkgconfig/tally.pc")" ] || fault "it said: $(cat "$work/said")"
cmp include/tally.h "$prefix/include/tally.h"
cmp target/staticlib/libcapi.a "$prefix/lib/libcapi.a"
flags=$(by_hand "$prefix/lib/pkgconfig/tally.pc")
[ "$flags" = "-I$prefix/include -L$prefix/lib -lcapi" ] || fault "the flags are $flags"
if command -v pkg-config >/dev/null; then
    asked() { PKG_CONFIG_PATH=$prefix/lib/pkgconfig pkg-config "$@" tally; }
    flags=$(asked --cflags --libs)
    grep -qx "#define TALLY_VERSION \"$(asked --modversion)\"" include/tally.h || fault 'the version is not the header'"'"'s'
fi
read -ra flags <<<"$flags"
cc -std=c11 -Wall -Wextra -Werror -pedantic -O2 examples/c/two_servers.c "${flags[@]}" -o "$work/two_servers"
printed=$("$work/two_servers")
diff <(printf '%s\n' "$printed") examples/c/two_servers.out || fault 'the program prints something else'
tools/install "$prefix" >"$work/said" || fault 'not a second time'

# expect STATUS SENTENCE COMMAND ..: the command's status, and a sentence in what it says
expect() {
    local status=$1 sentence=$2 got=0
    shift 2
    "$@" >"$work/said" 2>&1 || got=$?
    [ "$got" -eq "$status" ] || fault "status $got and not $status: $(cat "$work/said")"
    grep -q -- "$sentence" "$work/said" || fault "'$sentence' was not said: $(cat "$work/said")"
}

# failures and wrong uses
: >"$work/file"
expect 1 'could not be made' tools/install "$work/file"
expect 1 'cannot stand in a pkg-config file' tools/install "$work/a b"
[ ! -e "$work/a b" ] || fault 'a folder was made for a name that is refused'
expect 2 'usage: install' tools/install
expect 2 'usage: install' tools/install --wrong
expect 2 'usage: install' tools/install "$work/one" "$work/two"
expect 0 'usage: install' tools/install --help

# a tree where the library is not built: without the kit, and with a stand-in for it
plain=
IFS=: read -ra folders <<<"$PATH"
for folder in "${folders[@]}"; do
    [ -x "$folder/rt" ] || plain=${plain:+$plain:}$folder
done
tree=$work/tree
mkdir -p "$tree/tools" "$tree/include" "$tree/kit" "$tree/crates/capi_c"
cp tools/install tools/library "$tree/tools/"
cp include/tally.h "$tree/include/tally.h"
PATH=$plain expect 1 'the Rattle kit is needed' "$tree/tools/install" "$work/other"
[ ! -e "$work/other" ] || fault 'something was written without a library'
printf '#!/usr/bin/env bash\nexit 1\n' >"$tree/kit/rt"
chmod +x "$tree/kit/rt"
PATH=$tree/kit:$plain expect 1 'could not be built' "$tree/tools/install" "$work/other"
printf '#!/usr/bin/env bash\n[ "$*" = lib ] && [ "${PWD##*/}" = capi_c ] && mkdir -p out && echo built >out/libcapi_c.a\n' >"$tree/kit/rt"
PATH=$tree/kit:$plain expect 0 'lib/libcapi.a' "$tree/tools/install" "$work/other"
[ "$(cat "$work/other/lib/libcapi.a")" = built ] || fault 'another library than the one that was built'
