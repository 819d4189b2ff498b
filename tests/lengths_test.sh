#!/usr/bin/env bash
# The lengths that tally.h gives as macros, and the space that the library names, are those of what the calls write: tests/lengths.c.
set -euo pipefail
cd "$(dirname "$0")/.."
work=$(mktemp -d)
trap 'rm -rf "$work"' EXIT

[ -f target/staticlib/libcapi.a ] || { echo 'lengths_test: target/staticlib/libcapi.a is not built' >&2; exit 1; }
cc -std=c11 -Wall -Wextra -Werror -pedantic -O2 -Iinclude tests/lengths.c target/staticlib/libcapi.a -o "$work/lengths"
"$work/lengths"
