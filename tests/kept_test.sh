#!/usr/bin/env bash
# Lists of nodes as tally.h has them, and that a refusal changes none: tests/kept.c.
set -euo pipefail
cd "$(dirname "$0")/.."
work=$(mktemp -d)
trap 'rm -rf "$work"' EXIT

[ -f target/staticlib/libcapi.a ] || { echo 'kept_test: target/staticlib/libcapi.a is not built' >&2; exit 1; }
cc -std=c99 -Wall -Wextra -Werror -pedantic -O2 -fsanitize=undefined -fno-sanitize-recover=all -Iinclude tests/kept.c target/staticlib/libcapi.a -o "$work/kept"
"$work/kept"
