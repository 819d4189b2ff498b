#!/usr/bin/env bash
# Totals read as signed numbers by tally.h, and 12 in the place of 2: tests/weights.c.
set -euo pipefail
cd "$(dirname "$0")/.."
work=$(mktemp -d)
trap 'rm -rf "$work"' EXIT

[ -f target/staticlib/libcapi.a ] || { echo 'weights_test: target/staticlib/libcapi.a is not built' >&2; exit 1; }
cc -std=c11 -Wall -Wextra -Werror -pedantic -O2 -fsanitize=undefined -fno-sanitize-recover=all -Iinclude tests/weights.c target/staticlib/libcapi.a -o "$work/weights"
"$work/weights"
