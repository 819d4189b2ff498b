#!/usr/bin/env bash
# Compares the blocks that `vectors` prints for expander 1 with openssl's AES-128 of the numbers 0 to 3 under the same seed.
set -euo pipefail
cd "$(dirname "$0")/.."
seed=000102030405060708090a0b0c0d0e0f
expected=$(for j in 0 1 2 3; do
    printf 'expander 1 %s\n' "$(printf '%032x' "$j" | xxd -r -p | openssl enc -aes-128-ecb -nopad -K "$seed" | xxd -p)"
done)
printed=$(target/bin/vectors | grep '^expander 1 ')
if [ "$printed" != "$expected" ]; then
    printf 'printed:\n%s\nopenssl:\n%s\n' "$printed" "$expected"
    exit 1
fi
echo 'the four blocks agree'
