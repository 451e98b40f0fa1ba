#!/usr/bin/env bash
# The program against the oracle: examples, refusals, random, damaged and long inputs, outputs that fail.   conform.sh [ROUNDS] [SEED]
set -eu
cd "$(dirname "$0")/.."
work=$(mktemp -d)
trap 'rm -rf "$work"' EXIT
[ -x target/bin/conform ] || tools/build
rustc --edition 2021 -O -D warnings tests/conform.rs -o "$work/conform_test"
"$work/conform_test" target/bin/conform examples "$@"
