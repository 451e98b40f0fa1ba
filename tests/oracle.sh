#!/usr/bin/env bash
# The oracle's own checks: T1 to T13 of document 01, and that FIT is the nearest figure.
set -eu
cd "$(dirname "$0")/.."
work=$(mktemp -d)
trap 'rm -rf "$work"' EXIT
rustc --edition 2021 -O -D warnings --test tests/oracle.rs -o "$work/oracle"
"$work/oracle"
