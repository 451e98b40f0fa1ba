#!/usr/bin/env bash
# The C functions of libclient.a against the oracle.   client.sh [ROUNDS] [SEED]
set -eu
cd "$(dirname "$0")/.."
work=$(mktemp -d)
trap 'rm -rf "$work"' EXIT
# the gate builds the archive; after an edit, build it anew with tools/build
[ -f target/staticlib/libclient.a ] || tools/build
rustc --edition 2021 -O -D warnings -L target/staticlib -l static=client tests/client.rs -o "$work/client_test"
"$work/client_test" "$@"
# the first rounds again, where every access to memory is watched
if command -v valgrind >/dev/null && [ $# -eq 0 ]; then
    valgrind --error-exitcode=1 -q "$work/client_test" 12
fi
