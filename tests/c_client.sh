#!/usr/bin/env bash
# The example of a client in C: built against libclient.a and include/conform.h, it prints T4's sheet. The header serves C++ too.
# The record in docs/FORMATS.md is the one that the library writes, and places and activities are counted as the header says. The
# archive asks nothing of outside but memcpy and memset, which a caller without the C library can bring.
set -euo pipefail
cd "$(dirname "$0")/.."
work=$(mktemp -d)
trap 'rm -rf "$work"' EXIT
# the gate builds the archive; after an edit, build it anew with tools/build
[ -f target/staticlib/libclient.a ] || tools/build
build() { gcc -std=c11 -O2 -Wall -Wextra -Werror -Iinclude "$1" -Ltarget/staticlib -lclient -o "$2"; }
build examples/client.c "$work/client"
"$work/client" >"$work/sheet"
diff "$work/sheet" examples/T4/sheet
if command -v valgrind >/dev/null; then
    valgrind --error-exitcode=1 -q "$work/client" >"$work/sheet"
    diff "$work/sheet" examples/T4/sheet
fi
gcc -std=c99 -pedantic -Wall -Wextra -Werror -fsyntax-only -x c include/conform.h
if command -v g++ >/dev/null; then
    g++ -std=c++17 -Wall -Wextra -Werror -fsyntax-only -x c++ include/conform.h
fi
echo "the sheet of T4"
# what else the archive asks of outside: nothing
asked=$(nm -u target/staticlib/libclient.a | awk '$1 == "U" && $2 != "memcpy" && $2 != "memset" { print $2 }' | sort -u)
[ -z "$asked" ] || { echo "libclient.a asks of outside:" "$asked"; exit 1; }
echo "nothing asked of outside but memcpy and memset"
build tests/record.c "$work/record"
"$work/record" examples/T4/route.tab examples/T4/trail 4 >"$work/written"
python3 tests/dump.py docs/FORMATS.md record-T4 | cmp - "$work/written"
"$work/record" examples/trading-1/route.tab examples/trading-1/trail 5 >"$work/written"
echo "the record of docs/FORMATS.md"
