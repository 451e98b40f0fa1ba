#!/usr/bin/env bash
# The examples are what the tool makes of their descriptions; shown as text and made again they are the same files; and their
# reports are the oracle's. Every mistake in a description is said in one line, with its line, and leaves no file changed.
# The dumps and the sheet in docs/FORMATS.md are those of the examples, and its refusals are the header's.
# shellcheck disable=SC2016  # the tool's lines have backquotes in them
set -euo pipefail
cd "$(dirname "$0")/.."
work=$(mktemp -d)
trap 'rm -rf "$work"' EXIT
rustc --edition 2021 -O -D warnings tests/conform.rs -o "$work/conform_test"
# the interpreter itself, where python3 is a script that looks for it: the tool is started some eighty times
PATH="$(python3 -c 'import os, sys; print(os.path.dirname(sys.executable))'):$PATH"

# is FOUND EXPECTED
is() { [ "$1" = "$2" ] || { printf 'found: %s\nexpected: %s\n' "$1" "$2" && exit 1; }; }

# program FOLDER: what the oracle prints for the folder's two files
program() { (cd "$1" && "$work/conform_test" --program <trail); }

# again TABLE TRAIL [NAMES]: two files shown as text and made again are the same; the text stays in $work/shown.txt
again() {
    mkdir -p "$work/again"
    PYTHONIOENCODING=ascii tools/maketrace --show "$@" >"$work/shown.txt"
    tools/maketrace "$work/shown.txt" "$work/again"
    cmp "$work/again/route.tab" "$1"
    cmp "$work/again/trail" "$2"
}

for example in examples/*/; do
    tools/maketrace "$example/description.txt" "$work"
    cmp "$work/route.tab" "$example/route.tab"
    cmp "$work/trail" "$example/trail"
    program "$work" | cmp - "$example/sheet"
    again "$example/route.tab" "$example/trail"
    again "$example/route.tab" "$example/trail" "$example/description.txt"
    echo "$example is as described"
done

# what the program is to refuse can be written and shown too
cat >"$work/odd.txt" <<'TEXT'
kind k a b
place a k
place b =7       # a kind that does not exist
activity none
object o k
event =99 o =4294967295
TEXT
tools/maketrace "$work/odd.txt"
is "$(program "$work")" "refused 4 0"
again "$work/route.tab" "$work/trail" "$work/odd.txt"
sed 's/ *#.*//' "$work/odd.txt" | diff - "$work/shown.txt"

# Names that look like numbers are names: object 1 has the number 0, object 0 the number 1, and =1 is number 1 by itself. Names
# in any script, the line ends of other systems, a mark in front and arcs without spaces are taken.
printf '\xef\xbb\xbfkind k a b\r\nplace a k\rplace b k\nactivity pr\xc3\xbcfen a->b\nactivity 7 b -> b , a->a\nobject 1 k\nobject 0 k\nevent pr\xc3\xbcfen 1\nevent 7 0 =1' >"$work/digits.txt"
printf 'kind k a b\nplace a k\nplace b k\nactivity x a -> b\nactivity y b -> b, a -> a\nobject p k\nobject q k\nevent x p\nevent y q q\n' >"$work/plain.txt"
mkdir "$work/digits" "$work/plain"
tools/maketrace "$work/digits.txt" "$work/digits"
tools/maketrace "$work/plain.txt" "$work/plain"
cmp "$work/digits/route.tab" "$work/plain/route.tab"
cmp "$work/digits/trail" "$work/plain/trail"
again "$work/digits/route.tab" "$work/digits/trail" "$work/digits.txt"
is "$(tail -n 2 "$work/shown.txt")" $'event prüfen 1\nevent 7 0 0'
# a made-up name keeps clear of the names that there are
printf 'object o1 =0\n' >"$work/names.txt"
again "$work/plain/route.tab" "$work/plain/trail" "$work/names.txt"
is "$(grep object "$work/shown.txt")" $'object o1 k0\nobject o1_ k0'

# unchanged: the folder's two files are as they were, and no other is there
mkdir "$work/out" "$work/kept"
tools/maketrace "$work/plain.txt" "$work/out"
cp "$work/out/"* "$work/kept"
unchanged() { diff -r "$work/kept" "$work/out" || { echo "files changed by: $1"; exit 1; }; }

# says STATUS LINE WORDS..: the tool, so called, ends with that status and says that line and nothing else
says() {
    local expected=$1 line=$2 said status=0
    shift 2
    said=$(tools/maketrace "$@" 2>&1 >"$work/printed") || status=$?
    if [ "$status" != "$expected" ] || [ "$said" != "maketrace: $line" ] || [ -s "$work/printed" ]; then
        printf 'maketrace %s\n  ended with %s and said: %s\n  expected %s and: maketrace: %s\n' "$*" "$status" "$said" "$expected" "$line"
        exit 1
    fi
    unchanged "$*"
}

# fault DESCRIPTION LINE: a mistake in a description
fault() {
    printf '%b' "$1" >"$work/fault.txt"
    says 1 "$work/fault.txt: $2" "$work/fault.txt" "$work/out"
}
net='kind k a b\nplace a k\nplace b k\n'
fault 'Kind k a b\n' 'line 1: no statement begins with Kind, but with kind, place, activity, object, event'
fault '# a comment\n\nkind k a\n' 'line 3: written `kind KIND SOURCE SINK`, not `kind k a`'
fault 'kind k a b c\n' 'line 1: written `kind KIND SOURCE SINK`, not `kind k a b c`'
fault "${net}place c\n" 'line 4: written `place PLACE KIND`, not `place c`'
fault "${net}object o\n" 'line 4: written `object OBJECT KIND`, not `object o`'
fault "${net}activity\n" 'line 4: written `activity ACTIVITY IN -> OUT, ..`, not `activity`'
fault "${net}event\n" 'line 4: written `event ACTIVITY OBJECT ..`, not `event`'
fault "${net}kind k a b\n" 'line 4: a second kind with the name k (the first: line 1)'
fault "${net}place a k\n" 'line 4: a second place with the name a (the first: line 2)'
fault "${net}activity x\nactivity x\n" 'line 5: a second activity with the name x (the first: line 4)'
fault "${net}object o k\nobject o k\n" 'line 5: a second object with the name o (the first: line 4)'
# unknown names; a kind's places are looked up last, and their fault has the kind's line
fault 'place p nowhere\n' 'line 1: unknown kind: nowhere (no `kind nowhere ..` stands above)'
fault "${net}object o nowhere\n" 'line 4: unknown kind: nowhere (no `kind nowhere ..` stands above)'
fault "${net}activity x a -> c\nplace c k\n" 'line 4: unknown place: c (no `place c ..` stands above)'
fault "${net}event x\nactivity x\n" 'line 4: unknown activity: x (no `activity x ..` stands above)'
fault "${net}activity x\nevent x o\n" 'line 5: unknown object: o (no `object o ..` stands above)'
fault '# two lines\nkind k a b\nplace a k\n' 'line 2: unknown place: b (no `place b ..` stands in the description)'
# numbers are no names but where one was given
fault "${net}object o k\nactivity x\nevent x 0\n" 'line 6: unknown object: 0 (the object with this number is written =0)'
fault "${net}object o =4294967296\n" 'line 4: no number from 0 to 4294967295: =4294967296'
fault "${net}object o =-1\n" 'line 4: no number from 0 to 4294967295: =-1'
fault "${net}object o =\xc2\xb2\n" 'line 4: no number from 0 to 4294967295: =²'
fault "${net}object o =$(printf '%05000d' 0 | tr 0 9)\n" "line 4: no number from 0 to 4294967295: =$(printf '%059d' 0 | tr 0 9).."
# no names
for name in 'p,q' 'p,' 'p->q' '=5' '='; do
    fault "kind k a b\nobject $name k\n" "line 2: no name: $name (a name has no comma and no -> in it and does not begin with =)"
done
fault "${net}activity x, a -> b\n" 'line 4: no name: x, (a name has no comma and no -> in it and does not begin with =)'
fault "${net}object o k\nactivity x\nevent x o, o\n" 'line 6: a comma parts arcs alone, and no name has one: o,'
fault "${net}place c k,\n" 'line 4: a comma parts arcs alone, and no name has one: k,'
# arcs
fault "${net}activity x a b\n" 'line 4: an arc is written IN -> OUT, not `a b`'
fault "${net}activity x a -> b,\n" 'line 4: an arc is written IN -> OUT, not ``'
fault "${net}activity x a -> -> b\n" 'line 4: an arc is written IN -> OUT, not `a -> -> b`'
fault "${net}activity x a -> b b -> a\n" 'line 4: an arc is written IN -> OUT, not `a -> b b -> a`'
# no text
fault 'kind k a b\n\xff\xfe\n' 'line 2: no text in UTF-8'
fault 'kind k\x1b a b\n' 'line 1: no name: k? (a name has no comma and no -> in it and does not begin with =)'

# mistakes in calling it
says 2 'DESCRIPTION [FOLDER], or --show TABLE TRAIL [NAMES] (try --help)'
says 2 'DESCRIPTION [FOLDER], or --show TABLE TRAIL [NAMES] (try --help)' --shwo a b
says 2 'DESCRIPTION [FOLDER], or --show TABLE TRAIL [NAMES] (try --help)' --show a
says 2 'DESCRIPTION [FOLDER], or --show TABLE TRAIL [NAMES] (try --help)' a b c
says 1 "$work/none.txt: No such file or directory" "$work/none.txt"
says 1 "$work/out: Is a directory" "$work/out"
says 1 "$work/none/route.tab: No such file or directory" "$work/plain.txt" "$work/none"
mkdir -p "$work/held/trail"
says 1 "$work/held/trail: no file that may be written" "$work/plain.txt" "$work/held"
is "$(ls "$work/held")" trail
cp "$work/plain.txt" "$work/held/route.tab"
says 1 "$work/held/route.tab: the description itself; give another FOLDER" "$work/held/route.tab"
cmp "$work/plain.txt" "$work/held/route.tab"
# where there is no room for the trail, the table is not written either: no file may pass 1,024 bytes here
{ cat "$work/plain.txt" && for _ in {1..100}; do echo 'event x p'; done; } >"$work/long.txt"
(ulimit -f 1 && says 1 "$work/out/trail: File too large" "$work/long.txt" "$work/out")

# files that cannot be shown
says 1 "$work/kept/trail: body 0 is broken: start 16, length 8; expected start 32, in a file of 52 bytes" --show "$work/kept/trail" "$work/kept/route.tab"
head -c 15 "$work/kept/trail" >"$work/cut"
says 1 "$work/cut: shorter than its contents: 15 bytes of 16" --show "$work/kept/route.tab" "$work/cut"
{ cat "$work/kept/trail" && printf 1; } >"$work/cut"
says 1 "$work/cut: 1 bytes after the last body" --show "$work/kept/route.tab" "$work/cut"
printf '\x10\0\0\0\x04\0\0\0\x14\0\0\0\x08\0\0\0\0\0\0\0\0\0\0\0\x05\0\0\0' >"$work/cut"
says 1 "$work/cut: the events body ends inside the event at byte 20" --show "$work/kept/route.tab" "$work/cut"
echo 'kind k' >"$work/names.txt"
says 1 "$work/names.txt: line 1: written \`kind KIND SOURCE SINK\`, not \`kind k\`" --show "$work/kept/route.tab" "$work/kept/trail" "$work/names.txt"
status=0
said=$(tools/maketrace --show "$work/kept/route.tab" "$work/kept/trail" 2>&1 >/dev/full) || status=$?
is "$status $said" "1 maketrace: standard output: No space left on device"
echo "mistakes are said, and no file is left half written"

# docs/FORMATS.md: its dumps, its sheet and its refused trail are those of T4 (the record's dump: tests/c_client.sh)
page=docs/FORMATS.md
python3 tests/dump.py "$page" table-M | cmp - examples/T4/route.tab
python3 tests/dump.py "$page" trail-T4 | cmp - examples/T4/trail
python3 tests/dump.py "$page" sheet-T4 | cmp - examples/T4/sheet
cp examples/T4/route.tab "$work"
head -c 92 examples/T4/trail >"$work/trail"
program "$work" | diff - <(sed -n '/^    \$ head -c 92 trail/ { n; s/^    //p; }' "$page")
# its refusals are those of the header, with the trail file's 71 and 73 that no C function gives; and it names every C function
diff <(sed -n 's/^| \([0-9]\{1,2\}\) |.*/\1/p' "$page") \
    <({ sed -n 's/^ \*  *\([0-9]\{1,2\}\)  .*/\1/p' include/conform.h && printf '71\n73\n'; } | sort -nu)
functions() { grep -o 'conform_[a-z]*\(_[a-z]*\)\?' | sort -u; }
calls=$(grep '^uint64_t' include/conform.h | functions)
diff <(functions <"$page") <(echo "$calls")
# 51 and 52 come from the calls that the header names beside them, 61 from all calls but the three that write nothing beside a trail
for number in 51 52; do
    diff <(grep "^| $number |" "$page" | functions) <(grep "^ \*  *$number  " include/conform.h | functions)
done
diff <(grep '^| 61 |' "$page" | functions) <(grep -v -x 'conform_load\|conform_event\|conform_close' <<<"$calls")
echo "$page is as the files and the header are"
