#!/usr/bin/env python3
"""dump.py PAGE NAME: writes the bytes of the dump NAME of a page, or the text of its block NAME, to standard output.

A block of a page begins with ```NAME and ends with ```. Where its lines have bars it is a dump: each line is
`where | bytes | numbers | words`, and where and numbers must be those of the bytes, four to a number.
"""
import re
import sys

page, name = sys.argv[1:]
with open(page, encoding="utf-8") as source:
    found = re.findall("^```%s\n(.*?)^```$" % re.escape(name), source.read(), re.DOTALL | re.MULTILINE)
if len(found) != 1:
    sys.exit("%s: %d blocks %s, not one" % (page, len(found), name))
lines = found[0].splitlines(keepends=True)
out = bytearray()
for line in lines:
    if "|" not in line:
        out += line.encode("utf-8")
        continue
    where, written, numbers, _ = line.split("|", 3)
    row = bytes.fromhex(written)
    four = [int.from_bytes(row[i:i + 4], "little") for i in range(0, len(row), 4)]
    if int(where) != len(out) or len(row) % 4 or [int(n) for n in numbers.split()] != four:
        sys.exit("%s: %s: the line of byte %d says otherwise than its bytes: %s" % (page, name, len(out), line.strip()))
    out += row
sys.stdout.buffer.write(out)
