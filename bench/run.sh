#!/usr/bin/env bash
# Builds the library, the program and the baseline, and measures them side by side.   run.sh [REPETITIONS]
# On both sides of a call each function starts at a multiple of 64 bytes, so that no figure hangs on where the linker puts it. The
# loops of an event stay where the compiler puts them, and the same code takes 2 to 7 % more or less by how they lie in the
# processor's lines of 64 bytes. So the library's function is there eight times, 0, 8, .. 56 bytes behind the start of a line, and
# repetition after repetition takes the next one.
set -eu
cd "$(dirname "$0")/.."
work=$(mktemp -d)
trap 'rm -rf "$work"' EXIT
tools/build
(cd crates/bench_c && rt lib)
for name in client bench; do
    objcopy -w --set-section-alignment '.text.*=64' "crates/${name}_c/out/lib${name}_c.a" "$work/lib$name.a"
done
(cd "$work" && ar x libbench.a bench_c.o && objcopy --set-section-alignment .text.conform_bench_events=1 bench_c.o bench.o)
for at in 0 8 16 24 32 40 48 56; do
    echo "SECTIONS { .text.conform_bench_events_$at : ALIGN(64) { BYTE(0x90) . = $at; *(.text.conform_bench_events) } }" >"$work/script"
    [ "$at" -gt 0 ] || sed -i 's/BYTE(0x90) . = 0;//' "$work/script"
    ld -r -T "$work/script" "$work/bench.o" -o "$work/placed_$at.o"
    objcopy --redefine-sym "conform_bench_events=conform_bench_events_$at" "$work/placed_$at.o"
done
rm "$work/libbench.a"
ar rcs "$work/libbench.a" "$work"/placed_*.o
build() { rustc --edition 2021 -C opt-level=3 -C llvm-args=-align-all-functions=6 -D warnings "$@"; }
build bench/conform.rs -o "$work/baseline_conform"
build -L "$work" -l static=client -l static=bench bench/bench.rs -o "$work/bench"
"$work/bench" target/bin/conform "$work/baseline_conform" "$@"
