#!/usr/bin/env bash
# Measures sum(), max and other methods of f64 on this compiler at several optimisation levels. Prints each
# finding with the levels that give it, and fails where it is not what measure.txt holds.
set -eu
cd "$(dirname "$0")"
mkdir -p build
for level in 0 1 2 3 s; do
    rustc --edition 2024 -C opt-level=$level measure.rs -o build/measure
    build/measure | sed "s/^/$level /"
done | sort -s -k 2 | awk '
    { level = $1; sub(/^[^ ]+ /, ""); if ($0 != last) { if (last) print levels ": " last; levels = level } else levels = levels " " level; last = $0 }
    END { print levels ": " last }' > build/measure.txt
cat build/measure.txt
cmp build/measure.txt measure.txt
