#!/usr/bin/env bash
# Builds oracle/build/oracle from tenon's unchanged sources (TENON_SRC, else ../shared/docs/src beside the repository) and from
# target/staticlib/libarcs.a and libsheet.a (tools/build.sh arcs sheet).
set -eu
cd "$(dirname "$0")"
source_dir=${TENON_SRC:-$(realpath -m ../../shared/docs/src)}
if [ ! -f "$source_dir/crates/assembly/src/solve.rs" ]; then
    echo "oracle: no tenon sources in $source_dir (set TENON_SRC)" >&2
    exit 3
fi
libs=../target/staticlib
for lib in arcs sheet; do
    if [ ! -f "$libs/lib$lib.a" ]; then
        echo "oracle: no target/staticlib/lib$lib.a; tools/build.sh $lib writes it" >&2
        exit 3
    fi
done
mkdir -p build
python3 adapt.py "$source_dir" build

rust() { rustc --edition 2024 -C opt-level=3 -L build "$@"; }
rust --crate-type rlib --crate-name arcs src/arcs.rs --out-dir build
# The copies of tenon need nothing of each other.
tenon() { rust --crate-type rlib --crate-name "$1" "build/$1/lib.rs" --extern arcs=build/libarcs.rlib "${@:2}" --out-dir build; }
tenon tenon &
first=$!
tenon tenon_max &
second=$!
rust --crate-type rlib --crate-name gear src/gear.rs --extern arcs=build/libarcs.rlib --out-dir build
tenon tenon_gear --extern gear=build/libgear.rlib
wait $first
wait $second
rust --crate-name oracle src/main.rs --extern arcs=build/libarcs.rlib --extern tenon=build/libtenon.rlib \
    --extern tenon_max=build/libtenon_max.rlib --extern tenon_gear=build/libtenon_gear.rlib --extern gear=build/libgear.rlib -L "native=$libs" -l static=sheet -l static=arcs -l m -o build/oracle
