#!/usr/bin/env bash
# Compares the port with the Rust: the arcs and the root of target/staticlib/libarcs.a, the eight calls on a sheet of libsheet.a beside it,
# and the program target/bin/report. Each must be there and built after the last change of the crates' sources. The oracle is built from
# tenon's unchanged sources (build.sh) and held to document 01's examples and to the frozen lists. The call that solves with a set of
# parameters is compared with the Rust whose four constants are the set's, the call without a set with the Rust built for 60 rounds, the
# two that solve by rounds with a machine over the Rust's own rounds (src/by_rounds.rs). Where a step does not choose sets it names tenon's
# own constants, 200 rounds among them, and so does report. Sheets with gears, which tenon does not have, are compared with the second
# program's rows (src/gear.rs), put into a copy of tenon; the call that writes a sheet, which tenon does not have either, with a second
# writer (src/writing.rs); the number that opening a sheet gives, on sheets with any byte changed, with the oracle's own reader
# (src/sheet.rs). The programs in examples/ are built as C11 and as C++, a warning being an error, and run: settle.c, which solves by rounds
# and at once, and calls.c, which calls every function of include/sheet.h and must print what the Rust answers. Every comparison prints how
# much it compared. Ends with 0 if nothing differs and every kind of case that is wanted was met. Where tenon's sources or rustc are missing
# it says that nothing was compared, and ends with 0, or with 1 if CI is set; where cc or c++ is missing it says so of the programs in
# examples/, and goes on, or ends with 1 if CI is set.
# Took 100 to 180 s on two cores with libraries of the kit before rattle-kit-13f.
set -u
cd "$(dirname "$0")" || exit 2
failed=0
fail() {
    echo "oracle: $*" >&2
    failed=1
}

# Fails unless FILE is there and no source is newer; COMMAND builds it.
built() { # FILE COMMAND
    local newer
    if [ ! -f "../$1" ]; then
        fail "no $1 ($2)"
    else
        newer=$(find ../crates/*/src ../crates/*/specs ../crates/*/proofs -type f -newer "../$1" -print -quit)
        [ -z "$newer" ] || fail "$1 is older than ${newer#../} ($2)"
    fi
}
built target/staticlib/libarcs.a "tools/build.sh arcs"
built target/staticlib/libsheet.a "tools/build.sh sheet"
built target/bin/report "tools/build.sh report"

source_dir=${TENON_SRC:-$(realpath -m ../../shared/docs/src)}
missing=
[ -f "$source_dir/crates/assembly/src/solve.rs" ] || missing="no tenon sources in $source_dir"
command -v rustc >/dev/null || missing="${missing:+$missing, }no rustc"
if [ -n "$missing" ]; then
    if [ -n "${CI:-}" ]; then
        fail "$missing, and CI is set"
    else
        echo "oracle: $missing: nothing was compared with the Rust"
        exit $failed
    fi
fi
[ $failed -eq 0 ] || exit 1

# Makes the frozen lists again: each stands in one program's data, the same, and that program says that it replays it; no other list stands there.
same_lists() {
    local list name copy copies same=0 records=0 wrong=0
    rm -rf build/lists
    build/oracle lists build/lists || return 1
    for list in build/lists/*.bin; do
        name=${list##*/} copies=(../crates/*/data/"${list##*/}")
        if [ ${#copies[@]} -eq 1 ] && cmp "$list" "${copies[0]}" && grep -q "^$name answers .* wrong 0$" "${copies[0]%/data/*}/stdout"; then
            same=$((same + 1)) records=$((records + $(od -An -t u8 -N 8 "$list")))
        else
            echo "$name: not once and the same in crates/*/data, or not replayed there"
            wrong=$((wrong + 1))
        fi
    done
    for copy in ../crates/*/data/*.bin; do
        [ -f "build/lists/${copy##*/}" ] || { echo "$copy: not made by the oracle"; wrong=$((wrong + 1)); }
    done
    echo "frozen lists made again: $same the same, $records records, $wrong wrong"
    [ $wrong -eq 0 ] && [ $same -gt 0 ]
}
# The exact rows are worked on the lists that were just made.
lists_and_rows() {
    local good=0
    same_lists || good=1
    python3 exact_rows.py build/lists 1 2000 || good=1
    return $good
}
# The example that solves by rounds, as C by cc or as C++ by c++.
settled() { # COMPILER
    local program said
    program=$(../examples/build.sh settle "$1") || return 1
    said=$("$program" ../examples/movement.sheet 2>&1) || { echo "$said"; return 1; }
    echo "$said"
    grep -qx "round by round and at once agree" <<<"$said"
}
# What the example that makes every call is held to: examples/calls.txt is what the Rust answers, and the source calls
# every function that include/sheet.h declares.
calls_expected() {
    local call count=0 wrong=0
    build/oracle calls "${example_sheets[@]}" >build/calls.txt || wrong=1
    diff ../examples/calls.txt build/calls.txt || { echo "examples/calls.txt is not what the Rust answers"; wrong=1; }
    for call in $(grep -oE '\bsheet_[a-z_]+\(' ../include/sheet.h | sort -u); do
        count=$((count + 1))
        grep -qE "\b${call%(}\(" ../examples/calls.c || { echo "examples/calls.c does not call ${call%(}"; wrong=1; }
    done
    echo "calls expected: $(wc -l <build/calls.txt) lines of the Rust's answers about ${#example_sheets[@]} sheets, $count functions"
    [ $wrong -eq 0 ] && [ $count -gt 0 ]
}
# What that example prints, as C by cc or as C++ by c++.
called() { # COMPILER
    local program said
    program=$(../examples/build.sh calls "$1") || return 1
    said=$("$program" "${example_sheets[@]}" 2>&1) || { echo "$said"; return 1; }
    diff ../examples/calls.txt - <<<"$said" || return 1
    echo "calls: $(wc -l <<<"$said") lines as examples/calls.txt has them"
}

# Starts a step, as many at a time as there are processors. What it says is printed, in the order of starting, once it has ended.
steps=() shown=0 processors=$(nproc 2>/dev/null || echo 1)
step() { # COMMAND..
    local at=build/steps/${#steps[@]}
    while [ "$(jobs -rp | wc -l)" -ge "$processors" ]; do
        wait -n
        show
    done
    steps+=("$*")
    (
        begin=$SECONDS
        "$@" >"$at.out" 2>&1
        echo "$? $((SECONDS - begin))" >"$at.begun"
        mv "$at.begun" "$at.end"
    ) &
}
show() {
    local status took
    while [ -f "build/steps/$shown.end" ]; do
        read -r status took <"build/steps/$shown.end"
        echo "== ${steps[shown]} ($took s)"
        cat "build/steps/$shown.out"
        [ "$status" -eq 0 ] || fail "FAILED: ${steps[shown]}"
        shown=$((shown + 1))
    done
}

example_sheets=(../examples/{worked,movement,train,impossible}.sheet)
./build.sh || { fail "FAILED: build.sh"; exit 1; }
echo "oracle: built ($SECONDS s)"
rm -rf build/steps
mkdir -p build/steps build/examples
# The example sheets and three more, of which the one of 64 bodies and 128 relations and the jammed one of 32 bodies are asked about.
python3 ../examples/make.py build/examples >/dev/null || fail "FAILED: examples/make.py"
step build/oracle examples
step ./measure.sh
step build/oracle sheet 2 8000
step build/oracle limits ../examples/*.sheet build/examples/full.sheet
step build/oracle run-report ../tools/report.sh 3 300
step build/oracle gears 6 600 ../tools/report.sh
step build/oracle bare 23 400 ../examples/*.sheet build/examples/jammed.sheet
step build/oracle parameters 7 800 ../examples/*.sheet
step build/oracle portions 11 800 ../examples/*.sheet
step calls_expected
for compiler in cc c++; do
    if command -v "$compiler" >/dev/null; then
        step settled "$compiler"
        step called "$compiler"
    elif [ -n "${CI:-}" ]; then
        fail "no $compiler for the programs in examples/, and CI is set"
    else
        echo "oracle: no $compiler: the programs in examples/ were not built with it"
    fi
done
step build/oracle opening
step build/oracle write 4 12000 ../examples/*.sheet
step lists_and_rows
step build/oracle arcs 2000000
wait
show
[ "$shown" -eq "${#steps[@]}" ] || fail "FAILED: ${steps[shown]} did not end"
[ $failed -eq 0 ] && echo "oracle: nothing differs ($SECONDS s)"
exit $failed
