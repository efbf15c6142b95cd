#!/usr/bin/env bash
# Times the calls of target/staticlib/libsheet.a beside those of OTHER, a libsheet.a that was built at another time, on each SHEET, in one run:
# the two take turns. Prints both times, the ratio of the first to the second, and whether the two give the same; ends with 1 where they do not.
# The line `solve` is of the call without a set, `200` of the call that names 200 rounds. On a sheet that makes more than 60 rounds, a library
# whose call without a set makes 200 differs in the first and not in the second. OTHER must have the call with a set.
# Needs rustc and objcopy. Takes 17 s a sheet.
set -eu
if [ $# -lt 2 ]; then
    echo "oracle/beside.sh OTHER SHEET.." >&2
    exit 2
fi
here=$(cd "$(dirname "$0")" && pwd)
other=$1
shift
mkdir -p "$here/build"
renamed=()
for call in judge joint_reading snap solve solve_with solve_begin solve_on dof write; do
    renamed+=(--redefine-sym "sheet_$call=other_$call")
done
objcopy "${renamed[@]}" "$other" "$here/build/libother.a"
rustc --edition 2024 -C opt-level=3 "$here/src/beside.rs" -L "native=$here/build" -L "native=$here/../target/staticlib" -l static=sheet -l static=other -l m -o "$here/build/beside"
"$here/build/beside" "$@"
