#!/usr/bin/env bash
# Makes every call of include/sheet.h on each sheet and prints the answers: examples/calls.sh [SHEET..], by default the
# four example sheets. Returns 1 if a call is refused or the answers do not agree with each other.
set -eu
examples=$(cd "$(dirname "$0")" && pwd)
program=$("$examples/build.sh" calls)
if [ $# -eq 0 ]; then
    set -- "$examples"/{worked,movement,train,impossible}.sheet
fi
exec "$program" "$@"
