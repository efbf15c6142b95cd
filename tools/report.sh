#!/usr/bin/env bash
# The report of a sheet: tools/report.sh SHEET, or with the sheet on standard input. Proves and builds the program first where it has not been built.
# The program is run under the toolchain's own loader and C library where it has them, since the machine's may be older than what it was linked to.
set -eu
root=$(cd "$(dirname "$0")/.." && pwd)
program=$root/target/bin/report
if [ ! -x "$program" ]; then
    "$root/tools/build.sh" report >&2
fi
# rt stands in the toolchain's folder bin/, or a link to it does on the PATH; asking it (rt doc) takes longer than the program.
rt=$(command -v rt || true)
lib=$(dirname "$(dirname "$(readlink -f "${rt:-/bin/rt}")")")/toolchain/lib
run=("$program")
if [ -x "$lib/ld-linux-x86-64.so.2" ]; then
    run=("$lib/ld-linux-x86-64.so.2" --library-path "$lib" "$program")
fi
if [ $# -gt 0 ]; then
    exec "${run[@]}" <"$1"
fi
exec "${run[@]}"
