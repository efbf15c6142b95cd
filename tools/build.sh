#!/usr/bin/env bash
# Proves and builds what is used from outside: tools/build.sh NAME.., by default all three. arcs and sheet are the static libraries target/staticlib/libarcs.a and
# libsheet.a, of the crates arcs_c and sheet_c; report is the program target/bin/report. What a check has proved before, and what has not changed since, is not proved again.
set -eu
cd "$(dirname "$0")/.."
[ $# -gt 0 ] || set -- arcs sheet report
for name in "$@"; do
    case $name in
        arcs | sheet)
            (cd "crates/${name}_c" && rt lib)
            install -D -m 644 "crates/${name}_c/out/lib${name}_c.a" "target/staticlib/lib$name.a"
            ;;
        report)
            # rt runs what it has built, here on the crate's own sheet.
            (cd crates/report && rt run <stdin >/dev/null)
            install -D crates/report/out/report target/bin/report
            ;;
        *)
            echo "tools/build.sh [arcs|sheet|report].." >&2
            exit 2
            ;;
    esac
done
