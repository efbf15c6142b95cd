#!/usr/bin/env bash
# Watches a sheet settle, round by round: examples/settle.sh [SHEET], by default examples/movement.sheet. Returns 1 if
# solving by rounds and sheet_solve_with do not give the same answer.
set -eu
examples=$(cd "$(dirname "$0")" && pwd)
program=$("$examples/build.sh" settle)
exec "$program" "${1:-$examples/movement.sheet}"
