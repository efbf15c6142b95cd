#!/usr/bin/env bash
# Builds an example program over include/sheet.h and target/staticlib/libsheet.a, as C11 with cc or as C++11 with c++,
# and prints its path: examples/build.sh NAME [cc|c++]. A warning is an error. The library is proved and built first if
# it is missing.
set -eu
root=$(cd "$(dirname "$0")/.." && pwd)
name=$1 compiler=${2:-cc}
case $compiler in
    cc) language=(-std=c11 -x c) ;;
    c++) language=(-std=c++11 -x c++) ;;
    *) echo "examples/build.sh NAME [cc|c++]" >&2 && exit 2 ;;
esac
library=$root/target/staticlib/libsheet.a
if [ ! -f "$library" ]; then
    "$root/tools/build.sh" sheet >&2
fi
program=$root/target/examples/$name.$compiler
mkdir -p "$root/target/examples"
"$compiler" "${language[@]}" -O2 -Wall -Wextra -Werror -I "$root/include" "$root/examples/$name.c" \
    -x none "$library" -lm -o "$program" >&2
echo "$program"
