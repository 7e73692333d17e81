#!/bin/sh
# Builds the example in C, tries the header as C++, runs the example on the kitchen, and compares what it prints with what was worked out by hand
# from docs/FORMAT.md (kitchen.out). AWD_C_LIB_DIR may name the folder of a libawd_c.a that is already there; else it is proved and built.
set -eu
top=$(cd "$(dirname "$0")/.." && pwd)
strict="-Wall -Wextra -Wpedantic -Werror"
if [ -z "${AWD_C_LIB_DIR:-}" ]; then
    (cd "$top/crates/awd_c" && rt lib >/dev/null 2>&1) || { echo "awd_c: not proved; see rt lib in crates/awd_c" >&2; exit 1; }
    AWD_C_LIB_DIR=$top/crates/awd_c/out
fi
lib="$AWD_C_LIB_DIR/libawd_c.a"
work=$(mktemp -d)
trap 'rm -rf "$work"' EXIT
cc -std=c11 $strict -I"$top/include" "$top/examples/kitchen.c" "$lib" -o "$work/kitchen"
c++ -std=c++11 $strict -I"$top/include" -include awd.h -x c++ -fsyntax-only /dev/null
"$work/kitchen" "$top/crates/awdreplay/data/kitchen.awd" >"$work/printed"
diff "$top/examples/kitchen.out" "$work/printed"
echo "examples: ok"
