#!/bin/sh
# Builds the verified library and the bench, runs all rows (or those that are named) and prints the table. With --write as the first word the
# table goes into docs/BENCHMARKS.md too.
#
#   bench/run.sh [--write] [--no-instructions] [ROW..]
#
# AWD_C_LIB_DIR may name a folder with another libawd_c.a; else the one of this repository is built.
set -eu
here=$(cd "$(dirname "$0")" && pwd)
top=$(dirname "$here")

write=no
if [ "${1:-}" = --write ]; then
    write=yes
    shift
fi

if [ -z "${AWD_C_LIB_DIR:-}" ]; then
    (cd "$top/crates/awd_c" && rt lib >/dev/null)
    AWD_C_LIB_DIR=$top/crates/awd_c/out
fi
export AWD_C_LIB_DIR

# the processor that a static library of the kit is compiled for
RUSTFLAGS="-C target-cpu=x86-64-v2"
export RUSTFLAGS
cargo build --release --offline --quiet --manifest-path "$here/Cargo.toml"

measured=$(mktemp)
trap 'rm -f "$measured"' EXIT
{
    echo "| what | of this run |"
    echo "|---|---|"
    echo "| date | $(date -u +%Y-%m-%d) |"
    echo "| processor | $(sed -n 's/^model name[^:]*: //p' /proc/cpuinfo | head -n 1), $(nproc) cores |"
    echo "| kernel | $(uname -sr) |"
    echo "| load at the start | $(cut -d ' ' -f 1-3 /proc/loadavg) |"
    echo "| Rattle | $(rt version) |"
    echo "| Rust | $(rustc --version) |"
    echo "| instructions | $(valgrind --version 2>/dev/null || echo 'not counted') |"
    echo
    "$here/target/release/bench" "$@"
} | tee "$measured"

if [ $write = yes ]; then
    page=$top/docs/BENCHMARKS.md
    sed -i -e '/^<!-- measured -->$/,/^<!-- end -->$/{/^<!-- measured -->$/r '"$measured" -e '/^<!-- /!d;}' "$page"
fi
