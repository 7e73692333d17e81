#!/usr/bin/env bash
# Compares the verified library with the second reader. ./compare/run.sh makes the package's own tests and the cases side
# by side; ./compare/run.sh tests and ./compare/run.sh cases make one of them. The cases are two runs, one with a fixed
# seed and one with a seed from the clock, which it prints. ./compare/run.sh long goes on with new seeds for ten minutes.
# AWD_C_LIB_DIR may name the folder of a libawd_c.a that is already there; else it is proved and built.
set -euo pipefail
cd "$(dirname "$0")"
compare=target/release/compare

build() {
    if [ -z "${AWD_C_LIB_DIR:-}" ]; then
        log=$(mktemp)
        trap 'rm -f "$log"' EXIT
        (cd ../crates/awd_c && rt lib) >"$log" 2>&1 || { cat "$log" >&2; exit 1; }
        AWD_C_LIB_DIR=$PWD/../crates/awd_c/out
    fi
    export AWD_C_LIB_DIR
    cargo build --quiet --offline --release --features library
}

case "${1:-}" in
"")
    ../tools/side_by_side.py <<PARTS
compare/run.sh cases: ./run.sh cases
compare/run.sh tests: ./run.sh tests
PARTS
    ;;
tests)
    cargo test --quiet --offline
    ;;
cases)
    build
    ../tools/side_by_side.py <<PARTS
seed 1: $compare --seed 1 --cases 4000
another seed: $compare --cases 4000
PARTS
    ;;
long)
    build
    end=$((SECONDS + 600))
    while [ "$SECONDS" -lt "$end" ]; do
        "$compare" --cases 5000
    done
    ;;
*)
    echo "usage: ./compare/run.sh [tests | cases | long]" >&2
    exit 2
    ;;
esac
