#!/bin/sh
# tests/differential.sh [CASES]: a short run of the differential test, 20,000 cases, where the machine has cargo. The library is built first if it isn't
# there. Exit status: 0 without a difference, or where the test is left out; 1 otherwise.
set -u

cd "$(dirname "$0")/.." || exit 1
if ! command -v cargo >/dev/null 2>&1; then
    echo "differential test left out: this machine has no cargo"
    exit 0
fi
if [ ! -f crates/pigrozk/out/libpigrozk.a ]; then
    if ! command -v rt >/dev/null 2>&1; then
        echo "differential test left out: crates/pigrozk/out/libpigrozk.a is not there, and no rt to build it"
        exit 0
    fi
    (cd crates/pigrozk && rt lib) || exit 1
fi
cargo run --quiet --release --offline --manifest-path bench/Cargo.toml --bin differential -- "${1:-20000}" || exit 1
