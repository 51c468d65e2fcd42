#!/bin/sh
# tests/library.sh: the library called from C and, where the machine has `cargo`, from Rust. Run `rt lib` in crates/pigrozk first.
set -eu
root=$(cd "$(dirname "$0")/.." && pwd)
archive=$root/crates/pigrozk/out/libpigrozk.a
if [ ! -f "$archive" ]; then
    echo "$0: $archive is not there: run 'rt lib' in crates/pigrozk first" >&2
    exit 1
fi

room=$(mktemp -d)
trap 'rm -rf "$room"' EXIT
cc=${CC:-cc}
for program in hall_a stack; do
    "$cc" -std=c99 -O2 -Wall -Wextra -Wpedantic -Werror -I "$root/include" -o "$room/$program" "$root/tests/c/$program.c" "$archive" -pthread
    "$room/$program"
done

if command -v cargo >/dev/null; then
    (cd "$root/rust" && cargo test --quiet --offline)
    echo "Rust: passed"
fi
