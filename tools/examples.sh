#!/usr/bin/env bash
# Builds the library for C, compiles the examples in C and Rust against it, and compares what they print with what the programs print.
set -euo pipefail
cd "$(dirname "$0")/.."
built=$(mktemp -d)
trap 'rm -rf "$built"' EXIT

(cd crates/capi && rt lib)
library=crates/capi/out/libcapi.a
# The library takes memory by malloc, through three functions that the toolchain has in C.
heap=$(dirname "$(rt doc)")/c/liblibc_c.a
gcc -std=c11 -Wall -Wextra -Werror -O2 -Iinclude examples/c/print.c "$library" "$heap" -o "$built/c"
rustc --edition 2024 -D warnings -O examples/rust/print.rs -o "$built/rust" -C link-arg="$library" -C link-arg="$heap"

# Runs both examples as a program on an input, with the output that is due.
compare() {
  for language in c rust; do
    "$built/$language" "$1" <"$2" >"$built/printed"
    cmp "$built/printed" "$3"
    echo "examples/$language prints what $1 prints of $2"
  done
}

compare seat examples/worked.txt crates/seat/stdout
compare rehearse examples/shared.txt crates/rehearse/stdout
