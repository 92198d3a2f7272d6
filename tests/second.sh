#!/usr/bin/env bash
# The independent second program: its own tests; cases 1 to 15 and the shortcuts; 200,000 random calls of the compiled library through its
# C names; and the example files, which it must write as they are in the repository.
set -eu
cd "$(dirname "$0")/.."
. tests/needs.bash
needs second cargo cc ld objcopy make
built target/staticlib/libkernel.a library
export BUMBLETURF_LIB="$PWD/target/staticlib" CARGO_TARGET_DIR="$PWD/target/second"
cd second
cargo test --release --offline --quiet
cargo build --release --offline --quiet
cd ..
second=target/second/release/second
"$second" cases
"$second" compare
made=$(mktemp -d)
trap 'rm -rf "$made"' EXIT
"$second" sketches "$made"
for file in "$made"/*; do
    cmp "$file" "examples/${file##*/}"
done
