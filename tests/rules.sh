#!/usr/bin/env bash
# The examples of docs/RULES.md, on the library and the program.
set -eu
cd "$(dirname "$0")/.."
. tests/needs.bash
needs rules python3 make cc
built target/staticlib/libkernel.a library
built target/bin/holes program
make --no-print-directory --old-file=library shared >/dev/null
python3 tests/rules.py docs/RULES.md "$(echo target/shared/libbumbleturf.so.*)" target/bin/holes
