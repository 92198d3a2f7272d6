#!/usr/bin/env bash
# What a mesher links: the C example as C and as C++, the same example and the tests of the Rust crate, and the installed library through
# pkg-config. Each example must print examples/c/part.expected to the byte. And from C: buffers that are not
# there, the parts of an answer, and the stack of each call.
set -eu
cd "$(dirname "$0")/.."
. tests/needs.bash
needs link cc c++ make cargo pkg-config nm awk comm
archive=target/staticlib/libkernel.a
built "$archive" library
built target/bin/holes program

place=$(mktemp -d)
trap 'rm -rf "$place"' EXIT
expected=examples/c/part.expected
warnings=(-Wall -Wextra -Wpedantic -Werror)

# prints WORDS COMMAND..: the command must print what is expected
prints() {
    local what=$1
    shift
    "$@" >"$place/out"
    diff "$expected" "$place/out" || { printf 'link: %s: output differs\n' "$what"; exit 1; }
    printf 'link: %s: ok\n' "$what"
}

cc -std=c99 "${warnings[@]}" -Iinclude examples/c/part.c "$archive" -o "$place/part-c"
prints 'C' "$place/part-c"
c++ -std=c++11 "${warnings[@]}" -Iinclude -x c++ examples/c/part.c -x none "$archive" -o "$place/part-cpp"
prints 'C++' "$place/part-cpp"
cc -std=c99 "${warnings[@]}" -Iinclude tests/nothing_lent.c "$archive" -o "$place/nothing-lent"
"$place/nothing-lent"
printf 'link: null where a length is 0: ok\n'
cc -std=c99 "${warnings[@]}" -Iinclude tests/answers.c "$archive" -o "$place/answers"
"$place/answers"
printf 'link: the parts of an answer: ok\n'
cc -std=c99 -O1 "${warnings[@]}" -Iinclude tests/stack.c "$archive" -pthread -Wl,-z,now -o "$place/stack"
"$place/stack"
printf 'link: the stack of each call: ok\n'
if LC_ALL=C grep -n '[^ -~]' include/bumbleturf.h; then printf 'link: the header is not ASCII alone\n'; exit 1; fi
# The functions of the header, of the Rust crate and of the archive are the same.
sed -n 's/^uint32_t \(bt_[a-z_]*\)(.*/\1/p' include/bumbleturf.h | LC_ALL=C sort >"$place/declared"
sed -n 's/^    pub fn \(bt_[a-z_]*\)(.*/\1/p' rust/src/raw.rs | LC_ALL=C sort | diff "$place/declared" -
nm "$archive" | awk '$2 == "T" { print $3 }' | LC_ALL=C sort | diff "$place/declared" -
# What it needs of a C library is what README.md says.
nm -u "$archive" | awk '$1 == "U" { print $2 }' | LC_ALL=C sort -u >"$place/needed"
if printf '%s\n' memcpy memmove memset | LC_ALL=C comm -13 - "$place/needed" | grep .; then
    printf 'link: the archive needs more than README.md says\n'
    exit 1
fi
# A mesher's plug-in is a shared library; the archive must be fit for one.
cc -shared -fPIC -Iinclude examples/c/part.c "$archive" -o "$place/part.so"

export CARGO_TARGET_DIR="$PWD/target/rust"
( cd rust && BUMBLETURF_LIB="$PWD/../target/staticlib" cargo test --offline --quiet )
( cd rust && BUMBLETURF_LIB="$PWD/../target/staticlib" cargo build --offline --quiet --example part )
prints 'Rust' target/rust/debug/examples/part

# What tests/make.sh tries with a stand-in for the prover is here tried on the library itself.
dest=$place/dest prefix=/usr/local/bumbleturf
make --no-print-directory --old-file=library shared >/dev/null
make --no-print-directory install DESTDIR="$dest" PREFIX="$prefix" >/dev/null
cmp "$archive" "$dest$prefix/lib/libbumbleturf.a"
cmp target/bin/holes "$dest$prefix/bin/holes"
cmp include/bumbleturf.h "$dest$prefix/include/bumbleturf.h"
cc "${warnings[@]}" examples/c/part.c -I"$dest$prefix/include" "$dest$prefix/lib/libbumbleturf.a" -o "$place/part-installed"
prints 'installed' "$place/part-installed"
# The files lie under DESTDIR and name the prefix; the variable moves them for this test alone.
flags=$(PKG_CONFIG_PATH="$dest$prefix/lib/pkgconfig" pkg-config --define-variable=prefix="$dest$prefix" --cflags --libs bumbleturf)
# shellcheck disable=SC2086 # several words
cc "${warnings[@]}" examples/c/part.c $flags -o "$place/part-pkg"
prints 'pkg-config' "$place/part-pkg"
# A relative folder is meant from where cargo is started.
( cd "$dest" && BUMBLETURF_LIB=".$prefix/lib" CARGO_TARGET_DIR="$place/rust" cargo build --offline --quiet --example part \
    --manifest-path "$OLDPWD/rust/Cargo.toml" )
prints 'Rust, installed' "$place/rust/debug/examples/part"
make --no-print-directory uninstall DESTDIR="$dest" PREFIX="$prefix" >/dev/null
left=$(find "$dest" -type f)
[ -z "$left" ] || { printf 'link: make uninstall leaves %s\n' "$left"; exit 1; }
printf 'link: make install, make uninstall: ok\n'
