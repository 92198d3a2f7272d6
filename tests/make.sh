#!/usr/bin/env bash
# The Makefile as a user meets it, in a copy of the checkout: places that cannot be meant, failures, several jobs at once, what is left
# behind, a machine without `rt`, the shared library and the tar file. An `rt` of this test stands in for the kit's: it hands over what
# was proved before, or fails where it is told to.
set -eu
cd "$(dirname "$0")/.."
. tests/needs.bash
needs make make cc tar cmp sha256sum pkg-config nm readelf
archive=target/staticlib/libkernel.a
built "$archive" library
built target/bin/holes program

place=$(mktemp -d)
trap 'rm -rf "$place"' EXIT
copy=$place/a/checkout
copy_of_checkout "$copy"
mkdir "$place/bin" "$place/proved"
cp "$archive" target/bin/* "$place/proved/"

# rt as make calls it, in a crate's folder. FAIL names the words that are to fail: before anything is written, or late, with the archive
# there; with a crate's name after it, in that crate alone.
cat >"$place/bin/rt" <<'RT'
#!/bin/sh
here=$(cd "$(dirname "$0")/.." && pwd)
[ "$1" = version ] && exec cat kit.txt
crate=$(basename "$PWD")
fails() { [ "${FAIL:-}" = "$1" ] || [ "${FAIL:-}" = "$1 $crate" ]; }
echo "begins $* in $crate" >>"$here/log"
sleep 0.2
! fails "$1" || exit 1
mkdir -p out
case $1 in
lib) cp "$here/proved/lib$crate.a" out/ || exit 1 ;;
run) cp "$here/proved/$crate" out/ && "out/$crate" || exit 1 ;;
esac
echo "ends $* in $crate" >>"$here/log"
! fails "late-$1"
RT
chmod +x "$place/bin/rt"
export PATH="$place/bin:$PATH"

fail() { printf 'make: %s\n' "$*"; exit 1; }
made() { PATH=${tools:-$PATH} make --no-print-directory -C "$copy" "$@" >"$place/said" 2>&1; }
# makes WORDS..: must succeed
makes() { made "$@" || { cat "$place/said"; fail "make $* fails"; }; }
# refuses TEXT WORDS..: must fail, and say the text
refuses() {
    local text=$1
    shift
    if made "$@"; then fail "make $* does not fail"; fi
    grep -q -- "$text" "$place/said" || { cat "$place/said"; fail "make $* does not say: $text"; }
}
# what there is in a folder, file by file
files() { ( cd "$1" && find . -type f -o -type l | LC_ALL=C sort ); }

files "$copy" >"$place/fresh"

# Nothing is built: install says so, and leaves nothing.
refuses 'is not built' install DESTDIR="$place/none"
[ ! -e "$place/none" ] || fail 'a refused install leaves something'

# Plain make builds all that install needs.
makes
makes install DESTDIR="$place/dest" PREFIX=/srv/bt
for file in lib/libbumbleturf.a lib/libbumbleturf.so include/bumbleturf.h bin/holes bin/parts lib/pkgconfig/bumbleturf.pc; do
    [ -f "$place/dest/srv/bt/$file" ] || fail "install leaves out $file"
done
makes uninstall DESTDIR="$place/dest" PREFIX=/srv/bt
[ -z "$(files "$place/dest")" ] || fail "uninstall leaves $(files "$place/dest")"

# A checkout as a place, this one by any of its names or another one; nothing is touched.
ln -s "$copy" "$place/linked"
mkdir "$place/sides" && ln -s "$copy/include" "$place/sides/include"
copy_of_checkout "$place/other"
files "$copy" >"$place/before"
for verb in install uninstall; do
    for words in "PREFIX=$copy" "PREFIX=$copy/." "PREFIX=$place/linked" "PREFIX=$place/sides" "PREFIX=$place/other" "DESTDIR=$copy PREFIX=/"; do
        # shellcheck disable=SC2086 # two words
        refuses 'PREFIX is a checkout' $verb $words
    done
    refuses 'must start with /' $verb PREFIX=here
    refuses 'must start with /' $verb PREFIX=/srv/bt LIBDIR=lib
    refuses 'a space' $verb DESTDIR="$place/none" PREFIX='/srv/b t'
    refuses 'a space' $verb DESTDIR="$place/none" PREFIX=/srv/bt LIBDIR="/srv/b't"
done
files "$copy" | cmp - "$place/before"
cmp include/bumbleturf.h "$copy/include/bumbleturf.h"
[ ! -e "$place/none" ] || fail 'a refused place is made'
printf 'make: places: ok\n'

# LIBDIR below the prefix and beside it; a DESTDIR with a space is only a place to put things.
makes install DESTDIR="$place/with a space" PREFIX=/srv/bt LIBDIR=/srv/bt/lib/x86_64
grep -qx 'libdir=${prefix}/lib/x86_64' "$place/with a space/srv/bt/lib/x86_64/pkgconfig/bumbleturf.pc" || fail 'LIBDIR below PREFIX'
makes uninstall DESTDIR="$place/with a space" PREFIX=/srv/bt LIBDIR=/srv/bt/lib/x86_64
[ -z "$(files "$place/with a space")" ] || fail 'uninstall with LIBDIR leaves something'
makes install PREFIX="$place/bt" LIBDIR="$place/lib64"
cmp "$archive" "$place/lib64/libbumbleturf.a"
PKG_CONFIG_PATH="$place/lib64/pkgconfig" pkg-config --libs bumbleturf | grep -q "^$place/lib64/libbumbleturf.a *\$" || fail 'LIBDIR beside PREFIX'
printf 'make: LIBDIR: ok\n'

# A failure is one, whichever job it is, and takes away what was made before.
for when in lib late-lib; do
    makes
    FAIL=$when refuses '' library
    [ ! -e "$copy/$archive" ] || fail "after a failed library ($when) there is an archive"
    refuses 'is not built' install DESTDIR="$place/none"
done
for when in run late-run 'run parts' 'late-run holes'; do
    makes
    FAIL=$when refuses '' program
    [ ! -e "$copy/target/bin/holes" ] && [ ! -e "$copy/target/bin/parts" ] || fail "after a failed program ($when) there is one"
done
for when in lib run; do FAIL=$when refuses '' -j4 library program; done
: >"$place/log"
makes -j4 library program
awk '$1 == "begins" { if (open++) exit 1 } $1 == "ends" { open-- }' "$place/log" || { cat "$place/log"; fail 'two provers at once'; }
[ "$(grep -c begins "$place/log")" = 3 ]
printf 'make: failures and several jobs: ok\n'

# A shared library of the same functions under its soname.
makes
so=$(readelf -d "$copy"/target/shared/*.so.* | sed -n 's/.*(SONAME).*\[\(.*\)\]/\1/p')
[ -f "$copy/target/shared/$so" ] || fail "the soname $so is not the file's name"
names() { nm "$@" | awk '$2 == "T" { print $3 }' | LC_ALL=C sort; }
[ "$(names -D --defined-only "$copy/target/shared/$so")" = "$(names "$archive")" ] || fail 'the shared library has other functions'
makes install PREFIX="$place/bt"
cc -Wall -Werror examples/c/part.c -I"$place/bt/include" -L"$place/bt/lib" -lbumbleturf -o "$place/part"
readelf -d "$place/part" | grep -q "NEEDED.*\[$so\]" || fail 'the example does not ask for the shared library'
LD_LIBRARY_PATH="$place/bt/lib" "$place/part" | cmp - examples/c/part.expected
printf 'make: shared library: ok\n'

# The tar file: the same bytes from another clone, by another user's umask; what it holds works where it is unpacked. No link is left in the
# checkout, where the gate would refuse it.
makes dist
[ -z "$(find "$copy" -type l)" ] || fail "dist leaves a link in the checkout: $(find "$copy" -type l)"
( umask 077 && mkdir "$place/b" && cp -r "$copy" "$place/b/another name" && make --no-print-directory -C "$place/b/another name" dist ) >/dev/null
tar=$(cd "$copy" && echo target/dist/*.tar)
cmp "$copy/$tar" "$place/b/another name/$tar"
tar -C "$place" -xf "$copy/$tar"
unpacked=$place/$(basename "$tar" .tar)
( cd "$unpacked" && sha256sum --quiet -c SHA256SUMS )
cmp kit.txt "$unpacked/kit.txt"
for file in lib/libbumbleturf.a "lib/$so" lib/libbumbleturf.so lib/pkgconfig/bumbleturf.pc include/bumbleturf.h bin/holes bin/parts; do
    [ -f "$unpacked/$file" ] || fail "the tar file leaves out $file"
done
# shellcheck disable=SC2046 # several words
cc -Wall -Werror examples/c/part.c $(PKG_CONFIG_PATH="$unpacked/lib/pkgconfig" pkg-config --cflags --libs bumbleturf) -o "$place/part-dist"
"$place/part-dist" | cmp - examples/c/part.expected
"$unpacked/bin/holes" <examples/torus.sketch | cmp - examples/torus.expected
printf 'make: tar file: ok\n'

# clean leaves nothing, and the versions that are said in several places agree.
mkdir -p "$copy/rust/target" "$copy/second/target" && touch "$copy/rust/target/x" "$copy/second/target/x"
makes clean
files "$copy" | diff "$place/fresh" - || fail 'clean leaves something'
version=$(sed -n 's/^#define BT_VERSION "\(.*\)"$/\1/p' include/bumbleturf.h)
for file in rust/Cargo.toml rust/Cargo.lock; do grep -qx "version = \"$version\"" "$file" || fail "$file has another version than the header"; done
head -n 1 include/bumbleturf.h | grep -qF "Bumbleturf $version:" || fail "the header's first line has another version"
printf 'make: clean, versions: ok\n'

# A machine with neither `rt` nor a compiler: what needs one says so, and no test installs anything.
mkdir "$place/few"
for tool in bash sh make sed rm mkdir tr cat dirname mktemp; do ln -s "$(command -v "$tool")" "$place/few/$tool"; done
for target in all library program shared dist test; do tools=$place/few refuses 'kit.txt' "$target"; done
for test in tests/*.sh; do
    if PATH="$place/few" bash "$test" >"$place/said" 2>&1; then fail "$test passes without a compiler"; fi
    grep -q 'missing on this machine' "$place/said" || { cat "$place/said"; fail "$test does not say what is missing"; }
done
if grep -n 'apt-get install' tests/*.sh tests/*.bash Makefile | grep -v grep; then fail 'a test installs packages'; fi
printf 'make: a machine without tools: ok\n'
