#!/usr/bin/env bash
# The commands of README.md as they stand, in a copy of the checkout with an empty home: each block marked sh, in order, in one shell. A
# block marked text is what the block before it prints. The blocks marked toml and rust are a mesher of their own beside the copy, which
# has the name that the page gives it.
set -eu
cd "$(dirname "$0")/.."
. tests/needs.bash
needs readme make cc c++ cargo pkg-config awk tar rt
built target/staticlib/libkernel.a library
built target/bin/holes program
place=$(mktemp -d)
trap 'rm -rf "$place"' EXIT
copy=$place/bumbleturf
copy_of_checkout "$copy"
# rt begins in the copy with what it keeps on this machine of the proofs here, and cargo keeps its own home; what the page builds is built
# here once more.
mkdir -p "$copy/target" "$place/home" "$place/blocks"
export CARGO_HOME=${CARGO_HOME:-$HOME/.cargo} RUSTUP_HOME=${RUSTUP_HOME:-$HOME/.rustup} CARGO_NET_OFFLINE=true
export HOME=$place/home

# Each block in a file of its own, named by the line that it begins at and its kind.
awk -v to="$place/blocks" '
    /^```[a-z]+$/ { kind = substr($0, 4); file = sprintf("%s/%04d.%s", to, NR, kind); printf "" >file; next }
    /^```$/ { kind = ""; close(file); next }
    kind != "" { print >file }' README.md
ls "$place"/blocks/*.sh >/dev/null

# One script of all commands, so that an export holds for those after it; each block's output goes to a file of its own.
{
    echo 'set -eu'
    for block in "$place"/blocks/*.sh; do
        printf 'echo %q >&2\n{\n' "readme: $(head -n 1 "$block")"
        cat "$block"
        printf '} >%q 2>%q.said || { cat %q %q.said >&2; exit 1; }\n' "$block.out" "$block" "$block.out" "$block"
    done
} >"$place/all"
( cd "$copy" && bash "$place/all" ) 2>&1

for text in "$place"/blocks/*.text; do
    before=$(printf '%s\n' "$place"/blocks/*.sh | awk -v text="$text" '$0 < text' | tail -n 1)
    # rt speaks too: what the page shows is the end of it
    tail -n "$(wc -l <"$text")" "$before.out" | diff "$text" - || { printf 'readme: %s prints something else\n' "$(cat "$before")"; exit 1; }
done
parts=$(cat "$place"/blocks/*.sh | grep -c 'target/part$\|example part')
[ "$(cat "$place"/blocks/*.out | grep -c 'two caps: pieces 1, tunnels 0, voids 1')" = "$parts" ] || { echo 'readme: an example prints something else'; exit 1; }
for file in staticlib/libkernel.a bin/holes; do
    cmp "target/$file" "$copy/target/$file" || { printf 'readme: another clone gives another %s\n' "$file"; exit 1; }
done

mkdir -p "$place/mesher/src"
{ printf '[package]\nname = "mesher"\nversion = "0.0.0"\nedition = "2021"\n\n[workspace]\n\n'; cat "$place"/blocks/*.toml; } >"$place/mesher/Cargo.toml"
{ printf 'fn main() -> Result<(), bumbleturf::Refusal> {\n'; cat "$place"/blocks/*.rust; printf 'Ok(())\n}\n'; } >"$place/mesher/src/main.rs"
( cd "$place/mesher" && cargo run --quiet )
commands=("$place"/blocks/*.sh)
printf 'readme: %s blocks of commands, and the mesher: ok\n' "${#commands[@]}"
