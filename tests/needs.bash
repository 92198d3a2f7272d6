# For the tests to source, in the repository's folder.

# A test means its own makes and its own archive, whatever started it.
unset MAKEFLAGS MFLAGS MAKEOVERRIDES BUMBLETURF_LIB

# needs NAME COMMAND..: where a command is missing, says which under the test's name and ends the test. Nothing is installed: .ci/run
# may do that, and says so.
needs() {
    local test=$1 missing=() command
    shift
    for command in "$@"; do
        command -v "$command" >/dev/null 2>&1 || missing+=("$command")
    done
    [ "${#missing[@]}" = 0 ] && return
    printf '%s: missing on this machine: %s\n' "$test" "${missing[*]}"
    exit 1
}

# built FILE TARGET: makes the target where its file is not there yet, or a crate has changed since. What the prover leaves in a crate's out/
# is no change, nor is it one that the crate's folder has got an out/.
built() {
    [ -e "$1" ] && [ -z "$(find crates crates.txt -regex 'crates/[^/]*/out' -prune -o ! -regex 'crates/[^/]*' -newer "$1" -print -quit)" ] && return
    mkdir -p target
    make --no-print-directory "$2" >target/built.log 2>&1 && return
    cat target/built.log
    return 1
}

# copy_of_checkout FOLDER: the checkout without what was built in it
copy_of_checkout() {
    mkdir -p "$1"
    tar --exclude=./.git --exclude=./target --exclude=./rust/target --exclude=./second/target --exclude='./crates/*/out' -cf - . |
        tar -C "$1" -xf -
}
