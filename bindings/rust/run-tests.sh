#!/usr/bin/env bash
# Runs the tests of bindings/rust against libinterpolator.a: without a warning, the documentation's
# examples and the programs of README.md too, and without the network. With valgrind, it runs src/sys.rs
# over a library of which a caller gets nothing but what the C header says, with each allocation refused
# (tests/filled). It leaves no file in this folder.
#
# The library is looked for in the folder that INTERPOLATOR_LIB names, else in ../c/build, where
# bindings/c builds it. If it or cargo is missing the run fails, but for CI_SKIP_BINDINGS=1, by which
# nothing is run.
#
# If INTERPOLATOR_ORIGIN names the folder of the crate `interpolator` 0.5.0, both crates are compared.
set -eu
cd "$(dirname "$0")"

if [[ ${CI_SKIP_BINDINGS:-} == 1 ]]; then
    echo 'bindings/rust: skipped (CI_SKIP_BINDINGS=1)'
    exit 0
fi
if ! command -v cargo >/dev/null; then
    echo 'bindings/rust: FAILED, cargo is missing (CI_SKIP_BINDINGS=1 leaves the bindings out)'
    exit 1
fi
folder=${INTERPOLATOR_LIB:-../c/build}
if [[ ! -f $folder/libinterpolator.a ]]; then
    echo "bindings/rust: FAILED, there is no libinterpolator.a in $folder (make it by bindings/c/run-tests.sh)"
    exit 1
fi
INTERPOLATOR_LIB=$(cd "$folder" && pwd)
export INTERPOLATOR_LIB
export RUSTFLAGS="${RUSTFLAGS:-} -D warnings" RUSTDOCFLAGS="${RUSTDOCFLAGS:-} -D warnings"

scratch=$(mktemp -d)
trap 'rm -rf -- "$scratch"' EXIT
export CARGO_TARGET_DIR=${CARGO_TARGET_DIR:-$scratch/target}
before=$(find . | sort)

# step NAME COMMAND..: runs the command, and ends the run with what it wrote if it fails.
step() {
    local name=$1
    shift
    if ! "$@" >"$scratch/log" 2>&1; then
        tail -n 40 "$scratch/log"
        echo "bindings/rust: FAILED: $name"
        exit 1
    fi
    echo "bindings/rust: $name: ok"
}

has_valgrind() {
    command -v valgrind && cc -E -include valgrind/memcheck.h -x c /dev/null
}

# Copies the library, to take its memory from tests/filled/refusing.c: into plain/, and into filled/
# with the calls of tests/filled/filled.c over its own.
copies() {
    local object library=$INTERPOLATOR_LIB/libinterpolator.a
    local calls=(format escaped write check check_alone faults explain rows cost arguments)
    printf '%s\n' malloc realloc free | sed 's/.*/& refusing_&/' >"$scratch/memory"
    printf 'interpolator_%s\n' "${calls[@]}" | sed 's/.*/& plain_&/' >"$scratch/calls"
    for object in refusing filled; do
        cc -std=c99 -O1 -g -Wall -Wextra -pedantic -Werror -I../c -c "tests/filled/$object.c" \
            -o "$scratch/$object.o" || return 1
    done
    mkdir "$scratch/plain" "$scratch/filled" &&
        objcopy --redefine-syms="$scratch/memory" "$library" "$scratch/plain/libinterpolator.a" &&
        objcopy --redefine-syms="$scratch/memory" --redefine-syms="$scratch/calls" "$library" \
            "$scratch/filled/libinterpolator.a" &&
        ar rs "$scratch/plain/libinterpolator.a" "$scratch/refusing.o" &&
        ar rs "$scratch/filled/libinterpolator.a" "$scratch/refusing.o" "$scratch/filled.o"
}

# Builds tests/filled/program.rs over each copy, and writes what it prints over the first.
programs() {
    local copy rust=(rustc --edition 2021 -D warnings -C opt-level=1 -C debug-assertions)
    rust+=(-C debuginfo=line-tables-only)
    "${rust[@]}" --crate-type rlib --crate-name interpolator src/lib.rs --out-dir "$scratch" ||
        return 1
    for copy in plain filled; do
        "${rust[@]}" tests/filled/program.rs --extern "interpolator=$scratch/libinterpolator.rlib" \
            -C "link-arg=$scratch/$copy/libinterpolator.a" --out-dir "$scratch/$copy" || return 1
    done
    "$scratch/plain/program" >"$scratch/plain/out"
}

valgrind_of=(valgrind --quiet --error-exitcode=9)

# Whether the program prints the same over the other copy, and valgrind finds no error.
does_not_differ() {
    "${valgrind_of[@]}" --leak-check=full "$scratch/filled/program" >"$scratch/filled/out" &&
        diff "$scratch/plain/out" "$scratch/filled/out"
}

filled() {
    # a backtrace takes large blocks, which the program refuses itself
    export RUST_BACKTRACE=0
    step 'a library that is 0xAA where the header says nothing' copies
    step 'src/sys.rs over the library, each allocation refused' programs
    step 'it does not differ over the filled one, under valgrind' does_not_differ
    export FILL_UNNAMED=1
    step 'nor if it is 0xAA also where src/sys.rs names nothing' does_not_differ
    export INTERPOLATOR_LIB=$scratch/filled CARGO_TARGET_DIR=$scratch/target-filled
    export CARGO_TARGET_X86_64_UNKNOWN_LINUX_GNU_RUNNER="${valgrind_of[*]}"
    step 'tests over the filled one, under valgrind' cargo test --offline --quiet --test calls --test checks \
        --test faults --test lists --test values
}

# block LANGUAGE NUMBER: a block of README.md.
block() {
    awk -v fence="\`\`\`$1" -v wanted="$2" \
        '/^```/ {inside = $0 == fence && ++seen == wanted; next} inside' README.md
}

# The programs of README.md, each as a crate of its own would have it.
readme() {
    local room=$scratch/readme number=1
    mkdir -p "$room/src/bin"
    printf '[package]\nname = "readme"\nversion = "0.1.0"\nedition = "2021"\n\n' >"$room/Cargo.toml"
    block toml 1 | sed "s|path = \"[^\"]*\"|path = \"$PWD\"|" >>"$room/Cargo.toml"
    while [[ -n $(block rust "$number") ]]; do
        block rust "$number" >"$room/src/bin/program$number.rs"
        (cd "$room" && cargo run --offline --quiet --bin "program$number") || return 1
        number=$((number + 1))
    done
    [[ $number -gt 4 ]]
}

origin=${INTERPOLATOR_ORIGIN:+$(cd "$INTERPOLATOR_ORIGIN" && pwd)}
unset INTERPOLATOR_ORIGIN

step 'tests' cargo test --offline --quiet --all-targets
step 'tests, optimized' cargo test --offline --quiet --all-targets --release
step 'tests of the feature pointer' cargo test --offline --quiet --features pointer --test pointers --test faults
step 'examples of the documentation' cargo test --offline --quiet --doc
step 'the programs of README.md' readme
step 'documentation' cargo doc --offline --quiet --no-deps
if has_valgrind >/dev/null 2>&1; then
    (filled)
else
    echo 'bindings/rust: src/sys.rs over a filled library: skipped (valgrind or memcheck.h is missing)'
fi
if [[ -n $origin ]]; then
    step 'comparison with the crate of origin' env INTERPOLATOR_ORIGIN="$origin" \
        cargo test --offline --quiet --release --test origin -- --nocapture
    grep -E '^ +[0-9]+ |: of [0-9]' "$scratch/log"
else
    echo 'bindings/rust: comparison with the crate of origin: skipped (INTERPOLATOR_ORIGIN is not set)'
fi
step 'no file is left' diff <(echo "$before") <(find . | sort)
echo 'bindings/rust: passed'
