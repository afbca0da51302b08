#!/usr/bin/env bash
# Counts the instructions that other programs take for texts of crates/interpolator_bench, and
# prints them as a table. `count.sh NAME..` counts these workloads alone, and `count.sh escapes` the
# texts of 1 KiB that are written escaped: by hand in Rust (escapes.rs), and by `html.escape` of
# Python, which makes a new text without the tags around it, and writes `&#x27;` for an apostrophe.
#
# It needs rustc, g++, valgrind, pkg-config, {fmt} (Debian: libfmt-dev) and Abseil (libabsl-dev); for
# escapes only rustc, valgrind and python3. For the Rust crate `interpolator` 0.5.0, ORIGINAL names
# the folder of its sources; without it that column is empty. A count is by callgrind, for one text,
# as the difference of two repeat counts. Each text but those of escapes is compared with that of
# crates/interpolator_bench, by its length and checksum: a star stands behind the count of a text
# that differs, and `-` where a program has no such text.
#
# Both compilers optimise at level 3, which `-O` of rustc is, and leave out assertions, which {fmt}
# has otherwise. CXXFLAGS takes other flags for g++.
set -eu
cd "$(dirname "$0")"

expected=../../crates/interpolator_bench/stdout
optimised=${CXXFLAGS:--O3 -DNDEBUG}
plain='Prose of eighty bytes in which nothing is escaped, over and over and over again '
prose="Tom & Ann said \"no\" to a < b and to b > a, and then they went home, it's late now "

build() {
    mkdir -p out
    ./documents.sh rust >out/documents.rs
    ./documents.sh cpp >out/documents.h
    rustc --edition 2021 -O -o out/peers_rust peers.rs
    if [[ -n ${ORIGINAL:-} ]]; then
        rustc --edition 2021 -O --cap-lints allow --crate-type rlib --crate-name interpolator \
            --cfg 'feature="debug"' --cfg 'feature="number"' --cfg 'feature="iter"' \
            -o out/libinterpolator.rlib "$ORIGINAL/src/lib.rs"
        rustc --edition 2021 -O -A dead_code -A unused_macros \
            --extern interpolator=out/libinterpolator.rlib -o out/original original.rs
    fi
    g++ -std=c++20 $optimised -o out/peers_cpp peers.cpp any_floats.cpp -lfmt \
        $(pkg-config --libs absl_strings absl_str_format)
}

# instructions PROGRAM WORKLOAD COUNT
instructions() {
    valgrind --tool=callgrind --callgrind-out-file=/dev/null "$@" 2>&1 >/dev/null |
        awk '/Collected/ { print $4 }'
}

# difference COUNT PROGRAM WORD..: the instructions for one text, from COUNT and twice as many
difference() {
    local count=$1 once twice
    shift
    once=$(instructions "$@" "$count")
    twice=$(instructions "$@" $((2 * count)))
    echo $(((twice - once + count / 2) / count))
}

# python_escapes PROSE: the instructions of Python's `html.escape` for a text of 1 KiB
python_escapes() {
    local python
    python=$(python3 -c 'import sys; print(sys.executable)')
    PYTHONHASHSEED=0 difference 1000 "$python" -c '
import html, sys
text = sys.argv[1] * -(-1024 // len(sys.argv[1]))
for _ in range(int(sys.argv[2])):
    html.escape(text)' "$1"
}

# escapes: the table of texts that are written escaped
escapes() {
    local escape kind way row
    rustc --edition 2021 -O -o out/escapes escapes.rs
    echo 'Escape|plain, by runs|by characters|in two passes|escaped, by runs|by characters|in two passes'
    echo '---|---:|---:|---:|---:|---:|---:'
    for escape in line html csv json shell; do
        row=$escape
        for kind in plain prose; do
            for way in runs loop passes; do
                row+="|$(difference 10 out/escapes "$way-$escape-$kind-1k")"
            done
        done
        echo "$row"
    done
    echo "\`html.escape\`: $(python_escapes "$plain") plain, $(python_escapes "$prose") escaped"
}

# count PEER NAME: the instructions for one text, and a star if it is not the text of the benchmark.
count() {
    local program=out/peers_cpp repeats=10 made star='*'
    case $1 in
    write | format | hand) program=out/peers_rust ;;
    original) program=out/original ;;
    esac
    case $2 in merge*) repeats=1 ;; esac
    if [[ ! -x $program ]] || ! $program | grep -x "$1-$2" >/dev/null; then
        echo -
        return
    fi
    made=$($program "$1-$2" 1)
    if sed -n "s/^[a-z]*-$2: //p" $expected | grep -xF "${made#*: }" >/dev/null; then
        star=
    fi
    echo "$(difference $repeats $program "$1-$2")$star"
}

rm -rf out
if [[ ${1:-} == escapes ]]; then
    mkdir -p out
    escapes
    exit
fi
build
if [[ $# -eq 0 ]]; then
    set -- $(out/peers_rust | sed -n 's/^write-//p')
fi
echo 'Text|`format!`|`write!`|{fmt}|{fmt}, at run time|the Rust crate|`snprintf`|Abseil|by hand'
echo '---|---:|---:|---:|---:|---:|---:|---:|---:'
for name in "$@"; do
    row="\`$name\`"
    for peer in format write fmt run original snprintf absl hand; do
        row+="|$(count $peer "$name")"
    done
    echo "$row"
done
