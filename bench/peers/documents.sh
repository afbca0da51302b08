#!/usr/bin/env bash
# Prints the order and the letter of crates/interpolator_bench, whose lines it reads there, for a
# program in this language: `documents.sh rust` or `documents.sh cpp`.
#
# A document is a format (`JSON`, `LETTER`), and pieces, text and value in turn (`.._PIECES`); for
# C++ it is a format of printf, too (`.._PRINTF`).
set -eu
cd "$(dirname "$0")"

source=../../crates/interpolator_bench/src/documents.rt

# The lines of a document, each as a literal with its line end.
lines_of() {
    sed -n "/^const $1: /,/^\];/p" $source | sed -n 's/^    \(".*\)",$/\1\\n"/p'
}

# The lines with these replacements of values, and then each doubled brace as one.
replaced() {
    local name=$1
    shift
    lines_of "$name" |
        sed -E 's/\{\{/\x01/g; s/\}\}/\x02/g' |
        sed -E "$@" |
        sed -E 's/\x01/{/g; s/\x02/}/g'
}

# pieces_of DOCUMENT VALUE TEXT: each `{name}` is the end of a piece, a value, and the start of the
# next piece.
pieces_of() {
    replaced "$1" "s/\{([a-z]+)\}/\") $2(\1) $3(\"/g"
}

printf_of() {
    replaced "$1" \
        -e 's/%/%%/g' -e 's/\{(order|postcode|count|points)\}/%lu/g' -e 's/\{[a-z]+\}/%s/g'
}

for_rust() {
    local name=${1,,}
    echo "macro_rules! $name { () => { concat!("
    lines_of "$1" | sed 's/$/,/'
    echo ') }; }'
    echo "macro_rules! ${name}_pieces { (\$take:ident \$(\$more:tt)*) => {"
    echo '$take! { $($more)*; text('
    pieces_of "$1" value text
    echo ') } }; }'
}

for_cpp() {
    echo "#define $1 \\"
    lines_of "$1" | sed 's/$/ \\/'
    echo
    echo "#define $1_PRINTF \\"
    printf_of "$1" | sed 's/$/ \\/'
    echo
    echo "#define $1_PIECES(TEXT, VALUE) TEXT( \\"
    pieces_of "$1" VALUE TEXT | sed 's/$/ \\/'
    echo ')'
}

for name in JSON LETTER; do
    "for_$1" $name
done
