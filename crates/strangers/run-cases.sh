#!/usr/bin/env bash
# Runs the built program on command lines, and compares what it writes to both streams and its
# status with what docs/DEFINITIONS.md says of each format and of its cost, worked out by hand.
#
# usage: run-cases.sh [PROGRAM..]
set -u

here=$(cd "$(dirname "$0")" && pwd)
name=strangers
wanted=97
. "$here/../../.ci/cases.sh"

usage='usage: strangers [FLAG NUMBER..] FORMAT '
usage+='[NAME=TEXT | NAME:=NUMBER | NAME:.=DECIMAL | NAME[]=ITEM,ITEM..]'

# The greatest `usize`, and the least number.
most=18446744073709551615
least=-170141183460469231731687303715884105728

# prints TEXT WORD..: a command line that prints a text.
prints() {
    local text=$1
    shift
    case_of file file 0 "$text"$'\n' '' "$@"
}

# refuses WHY WORD..: one that is rejected, with status 1; nothing is printed to standard output.
refuses() {
    local why=$1
    shift
    case_of file file 1 '' "$why"$'\n' "$@"
}

# misused WHY WORD..: one that is no use of the program, with status 2.
misused() {
    local why=$1
    shift
    case_of file file 2 '' "$why"$'\n' "$@"
}

# in_one_another DEPTH BEFORE INNERMOST: lists in one another, the innermost item given: each begins
# by BEFORE, and its item format stands between as many signs as there are lists in it.
in_one_another() {
    local format=$3 signs= i
    for ((i = 0; i < $1; i++)); do
        format="$2$signs($format)$signs}"
        signs+='#'
    done
    printf '%s' "$format"
}

# A number has at most 40 characters, and a text 80 if no flag says otherwise, so that a value costs
# the more of the two; a list has at most 20 items.
texts() {
    prints 'Hi Ann,    -7: <a>, <b>' 'Hi {who}, {n:>5}: {l:i(<{}>)(, )}' who=Ann n:=-7 'l[]=a,b'
    prints '' ''
    prints '{}' '{{}}'
    prints '0xff 255 ff' '{n:#x} {n} {n:x}' n:=255
    prints '"a""""b"' '{l:i({:?})}' 'l[]=a,,b'
    prints '<>' '<{l:i}>' 'l[]='
    prints 'b=c' '{a}' a=b=c
    prints "$least" '{n}' "n:=$least"
    prints '2' '{a}' a=1 a:=2
    prints ' ab' '{l:>3i}' 'l[]=a,b'
    prints '--text' -- --text
    prints 'é' --text 1 '{a}' a=é
    prints '𝄞𝄞𝄞' --characters 3 --pieces 1 --buffered 0 '𝄞𝄞𝄞'
}

# Without a precision a decimal has the characters of its text, and counts one more for a sign: 6
# for 12.50, 2 for 7, 5 for -0.05. With one a format may write 41 more than the precision, and 53 in
# an exponent form without one.
decimals() {
    prints '12.50|     12.50|1.25e1' '{p}|{p:>10.2}|{p:e}' p:.=12.50
    prints '0.12 0.38 -0.12' '{a:.2} {b:.2} {c:.2}' a:.=0.125 b:.=+0.375 c:.=-0.125
    prints '12.50' --text 6 '{p}' p:.=12.50
    refuses 'characters of a text: 6, where 5 are allowed' --text 5 '{p}' p:.=12.50
    prints '7' --text 2 '{p}' p:.=007
    refuses 'characters of a text: 2, where 1 are allowed' --text 1 '{p}' p:.=7
    prints '-0.05' --text 5 '{v}' v:.=-0.05
    refuses 'characters of a text: 5, where 4 are allowed' --text 4 '{v}' v:.=-0.05
    prints "-0.$(times 76 0)1" '{v}' "v:.=-0.$(times 76 0)1"
    refuses 'characters of a text: 81, where 80 are allowed' '{v}' "v:.=0.$(times 77 0)1"
    prints '1.50000' --text 6 --characters 46 '{p:.5}' p:.=1.5
    refuses 'characters: 46, where 45 are allowed' --text 6 --characters 45 '{p:.5}' p:.=1.5
    prints '1.5e0' --text 6 --characters 53 '{p:e}' p:.=1.5
    refuses 'characters: 53, where 52 are allowed' --text 6 --characters 52 '{p:e}' p:.=1.5
    refuses 'trait `LowerHex` not implemented, used by format argument at 4' '{p:x}' p:.=1.5
    misused 'bad word: p:.=1.' '{p}' p:.=1.
    misused 'bad word: p:.=.5' '{p}' p:.=.5
    misused 'bad word: x:~=1.5' '{x}' x:~=1.5
    misused 'bad word: p:.=1.2.3' '{p}' p:.=1.2.3
    misused 'bad word: p:.=17014118346046923173168730371588410572.8' '{p}' \
        p:.=17014118346046923173168730371588410572.8
    prints '-17014118346046923173168730371588410572.8' '{p}' \
        p:.=-17014118346046923173168730371588410572.8
}

# By hand: `Hi ` 3, a name 80, `, ` 2, a number 80, `: ` 2, and 20 items of 82 with 19 joins of 2:
# 1845 characters. Pieces are 5 and the list, 20 items of 3, and 19 joins: 85.
told_costs() {
    local format='Hi {who}, {n:>5}: {l:i(<{}>)(, )}' values=(who=Ann n:=-7 'l[]=a,b')
    prints 'Hi Ann,    -7: <a>, <b>' --characters 1845 --pieces 85 --buffered 0 \
        "$format" "${values[@]}"
    refuses 'characters: 1845, where 1844 are allowed' --characters 1844 "$format" "${values[@]}"
    refuses 'pieces: 85, where 84 are allowed' --pieces 84 "$format" "${values[@]}"
    prints 'abc' --text 3 --characters 40 '{a}' a=abc
    refuses 'characters: 40, where 39 are allowed' --text 3 --characters 39 '{a}' a=abc
    refuses 'characters: 62, where 61 are allowed' --text 10 --characters 61 '{a:?}' a=b
    prints '"b"' --text 10 --characters 62 '{a:?}' a=b
    prints 'a ' --items 1 --buffered 80 '{l:2i}' 'l[]=a'
    refuses 'buffered characters: 80, where 79 are allowed' --items 1 --buffered 79 '{l:2i}' 'l[]=a'
    refuses 'characters: 4, where 3 are allowed' --characters 3 'abcd'
}

# By hand, of hostile formats. Eight lists of ten items in one another, the innermost with an empty
# item format: 1 + 10 + .. + 10^8 pieces and no character. A join of 10,000 characters: 20 items of
# 80 and 19 joins. A precision of 10^18: 15 more. Ten lists of two under a width in one another:
# 80 * 2^10 characters, 2^11 - 1 pieces, and 80 * (2 + 4 + .. + 2^10) in buffers.
hostile() {
    local ten='l[]=a,b,c,d,e,f,g,h,i,j' deep doubling
    deep=$(in_one_another 8 '{l:i' '')
    refuses 'pieces: 111111111, where 1000 are allowed' --items 10 "$deep" "$ten"
    refuses 'pieces: 26947368421, where 1000 are allowed' "$deep" "$ten"
    refuses 'pieces: 111111111, where 1000 are allowed' --items 10 --characters 0 --buffered 0 \
        "$deep" "$ten"
    refuses 'characters: 191600, where 10000 are allowed' \
        "{l:i({})($(times 1000 xxxxxxxxxx))}" "$ten"
    refuses 'characters: 1000000000000000015, where 10000 are allowed' \
        '{n:.1000000000000000000e}' n:=7
    refuses 'characters: 1000000000000000000, where 10000 are allowed' \
        '{n:1000000000000000000}' n:=7
    refuses "characters: $most or more, where $most are allowed" --characters "$most" \
        "{n:.${most}e}" n:=7
    doubling=$(in_one_another 10 '{l:1i..2' '{}')
    refuses 'characters: 81920, where 10000 are allowed' "$doubling" 'l[]=a,b'
    refuses 'pieces: 2047, where 1000 are allowed' --characters 81920 "$doubling" 'l[]=a,b'
    refuses 'buffered characters: 163680, where 163679 are allowed' --characters 81920 \
        --pieces 2047 --buffered 163679 "$doubling" 'l[]=a,b'
    prints "$(times 512 ab)" --characters 81920 --pieces 2047 --buffered 163680 \
        "$doubling" 'l[]=a,b'
}

faults() {
    refuses 'specified value not in context `q` at 1' '{q}'
    refuses 'trait `LowerHex` not implemented, used by format argument at 4' '{a:x}' a=z
    refuses 'trait `Iter` not implemented, used by format argument at 4' '{a:i}' 'a[]=x,y' a=z
    refuses 'error while parsing input: Expected `}` at 9' '{l:i(({}))}' 'l[]=a'
    refuses 'specified value not in context `q` at 6' '{l:i({q})}' 'l[]='
    refuses 'trait `LowerHex` not implemented, used by format argument at 8' '{l:i({:x})}' 'l[]=a'
    refuses 'characters of a text: 4, where 3 are allowed' --text 3 '{q}' a=abcd
    refuses 'characters of a text: 4, where 3 are allowed' --text 3 'x' 'l[]=abc,abcd'
    refuses 'items of a list: 3, where 2 are allowed' --items 2 'x' 'l[]=a,b,c'
    refuses 'items of a list: 21, where 20 are allowed' 'x' "l[]=$(times 20 ,)"
    refuses 'characters of a text: 81, where 80 are allowed' '{a}' "a=$(times 81 é)"
    prints "$(times 80 é)" '{a}' "a=$(times 80 é)"
}

# What is rejected first: of words the first, of a list its items and then its longest text; then a
# fault; then characters, pieces and buffered characters.
orders() {
    local past=(--characters 79 --pieces 0 --buffered 0)
    refuses 'characters of a text: 5, where 3 are allowed' --text 3 "${past[@]}" '{q}' a=abcde b=abcd
    refuses 'items of a list: 2, where 1 are allowed' --text 3 --items 1 '{q}' 'l[]=abcd,b'
    refuses 'characters of a text: 6, where 3 are allowed' --text 3 '{q}' 'l[]=abcd,abcdef'
    refuses 'specified value not in context `q` at 1' "${past[@]}" '{q}'
    refuses 'characters: 80, where 79 are allowed' "${past[@]}" --items 1 '{l:2i}' 'l[]=a'
    refuses 'pieces: 2, where 0 are allowed' "${past[@]}" --characters 80 --items 1 '{l:2i}' 'l[]=a'
    refuses 'buffered characters: 80, where 0 are allowed' "${past[@]}" --characters 80 --pieces 2 \
        --items 1 '{l:2i}' 'l[]=a'
}

uses() {
    misused "$usage"
    misused "$usage" --items
    misused "$usage" --items 3
    misused "$usage" --items x '{a}' a=1
    misused "$usage" --others 3 '{a}' a=1
    misused "$usage" --
    misused "$usage" --help x
    case_of file file 0 "$(sed -n "/^const HELP/,/^\";/p" "$here/src/main.rt" | sed '1d;$d')"$'\n' '' --help
    case_of file file 0 $'strangers 0.5.0\n' '' --version
    prints 'Dear Ann' --text 20 'Dear {name}' name=Ann
    refuses 'characters: 20000, where 10000 are allowed' '{name:>20000}' name=Ann
    misused 'bad word: a' '{' a
    misused 'bad word: n:=+7' '{n}' n:=+7
    misused 'bad word: n:=' '{n}' b=1 n:= c
    case_of closed file 3 '' '' x
    case_of full file 3 '' '' x
    case_of file closed 3 '' '' '{q}'
    case_of file full 3 '' '' '{q}'
    case_of file full 3 '' '' '{q}' a
}

refused_calls() {
    refusals_of 0 $'<a>, <b> Ann 7 1.50\n' '' --text 9 '{l:i(<{}>)(, )} {who} {n} {p}' \
        'l[]=a,b' who=Ann n:=7 p:.=1.50
    refusals_of 1 '' $'specified value not in context `q` at 1\n' '{q}' who=Ann
    refusals_of 1 '' $'characters: 4, where 3 are allowed\n' --characters 3 abcd
    refusals_of 2 '' $'bad word: n:=x\n' '{n}' n:=x
}

all_cases() {
    texts
    decimals
    told_costs
    hostile
    faults
    orders
    uses
    refused_calls
}

run_cases "$@"
