#!/usr/bin/env bash
# Runs the built program on command lines, and compares what it writes to both streams and its
# status with what docs/DEFINITIONS.md says, worked out by hand. Then it runs the lines `$ ifmt ..` of
# README.md, and the rows of its table, and compares what is written with what stands there.
#
# usage: run-cases.sh [PROGRAM..]
set -u

usage='usage: ifmt FORMAT [NAME=TEXT | NAME:=NUMBER | NAME:.=DECIMAL | NAME[]=ITEM,ITEM..]'
here=$(cd "$(dirname "$0")" && pwd)
name=ifmt
least=-170141183460469231731687303715884105728
greatest=170141183460469231731687303715884105727
# the cases of the functions below, the example and the 12 rows of README
wanted=208
. "$here/../../.ci/cases.sh"

# A text, which goes to the output, with status 0.
text() {
    case_of file file 0 "$1"$'\n' '' "${@:2}"
}

# A fault, which goes to the errors, with status 1.
fault() {
    case_of file file 1 '' "$1"$'\n' "${@:2}"
}

# A wrong command line, which is told on the errors, with status 2.
wrong() {
    case_of file file 2 '' "$1"$'\n' "${@:2}"
}

# word VALUE NAME WORD: the word gives the name this value, as debug shows it.
word() {
    text "$1" "{$2:?}" "$3"
}

# good WORD: a word whose name no format can use.
good() {
    text 'Hi' 'Hi' "$1"
}

# bad WORD: a word that means nothing.
bad() {
    wrong "bad word: $1" 'Hi' "$1"
}

# The first `=` cuts a word. The least and the greatest number are those of Rust's `i128`.
word_cases() {
    word '"b=c"' a 'a=b=c'
    word '""' a 'a='
    word '"x"' '' '=x'
    word '""' '' '='
    good 'a:b=c'
    word '":5"' n 'n=:5'
    word '"5"' 'n[' 'n[=5'
    word '"5"' 'n]' 'n]=5'
    word '"5"' 'n[] ' 'n[] =5'
    word '"5"' 'n[1]' 'n[1]=5'
    word '"[]"' n 'n=[]'
    word '"5"' 'n ' 'n =5'
    word '"ü"' é 'é=ü'
    word 5 n 'n:=5'
    word -12 n 'n:=-12'
    word 5 '' ':=5'
    good 'a:b:=1'
    word 1 'n[]' 'n[]:=1'
    word 0 n 'n:=-0'
    word 7 n 'n:=007'
    word "$least" n "n:=$least"
    word "$greatest" n "n:=$greatest"
    word '"1.5"' 'p.' 'p.=1.5'
    good 'p:. =1.5'
    word 1 'p.' 'p.:=1'
    good 'p:.[]=1'
    good 'n:[]=1'
    good 'p::.=1'
    word 1.0 'p[]' 'p[]:.=1.0'
    word 5 '' ':.=5'
    word 1.5 p 'p:.=+1.5'
    word 7.0 p 'p:.=007.0'
    word 0.00 p 'p:.=-0.00'
    word "${least%28}.28" p "p:.=${least%28}.28"
    word "${greatest%27}.27" p "p:.=${greatest%27}.27"
    bad a
    bad ''
    bad 'n:=+1'
    bad 'n:='
    bad 'n:=-'
    bad 'n:=x'
    bad 'n:=1 '
    bad 'n:= 1'
    bad 'n:=--1'
    bad 'n:=1-'
    bad 'n:=1='
    bad 'n:=٣'
    bad 'n:=1.5'
    bad 'p:.='
    bad 'p:.=-'
    bad 'p:.=.'
    bad 'p:.=1.'
    bad 'p:.=.5'
    bad 'p:.=1.2.3'
    bad 'p:.=1.-2'
    bad 'p:.=--1.5'
    bad 'p:.=+-1.5'
    bad 'p:.= 1.5'
    bad 'p:.=1,5'
    bad 'p:.=1e3'
    bad 'p:.=1.5='
    bad 'p:.=٣.٥'
    bad "p:.=${least%28}.29"
    bad "p:.=${greatest%27}.28"
    bad "n:=${least%8}9"
    bad "n:=${greatest%7}8"
    bad 'a[]'
    bad 'l[]:=a'
}

# Decimals: a tie is rounded to the even digit.
decimal_cases() {
    text '     12.50|12.50|+12.5' '{price:>10.2}|{price}|{price:+.1}' 'price:.=12.50'
    text '1.25e1 1.25E1 1.2e1' '{price:e} {price:E} {price:.1e}' 'price:.=12.50'
    text '-0.05 "" -000.05 -5e-2' '{v} "{t}" {v:07} {v:e}' 'v:.=-0.05' 't='
    text '0.12 0.38 -0.12 0.125000' '{a:.2} {b:.2} {c:.2} {a:.6}' \
        'a:.=0.125' 'b:.=+0.375' 'c:.=-0.125'
    text '7 7.00 70.0' '{a} {a:.2} {b}' 'a:.=7' 'b:.=070.0'
    fault 'trait `LowerHex` not implemented, used by format argument at 4' '{v:x}' 'v:.=1.5'
}

# Floats, as Rust parses and shows an `f64`.
float_cases() {
    word 1.5 x 'x:~=1.5'
    word 1000.0 x 'x:~=1e3'
    word 0.5 x 'x:~=.5'
    word -0.0 x 'x:~=-0'
    word NaN x 'x:~=nan'
    word -inf x 'x:~=-inf'
    word inf x 'x:~=1e400'
    word 7.0 '' ':~=+7.'
    word '"1.5"' 'x~' 'x~=1.5'
    text '0.30000000000000004 0.30' '{x} {x:.2}' 'x:~=0.30000000000000004'
    text '1000|1e3|1.5E3|  +1.0' '{a}|{a:e}|{b:E}|{c:>+6.1}' 'a:~=1e3' 'b:~=1500' 'c:~=1'
    text 'NaN inf' '{a} {b}' 'a:~=nan' 'b:~=inf'
    fault 'trait `LowerHex` not implemented, used by format argument at 4' '{x:x}' 'x:~=1.5'
    bad 'x:~='
    bad 'x:~=.'
    bad 'x:~=1e'
    bad 'x:~=1.5 '
    bad 'x:~=1,5'
    bad 'x:~=nano'
}

# Of two words of one name the later counts, for the slots that it fills. An item has the slots of a
# text.
list_cases() {
    text '"a", "b"' '{l:i({:?})(, )}' 'l[]=a,b'
    text 'ab' '{l:i}' 'l[]=a,b'
    text 'a, b, c' '{l:i({})(, )}' 'l[]=a,b,c'
    text '"a","","b"' '{l:i({:?})(,)}' 'l[]=a,,b'
    text '""""' '{l:i({:?})}' 'l[]=,'
    text '"a"""' '{l:i({:?})}' 'l[]=a,'
    text '"""a"' '{l:i({:?})}' 'l[]=,a'
    text '<>' '<{l:i({:?})}>' 'l[]='
    text '<é><a=b>< >' '{l:i(<{}>)}' 'l[]=é,a=b, '
    text '<a=b>,<[]=>' '{l:i(<{}>)(,)}' 'l[]=a=b,[]='
    text ':=1' '{l:i}' 'l[]=:=1'
    text 'ab' '{:i}' '[]=a,b'
    text '' '{:i}' '[]='
    text 'aa+bb' '{l:i({}{})(+)}' 'l[]=a,b' '=x'
    text 'ab' '{l[]:i}' 'l[][]=a,b'
    text 'ü' '{é:i}' 'é[]=ü'
    text 'c' '{l:i}' 'l[]=a,b' 'l[]=c'
    text 'abx' '{l:i}{l}' 'l[]=a,b' 'l=x'
    text 'abx' '{l:i}{l}' 'l=x' 'l[]=a,b'
    text 'abff' '{l:i}{l:x}' 'l[]=a,b' 'l:=255'
    text 'abc' '{l:i}{m:i}' 'l[]=a,b' 'm[]=c' 'n[]=d'
    text 'b  ab' '{l:i-1}{l:>4i}' 'l[]=a,b'
    text 'x' '{l}' 'l[]=a,b' 'l=x'
    text 'x' '{l}' 'l=x' 'l[]=a,b'
    text 'ff' '{n:x}' 'n:=255' 'n[]='
    text 'c' '{q}' '[]=a,b' 'q=c'
    fault 'trait `Display` not implemented, used by format argument at 2' '{l}' 'l[]=a,b'
    fault 'trait `Iter` not implemented, used by format argument at 4' '{l:i}' 'l=a,b'
    fault 'trait `Iter` not implemented, used by format argument at 4' '{n:i}' 'n:=1'
    fault 'trait `LowerHex` not implemented, used by format argument at 8' '{l:i({:x})}' 'l[]=1,2'
    fault 'specified value not in context `q` at 1' '{q}' 'l[]='
    wrong 'bad word: l[]' '{l:i}' 'l[]=a' 'l[]'
    wrong 'bad word: l[]' '{n}' 'l[]=a,b' 'l[]' 'n:=1'
}

line_cases() {
    text 'Hi Ann' 'Hi {who}' 'who=Ann'
    text 'Hi Ann' 'Hi {who}' 'who=Ann' 'a='
    text '{}     é|0xff|-7' '{{}}{name:>6}|{n:#x}|{m}' 'name=é' 'n:=255' 'm:=-7'
    text '***255    +7' '{n:*>6}{m:>+6}' 'n:=255' 'm:=7'
    text 'Hello Ann, {n} is    -7 }' 'Hello {name}, {{n}} is {n:>5} }' 'name=Ann' 'n:=-7'
    text '' ''
    text '-3' '{n}' 'n=a' 'n:=-3'
    text 'a' '{n}' 'n:=-3' 'n=a'
    text 'd' '{n}' 'n=a' 'n=b' 'n=c' 'n=d' 'm=e'
    text 'b7' '{}{n}' '=b' 'n:=007'
    text '123' '{a}{b}{c}' 'a=1' 'b=2' 'c=3'
    text '3x3' '{c}{a}{c}' 'a=1' 'b=2' 'c:=3' 'a=x'
    fault 'specified value not in context `q` at 2' 'a{q}'
    fault 'specified value not in context `q` at 1' '{q}' 'a=' 'n:=1' 'b='
    fault 'error while parsing input: Format spec at 3 is nether closed with a `}`' 'é{'
    wrong 'bad word: n:=x' '{n}' 'a=b' 'n:=x'
    wrong 'bad word: a' '{' 'a' 'b'
    wrong 'bad word: c' '{c}' 'a=1' 'b=2' 'c' 'd'
    wrong "$usage"
    wrong "$usage" '{q}' $'q=\xff'
}

# Long names, texts, numbers, lists, formats, faults and bad words, and many words.
long_cases() {
    local long value words=() format='' length
    long=$(times 1000 a)
    value=$(times 50000 é)
    text x "{$long}" "$long=x"
    text x "{$(times 101 é)}" "$(times 101 é)=x"
    text -7 "{$long}" "$long:=-7"
    text bc "{$long:i}" "$long[]=b,c"
    text "$value" '{t}' "t=$value"
    text 7 '{n}' "n:=$(times 1000 0)7"
    text "a$(times 1000 b)" '{l:i}' "l[]=a$(times 1000 ,b)"
    text "$value" '{l:i}' "l[]=$value"
    text "$(times 1000 7)" "$(times 1000 '{n}')" 'n:=7'
    text "$(times 100000 a)" "$(times 100000 a)" 'n=x'
    fault "specified value not in context \`$long\` at 1" "{$long}" 'n=x'
    wrong "bad word: $long" '{n}' "$long"
    for ((length = 1; length <= 400; length++)); do
        format+="{${long:0:length}}"
        words+=("${long:0:length}=${long:0:length}")
    done
    text "$(times 80200 a)" "$format" "${words[@]}"
}

# Help and version are asked for by the only word; a format that begins with `--` stands after `--`.
flag_cases() {
    text 'ifmt 0.5.0' --version
    text --version -- --version
    text --help -- --help
    text -- --
    text -- -- 'a=b'
    text --help --help 'a=b'
    text --version --version 'a=b'
    text '--Ann' -- '--{a}' 'a=Ann'
    wrong 'bad word: b' -- b
    text --explain --explain
    case_of closed file 3 '' '' --help
    case_of full file 3 '' '' --version
    refusals_of 0 $'ifmt 0.5.0\n' '' --version
    help_case
}

# The help begins with what the program does, and names each flag.
help_case() {
    if "$program" --help >"$room/out" 2>"$room/err" && [[ ! -s $room/err ]] \
        && [[ $(head -n 1 "$room/out") == 'Prints a text by a format and named values.' ]] \
        && [[ $(grep -c -e '^  --' "$room/out") -eq 4 ]]; then
        passed=$((passed + 1))
    else
        fail '--help prints something else'
    fi
}

# A fault, shown in its line.
explained_cases() {
    text Ann --explain '{a}' 'a=Ann'
    text '--{' --explain -- '--{{'
    text a --explain a
    fault "$(printf '%s\n' 'format:1:8: specified value not in context `nme` at 7' '  |' \
        '1 | Hello {nme}' '  |       ~^~~~' '  = did you mean `name`? names: `name`, `n`')" \
        --explain 'Hello {nme}' 'name=Ann' 'n:=7'
    fault "$(printf '%s\n' 'format:2:5: trait `LowerHex` not implemented, used by format argument at 7' \
        '  |' '2 | {a:x}' '  | ~~~~^')" --explain $'é\n{a:x}' 'a=1'
    fault "$(printf '%s\n' 'format:1:2: specified value not in context `q` at 1' '  |' '1 | {q}' \
        '  | ~^~')" --explain '{q}'
    wrong 'bad word: b' --explain '{a}' b
    refusals_of 0 $'Ann\n' '' --explain '{a}' 'a=Ann'
    refusals_of 1 '' "$(printf '%s\n' 'format:1:2: specified value not in context `q` at 1' '  |' \
        '1 | {q}' '  | ~^~' '  = did you mean `a`? names: `a`')"$'\n' --explain '{q}' 'a=Ann'
    case_of file closed 3 '' '' --explain '{q}'
    case_of file full 3 '' '' --explain '{q}'
}

# A refused write has status 3, and the stream that is not written to is left alone, whatever it is.
stream_cases() {
    case_of closed file 3 '' '' 'Hi'
    case_of full file 3 '' '' 'Hi'
    case_of closed file 1 '' $'specified value not in context `q` at 1\n' '{q}'
    case_of file closed 3 '' '' '{q}'
    case_of file full 3 '' '' '{q}'
    case_of file full 3 '' '' 'Hi' 'n'
    case_of file closed 0 $'Hi\n' '' 'Hi'
}

refused_calls() {
    refusals_of 0 $'<a>, <b> Ann 7 1.50\n' '' '{l:i(<{}>)(, )} {who} {n} {p}' \
        'l[]=a,b' 'who=Ann' 'n:=7' 'p:.=1.50'
    refusals_of 1 '' $'specified value not in context `q` at 1\n' '{q}' 'who=Ann'
    refusals_of 2 '' $'bad word: n:=x\n' '{n}' 'n:=x'
    refusals_of 2 '' "$usage"$'\n'
}

# example TEXT WORD..: the program on the words writes this text, to either stream.
example() {
    timeout 60 "$program" "${@:2}" >"$room/out" 2>&1
    if is_text 'both streams' "$1" "$room/out" "${*:2} of README"; then
        passed=$((passed + 1))
    fi
}

# The examples of README: a line `$ ifmt WORD..` of a block `console`, and the text after it.
readme_cases() {
    local line call='' text='' count=0
    while IFS= read -r line; do
        if [[ $line == '$ ifmt '* || $line == end ]]; then
            if [[ -n $call ]]; then
                eval "example \"\$text\" $call" || fail "$call of README: the shell cannot read it"
                count=$((count + 1))
            fi
            call=${line#'$ ifmt '}
            text=''
        else
            text+=$line$'\n'
        fi
    done < <(awk '/^```console$/ { on = 1; next } /^```$/ { on = 0 } on; END { print "end" }' \
        "$here/../../README.md")
    if [[ $count -eq 0 ]]; then
        fail "README has no example"
    fi
}

# The table of README: a row that ends in a format and its text, over the values that README names.
table_cases() {
    local line
    while IFS= read -r line; do
        if [[ $line =~ \|\`([^\`]*)\`\|\`([^\`]*)\`$ ]]; then
            example "${BASH_REMATCH[2]}"$'\n' "${BASH_REMATCH[1]}" \
                't=Ann' 'n:=7' 'price:.=12.5' 'l[]=a,b,c'
        fi
    done <"$here/../../README.md"
}

all_cases() {
    word_cases
    decimal_cases
    float_cases
    list_cases
    line_cases
    flag_cases
    explained_cases
    long_cases
    stream_cases
    refused_calls
    readme_cases
    table_cases
}

run_cases "$@"
