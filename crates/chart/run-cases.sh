#!/usr/bin/env bash
# Runs the built program on formats and tables, and compares what it writes to both streams and its
# status with what is worked out by hand: 64 stand above the first line and 82 from one line to the
# next, and the second number of a line has a bar of 100; fields are those of RFC 4180, and names
# are escaped as text of a page. Then it runs the line of crates/README.md. The picture of docs is
# the one of its table.
#
# usage: run-cases.sh [PROGRAM..]
set -u

usage='usage: chart [--separator , | ; | tab] [--latin1] [--] FORMAT FILE'
help=$(
    cat <<'END'
usage: chart [--separator , | ; | tab] [--latin1] [--] FORMAT FILE

Draws the numbers of a file as bars, by a format. A record of the file is a name
and whole numbers, of which the second has a bar of 100.

  --separator S  between fields; without it, a line `sep=;` at the head tells
                 it, or else the first record
  --latin1       the file is Latin-1, not UTF-8
  --             what follows are the files
  --help         print this, if it is the only word
  --version      print the version, if it is the only word

chart chart.svg.txt speed.txt >speed.svg
END
)$'\n'
range='is no whole number from 0 to 18446744073709551615'
stray='a stray quote: write the field in quotes, and double those in it'
here=$(cd "$(dirname "$0")" && pwd)
name=chart
wanted=62
. "$here/../../.ci/cases.sh"

# files TEXT: the format of all cells, and a file with this text.
files() {
    printf '%s' '{height};{rows:i#({:i({})(,)})#(;)}' >f
    printf '%s' "$1" >t
}

# table WANTED TEXT FLAG..: all cells of a file with this text, which go to the output, with status 0.
table() {
    files "$2"
    case_of file file 0 "$1" '' "${@:3}" f t
}

# fault WANTED TEXT FLAG..: the faults of a file with this text, which go to the errors, with
# status 1; no picture is drawn.
fault() {
    files "$2"
    case_of file file 1 '' "$1"$'\n' "${@:3}" f t
}

table_cases() {
    table '146;64,a,50,1,100,2' $'a,1,2\n'
    table '228;64,a,50,1,100,2;146,b,150,30,100,20' $'a,1,2\nb,30,20\n'
    table '228;64,a,0,0,100,1,200,2;146,é,33,1,100,3,0,0' $'\xef\xbb\xbfa,0,1,2\r\né,1,3,0\r\n'
    table '64;' ''
    table '64;' $'\r\n\n'
    table '146;64,a b,50,1,100,2' $'a b ; 1 ;"2"\n\n'
    table $'146;64,a\n&quot;b,50,1,100,2' $'"a\n""b",1,2\n'
    table '146;64,&lt;b&gt; &amp; c,50,1,100,2' $'<b> & c,1,2\n'
    table '146;64,a,b,50,1,100,2' $'a,b\t1\t2\n' --separator tab
    table '146;64,é,50,1,100,2' $'\xe9,1,2\n' --latin1
    table '146;64,a,b,50,1,100,2' $'sep=;\r\na,b;1;2\r\n'
    fault 't:3: column 3: 1 number, but line 2 has 2' $'sep=;\na;1;2\nb;1\n'
    fault 't:2: column 3: 1 number, but at least 2 are wanted' $'sep=;\na;1\n'
}

fault_cases() {
    fault "t:1: column 2: \`x\` $range" $'a,x,2,1\n'
    fault "t:2: column 2: \`1.5\` $range" $'a,1,2\né,1.5,2\n'
    fault "t:1: column 2: \`-1\` $range" $'a,-1,2\n'
    fault "t:1: column 3: \`18446744073709551616\` $range" $'a,1,18446744073709551616\n'
    fault "t:1: column 2: \`\` $range" $'a,,1,2\n'
    fault 't:1: column 3: the second number, which measures its line, is 0' $'a,7,0\n'
    fault "t:1: column 2: \`x\` $range"$'\n''t:1: column 3: the second number, which measures its line, is 0' \
        $'a,x,0\n'
    fault 't:1: column 2: 0 numbers, but at least 2 are wanted' 'a'
    fault 't:1: column 3: 1 number, but at least 2 are wanted' 'a,1'
    fault 't:2: column 4: 3 numbers, but line 1 has 2' $'a,1,2\nb,30,20,5\n'
    fault $'t:2: column 2: 0 numbers, but line 1 has 2\n'"t:3: column 2: \`y\` $range"$'\nt:3: column 3: 1 number, but line 1 has 2' \
        $'a,1,2\n\nb,y\n'
    printf '%s' 'log,1,2,3,4' >t
    case_of file file 1 '' $'t:1: column 6: 4 numbers, but at least 8 are wanted\n' \
        "$here/data/chart.svg.txt" t
    printf '%s' '{rows:i#({:i-7({})})#}' >f
    case_of file file 0 '1' '' f t
    printf '%s' 'log,1,2' >t
    case_of file file 1 '' $'t:1: column 4: 2 numbers, but at least 3 are wanted\n' f t
    printf '%s' $'é\n {q}' >f
    case_of file file 1 '' \
        $'f:2:3: specified value not in context `q` at 5\n  |\n2 |  {q}\n  |  ~^~\n' f t
    printf '%s' '<a b={height}>' >f
    case_of file file 1 '' \
        $'f:1:6: this value is out of place; a value may stand in text, or between the quotes of an attribute that is a text\n  |\n1 | <a b={height}>\n  |      ^\n' f t
}

broken_cases() {
    fault 't:2:5: a quote that is never closed' $'a,1,2\nb,1,"2\n'
    fault "t:3:6: $stray" $'a,1,2\nb\n"c",x"\n'
    fault 't:1:4: text after a closing quote: double the quotes in a field' '"a"b,1,2'
    fault 't:1:6: a carriage return without a newline' $'a,1,2\rb,1,2\n'
    fault 't:2:2: byte 0xFF is no UTF-8; is this Latin-1? try --latin1' $'a,1,2\né\xff,1,2\n'
    printf '\xff\xfea\0' >t
    case_of file file 1 '' \
        $'t:1:1: byte 0xFF is no UTF-8; this looks like UTF-16: save it as UTF-8\n' f t
    fault 't:2: column 3: 1 number, but line 1 has 2' $'a,1,2\nb,1'
    printf '%s' '{rows:i#({:i3({})})#}' >f
    printf 'a\0b,7,2\n' >t
    case_of file file 0 '7' '' f t
}

# Wrong use, unreadable files and refused writes.
other_cases() {
    case_of file file 2 '' "$usage"$'\n'
    case_of file file 2 '' "$usage"$'\n' f
    case_of file file 2 '' "$usage"$'\n' f t t
    case_of file file 2 '' "$usage"$'\n' --width t
    case_of file file 2 '' "$usage"$'\n' --separator : f t
    case_of file file 2 '' "$usage"$'\n' --help f
    case_of file file 0 "$help" '' --help
    case_of file file 0 $'chart 0.5.0\n' '' --version
    files $'a,1,2\n'
    cp t ./-t
    case_of file file 0 '146;64,a,50,1,100,2' '' -- f -t
    case_of file file 3 '' $'none: No such file or directory (os error 2)\n' none t
    case_of file file 3 '' $'none: No such file or directory (os error 2)\n' f none
    case_of file file 3 '' $'.: Is a directory (os error 21)\n' f .
    printf 'a\xff\n' >b
    case_of file file 3 '' $'b:1:2: byte 0xFF is no UTF-8\n' b t
    printf '%s' 'x' >f
    case_of closed file 3 '' $'cannot write: Bad file descriptor (os error 9)\n' f t
    case_of full file 3 '' $'cannot write: No space left on device (os error 28)\n' f t
    case_of file full 3 '' '' f none
    locked_case
    pipe_case
    printf '%s' '{height}' >f
    printf 'a%s\n' "$(times 99999 ,1)" >t
    case_of file file 0 '146' '' f t
}

# A file that may not be read; whoever may read all has no such file.
locked_case() {
    printf 'a\n' >locked
    chmod 000 locked
    if [[ -r locked ]]; then
        passed=$((passed + 1))
    else
        case_of file file 3 '' $'locked: Permission denied (os error 13)\n' f locked
    fi
}

# A pipe that is closed before all is written.
pipe_case() {
    local ended
    times 1000000 x >f
    {
        timeout 60 "$program" f t 2>told
        printf '%s' "$?" >ended
    } | head -c 1 >first
    ended=$(<ended)
    if [[ $ended -eq 3 && $(<told) == 'cannot write: Broken pipe (os error 32)' ]]; then
        passed=$((passed + 1))
    else
        fail "a closed pipe: status $ended"
    fi
}

refused_calls() {
    files $'a,1,2\nb,30,20\n'
    refusals_of 0 '228;64,a,50,1,100,2;146,b,150,30,100,20' '' f t
    files $'a,1,2\nb,30\n'
    refusals_of 1 '' $'t:2: column 3: 1 number, but line 1 has 2\n' f t
    files 'a,1,2'
    printf '%s' $'é\n {q}' >f
    refusals_of 1 '' \
        $'f:2:3: specified value not in context `q` at 5\n  |\n2 |  {q}\n  |  ~^~\n' f t
    refusals_of 2 '' "$usage"$'\n' f
    refusals_of 3 '' $'none: No such file or directory (os error 2)\n' f none
}

all_cases() {
    table_cases
    fault_cases
    broken_cases
    other_cases
    refused_calls
    using_case "$here/../../docs/speed.svg"
}

run_cases "$@"
