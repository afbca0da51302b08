#!/usr/bin/env bash
# Runs the built program on tables, and compares what it writes to both streams and its status with
# what is worked out by hand: widths count columns of a terminal, a total is the sum of all numbers
# of its column, at the greatest scale of these, and fields are those of RFC 4180. Then it runs the
# line of crates/README.md.
#
# usage: run-cases.sh [PROGRAM..]
set -u

usage='usage: report [--separator , | ; | tab] [--latin1] [--total NAME,..] '
usage+='[--group NAME] [--lenient] [--csv | --format F] [--] FILE'
help=$(
    cat <<'END'
usage: report [--separator , | ; | tab] [--latin1] [--total NAME,..]
    [--group NAME] [--lenient] [--csv | --format F] [--] FILE

Prints the records of a file as a table, with exact totals.

  --separator S  between fields; without it, a line `sep=;` above the header
                 tells it, or else the header
  --latin1       the file is Latin-1, not UTF-8
  --total NAMES  sum these columns; without it, those of decimals, and those
                 whose name ends in a colon
  --group NAME   subtotals for each text in this column
  --lenient      what is no number in a column that is summed counts as none
  --csv          write records, not a table
  --format F     write each record by the format in the file F, whose names are
                 those of columns, as `{item:<9}{price:>8.2}`; without totals
  --             what follows is the file
  --help         print this, if it is the only word
  --version      print the version, if it is the only word

report --total count,price --group city stock.csv
END
)$'\n'
unclosed='a quote that is never closed'
wanted_number='wants a number, such as -7 or 12.50'
utf16='this looks like UTF-16: save it as UTF-8'
# the greatest number of 128 bits, without its last digit, which is 7
most=17014118346046923173168730371588410572
# the number after that one
next=17014118346046923173168730371588410573
zeros=0.0000000000000000000000000000000000000000
here=$(cd "$(dirname "$0")" && pwd)
name=report
wanted=174
. "$here/../../.ci/cases.sh"

# table WANTED TEXT FLAG..: the report of a file with this text, which goes to the output, with
# status 0.
table() {
    printf '%s' "$2" >t
    case_of file file 0 "$1" '' "${@:3}" t
}

# fault WANTED TEXT FLAG..: the faults of a file with this text, which go to the errors, with
# status 1; no table is written.
fault() {
    printf '%s' "$2" >t
    case_of file file 1 '' "$1"$'\n' "${@:3}" t
}

# lines WANTED FORMAT TEXT FLAG..: what a format writes of a file with this text, with status 0.
lines() {
    printf '%s' "$2" >f
    table "$1" "$3" --format f "${@:4}"
}

# unfit WANTED FORMAT TEXT FLAG..: the faults of the format or of the file, which go to the errors,
# with status 1; no line is written.
unfit() {
    printf '%s' "$2" >f
    fault "$1" "$3" --format f "${@:4}"
}

table_cases() {
    table $'item   count\nbread      7\ncrème  -1234\ntotal  -1227\n' \
        $'item,count:\nbread,7\ncrème,-1234\n'
    table $' n  t\n 1\n20  é\n' $'n,t\n1,\n20,é\n'
    table $'a  b\n' $'a:,b\n'
    table $'名      n\n漢字    1\ne\xcc\x81      12\ntotal  13\n' $'名,n:\n漢字,1\ne\xcc\x81,12\n'
    table $'a   b\n😀  1\n\xe1\x84\x92\xe1\x85\xa1\xe1\x86\xab  2\n\xef\xbc\xa1  3\n' $'a,b\n😀,1\n\xe1\x84\x92\xe1\x85\xa1\xe1\x86\xab,2\n\xef\xbc\xa1,3\n'
    table $'{a}    )#\n{b}     1\n{c}     2\ntotal   3\n' $'{a},)#:\n{b},1\n{c},2\n'
    table $'n  m\n1  2\n1  2\n' $'\xef\xbb\xbfn:,m :\r\n1,2\r\n'
    table $'  n\n007\n +1\n  8\n' $'n:\n007\n+1\n'
    table $'a    b\n1 2  x\ny"\n' $'a,b\n"1\n2", x \n"y"""  ,""\n\r\n\n'
    table $'a\n1\n\n2\n' $'a\n1\n\n2\n\n'
    table $'a      n\nx      1\ntotal  1\n' $'a\tn:\nx\t1\n'
    table $'a  b,c\n1  2,3\n' $'a;b,c\n1;2,3\n' --separator ';'
    table $'a  b\n1  2\n' $'a\tb\n1\t2\n' --separator tab
    printf 'a\n\xe9\n' >t
    case_of file file 0 $'a\né\n' '' --latin1 t
    printf 'a\nx\0y\n' >t
    case_of file file 0 $'a\nx y\n' '' t
}

# The width of each character, by Python's copy of the Unicode data, whose versions 14 and 15 agree
# on what both have.
width_case() {
    if python3 - "$program" <<'END'; then
import subprocess
import sys
import unicodedata

if unicodedata.unidata_version not in ('14.0.0', '15.0.0'):
    sys.exit(0)


def width(c):
    is_jamo = '\u1160' <= c <= '\u11ff' or '\ud7b0' <= c <= '\ud7fb'
    if c >= '\u0300' and (is_jamo or unicodedata.category(c) in ('Mn', 'Me', 'Cf')):
        return 0
    return 2 if unicodedata.east_asian_width(c) in 'WF' else 1


known = [c for c in map(chr, range(0xa0, 0x110000)) if unicodedata.category(c) not in ('Cn', 'Cs')]
with open('t', 'w', encoding='utf-8', newline='') as file:
    file.write('abcd\tb\n' + ''.join(f'a{c}a\tx\n' for c in known))
done = subprocess.run([sys.argv[1], 't'], capture_output=True, timeout=60)
lines = ['abcd  b'] + [f'a{c}a{" " * (2 - width(c))}  x' for c in known]
sys.exit(done.returncode != 0 or done.stdout.decode() != '\n'.join(lines) + '\n')
END
        passed=$((passed + 1))
    else
        fail 'characters of another width than the Unicode data have'
    fi
}

# A line that names the separator, above the header.
named_cases() {
    table $'a  b\n1  2\n' $'sep=;\na;b\n1;2\n'
    table $'a  b,c\n1  2,3\n' $'\xef\xbb\xbfsep=;\r\na;b,c\r\n1;2,3\r\n'
    table $'a  b;\n1   2\n' $'sep=\t\na\tb;\n1\t2\n'
    table $'a  b;\n1   2\n' $'sep=,\na,b;\n1,2\n'
    table $'a  b;\n1  2;\n' $'sep=;\na,b;\n1,2;\n' --separator ,
    table $'sep=;\n    1\n' $'"sep=;"\n1\n'
    table $'a\nsep=;\n' $'a\nsep=;\n'
    table $'sep=;  b\n    1  2\n' $'sep=;,b\n1,2\n' --separator ,
    fault 't:3: 1 field, but line 2 has 2: column 2 has no field' $'sep=;\na;b\n1\n'
    fault "t:3:1: $unclosed" $'sep=;\na;b\n"1;2\n'
    fault 't:2: no column has the name `q`' $'sep=;\na;b\n1;2\n' --total q
    fault 't:2: the total of `n` has more than 128 bits' $'sep=;\nn:;a\n'"${most}7"$';\n1;\n'
    fault 't:2: the first line names no columns' $'sep=;\n\n1\n'
    fault 't:1: the first line names no columns' $'sep=;'
}

number_cases() {
    table "$(printf '%39s\n' n "${most}6" 1 "${most}7")"$'\n' $'n:\n'"${most}6"$'\n1\n'
    table $'n\n'"${most}8"$'\nx\n' $'n\n'"${most}8"$'\nx\n'
    table $'     n\n  1.50\n-0.005\n     7\n 8.495\n' $'n\n1.50\n-0.005\n7\n'
    table $'n\n1.5\n1.\n' $'n\n1.5\n1.\n'
    table "$(printf '%42s\n' n 0 "$zeros" 0 "$zeros")"$'\n' $'n\n0\n'"$zeros"$'\n0\n'
    table "$(printf '%40s\n' n -0.0 "${most}.7" "${most}.7")"$'\n' $'n\n-0.0\n'"${most}.7"$'\n'
    table "$(printf '%40s\n' n -0.5 "$next" "${most}.5")"$'\n' $'n\n-0.5\n'"$next"$'\n'
    table "$(printf '%40s\n' n "$next" -0.5 "${most}.5")"$'\n' $'n\n'"$next"$'\n-0.5\n'
    table "$(printf '%39s\n' n "${most}7" 1 -1 "${most}7")"$'\n' $'n:\n'"${most}7"$'\n1\n-1\n'
    table "$(printf '%40s\n' n "-${most}8" -1 1 "-${most}8")"$'\n' $'n:\n'"-${most}8"$'\n-1\n1\n'
    table "$(printf '%42s\n' n "${most}7" "$zeros" "-${most}7" "$zeros")"$'\n' \
        $'n\n'"${most}7"$'\n'"$zeros"$'\n'"-${most}7"$'\n'
    table $'v\n1.2\n1.2.3\n2.0.1\n' $'v\n1.2\n1.2.3\n2.0.1\n'
    table $' year  price\n 1999    1.5\n 2001   2.25\ntotal   3.75\n' \
        $'year,price\n1999,1.5\n2001,2.25\n'
}

empty_cases() {
    table $'a        n\nx        1\ny\nz        2\ntotal    3\ncounted  2\n' \
        $'a,n:\nx,1\ny,\nz, 2\n'
    table $'a        n\nx\ntotal    0\ncounted  0\n' $'a,n:\nx, \n'
    table $'a        n  m\nx        1  2\ny           3\ntotal    1  5\ncounted  1  2\n' \
        $'a,n:,m:\nx,1,2\ny,,3\n'
    fault "t:3: column 2, \`n\`, $wanted_number" $'a,n:\nx,1\ny,n/a\n'
    fault "t:2: column 2, \`n\`, $wanted_number"$'\n'"t:5: column 2, \`n\`, $wanted_number"$'\n'"t:2: column 3, \`m\`, $wanted_number" \
        $'a,n:,m:\n"x\ny",-,1.\nz,,\nz,.5,7\n'
    table $'a          n\nx          1\ny        n/a\ntotal      1\ncounted    1\n' \
        $'a,n:\nx,1\ny,n/a\n' --lenient
    fault "t:4: column 1, \`p\`, $wanted_number" $'p\n1.5\n2\nn/a\n'
}

total_cases() {
    table $'a      n  m\nx      1  2\ntotal  1  2\n' $'a,n,m\nx,1,2\n' --total n,m
    table $'a      n    m\nx      1  2.5\ntotal  1\n' $'a,n,m:\nx,1,2.5\n' --total ' n '
    table $' n  t\n 1\n20  é\n21  total\n' $'n,t\n1,\n20,é\n' --total n
    fault $'t:1: no column has the name `q`\nt:1: no column has the name `r`' $'a,n\nx,1\n' \
        --total q,n,r
    fault "t:2: column 1, \`a\`, $wanted_number" $'a,n\nx,1\n' --total n,a
}

group_cases() {
    local cities=$'city,n:\nUlm,1\nBonn,2\nUlm,3\n'
    table $'city        n\nUlm         1\nUlm         3\ntotal Ulm   4\nBonn        2\ntotal Bonn  2\ntotal       6\n' \
        "$cities" --group city
    table $'city  t\nUlm   a\nUlm   c\nBonn  b\n' $'city,t\nUlm,a\nBonn,b\nUlm,c\n' --group city
    table $'n  city\n1\n\n1  total\n1  counted\n1  total\n1  counted\n' $'n:,city\n1,\n,\n' \
        --group city
    table $'"city","n"\n"Ulm","1"\n"Ulm","3"\n"total Ulm","4"\n"Bonn","2"\n"total Bonn","2"\n"total","6"\n' "$cities" \
        --csv --group city
    fault 't:1: no column has the name `town`' "$cities" --group town
    fault 't:1: the total of `n` has more than 128 bits' $'c,n:\na,'"${most}7"$'\nb,-1\na,1\n' \
        --group c
    table $'c  n\n' $'c,n:\n' --group c
}

csv_cases() {
    table $'"a","n"\n"x,y","1.5"\n"z""","2"\n"total","3.5"\n' $'a;n:\n"x,y";1.5\n"z""";2\n' --csv
    table $'"a","b"\n"1\n2","x"\n' $'a,b\n"1\n2",x\n' --csv
    table $'"a"\n""\n"x"\n' $'a\n\nx\n' --csv
    table $'"a","n"\n"x",""\n"total","0"\n"counted","0"\n' $'a,n:\nx,\n' --csv
    read_back_case
}

# Records of awkward fields, which Python reads back.
read_back_case() {
    if python3 - "$program" <<'END'; then
import csv
import io
import random
import subprocess
import sys

random.seed(4180)
marks = '"," ;\n\t\'=\\{}x"\u00e9\u2028\u202e\U0001f600'
rows = [['name', '"a",b', 'c\nd']]
for _ in range(2000):
    rows.append([''.join(random.choices(marks, k=random.randrange(8))) for _ in rows[0]])
with open('t', 'w', newline='', encoding='utf-8') as file:
    csv.writer(file, quoting=csv.QUOTE_ALL).writerows(rows)
done = subprocess.run(
    [sys.argv[1], '--csv', '--separator', ',', 't'], capture_output=True, timeout=60)
back = list(csv.reader(io.StringIO(done.stdout.decode(), newline=''), strict=True))
sys.exit(done.returncode != 0 or back != [[field.strip() for field in row] for row in rows])
END
        passed=$((passed + 1))
    else
        fail 'records that Python reads otherwise'
    fi
}

stock=$'item,count:,price\nbread,7,1.20\ncrème,1234,0.05\ntea,-3,12.5\n'

# Lines by a format. Texts are padded by characters, and decimals written as Rust does both.
line_cases() {
    lines $'bread    |    1.20|+7\ncrème    |    0.05|+1234\ntea      |   12.50|-3\n' \
        $'{item:<9}|{price:>8.2}|{count:+}\n' "$stock"
    lines $'tea is -3.\n' '{item} is {count}.' $'item,count:\ntea,-3\n'
    lines $'x\r\ny\r\n' $'{a}\r\n' $'a\nx\ny\n'
    lines $'x\n\ty{}\nz\n\t{}\n' $'{a}\n\t{b}{{}}\n' $'a,b\nx,y\nz,\n'
    lines $'x\n\ny\n\n' $'{a}\n\n' $'a\nx\ny\n'
    lines $'-\n-\n' $'-\n' $'a\nx\ny\n'
    lines '' $'{a}\n' $'a\n'
    lines $'x y\n' $'\xef\xbb\xbf{a}' $'\xef\xbb\xbfsep=;\na;b\n "x\ny" ;1\n'
    lines $'"x y"|3|"c"\n' $'{a:?}|{n:?}|{unit price:?}\n' $'a,n,unit price\n"x\ty",3,c\n'
    lines $'x-\n' $'{a}-{}\n' $'a,b,\nx,y,\n'
    lines $' 1,5  2\n' $'{b:>4}  {a}\n' $'a;b\n2;1,5\n' --separator ';'
    printf 'a\n\xe9\n' >t
    printf '[{a:>2}]\xc3\xa9\n' >f
    case_of file file 0 $'[ é]é\n' '' --latin1 --format f -- t
    python_case
}

# What is shown as a number, and what as a text.
kind_cases() {
    lines $' 01234|01\n 10115|10\n' $'{zip:>6}|{zip:.2}\n' $'zip\n01234\n10115\n'
    lines $'+1|+1\n 2| 2\n' $'{n:>2}|{n:>2.2}\n' $'n\n+1\n2\n'
    lines $'-0|-0\n2|2\n' $'{n}|{n:.3}\n' $'n\n-0\n2\n'
    lines $'  0.0\n 10.0\n-10.0\n' $'{n:5.1}\n' $'n\n0\n10\n-10\n'
    lines $'1999.00\n\n2001.00\n' $'{year:.2}\n' $'year,a\n1999,x\n,x\n2001,x\n'
    lines $'7.0\n1.0\n' $'{n:.1}\n' $'n:\n007\n+1\n'
    lines $'12\nx1\n' $'{n:.2}\n' $'n\n123\nx12\n'
    lines $'   1.5|\n      |\n' $'{n:>6}|\n' $'n,a\n1.5,x\n,x\n'
    lines $' 1.500|\n 2.000|\n   n/a|\n' $'{n:>6.3}|\n' $'n\n1.50\n2.00\nn/a\n' --lenient
    lines "${most}8"$'\n1\n' $'{n}\n' $'n\n'"${most}8"$'\n1\n'
    unfit "t:4: column 1, \`n\`, $wanted_number" '{n}' $'n\n1.5\n2\nn/a\n'
    unfit "t:2: column 2, \`m\`, $wanted_number"$'\n''t:3: the number of `n` has more than 128 bits' \
        '{n}{m}' $'x:,m:,n:\na,1.,1\na,2,'"-${most}9"$'\n'
    unfit 't:3: the number of `n` has more than 128 bits' '{n}' $'n:\nx\n'"${most}8"$'\n' --lenient
    lines $'a\n' '{m}' $'n:,m\nx,a\n'
}

# Lines by Python's format, which pads texts and numbers as Rust does.
python_case() {
    if python3 - "$program" <<'END'; then
import decimal
import random
import subprocess
import sys

random.seed(1964)
rows = []
for _ in range(1000):
    name = ''.join(random.choices('abc xyz\u00e9\u6f22', k=random.randrange(1, 16))).strip() or '-'
    price = decimal.Decimal(random.randrange(-10**9, 10**9)).scaleb(-2)
    rows.append((name, price, random.randrange(-9999, 10**12)))
with open('t', 'w', newline='', encoding='utf-8') as file:
    file.write('name,price,n:\n' + ''.join(f'{name},{price},{n}\n' for name, price, n in rows))
with open('f', 'w', encoding='utf-8') as file:
    file.write('{name:*^12}|{name:.3}|{price:>16.3}|{n:+012}|{n:#<9}\n')
done = subprocess.run([sys.argv[1], '--format', 'f', 't'], capture_output=True, timeout=60)
lines = [f'{a:*^12}|{a:.3}|{b:>16.3f}|{n:+012}|{n:#<9}\n' for a, b, n in rows]
sys.exit(done.returncode != 0 or done.stdout.decode() != ''.join(lines))
END
        passed=$((passed + 1))
    else
        fail 'lines that Python writes otherwise'
    fi
}

# Faults of formats, shown in their lines; all of a format, and before those of the file.
format_cases() {
    unfit $'f:1:2: specified value not in context `itm` at 1\n  |\n1 | {itm}\n  | ~^~~~\n  = did you mean `item`? names: `item`, `count`, `price`' \
        '{itm}' "$stock"
    unfit $'f:2:5: specified value not in context `q` at 12\n  |\n2 | \té {q}\n  | \t  ~^~\n  = names: `item`, `count`, `price`' \
        $'{item}\n\té {q}\n' "$stock"
    unfit "$(printf '%s\n' 'f:1:2: specified value not in context `q` at 1' '  |' '1 | {q}{a:x}' '  | ~^~' \
        '  = did you mean `a`? names: `a`' \
        'f:1:8: trait `LowerHex` not implemented, used by format argument at 7' \
        '  |' '1 | {q}{a:x}' '  |    ~~~~^')" $'{q}{a:x}\n' $'a\n"1\n'
    unfit "$(printf '%s\n' 'f:1:5: trait `LowerExp` not implemented, used by format argument at 4' \
        '  |' '1 | {n:e}' '  | ~~~~^')" '{n:e}' $'n:\n1\n'
    unfit $'f:1:4: error while parsing input: Expected `}` at 3\n  |\n1 | {a:y\n  | ~~~^' \
        $'{a:y\n' $'a\n1\n'
    unfit $'f:1:6: more than one column has the name `a`\n  |\n1 | {b} {a}\n  |     ~^~' \
        '{b} {a}' $'a,b,a:\n1,2,3\n'
    lines $'2\n' '{b}' $'a,b,a,,\n1,2,3,4,5\n'
    unfit 't:1: the first line names no columns' '{q}' $'\n1\n'
    unfit "t:1:1: $unclosed" '{q}' $'"a\n1\n'
    unfit "t:3:1: $unclosed" '{a}' $'a\n1\n"2\n'
    unfit 't:3: 2 fields, but line 1 has 1: column 2 has no name' '{a}' $'a\n1\n2,3\n'
    unfit 'f:1: the format is empty' '' "$stock"
    unfit 'f:1: the format is empty' $'\xef\xbb\xbf\r\n' "$stock"
    unfit 'f:2:3: byte 0xE9 is no UTF-8; save it as UTF-8' $'{item}\né{\xe9}' "$stock"
    printf '\xff\xfe{\0}\0' >f
    case_of file file 1 '' $'f:1:1: byte 0xFF is no UTF-8; this looks like UTF-16: save it as UTF-8\n' \
        --format f t
}

# A format with other flags, unreadable formats and refused writes.
format_use_cases() {
    local flag
    printf 'a\n1\n' >t
    printf '{a}\n' >f
    for flag in --csv '--total a' '--group a'; do
        # the words of a flag are two or one
        # shellcheck disable=SC2086
        case_of file file 2 '' "${flag% *} does not go with --format"$'\n'"$usage"$'\n' \
            $flag --format f t
    done
    case_of file file 2 '' "$usage"$'\n' --format f
    case_of file file 2 '' "$usage"$'\n' t --format
    case_of file file 3 '' $'none: No such file or directory (os error 2)\n' --format none t
    case_of file file 3 '' $'.: Is a directory (os error 21)\n' --format . t
    case_of file file 3 '' $'none: No such file or directory (os error 2)\n' --format f none
    case_of closed file 3 '' $'cannot write: Bad file descriptor (os error 9)\n' --format f t
    case_of full file 3 '' $'cannot write: No space left on device (os error 28)\n' --format f t
    pipe_case --format f
}

fault_cases() {
    fault 't:2: 3 fields, but line 1 has 2: column 3 has no name' $'item,count\nbread,1,2\n'
    fault $'t:3: 1 field, but line 1 has 2: column 2 has no field\nt:4: 3 fields, but line 1 has 2: column 3 has no name' \
        $'t,n\na,9\nb\nc,1,2'
    fault 't:2: 1 field, but line 1 has 2: column 2 has no field' $'a,b\n\n1,2\n'
    fault 't:1: the first line names no columns' ''
    fault 't:1: the first line names no columns' $'\r\n\n'
    fault 't:1: the first line names no columns' $'\n1\n'
    fault 't:1: the total of `n` has more than 128 bits' $'n:\n'"${most}7"$'\n1\n'
    fault 't:1: the total of `n` has more than 128 bits' $'n:\n'"-${most}8"$'\n-1\n'
    fault 't:1: the total of `n` has more than 128 bits' $'n:\n'"${most}7"$'\n0.5\n'
    fault 't:1: the total of `n` has more than 128 bits' $'n\n-0.5\n'"-${most}.8"$'\n'
    fault 't:1: the total of `n` has more than 128 bits' $'n\n0.3\n'"$next"$'\n'
    fault 't:2: the number of `m` has more than 128 bits' $'t,m:\na,'"${most}8"$'\nb,-1\n'
    fault $'t:1: the total of `n` has more than 128 bits\nt:3: the number of `m` has more than 128 bits' \
        $'n:,m:\n'"${most}7,1"$'\n1,-'"${most}9"$'\n'
}

broken_cases() {
    fault "t:2:1: $unclosed" $'a,b\n"1,2\n'
    fault "t:1:3: $unclosed" $'a,"b\n1,2\n'
    fault 't:2:2: a stray quote: write the field in quotes, and double those in it' \
        $'a,b\n5" pipe,2\n'
    fault 't:2:9: text after a closing quote: double the quotes in a field' $'a,b\n"5"" é" x,2\n'
    fault $'t:2:2: a carriage return without a newline\nt:3:4: a carriage return without a newline' \
        $'a\n1\r2\n"2"\r\r\n'
    fault $'t:2: 1 field, but line 1 has 2: column 2 has no field\n'"t:3:3: $unclosed" \
        $'a,b\n1\n1,"2'
    fault 't:3: 1 field, but line 1 has 2: column 2 has no field' $'a,b\n1,2\n3'
    fault 't:3:2: byte 0xE9 is no UTF-8; is this Latin-1? try --latin1' $'a\né\nx\xe9\n'
    fault 't:2:1: byte 0xC3 is no UTF-8; is this Latin-1? try --latin1' $'a\n\xc3'
    printf '\xff\xfea\0\t\0b\0\r\0\n\0' >t
    case_of file file 1 '' "t:1:1: byte 0xFF is no UTF-8; $utf16"$'\n' t
    printf '\xfe\xff\0a\0\n' >t
    case_of file file 1 '' "t:1:1: byte 0xFE is no UTF-8; $utf16"$'\n' t
    fault 't:1:1: byte 0xFF is no UTF-8; is this Latin-1? try --latin1' $'\xff\n'
}

# Wrong use, unreadable files and refused writes.
other_cases() {
    case_of file file 2 '' "$usage"$'\n'
    case_of file file 2 '' "$usage"$'\n' t t
    case_of file file 2 '' "$usage"$'\n' --total
    case_of file file 2 '' "$usage"$'\n' --total t
    case_of file file 2 '' "$usage"$'\n' --separator : t
    case_of file file 2 '' "$usage"$'\n' --help t
    case_of file file 2 '' "$usage"$'\n' -- t t
    case_of file file 2 '' "$usage"$'\n' $'\xff'
    printf 'a\n1\n' >-t
    case_of file file 2 '' "$usage"$'\n' -t
    case_of file file 0 $'a\n1\n' '' -- -t
    case_of file file 0 $'"a"\n"1"\n' '' --csv -- -t
    case_of file file 0 "$help" '' --help
    case_of file file 0 $'report 0.5.0\n' '' --version
    case_of file file 3 '' $'none: No such file or directory (os error 2)\n' none
    case_of file file 3 '' $'.: Is a directory (os error 21)\n' .
    printf 'a\n1\n' >t
    case_of closed file 3 '' $'cannot write: Bad file descriptor (os error 9)\n' t
    case_of full file 3 '' $'cannot write: No space left on device (os error 28)\n' t
    case_of file full 3 '' '' none
    locked_case
    pipe_case
    wide_case
}

# A file that may not be read; whoever may read all has no such file.
locked_case() {
    printf 'a\n' >locked
    chmod 000 locked
    if [[ -r locked ]]; then
        passed=$((passed + 1))
    else
        case_of file file 3 '' $'locked: Permission denied (os error 13)\n' locked
    fi
}

# pipe_case FLAG..: a pipe that is closed before all is written.
pipe_case() {
    local ended
    { printf 'a\n' && times 100000 $'x\n'; } >t
    {
        timeout 60 "$program" "$@" t 2>told
        printf '%s' "$?" >ended
    } | head -c 1 >first
    ended=$(<ended)
    if [[ $ended -eq 3 && $(<told) == 'cannot write: Broken pipe (os error 32)' ]]; then
        passed=$((passed + 1))
    else
        fail "a closed pipe: status $ended"
    fi
}

# A hundred thousand columns.
wide_case() {
    printf '%sa\n%s1\n' "$(times 99999 a,)" "$(times 99999 1,)" >t
    case_of file file 0 "$(times 99999 'a  ')a"$'\n'"$(times 99999 '1  ')1"$'\n' '' t
}

refused_calls() {
    printf '%s' $'item,count:\nbread,7\ncrème,-1.25\n' >t
    refusals_of 0 $'item   count\nbread      7\ncrème  -1.25\ntotal   5.75\n' '' t
    refusals_of 0 $'"item","count"\n"bread","7"\n"total bread","7"\n"crème","-1.25"\n"total crème","-1.25"\n"total","5.75"\n' '' \
        --csv --group item t
    printf '%s' '{item:>7}|{count:>6.2}' >f
    refusals_of 0 $'  bread|  7.00\n  crème| -1.25\n' '' --format f t
    printf '%s' $'{itm}\n' >f
    refusals_of 1 '' $'f:1:2: specified value not in context `itm` at 1\n  |\n1 | {itm}\n  | ~^~~~\n  = did you mean `item`? names: `item`, `count`\n' \
        --format f t
    printf '%s' $'t,n\na,9\nb\nc,1,2' >t
    refusals_of 1 '' $'t:3: 1 field, but line 1 has 2: column 2 has no field\nt:4: 3 fields, but line 1 has 2: column 3 has no name\n' t
    refusals_of 2 '' "$usage"$'\n' --total
    refusals_of 3 '' $'none: No such file or directory (os error 2)\n' none
}

all_cases() {
    table_cases
    width_case
    named_cases
    number_cases
    empty_cases
    total_cases
    group_cases
    csv_cases
    line_cases
    kind_cases
    format_cases
    format_use_cases
    fault_cases
    broken_cases
    other_cases
    refused_calls
    using_case "$here/stdout"
}

run_cases "$@"
