#!/usr/bin/env bash
# Runs the built program on templates and tables, and compares what it writes to both streams and
# its status with what docs/DEFINITIONS.md says of each letter, and RFC 4180 of each field, worked out
# by hand; values are escaped as HTML, RFC 4180 and RFC 8259 read them back. Then it runs the line of
# crates/README.md.
#
# usage: run-cases.sh [PROGRAM..]
set -u

usage='usage: merge [--separator , | ; | tab] [--latin1] [--partial] [--html | --csv | --json] '
usage+='[--if-empty NAME=TEMPLATE] [--out NAMES] [--] TEMPLATE TABLE'
out_of_place='this value is out of place; a value may stand'
html_places='in text, or between the quotes of an attribute that is a text'
csv_places='between double quotes, or under `?` as a whole field'
next='and the next letter would begin there'
stray='a stray quote: write the field in quotes, and double those in it'
unclosed='a quote that is never closed'
after_quote='text after a closing quote: double the quotes in a field'
lone='a carriage return without a newline'
wanted_number='wants a number, such as -7 or 12.50'
utf16='this looks like UTF-16: save it as UTF-8'
greatest=170141183460469231731687303715884105727
here=$(cd "$(dirname "$0")" && pwd)
name=merge
wanted=188
. "$here/../../.ci/cases.sh"

# files TEMPLATE TABLE: what stands in the files `t` and `r`.
files() {
    printf '%s' "$1" >t
    printf '%s' "$2" >r
}

# The letters of a template and a table, which go to the output, with status 0.
letters() {
    files "$2" "$3"
    case_of file file 0 "$1" '' t r
}

# A fault of a template and a table, which goes to the errors, with status 1; no letter is written.
fault() {
    files "$2" "$3"
    case_of file file 1 '' "$1"$'\n' t r
}

letter_cases() {
    letters $'1;\n2;\n' $'{a};\n' $'a,b\n1,x\n2,\n'
    letters '<é|  7>' '<{a}|{b:>3}>' $'a,b\r\né,7\r\n'
    letters '"{x}"' '{a:?}' $'a\n{x}'
    letters '' '[{a}]' $'a\n\n'
    letters '' '[{a}]' $'a\n\r\n\n\r\n'
    letters '[][x]' '[{a}]' $'a\n\nx\n\n'
    letters '' '[{a}]' $'a,b'
    letters '' 'Dear' 'a'
    letters '<1>' '<{a}>' $'\xef\xbb\xbfa,b\n1,2\n'
    letters '<1>' $'\xef\xbb\xbf<{a}>' $'a\n1\n'
    letters '<1| 2>' '<{a}|{b b}>' $' a, b b\n1, 2\n'
    letters '<bread, white|7>' '<{item}|{n}>' $'item,n\n"bread, white",7\n'
    letters '<a "b" c|>' '<{x}|{y}>' $'x,y\n"a ""b"" c",""\n'
    letters '<">' '<{a, b}>' $'"a, b"\n""""\n'
    letters '<é>< >' '<{a}>' $'"a"\r\n"é"\r\n" "\r\n'
}

record_cases() {
    letters $'<1\n2"\r\n|x>' '<{a}|{b}>' $'a,b\n"1\n2""\r\n",x\n'
    letters $'<\n>' '<{a}>' $'a\n"\n"'
    letters '<1|2><3| 4>' '<{a}|{b}>' $'a, "b"\n1, "2"  \n "3" , 4\n'
    letters '<1,2|3>' '<{a}|{b}>' $'a;b\n1,2;3\n'
    letters '<1;2|3>' '<{a}|{b}>' $'a\tb\n1;2\t3\n'
    letters '< x |y>' '<{a}|{b}>' $'a\tb\n x \t "y" \n'
    letters '<1;2>' '<{a;b}>' $'a;b,c\n1;2,3\n'
    letters $'<a\tb>' '<{a}>' $'a\na\tb\n'
    files '<{a}|{b,c}>' $'a;b,c\n1;2,3\n'
    case_of file file 0 '<1|2,3>' '' --separator ';' t r
    files '<{a}|{b}>' $'a\tb\n1\t2\n'
    case_of file file 0 '<1|2>' '' --separator tab t r
    files 'Dear' $'a;b\n1,2\n'
    case_of file file 1 '' $'r:2: 2 fields, but line 1 has 1\n' --separator , t r
    files '{a}' $'a\n\xe9\n'
    case_of file file 0 'é' '' --latin1 t r
    case_of file file 0 'é' '' --separator , --latin1 t r
    case_of file file 3 '' $'r:2:1: byte 0xE9 is no UTF-8; is this Latin-1? try --latin1\n' t r
    nul_case
}

# A line that names the separator, above the header.
named_cases() {
    letters '<1|2>' '<{a}|{b,c}>' $'sep=;\na;b,c\n1;2\n'
    letters '<1|2>' '<{a}|{b;c}>' $'\xef\xbb\xbfsep=\t\r\na\tb;c\r\n1\t2\r\n'
    letters '<1>' '<{sep=;}>' $'"sep=;"\n1\n'
    files '<{a}|{b}>' $'sep=;\na,b\n1;,2\n'
    case_of file file 0 '<1;|2>' '' --separator , t r
    fault 'r:3: 1 field, but line 2 has 2' '{a}' $'sep=;\na;b\n1\n'
    fault $'r:2: column 2 has the name of an earlier column\nr:3: column 1 '"$wanted_number" '{a}' \
        $'sep=;\na:;a\nx;y\n'
    fault 'r: the table is empty: it has no names' '{a}' $'sep=;\n'
    files '{a}' $'sep=;\na;b\n1;2\n'
    case_of file file 1 '' $'r:2: no column has the name `c`\n' --if-empty c=t t r
}

# A NUL in a field is written.
nul_case() {
    printf '{a}' >t
    printf 'a\nx\0y\n' >r
    if "$program" t r | cmp -s - <(printf 'x\0y'); then
        passed=$((passed + 1))
    else
        fail 'another letter of a field with a NUL'
    fi
}

number_cases() {
    letters '<7|   12.50|-0.05>' '<{n}|{price:>8}|{b}>' $'n:,price:,b:\n7,12.50,-0.05\n'
    letters '[      7.00]' '[{price:>10.2}]' $' price : \n 7 \n'
    letters '1.25e1 5E-2' '{a:e} {b:E}' $'a:,b:\n12.50,0.05\n'
    letters '+0.2 +3.0 ' '{a:+.1} ' $'a:\n0.25\n+3\n'
    letters '12.50|1.0' '{a:?}|{b:.1}' $'a:,"b:"\n12.50,1\n'
    letters "<x:|$greatest>" '<{a}|{b}>' $'a,b:\nx:,'"$greatest"$'\n'
    fault "r:2: column 1 $wanted_number" '{a}' $'a:\n170141183460469231731687303715884105728\n'
    fault "r:2: column 1 $wanted_number" '{a}' $'a:\n\n1\n'
    fault "r:3: column 2 $wanted_number" '{a}' $'a,b:\nx,1\ny,1.\n'
    fault "r:2: column 1 $wanted_number"$'\nr:3: 1 field, but line 1 has 2\n'"r:4: column 2 $wanted_number" \
        '{a}' $'a:,b:\nx,y\n1\n0,.5\n'
    fault 'r:1: column 2 has the name of an earlier column' '{a}' $'a:,a\n1,2\n'
    fault "$(printf '%s\n' 't:1:5: trait `LowerHex` not implemented, used by format argument at 4' \
        '  |' '1 | {a:x}' '  | ~~~~^')" '{a:x}' $'a:\n1\n'
    fault "$(printf '%s\n' 't:1:5: trait `LowerExp` not implemented, used by format argument at 4' \
        '  |' '1 | {a:e}' '  | ~~~~^')" '{a:e}' $'a\n1\n'
    fault "$(printf '%s\n' 't:1:2: specified value not in context `prce` at 1' '  |' '1 | {prce}' \
        '  | ~^~~~~' '  = did you mean `price`? names: `price`')" '{prce}' $'price:\n1\n'
}

float_cases() {
    letters '<1000000000000000000000|0.1|-0>' '<{a}|{b}|{c}>' $'a:~,b:~,c:~\n1e21,0.1,-0\n'
    letters '1e-1 1E21 1e21 0.1 1500.0 ' '{a:e} {b:E} {b:?} {a:?} {c:?} ' \
        $'a:~,b:~,c:~\n0.1,1e21,1.5e3\n'
    letters '[NaN][     NaN][NaN][NaN][NaN];[-inf][    -inf][-inf][-inf][-inf];' \
        '[{x}][{x:>8.2}][{x:?}][{x:e}][{x:+}];' $'x:~\nnan\n-infinity\n'
    letters '[ 1500.00][+1500][4.9e-324][inf]' '[{x:>8.2}][{x:+}][{y:.1e}][{z}]' \
        $' x :~ ,"y:~",z:~\n 1.5e3 ,5e-324,1e400\n'
    letters '0.50 5.00 1.0' '{a:.2} {b:.2} {c:.1}' $'a:~,b:~,c:\n.5,5.,+1\n'
    fault "r:2: column 1 $wanted_number"$'\n'"r:3: column 1 $wanted_number"$'\n'"r:4: column 2 $wanted_number" \
        '{a}' $'a:~,b:\n,1\n1e,1\n1,1e3\n'
    fault "r:2: column 1 $wanted_number"$'\n'"r:3: column 1 $wanted_number" '{a}' $'a:~\n0x1\n1 2\n'
    fault 'r:1: column 2 has the name of an earlier column' '{a}' $'a:~,a:\n1,2\n'
    fault "$(printf '%s\n' 't:1:5: trait `LowerHex` not implemented, used by format argument at 4' \
        '  |' '1 | {a:x}' '  | ~~~~^')" '{a:x}' $'a:~\n1\n'
}

template_cases() {
    fault $'t:3:4: specified value not in context `q` at 25\n  |\n3 | é {q}\n  |   ~^~\n  = names: `name`' \
        $'Dear\n  é {name:>8},\né {q}' $'name\nAnn\nZoë\n'
    fault $'t:1:2: specified value not in context `nme` at 1\n  |\n1 | {nme}\n  | ~^~~~\n  = did you mean `name`? names: `item`, `name`' \
        '{nme}' $'item, name\n1,2\n'
    fault $'t:2:4: error while parsing input: Expected `}` at 5\n  |\n2 | {a:y\n  | ~~~^' \
        $'a\n{a:y' $'a\n1\n'
    fault "$(printf '%s\n' \
        't:1:9: trait `LowerHex` not implemented, used by format argument at 8' \
        '  |' '1 | {b} {a:x}' '  |     ~~~~^')" '{b} {a:x}' $'a,b\n1\n'
    fault "$(printf '%s\n' \
        't:1:2: specified value not in context `q` at 1' '  |' '1 | {q}{a:x}' '  | ~^~' \
        '  = did you mean `a`? names: `a`' \
        't:1:8: trait `LowerHex` not implemented, used by format argument at 7' \
        '  |' '1 | {q}{a:x}' '  |    ~~~~^')" '{q}{a:x}' $'a\n1\n'
}

# Another template for an empty field.
other_template_cases() {
    printf 'No {b};' >o
    files '{a} {b};' $'a,b\n,1\nx,2\n" ",3\n"",4\n'
    case_of file file 0 'No 1;x 2;  3;No 4;' '' --if-empty a=o t r
    case_of file file 1 '' $'r:1: no column has the name `c`\n' --if-empty c=o t r
    case_of file file 2 '' "$usage"$'\n' --if-empty a t r
    case_of file file 3 '' $'none: No such file or directory (os error 2)\n' --if-empty a=none t r
    printf '{q}' >o
    case_of file file 1 '' "$(printf '%s\n' 'o:1:2: specified value not in context `q` at 1' '  |' \
        '1 | {q}' '  | ~^~' '  = did you mean `a`? names: `a`, `b`')"$'\n' --if-empty a=o t r
    files '<{a}>' $'a,b\n1\n,2\n'
    printf '{b}' >o
    case_of file file 1 '' $'r:2: 1 field, but line 1 has 2\n' --if-empty a=o t r
}

# escaped FLAG WANTED TEMPLATE TABLE: letters with escaped values, with status 0.
escaped() {
    files "$3" "$4"
    case_of file file 0 "$2" '' "$1" t r
}

# misplaced WANTED TEMPLATE WORD..: a value that is out of place, with status 1; no letter is written,
# and a record that is wrong is not told.
misplaced() {
    files "$2" $'a,b\n,2\n3\n'
    case_of file file 1 '' "$1"$'\n' "${@:3}" t r
}

# ending WANTED TEMPLATE WORD..: a template of one line that ends elsewhere than it began.
ending() {
    local blanks
    blanks=$(times "${#2}" ' ')
    misplaced "t:1:$((${#2} + 1)): this template ends $1, $next"$'\n  |\n1 | '"$2"$'\n  | '"$blanks^" \
        "${@:2}"
}

escape_cases() {
    escaped --html '<p title="x&quot;y">&lt;b&gt;|  &lt;b&gt;&amp;</p>' \
        '<p title="{a}">{b:.3}|{b:>6}</p>' $'a,b\n"x""y",<b>&\n'
    escaped --html 'it&#39;s 7.50<br>&#39;é&#39; 0.00<br>' '{a} {n:.2}<br>' $'a,n:\nit\'s,7.5\n\'é\',0\n'
    escaped --csv $'"5"" nails","""x\\""y"""\n' $'"{a}","{b:?}"\n' $'a,b\n"5"" nails","x""y"\n'
    escaped --json '{"a":"x\"\\\n\u003c","n":"2.5"}' '{{"a":"{a}","n":"{n:.1}"}}' \
        $'a,n:\n"x""\\\n<",2.5\n'
    files '<b>{a}</b>' $'a,b\n,<1>\n<2>,\n'
    printf '%s' '<i>{b}</i>' >o
    case_of file file 0 '<i>&lt;1&gt;</i><b>&lt;2&gt;</b>' '' --html --if-empty a=o t r
    case_of file file 2 '' "$usage"$'\n' --html --csv t r
    case_of file file 2 '' "$usage"$'\n' --json --partial --json t r
    case_of file file 2 '' "$usage"$'\n' --xml t r
    files '<b>{a}</b>' $'a\n<é>\n'
    refusals_of 0 '<b>&lt;é&gt;</b>' '' --html t r
}

whole_cases() {
    # as Python's json reads the lines: {'a': 'x"<', 'b': -2.5} and {'a': '', 'b': 7}
    escaped --json $'{"a":"x\\"\\u003c","b":-2.50}\n{"a":"","b":7}\n' $'{{"a":{a:?},"b":{b:?}}}\n' \
        $'a,b:\n"x""<",-2.50\n,7\n'
    escaped --json '[null, 1e300]' '[{a:?}, {b:?}]' $'a:~,b:~\nnan,1e300\n'
    misplaced "$(printf '%s\n' "t:1:3: $out_of_place in a string, or under \`?\` between strings" '  |' \
        '1 | ["{b:?}"]' '  |   ^')" '["{b:?}"]' --json
}

# Whole fields of CSV.
field_cases() {
    # as Python's csv reads the records: ['5" nail, steel', '2.50'], ['a\nb', '-7'] and ['', '0']
    escaped --csv $'"5"" nail, steel",2.50\n"a\nb",-7\n"",0\n' $'{a:?},{n:?}\n' \
        $'a,n:\n"5"" nail, steel",2.50\n"a\nb",-7\n,0\n'
    escaped --csv $'"é","b"""," 1",NaN\r\n' $'{a:.1?},"{b:.2}","{n:2}",{x:?}\r\n' \
        $'a,b,n:,x:~\né,"b""c",1,nan\n'
    escaped --csv $'x,,""\nx,,"x"\n' $'x,,{a:?}\n' $'a\n\nx\n'
    files $'{a:?},{b:?}\n' $'a,b\n,"x""y"\ny,"z,"\n'
    printf '"none",{b:?}\n' >o
    case_of file file 0 $'"none","x""y"\n"y","z,"\n' '' --csv --if-empty a=o t r
    printf '"","{b:?}"\n' >o
    case_of file file 0 $'"","""x\\""y"""\n"y","z,"\n' '' --csv --if-empty a=o t r
    refusals_of 0 $'"","""x\\""y"""\n"y","z,"\n' '' --csv --if-empty a=o t r
    misplaced "$(printf '%s\n' "t:1:7: $out_of_place $csv_places" '  |' '1 | {a:?},{b}' \
        '  |       ^')" '{a:?},{b}' --csv
    misplaced "$(printf '%s\n' "t:1:9: $out_of_place $csv_places" '  |' '1 | "{a:?}",{b:?}' \
        '  |         ^')" '"{a:?}",{b:?}' --csv
    printf '%s' '{b:?};' >o
    misplaced "$(printf '%s\n' "o:1:1: $out_of_place $csv_places" '  |' '1 | {b:?};' \
        '  | ^')" $'{a:?}\n' --csv --if-empty a=o
    ending 'in a field' '{a:?},"' --csv
    ending 'elsewhere than it began' '{a:?},{b:?}' --csv
}

place_cases() {
    misplaced "$(printf '%s\n' "t:1:10: $out_of_place $html_places" '  |' '1 | <p title={a}>' \
        '  |          ^')" '<p title={a}>' --html
    misplaced "$(printf '%s\n' "t:2:8: $out_of_place $html_places" '  |' '2 | {a} <i {b}>' \
        '  |        ^')" $'<p>\n{a} <i {b}>' --html --partial
    misplaced "$(printf '%s\n' "t:1:7: $out_of_place $csv_places" '  |' '1 | "{a}",{b}' \
        '  |       ^')" '"{a}",{b}' --csv
    misplaced "$(printf '%s\n' "t:1:7: $out_of_place in a string, or under \`?\` between strings" '  |' '1 | {{"n":{b}}}' \
        '  |       ^')" '{{"n":{b}}}' --json
    printf '%s' '<p id={b}>' >o
    misplaced "$(printf '%s\n' "o:1:7: $out_of_place $html_places" '  |' '1 | <p id={b}>' \
        '  |       ^')" '{a}' --html --if-empty a=o
    misplaced "$(printf '%s\n' 't:1:7: specified value not in context `q` at 6' '  |' '1 | <a b={q}>' \
        '  |      ~^~' '  = did you mean `a`? names: `a`, `b`')" '<a b={q}>' --html
    files '{a}' $'a\n1\n'
    refusals_of 1 '' "$(printf '%s\n' "t:1:1: $out_of_place $csv_places" '  |' '1 | {a}' \
        '  | ^')"$'\n' --csv t r
}

ending_cases() {
    ending 'in an attribute' '<p title="{a}' --html
    ending 'elsewhere than it began' '{a}<p>{b}</p' --html
    ending 'in a field' '"{a}","{b}' --csv --partial
    ending 'elsewhere than it began' '"{a}","{b}"' --csv
    ending 'in a string' '{{"a":"{a}' --json
    printf '%s' '<!--' >o
    misplaced "o:1:5: this template ends elsewhere than it began, $next"$'\n  |\n1 | <!--\n  |     ^' \
        '{a}' --html --if-empty a=o
    escaped --html '<p>x</p><p>y</p>' '<p>{a}</p>' $'a\nx\ny\n'
    escaped --csv $'"x",""""\n"y",""\n' $'"{a}","{b}"\n' $'a,b\nx,""""\ny,\n'
}

# The letters of the records before the first that is wrong.
partial_cases() {
    files '<{a}>' $'a,b\n1,2\n3\n4,5\n6"\n'
    case_of file file 1 '<1>' "r:3: 1 field, but line 1 has 2"$'\n'"r:5:2: $stray"$'\n' --partial t r
    files '<{a}>' $'a,a\n1,2\n'
    case_of file file 1 '' $'r:1: column 2 has the name of an earlier column\n' --partial t r
    files '<{a}>' $'a\n1\n2\n'
    case_of file file 0 '<1><2>' '' --partial t r
}

# in_files WANTED NAMES TEMPLATE TABLE FLAG..: letters in files of the folder `o`, with status 0. What
# stands in it after that is WANTED, a line for each file.
in_files() {
    local file made=
    rm -rf o && mkdir o
    files "$3" "$4"
    case_of file file 0 '' '' --out "$2" "${@:5}" t r
    for file in o/* o/*/*; do
        [[ -f $file ]] && made+="$file: $(cat "$file")"$'\n'
    done
    printf '%s' "$made" >made
    is_text 'the files' "$1" made "--out $2"
}

# unnamed WANTED NAMES TABLE: records that give no name of a file, with status 1; no letter is written.
unnamed() {
    rm -rf o && mkdir o
    files '{a}' "$3"
    case_of file file 1 '' "$1"$'\n' --out "$2" t r
    [[ -z $(ls o) ]] || fail "--out $2: a letter is written"
}

file_cases() {
    in_files $'o/1.txt: <x>\no/2.txt: <é>\n' 'o/{n}.txt' '<{a}>' $'a,n:\nx,1\né,02\n'
    in_files $'o/a b: a b\no/x..: x..\n' 'o/{a}' '{a}' $'a\nx..\na b\n'
    in_files $'o/ 1: &lt;\n' './o/{n:2}' '{a}' $'a,n:\n<,1\n' --html
    in_files $'o/1: new\n' 'o/1' 'new' $'a\nx\n'
    in_files '' 'o/{a}' '{a}' $'a\n'
    unnamed 'r:3: `o/x/y`: a value has a `/`' 'o/{a}' $'a\nx\nx/y\nz\n'
    unnamed $'r:2: `o/..` is no name of a file\nr:3: `o/.` is no name of a file\nr:4: `o/` is no name of a file' \
        'o/{a}' $'a\n..\n.\n""\n'
    unnamed 'r:2: `o/../x` is no name of a file' 'o/{a}/x' $'a\n..\n'
    unnamed $'r:4: `o/x` is the file of line 2\nr:5: `o/x` is the file of line 4' 'o/{a}' $'a\nx\ny\nx\nx\n'
    unnamed 'r:2: 2 fields, but line 1 has 1' 'o/{a}' $'a\nx,y\nx/y\n'
    unnamed "$(printf '%s\n' '--out:1:4: specified value not in context `b` at 3' '  |' '1 | o/{b}' \
        '  |   ~^~' '  = did you mean `a`? names: `a`')" 'o/{b}' $'a\nx\n'
    files '{a}' $'a,n:\nx,1\ny,2\nz\n'
    case_of file file 1 '' $'r:4: 1 field, but line 1 has 2\n' --partial --out 'o/{n}' t r
    [[ $(cat o/1 o/2) == xy ]] || fail '--partial --out: other files'
    case_of file file 3 '' $'none/1: No such file or directory (os error 2)\n' \
        --out 'none/{n}' --partial t r
    case_of file file 2 '' "$usage"$'\n' --out t r
    files '{a}' $'a,n:\nx,1\ny,2\n'
    refusals_of 0 '' '' --out 'o/{n}' t r
    rm -r o
}

# More columns than a comparison of each with all before it could take, and more letters than the
# memory that one takes.
large_cases() {
    printf 'a' >t
    { seq 1000000 | paste -sd , -; seq 1000000 | paste -sd , -; } >r
    case_of file file 0 'a' '' t r
    printf '{a}\n' >t
    { echo a; seq 200000; } >r
    if (ulimit -v 65536; timeout 60 "$program" t r) | cmp -s - <(seq 200000); then
        passed=$((passed + 1))
    else
        fail 'other letters of 200,000 records in 64 MB'
    fi
}

# A template that names each of more columns than the names could be compared with one by one; then
# of as many as go into a map, with each growth refused.
column_cases() {
    { seq 300000 | paste -sd , -; seq 6 300005 | paste -sd , -; } >r
    seq 300000 | sed 's/.*/{&}/' >t
    if timeout 60 "$program" t r | cmp -s - <(seq 6 300005); then
        passed=$((passed + 1))
    else
        fail 'another letter of 300,000 columns'
    fi
    printf '{1:x}\n' >>t
    case_of file file 1 '' "$(printf '%s\n' \
        't:300001:5: trait `LowerHex` not implemented, used by format argument at 2588899' \
        '       |' '300001 | {1:x}' '       | ~~~~^')"$'\n' t r
    { seq 40 | paste -sd , -; seq 6 45 | paste -sd , -; } >r
    seq 40 | sed 's/.*/{&}/' >t
    refusals_of 0 "$(seq 6 45)"$'\n' '' t r
    printf '{1:x}{40:x}\n' >>t
    refusals_of 1 '' "$(printf '%s\n' \
        't:41:5: trait `LowerHex` not implemented, used by format argument at 195' \
        '   |' '41 | {1:x}{40:x}' '   | ~~~~^' \
        't:41:11: trait `LowerHex` not implemented, used by format argument at 201' \
        '   |' '41 | {1:x}{40:x}' '   |      ~~~~~^')"$'\n' t r
}

# terminal_case CASE END COMMAND: runs a command with standard error on a terminal. There it tells
# how many records are done, in lines of which each overwrites the one before, and clears the last;
# then comes this end.
terminal_case() {
    local told line=$'\r[ 0-9]{12} records ' form
    form="^($line(checked|written))*${line}written"$'\r {28}\r(.*)x$'
    told=$(timeout 60 script -qec "$3" /dev/null </dev/null; printf x)
    if [[ $told =~ $form && ${BASH_REMATCH[3]} == "$2" ]]; then
        passed=$((passed + 1))
    else
        fail "$1: another text on a terminal"
        printf '  found:  %q\n' "$told"
    fi
}

# Runs of more than a second: what takes the letters does not, for a time.
progress_cases() {
    local run="'$program' t r | { sleep 2; cat >o; }"
    printf '{a}\n' >t
    { echo a; seq 100000; } >r
    terminal_case 'a long run' '' "$run"
    if { "$program" t r 2>e | { sleep 2; cmp -s - <(seq 100000); }; } && [[ ! -s e ]]; then
        passed=$((passed + 1))
    else
        fail 'a long run without a terminal'
    fi
    echo 1,2 >>r
    terminal_case 'a long run with a fault' $'r:100002: 2 fields, but line 1 has 1\r\n' \
        "${run/t r/--partial t r}"
    { echo a; seq 200; } >r
    mkdir n
    mkfifo n/1
    terminal_case 'many files' '' "{ sleep 2; cat n/1 >o; } & '$program' --out 'n/{a}' t r"
    rm -r n o
}

table_cases() {
    fault 'r:3: 1 field, but line 1 has 2' '{a}' $'a,b\n1,2\n3\n'
    fault 'r:2: 2 fields, but line 1 has 1' '{a}' $'a\n1,2\n'
    fault $'r:2: 1 field, but line 1 has 2\nr:4: 3 fields, but line 1 has 2\nr:5: 1 field, but line 1 has 2' \
        '{a}' $'a,b\n1\n1,2\n1,2,3\n\n7,8\n'
    fault 'r:1: column 2 has the name of an earlier column' '{a}' $'a,a\n1,2\n'
    fault $'r:1: column 3 has the name of an earlier column\nr:3: 1 field, but line 1 has 3' '{a}' \
        $'a,b, a\n1,2,3\n4\n'
    fault 'r: the table is empty: it has no names' '{a}' ''
    fault 'r: the table is empty: it has no names' 'Dear' $'\r\n\n'
    fault "r:2:1: $unclosed" '{a}' $'a,b\n"1,2\n'
    fault "r:2:4: $unclosed" '{a}' $'a,b\né, "1\n2""\n\n'
    fault 'r:2: 1 field, but line 1 has 2' '{a}' $'a,b\n"1\n2"\n'
    fault "r:3:4: $stray"$'\nr:4: 1 field, but line 1 has 2' '{a}' $'a,b\n"1\n",5"\n1\n'
    fault "r:2:2: $stray" '{a}' $'a,b\n5" pipe,2\n'
    fault "r:2:9: $after_quote" '{a}' $'a,b\n"5"" é" x,2\n'
    fault "r:3:3: $after_quote" '{a}' $'a,b\n1,"\n" "2"\n'
    fault "r:1:8: $after_quote" '{a}' $'a, "b" c\n1,2\n'
    fault "r:1:3: $unclosed" '{a}' $'a,"b\n1,2\n'
    fault "r:2:2: $lone"$'\n'"r:3:4: $lone" '{a}' $'a\n1\r2\n"2"\r\r\n'
    fault "r:1:2: $lone" '{a}' $'a\r1\r2\r'
    fault $'r:2: 1 field, but line 1 has 2\n'"r:3:3: $unclosed" '{a}' $'a,b\n1\n1,"2'
}

# Wrong use, unreadable files and refused writes.
other_cases() {
    case_of file file 2 '' "$usage"$'\n'
    case_of file file 2 '' "$usage"$'\n' t
    case_of file file 2 '' "$usage"$'\n' t r r
    case_of file file 2 '' "$usage"$'\n' -t r
    case_of file file 2 '' "$usage"$'\n' t --help
    case_of file file 0 "$(sed -n "/^const HELP/,/^\";/p" "$here/src/main.rt" | sed '1d;$d')"$'\n' '' --help
    case_of file file 0 $'merge 0.5.0\n' '' --version
    case_of file file 2 '' "$usage"$'\n' --separator t r
    case_of file file 2 '' "$usage"$'\n' --separator : t r
    case_of file file 2 '' "$usage"$'\n' --latin1 t
    case_of file file 3 '' $'none: No such file or directory (os error 2)\n' none r
    case_of file file 3 '' $'none: No such file or directory (os error 2)\n' t none
    printf 'a\n\xff\n' >b
    case_of file file 3 '' $'b:2:1: byte 0xFF is no UTF-8; is this Latin-1? try --latin1\n' t b
    case_of file file 3 '' $'b:2:1: byte 0xFF is no UTF-8\n' b r
    printf '\xff\xfea\0\n\0' >b
    case_of file file 3 '' "b:1:1: byte 0xFF is no UTF-8; $utf16"$'\n' t b
    case_of file file 3 '' "b:1:1: byte 0xFF is no UTF-8; $utf16"$'\n' b r
    case_of file file 3 '' $'.: Is a directory (os error 21)\n' t .
    files '{a}' $'a\n1\n'
    case_of closed file 3 '' $'cannot write: Bad file descriptor (os error 9)\n' t r
    case_of full file 3 '' $'cannot write: No space left on device (os error 28)\n' t r
    case_of file file 0 '1' '' -- t r
    cp -- t -t
    case_of file file 0 '1' '' --latin1 -- -t r
    pipe_case
    files '{q}' $'a\n1\n'
    case_of file closed 3 '' '' t r
    case_of file full 3 '' '' t r
    case_of file full 3 '' '' t
}

# A reader that ends early: no panic.
pipe_case() {
    local status
    { echo a; seq 200000; } >r
    { timeout 60 "$program" t r 2>e; echo $? >s; } | true
    status=$(cat s)
    if [[ $status -eq 3 && $(cat e) == 'cannot write: Broken pipe (os error 32)' ]]; then
        passed=$((passed + 1))
    else
        fail "another end with a closed pipe: status $status"
    fi
    files '{a}' $'a\n1\n'
}

refused_calls() {
    files '{a:>3}|{n:.1};' $'a,n:\n"é",1.25\nb,2\n'
    refusals_of 0 '  é|1.2;  b|2.0;' '' t r
    files '{nme}' $'item, name\n1,2\n'
    refusals_of 1 '' $'t:1:2: specified value not in context `nme` at 1\n  |\n1 | {nme}\n  | ~^~~~\n  = did you mean `name`? names: `item`, `name`\n' \
        t r
    files '{a}' $'a,b\n1\n1,2\n1,2,3\n'
    refusals_of 1 '' $'r:2: 1 field, but line 1 has 2\nr:4: 3 fields, but line 1 has 2\n' t r
    refusals_of 2 '' "$usage"$'\n' t
    refusals_of 3 '' $'none: No such file or directory (os error 2)\n' t none
}

all_cases() {
    letter_cases
    record_cases
    named_cases
    number_cases
    float_cases
    template_cases
    other_template_cases
    escape_cases
    whole_cases
    field_cases
    place_cases
    ending_cases
    partial_cases
    file_cases
    large_cases
    column_cases
    progress_cases
    table_cases
    other_cases
    refused_calls
    using_case "$here/stdout"
}

run_cases "$@"
