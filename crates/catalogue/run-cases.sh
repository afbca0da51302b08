#!/usr/bin/env bash
# Runs the built program on files of messages, and compares what it writes to both streams and its
# status with what docs/DEFINITIONS.md says of each format, worked out by hand. Columns count
# characters from 1.
#
# usage: run-cases.sh [PROGRAM..]
set -u

here=$(cd "$(dirname "$0")" && pwd)
name=catalogue
usage='usage: catalogue [--line | --html] [--fallback FILE] [--] FILE KEY '
usage+='[NAME=TEXT | NAME:=NUMBER | NAME:.=DECIMAL | NAME:~=FLOAT | NAME[]=ITEM,ITEM..] | '
usage+='catalogue --check [--line | --html] [--] FILE.. | '
usage+='catalogue --po [--context TEXT] [--line | --html] [--] FILE KEY WORD.. | '
usage+='catalogue --po --check [--line | --html] [--] FILE..'
wanted=275
. "$here/../../.ci/cases.sh"

# message WANTED WORD..: a message, which goes to standard output, with status 0.
message() {
    case_of file file 0 "$1"$'\n' '' "${@:2}"
}

# noted WANTED NOTE WORD..: a message, and a note on standard error, with status 0.
noted() {
    case_of file file 0 "$1"$'\n' "$2"$'\n' "${@:3}"
}

# wrong WANTED WORD..: a wrong use, which is told on standard error, with status 2.
wrong() {
    case_of file file 2 '' "$1"$'\n' "${@:2}"
}

# unread WANTED WORD..: a file that cannot be read, which is told on standard error, with status 3.
unread() {
    case_of file file 3 '' "$1"$'\n' "${@:2}"
}

# told WANTED WORD..: what is wrong, which goes to standard error, with status 1.
told() {
    case_of file file 1 '' "$1"$'\n' "${@:2}"
}

# Messages of a file, and what is missing for them.
message_cases() {
    printf '%s\n' '# greetings' '' 'hello = Hello {name}!' 'bye=  Bye, {name:>5}.' \
        'list = {x:i#({:?})#}' 'two = {a}={b}' >m.txt
    message 'Hello Zoë!' m.txt hello name=Zoë
    message 'Bye,   Ann.' m.txt bye name=Ann x=1
    message '2=c=d' m.txt two a=1 b=c=d a=2
    told "$(printf '%s\n' 'm.txt:3:16: specified value not in context `name` at 7 (byte 7 of the format)' \
        '  |' '3 | hello = Hello {name}!' '  |               ~^~~~~')" m.txt hello
    told "$(printf '%s\n' \
        'm.txt:5:20: trait `Iter` not implemented, used by format argument at 12 (byte 12 of the format)' \
        '  |' '5 | list = {x:i#({:?})#}' '  |        ~~~~~~~~~~~~^')" m.txt list x=1
    told 'm.txt: no message `gone`' m.txt gone
    told 'm.txt: no message `# greetings`' m.txt '# greetings'
    wrong 'bad word: name' m.txt hello name
    wrong 'bad word: name:=x' m.txt hello name:=x
    wrong 'bad word: a[b:=x' m.txt bye name=Ann 'a[b:=x'
    noted 'Bye,   Ann.' "$(printf 'm.txt: no message uses `%s`\n' a:b 'a[b' 'a[]' '')" \
        m.txt bye a:b=1 'a[b=1' 'a[][]=1' =1 'a[b:=1' name=Ann
    noted 'Hello i!' "$(printf 'm.txt: no message uses `%s`\n' c d e f g h)" \
        m.txt hello a=1 b=2 c=3 d=4 e=5 f=6 g=7 h=8 name=i
    told $'m.txt: no message `helo`\ndid you mean `hello`?' m.txt helo name=1
    told $'m.txt: no message `hlelo`\ndid you mean `hello`?' m.txt hlelo name=1
    told $'m.txt: no message `tow`' m.txt tow
    told $'m.txt: no message `lis`\ndid you mean `list`?' m.txt lis
    told 'm.txt: no message ``' m.txt ''
    told "m.txt: no message \`$(times 101 a)\`" m.txt "$(times 101 a)"
    case_of closed file 3 '' $'cannot write: Bad file descriptor (os error 9)\n' m.txt hello name=Zoë
    case_of full file 3 '' $'cannot write: No space left on device (os error 28)\n' \
        m.txt hello name=Zoë x=1
    case_of file full 3 '' '' m.txt gone
}

# Formats and lines that are broken whatever the values are.
broken_cases() {
    printf '%s\n' 'a = {x:>5}' 'b = é {x:?y}' 'no equals' 'c = {h:i({z)}' 'd = {q:+i}' \
        'e={x:+#' >broken.txt
    told "$(printf '%s\n' \
        'broken.txt:2:11: error while parsing input: Expected `}` at 7 (byte 7 of the format)' \
        '  |' '2 | b = é {x:?y}' '  |       ~~~~^~' \
        'broken.txt:3:1: no `=`' \
        '  |' '3 | no equals' '  | ^' \
        'broken.txt:4:11: error while parsing input: Format spec at 6 is nether closed with a `}` (byte 6 of the format)' \
        '  |' '4 | c = {h:i({z)}' '  |          ~^' \
        'broken.txt:5:10: error while parsing input: Width, precision, `-`, `+` and `#` are not supported for `i` at 5 (byte 5 of the format)' \
        '  |' '5 | d = {q:+i}' '  |     ~~~~~^' \
        'broken.txt:6:4: error while parsing input: Format spec at 1 is nether closed with a `}` (byte 1 of the format)' \
        '  |' '6 | e={x:+#' '  |   ~^~~~')" \
        broken.txt a x=1

    printf '%s\n' 'a = {q:+i}, {r:+i}{z' 'b(n:) = {m}{n:i}{n}' 'c = {x}' >faults.txt
    told "$(printf '%s\n' \
        'faults.txt:1:10: error while parsing input: Width, precision, `-`, `+` and `#` are not supported for `i` at 5 (byte 5 of the format)' \
        '  |' '1 | a = {q:+i}, {r:+i}{z' '  |     ~~~~~^' \
        'faults.txt:1:18: error while parsing input: Width, precision, `-`, `+` and `#` are not supported for `i` at 13 (byte 13 of the format)' \
        '  |' '1 | a = {q:+i}, {r:+i}{z' '  |             ~~~~~^' \
        'faults.txt:1:20: error while parsing input: Format spec at 15 is nether closed with a `}` (byte 15 of the format)' \
        '  |' '1 | a = {q:+i}, {r:+i}{z' '  |                   ~^' \
        'faults.txt:2:10: specified value not in context `m` at 1 (byte 1 of the format)' \
        '  |' '2 | b(n:) = {m}{n:i}{n}' '  |         ~^~' \
        'faults.txt:2:16: trait `Iter` not implemented, used by format argument at 7 (byte 7 of the format)' \
        '  |' '2 | b(n:) = {m}{n:i}{n}' '  |            ~~~~^')" \
        faults.txt c x=1
}

# Declarations, and where a format begins after them.
head_cases() {
    printf '%s\n' 'a(x[y:) = 1' 'b(x]) = 1' 'c(x)y = 1' 'd(x)(y) = 1' 'e(x, [] , :) = 1' \
        'f( x ) = 1' >heads.txt
    told "$(printf '%s\n' \
        'heads.txt:3:2: declarations are `(NAME, NAME:, NAME:., NAME:~, NAME[])`, each name once' \
        '  |' '3 | c(x)y = 1' '  |  ^' \
        'heads.txt:4:2: declarations are `(NAME, NAME:, NAME:., NAME:~, NAME[])`, each name once' \
        '  |' '4 | d(x)(y) = 1' '  |  ^' \
        'heads.txt:5:6: declarations are `(NAME, NAME:, NAME:., NAME:~, NAME[])`, each name once' \
        '  |' '5 | e(x, [] , :) = 1' '  |      ^')" \
        heads.txt f x=1

    printf '%s\n' 'é = {x' 'ok = {x}' 'ü = é{x}{y' >accents.txt
    told "$(printf '%s\n' \
        'accents.txt:1:6: error while parsing input: Format spec at 1 is nether closed with a `}` (byte 1 of the format)' \
        '  |' '1 | é = {x' '  |     ~^' \
        'accents.txt:3:10: error while parsing input: Format spec at 6 is nether closed with a `}` (byte 6 of the format)' \
        '  |' '3 | ü = é{x}{y' '  |         ~^')" \
        accents.txt ok x=1
}

# What a line declares, and the words that give it.
declared_cases() {
    printf '%s\n' 'hi( name ) = Hi {name:>4}' 'none() = nothing' \
        'cart(name, n:, l[]) = {name}: {n:03} of {l:i(<{}>)(, )}' >declared.txt
    message 'Ann: -07 of <a>, <b>' declared.txt cart name=Ann n:=-7 'l[]=a,b'
    message 'Ann: 007 of ' declared.txt cart 'l[]=' n:=7 name=Ann
    noted 'Bob: 008 of <c>' 'declared.txt: no message uses `x`' declared.txt cart n:=7 'l[]=a,b' name=Ann x=1 n:=8 'l[]=c' name=Bob
    told 'declared.txt:3: `cart` wants `l[]=ITEM,ITEM`' declared.txt cart name=Ann n:=7 l=a
    told 'declared.txt:3: `cart` wants `n:=NUMBER`' declared.txt cart name=Ann n:=7 'l[]=a' n=8
    told 'declared.txt:3: `cart` wants `n:=NUMBER`' declared.txt cart name=Ann 'n[]=7'
    told 'declared.txt:3: `cart` wants `name=TEXT`' declared.txt cart n:=7 'l[]=a' name:=1
    told 'declared.txt:3: `cart` wants `name=TEXT`' declared.txt cart
    told 'declared.txt:1: `hi` wants `name=TEXT`' declared.txt hi 'name[]=Ann'
    message 'nothing' declared.txt none name:=1
    message 'Hi  Ann' declared.txt hi name=Ann
    message 'nothing' declared.txt none
}

# Formats that do not fit what their line declares.
kind_cases() {
    printf '%s\n' 'a(name) = {name:x}' 'b(n:) = {n:x} {m}' 'c(l[]) = {l:i({:x})}' \
        'd(n:, l[],) = {n}' 'e(n = {n}' 'f(n:x) = {n}' \
        'g(n, m, n:) = {n}{m}' >kinds.txt
    told "$(printf '%s\n' \
        'kinds.txt:1:18: trait `LowerHex` not implemented, used by format argument at 7 (byte 7 of the format)' \
        '  |' '1 | a(name) = {name:x}' '  |           ~~~~~~~^' \
        'kinds.txt:2:16: specified value not in context `m` at 7 (byte 7 of the format)' \
        '  |' '2 | b(n:) = {n:x} {m}' '  |               ~^~' \
        'kinds.txt:3:18: trait `LowerHex` not implemented, used by format argument at 8 (byte 8 of the format)' \
        '  |' '3 | c(l[]) = {l:i({:x})}' '  |               ~~~^' \
        'kinds.txt:4:11: declarations are `(NAME, NAME:, NAME:., NAME:~, NAME[])`, each name once' \
        '  |' '4 | d(n:, l[],) = {n}' '  |           ^' \
        'kinds.txt:5:2: declarations are `(NAME, NAME:, NAME:., NAME:~, NAME[])`, each name once' \
        '  |' '5 | e(n = {n}' '  |  ^' \
        'kinds.txt:6:11: specified value not in context `n` at 1 (byte 1 of the format)' \
        '  |' '6 | f(n:x) = {n}' '  |          ~^~' \
        'kinds.txt:7:9: declarations are `(NAME, NAME:, NAME:., NAME:~, NAME[])`, each name once' \
        '  |' '7 | g(n, m, n:) = {n}{m}' '  |         ^')" \
        kinds.txt a name=Ann
}

# Messages of several lines, and escapes in them.
folded_cases() {
    local more='a line that begins with a blank goes on with a message, and none is before'
    local escape='a backslash is followed by `n`, for a line end, or by another backslash'
    local places='in text, or between the quotes of an attribute that is a text'
    printf '%s\n' 'mail(name) = Dear {name},\n' '  your order' '' $'\twas \\\\ shipped' '   ' '# remark' \
        'empty =' '  in the next line' 'two = a\nb' 'list(l[]) = {l:i(' '  {})(,\n)}' 'g = a' \
        '  {y}' >fold.txt
    message $'Dear Ann,\nyour order was \\ shipped' fold.txt mail name=Ann
    message 'in the next line' fold.txt empty
    message $'a\nb' fold.txt two
    message $' a,\n b' fold.txt list 'l[]=a,b'
    message 'a 1' fold.txt g y=1
    message 'a &lt;' --html fold.txt g 'y=<'
    told "$(printf '%s\n' 'fold.txt:13:4: specified value not in context `y` at 3' \
        '   |' '13 |   {y}' '   |    ^')" fold.txt g
    case_of file file 0 '' '' --check --html fold.txt
    printf '%s\r\n' $'\xef\xbb\xbfa = x\\n' ' y' '' '  z' >crlf.txt
    message $'x\ny z' crlf.txt a

    printf '%s\n' '  before' 'a = x' '# c' ' after {' 'b = \t' 'c = a\' '  b' 'd = 1\n2' \
        '  {x:?y} é' 'e(n:) = \\{m}' >unfold.txt
    told "$(printf '%s\n' "unfold.txt:1:3: $more" '  |' '1 |   before' '  |   ^' \
        "unfold.txt:4:2: $more" '  |' '4 |  after {' '  |  ^' \
        "unfold.txt:5:5: $escape" '  |' '5 | b = \t' '  |     ^' \
        "unfold.txt:6:6: $escape" '  |' '6 | c = a\' '  |      ^' \
        'unfold.txt:9:7: error while parsing input: Expected `}` at 8' \
        '  |' '9 |   {x:?y} é' '  |       ^' \
        'unfold.txt:10:12: specified value not in context `m` at 2' \
        '   |' '10 | e(n:) = \\{m}' '   |            ^')" --check unfold.txt
    printf '%s\n' 'plural: n == 1 ? one :' '  other' 'a = <p' '  {x}>' >unfold2.txt
    told "$(printf '%s\n' 'unfold2.txt:1:23: a name, a number, `!` or `(` is missing here' '  |' \
        '1 | plural: n == 1 ? one :' '  |                       ^' \
        "unfold2.txt:2:3: $more" '  |' '2 |   other' '  |   ^' \
        "unfold2.txt:4:3: this value is out of place; a value may stand $places" '  |' \
        '4 |   {x}>' '  |   ^')" --check --html unfold2.txt
}

# Decimals.
decimal_cases() {
    printf '%s\n' 'bill(item, price:.) = {item}:{price:>7} {price:>6.1} {price:e}' >prices.txt
    message 'tea:  12.50   12.5 1.25e1' prices.txt bill item=tea price:.=12.50
    message 'tea:      7    7.0 7e0' prices.txt bill item=tea price:.=+7
    message '2.50=-0.05' m.txt two a:.=2.50 b:.=-0.05
    wrong 'bad word: p:.=1.' m.txt hello name=Ann p:.=1.
    told 'prices.txt:1: `bill` wants `price:.=DECIMAL`' prices.txt bill item=tea price:=12
    told 'prices.txt:1: `bill` wants `price:.=DECIMAL`' prices.txt bill item=tea price=12.50
    printf '%s\n' 'c(p:., :.) = 1' 'd(p:.) = {p:x}' >decimals.txt
    told "$(printf '%s\n' \
        'decimals.txt:1:8: declarations are `(NAME, NAME:, NAME:., NAME:~, NAME[])`, each name once' \
        '  |' '1 | c(p:., :.) = 1' '  |        ^' \
        'decimals.txt:2:14: trait `LowerHex` not implemented, used by format argument at 4 (byte 4 of the format)' \
        '  |' '2 | d(p:.) = {p:x}' '  |          ~~~~^')" --check decimals.txt
}

# Floats.
float_cases() {
    printf '%s\n' 'm(x:~) = {x} {x:.1} {x:e}' >floats.txt
    message '1500 1500.0 1.5e3' floats.txt m x:~=1.5e3
    message 'NaN NaN NaN' floats.txt m x:~=nan
    message 'inf inf inf' floats.txt m x:~=1e400
    wrong 'bad word: x:~=1e' floats.txt m x:~=1e
    told 'floats.txt:1: `m` wants `x:~=FLOAT`' floats.txt m x:.=1.5
}

# A byte order mark, and keys that are empty or stand twice.
key_cases() {
    printf '\xef\xbb\xbf%s\n%s\n' '# greetings' 'hello = Hello {name}!' >mark.txt
    message 'Hello Ann!' mark.txt hello name=Ann
    printf '%s\n' 'hello = Hello {name}' >mark2.txt
    printf '\xef\xbb\xbf%s\n' 'hello = Hello {name' >mark.txt
    told "$(printf '%s\n' \
        'mark.txt:1:16: error while parsing input: Format spec at 7 is nether closed with a `}` (byte 7 of the format)' \
        '  |' '1 | hello = Hello {name' '  |               ~^~~~')" \
        mark.txt hello name=Ann
    printf '%s\n' 'é = first' '# é = none' 'bye = Bye' 'é(x) = {x' '= no key' '(n:) = {n}' \
        'greeting(name count) = {name}' 'cart(n :) = {n}' 'bye=Bye' '=' >keys.txt
    told "$(printf '%s\n' \
        'keys.txt:4:1: line 1 has the key `é` too' \
        '  |' '4 | é(x) = {x' '  | ^' \
        'keys.txt:4:9: error while parsing input: Format spec at 1 is nether closed with a `}` (byte 1 of the format)' \
        '  |' '4 | é(x) = {x' '  |        ~^' \
        'keys.txt:5:1: no key' '  |' '5 | = no key' '  | ^' \
        'keys.txt:6:1: no key' '  |' '6 | (n:) = {n}' '  | ^' \
        'keys.txt:7:10: declarations are `(NAME, NAME:, NAME:., NAME:~, NAME[])`, each name once' \
        '  |' '7 | greeting(name count) = {name}' '  |          ^' \
        'keys.txt:8:6: declarations are `(NAME, NAME:, NAME:., NAME:~, NAME[])`, each name once' \
        '  |' '8 | cart(n :) = {n}' '  |      ^' \
        'keys.txt:9:1: line 3 has the key `bye` too' '  |' '9 | bye=Bye' '  | ^' \
        'keys.txt:10:1: no key' '   |' '10 | =' '   | ^')" \
        keys.txt bye
    # so many lines take minutes, more than a case has, if each key is compared with all before it
    seq -f 'key.%.0f = {x}' 400000 >many.txt
    echo 'key.7 = again' >>many.txt
    told "$(printf '%s\n' 'many.txt:400001:1: line 7 has the key `key.7` too' '       |' \
        '400001 | key.7 = again' '       | ^')" --check many.txt
}

# A second file.
fallback_cases() {
    printf '%s\n' 'hello = Hallo {name}!' >de.txt
    message 'Hallo Zoë!' --fallback m.txt de.txt hello name=Zoë
    message 'Bye,   Ann.' --fallback m.txt de.txt bye name=Ann
    told 'de.txt: no message `gone`'$'\n''m.txt: no message `gone`' --fallback m.txt de.txt gone
    told "$(printf '%s\n' 'de.txt:1:16: specified value not in context `name` at 7 (byte 7 of the format)' \
        '  |' '1 | hello = Hallo {name}!' '  |               ~^~~~~')" \
        --fallback m.txt de.txt hello
    told "$(printf '%s\n' 'mark.txt:1:16: error while parsing input: Format spec at 7 is nether closed with a `}` (byte 7 of the format)' \
        '  |' '1 | hello = Hello {name' '  |               ~^~~~')" \
        --fallback mark.txt m.txt hello name=Zoë
}

# Forms, and the rules that choose them.
form_cases() {
    printf '%s\n' '# Korb' '' 'plural: n == 0 ? zero : n == 1 ? one : other' 'cart.zero = leer' \
        'cart.one = ein Artikel' 'cart.other(n:) = {n} Artikel' 'box.other = {n} Kisten' \
        'one = eins' >forms.txt
    message 'leer' forms.txt cart n:=0
    message 'ein Artikel' forms.txt cart n:=7 n:=1
    message '2 Artikel' forms.txt cart n:=2
    message '-1 Artikel' forms.txt cart n:=-1
    message 'eins' forms.txt one
    message 'ein Artikel' forms.txt cart.one
    told 'forms.txt:4: `cart` wants `n:=NUMBER`' forms.txt cart
    told 'forms.txt:4: `cart` wants `n:=NUMBER`' forms.txt cart n:=1 n=1
    told 'forms.txt:4: `cart` wants `n:=NUMBER`' forms.txt cart n:.=1
    told 'forms.txt: no message `box` or `box.one`' forms.txt box n:=1
    told $'forms.txt: no message `gone` or `gone.zero`\ndid you mean `one`?' forms.txt gone
    told $'forms.txt: no message `crt` or `crt.one`\ndid you mean `cart`?' forms.txt crt n:=1
    noted 'ein Artikel' 'forms.txt: no message uses `m`' forms.txt cart n:=1 m:=1
    noted 'ein Artikel' "$(printf 'forms.txt: no message uses `%s`\n' other zero)" \
        forms.txt cart n:=1 other=x zero:=1
    wrong 'bad word: x' forms.txt cart n:=1 x
    wrong 'bad word: x' forms.txt box n:=5 x
    wrong 'bad word: name' m.txt gone name
    printf '\xef\xbb\xbf%s\r\n%s\r\n%s\r\n' 'plural: m == 1 ? one : other' 'cart.one = an item' \
        'box.one = a box' >one_form.txt
    message 'an item' one_form.txt cart m:=1
    told 'one_form.txt: no message `cart` or `cart.other`' one_form.txt cart m:=2
    message 'a box' --fallback one_form.txt forms.txt box n:=1 m:=1
    told 'forms.txt:4: `cart` wants `n:=NUMBER`' --fallback forms.txt m.txt cart
    lacking="$(printf '%s\n' 'forms.txt:7:1: `box` lacks forms that the rule can choose: `zero`, `one`' \
        '  |' '7 | box.other = {n} Kisten' '  | ^' \
        'one_form.txt:2:1: `cart` lacks forms that the rule can choose: `other`' '  |' \
        '2 | cart.one = an item' '  | ^' \
        'one_form.txt:3:1: `box` lacks forms that the rule can choose: `other`' '  |' \
        '3 | box.one = a box' '  | ^')"
    told "$lacking" --check forms.txt one_form.txt
    printf '%s\n' 'plural: n == 1 ? one : (n > 1 ? 2 : one)' 'a.2 = b' 'x.y.2 = c' 'a = d' \
        'x.y.one = e' 'z.three = f' 'w.one = g' 'w.2 = h' >whole.txt
    case_of file file 0 '' '' --check whole.txt
    message h whole.txt w n:=5
    message g whole.txt w n:=0
    noted h 'whole.txt: no message uses `one`' whole.txt w n:=5 one:=1
    printf '%s\n' 'plural: (a ? b : c) ? two : (one == 2 ? one : other)' 'x.one = 1' 'x.two = 2' \
        'x.other = 3' >asked.txt
    noted 1 'asked.txt: no message uses `two`' asked.txt x a:=0 b:=0 c:=0 one:=2 two:=1
}

# Forms that texts choose.
text_cases() {
    printf '%s\n' "plural: gender == 'f' ? she : gender == 'm' ? he : they" \
        'likes.she(name) = {name} likes her cat.' 'likes.he(name) = {name} likes his cat.' \
        'likes.they(name) = {name} like their cat.' 'hat.she = her hat' 'hat.they = their hat' >texts.txt
    message 'Ann likes her cat.' texts.txt likes gender=f name=Ann
    message 'Bob likes his cat.' texts.txt likes name=Bob gender=f gender=m
    message 'Kim like their cat.' texts.txt likes name=Kim gender=x
    message 'Kim like their cat.' texts.txt likes name=Kim gender=
    message 'Kim like their cat.' texts.txt likes name=Kim gender=F
    noted 'her hat' 'texts.txt: no message uses `n`' texts.txt hat gender=f n:=1
    noted 'her hat' 'texts.txt: no message uses `she`' texts.txt hat gender=f she=x
    told 'texts.txt:2: `likes` wants `gender=TEXT`' texts.txt likes name=Ann
    told 'texts.txt:2: `likes` wants `gender=TEXT`' texts.txt likes name=Ann gender:=1
    told 'texts.txt:2: `likes` wants `gender=TEXT`' texts.txt likes name=Ann 'gender[]=f'
    told 'texts.txt: no message `hat` or `hat.he`' texts.txt hat gender=m
    told "$(printf '%s\n' 'texts.txt:5:1: `hat` lacks forms that the rule can choose: `he`' '  |' \
        '5 | hat.she = her hat' '  | ^')" --check texts.txt
    printf '%s\n' "plural: n == 1 && g == 'f' ? one_f : !(g != 'a ? b' || n) ? odd : n!=1 ? more : one" \
        'cat.one_f = Katze' 'cat.odd = ?' 'cat.more = Tiere' 'cat.one = Kater' >mixed.txt
    case_of file file 0 '' '' --check mixed.txt
    message Katze mixed.txt cat g=f n:=1
    message Kater mixed.txt cat g=m n:=1
    message Tiere mixed.txt cat g=f n:=2
    message '?' mixed.txt cat 'g=a ? b' n:=0
    told 'mixed.txt:2: `cat` wants `n:=NUMBER`' mixed.txt cat g=f
    told 'mixed.txt:2: `cat` wants `n:=NUMBER`' mixed.txt cat
    told 'mixed.txt:2: `cat` wants `g=TEXT`' mixed.txt cat n:=1
}

# Rules that are none.
broken_rule_cases() {
    local signs='a rule has names, numbers below 2^64 and `! % < <= > >= == != && || ? : ( )`'
    local quotes='a text in quotes follows a name and `==` or `!=`'
    printf '%s\n' 'plural: é == 1 ? one : n = 2 ? two : three' 'a = 1' 'plural: other' \
        'b == 1 ? c : d' >rules.txt
    told "$(printf '%s\n' "rules.txt:1:26: $signs" \
        '  |' '1 | plural: é == 1 ? one : n = 2 ? two : three' \
        '  |                          ^' \
        'rules.txt:3:1: a rule stands once, before all messages' \
        '  |' '3 | plural: other' '  | ^')" \
        --check rules.txt
    broken_rule 'n == 1 ? one : n==2?two' 32 'a `(` is not closed, or a `?` has no `:`'
    broken_rule '(n == 1 ? one : two' 28 'a `(` is not closed, or a `?` has no `:`'
    broken_rule '' 9 'a name, a number, `!` or `(` is missing here'
    broken_rule 'n == 1 ? : two' 18 'a name, a number, `!` or `(` is missing here'
    broken_rule 'n % 0 ? a : b' 11 'a number that is not 0 follows a `%`'
    broken_rule 'n ? a : b c' 19 'an operator is missing here, or the end of the rule'
    broken_rule 'n ? a : b)' 18 'an operator is missing here, or the end of the rule'
    broken_rule 'n == 18446744073709551616 ? a : b' 14 "$signs"
    broken_rule 'n == 1 ? n == 2 : b' 9 \
        'each part of a rule ends in a form, as in `n == 1 ? one : other`'
    broken_rule 'n != 1' 9 'each part of a rule ends in a form, as in `n == 1 ? one : other`'
    broken_rule "$(times 1000 '!')n" 1009 'a rule has at most 1000 words'
    broken_rule "gender == 'f ? she : they" 19 'a quote is not closed'
    broken_rule "gender < 'f' ? she : they" 18 "$quotes"
    broken_rule "'f' == gender ? she : they" 9 "$quotes"
    broken_rule "1 == 'f' ? she : they" 14 "$quotes"
    broken_rule "n % 2 == 'f' ? she : they" 18 "$quotes"
    broken_rule "n == 1 ? 'f' : they" 18 "$quotes"
    broken_rule "n == 1 ? g == 'f' : they" 9 \
        'each part of a rule ends in a form, as in `n == 1 ? one : other`'
}

# broken_rule RULE COLUMN WHAT: a rule that is told so at a column.
broken_rule() {
    local found
    printf 'plural: %s\ncart.one = one\n' "$1" >ending.txt
    found=$("$program" --check ending.txt 2>&1 >/dev/null)
    if [[ $? -eq 1 && ${found%%$'\n'*} == "ending.txt:1:$2: $3" ]]; then
        passed=$((passed + 1))
    else
        fail "the rule $1: $found"
    fi
}

# The rules of languages, with the samples of CLDR: LANGUAGE FORM NUMBER.. or FIRST-LAST..
language_cases() {
    local few='n % 10 >= 2 && n % 10 <= 4 && (n % 100 < 12 || n % 100 > 14) ? few'
    local ends='62 102 1002' rest='0 5-19 100 1000 10000 100000 1000000'
    language ru "n % 10 == 1 && n % 100 != 11 ? one : $few : many"
    chooses ru one 1 21 31 41 51 61 71 81 101 1001 -21
    chooses ru few 2-4 22-24 32-34 42-44 52-54 $ends
    chooses ru many $rest
    language pl "n == 1 ? one : $few : many"
    chooses pl one 1
    chooses pl few 2-4 22-24 32-34 42-44 52-54 $ends
    chooses pl many $rest 21 101
    language cs 'n == 1 ? one : n >= 2 && n <= 4 ? few : other'
    chooses cs one 1
    chooses cs few 2-4
    chooses cs other $rest 22
    language ar 'n==0?zero:n==1?one:n==2?two:n%100>=3&&n%100<=10?few:n%100>=11?many:other'
    chooses ar zero 0
    chooses ar one 1
    chooses ar two 2
    chooses ar few 3-10 103-110 1003
    chooses ar many 11-26 111 1011
    chooses ar other 100-102 200-202 300-302 400-402 500-502 600 1000 10000 100000 1000000
    language en 'n == 1 ? one : other'
    chooses en one 1
    chooses en other 0 2-16 100 1000 10000 100000 1000000 -1
    language gettext 'n%10==1 && n%100!=11 ? 0 : n%10>=2 && n%10<=4 && (n%100<10 || n%100>=20) ? 1 : 2'
    chooses gettext 0 1 21 101
    chooses gettext 1 2-4 22 104
    chooses gettext 2 0 11-14 25 111
}

# language NAME RULE: a file NAME.txt with the rule and all forms of a key, which a check passes.
language() {
    local form
    printf 'plural: %s\n' "$2" >"$1.txt"
    for form in $(grep -oP '[?:] *\K[a-z0-9]+(?= *(:|$))' "$1.txt" | sort -u); do
        printf 'item.%s = %s\n' "$form" "$form" >>"$1.txt"
    done
    case_of file file 0 '' '' --check "$1.txt"
}

# chooses LANGUAGE FORM NUMBER.. or FIRST-LAST..: one case, of all the numbers.
chooses() {
    local range number wrong=
    for range in "${@:3}"; do
        if [[ $range == ?*-* ]]; then
            range=$(seq "${range%-*}" "${range##*-}")
        fi
        for number in $range; do
            if [[ $("$program" "$1.txt" item n:="$number" 2>&1) != "$2" ]]; then
                wrong+=" $number"
            fi
        done
    done
    if [[ -z $wrong ]]; then
        passed=$((passed + 1))
    else
        fail "$1: $2 is not chosen for$wrong"
    fi
}

# Values that are written escaped, and those that are out of place.
escape_cases() {
    local places='in text, or between the quotes of an attribute that is a text'
    printf '%s\n' 'link(to, n:) = <a title="{to}">{to:?} {n}</a>' 'plain = {x:>3}' >page.txt
    message '<a title="&lt;&quot;&gt;">&quot;&lt;\&quot;&gt;&quot; -1</a>' --html page.txt link \
        'to=<">' n:=-1
    message '  &lt;' --html page.txt plain 'x=<'
    message '  &lt;' --fallback page.txt --html m.txt plain 'x=<'
    message '  <' page.txt plain 'x=<'
    message 'Hello a\nb\x1b\\!' --line m.txt hello $'name=a\nb\e\\'
    message 'Hello é' --line -- mark2.txt hello name=é
    case_of file file 0 '' '' --check --html page.txt m.txt
    case_of file file 0 '' '' --line --check page.txt m.txt
    printf '%s\n' 'a = {x}' 'é = <p {x}> {y}' '# {' 'b(l[]) = <i>{l:i({}<)}</i>' >out.txt
    misplaced="$(printf '%s\n' \
        "out.txt:2:8: this value is out of place; a value may stand $places (byte 3 of the format)" \
        '  |' '2 | é = <p {x}> {y}' '  |        ^' \
        "out.txt:4:13: an item of this list ends elsewhere than it began; a value may stand $places (byte 3 of the format)" \
        '  |' '4 | b(l[]) = <i>{l:i({}<)}</i>' '  |             ^')"
    told "$misplaced" --check --html out.txt
    told "$misplaced" --html out.txt a x=1
    told "$misplaced" --html --fallback out.txt m.txt hello name
    message 1 --line out.txt a x=1
    message 1 out.txt a x=1
    printf '%s\n' 'a = {x' >early.txt
    told "$(printf '%s\n' \
        'early.txt:1:6: error while parsing input: Format spec at 1 is nether closed with a `}` (byte 1 of the format)' \
        '  |' '1 | a = {x' '  |     ~^')"$'\n'"$misplaced" --check --html early.txt out.txt
    wrong "$usage" --html --html m.txt hello name=1
    wrong "$usage" --html --line m.txt hello name=1
    wrong "$usage" --check --html
    wrong "$usage" --html m.txt
    wrong "$usage" --csv m.txt hello name=1
    wrong "$usage" --check --fallback m.txt m.txt
    unread '--html: No such file or directory (os error 2)' -- --html hello
    case_of file file 0 "$(sed -n '/^const HELP/,/^";/p' "$here/src/main.rt" | sed '1d;$d')"$'\n' '' --help
    case_of file file 0 $'catalogue 0.5.0\n' '' --version
    case_of full file 3 '' $'cannot write: No space left on device (os error 28)\n' --help
}

# Checks alone.
check_cases() {
    unread 'none.txt: No such file or directory (os error 2)' --fallback none.txt m.txt hello
    wrong "$usage" --fallback m.txt
    wrong "$usage" --fallback m.txt de.txt
    wrong "$usage" --fallback m.txt --check de.txt
    case_of file file 0 '' '' --check m.txt de.txt declared.txt
    printf '%s\n' 'x = 1' 'y' >one.txt
    printf '%s\n' 'hello = {' >two.txt
    faults="$(printf '%s\n' 'one.txt:2:1: no `=`' '  |' '2 | y' '  | ^' \
        'two.txt:1:10: error while parsing input: Format spec at 1 is nether closed with a `}` (byte 1 of the format)' \
        '  |' '1 | hello = {' '  |         ~^')"
    told "$faults" --check one.txt m.txt two.txt
    case_of file file 3 '' \
        'none.txt: No such file or directory (os error 2)'$'\n'"$faults"$'\n' \
        --check one.txt none.txt two.txt
    unread 'none.txt: No such file or directory (os error 2)' --check m.txt none.txt
}

# Wrong uses, and files that cannot be read.
use_cases() {
    wrong "$usage" --check
    case_of file full 3 '' '' --check one.txt
    wrong "$usage"
    wrong "$usage" m.txt
    wrong "$usage" --chek m.txt
    wrong "$usage" m.txt hello $'name=\xff'
    wrong 'bad word: x' m.txt hello y=1 x z:=z
    unread 'none.txt: No such file or directory (os error 2)' none.txt hello
    unread '.: Is a directory (os error 21)' . hello
    printf 'a = \xff\n' >latin.txt
    unread 'latin.txt:1:5: byte 0xFF is no UTF-8' latin.txt a
    unread 'latin.txt:1:5: byte 0xFF is no UTF-8' --po --check latin.txt
    case_of file file 3 '' $'latin.txt:1:5: byte 0xFF is no UTF-8\n'"$faults"$'\n' \
        --check one.txt latin.txt two.txt
    printf '\xef\xbb\xbfa = 1\n\né ü = \xe9t\xe9\n' >latin.txt
    unread 'latin.txt:3:7: byte 0xE9 is no UTF-8' latin.txt a
    printf '\xef\xbb\xbfé\xc3' >latin.txt
    unread 'latin.txt:1:2: byte 0xC3 is no UTF-8' --fallback latin.txt m.txt hello name=Ann
    case_of file full 3 '' '' none.txt hello
    case_of file closed 3 '' ''
}

# Messages of PO files. Which of them count, and which files are none, is what msgfmt 0.21 says, and
# the forms are those of its rule.
po_cases() {
    printf '%s\n' '# German' 'msgid ""' 'msgstr ""' '"Content-Type: text/plain; charset=UTF-8\n"' \
        '"Plural-Forms: nplurals=2; plural=n != 1;\n"' '' '#: main.c:3' 'msgid "Hello {name}!"' \
        'msgstr "Hallo {name}!"' '' '#, c-format, fuzzy' '#| msgid "Bye"' 'msgid "Bye {name}."' \
        'msgstr "Tschüs {name"' '' 'msgctxt "menu"' 'msgid "Open {x}"' 'msgstr "Öff"' \
        '"nen\t\"{x:>3}\"\101"' '' 'msgid "Open {x}"' 'msgstr ""' '' 'msgid "{n} file of {a}"' \
        'msgid_plural "{n} files of {a}"' 'msgstr[0] "eine Datei von {a}"' 'msgstr[1] "{n} Dateien "' \
        '"von {a}"' '' '#, fuzzy' '#~ msgid "old' '' 'msgid "{n} apple"' 'msgid_plural "{n} apples"' \
        'msgstr[0] ""' 'msgstr[1] ""' '' 'msgid "No\\fuzzy"' 'msgstr "Nicht\nfuzzy"' >de.po
    case_of file file 0 '' '' --po --check de.po
    message 'Hallo Zoë!' --po de.po 'Hello {name}!' name=Zoë
    message 'Bye Zoë.' --po de.po 'Bye {name}.' name=Zoë
    message $'Öffnen\t"  1"A' --po --context menu de.po 'Open {x}' x=1
    message 'Open 1' --po de.po 'Open {x}' x=1
    message 'eine Datei von Zoë' --po de.po '{n} file of {a}' n:=1 a=Zoë
    message '0 Dateien von Zoë' --po de.po '{n} file of {a}' n:=0 a=Zoë
    message '1 apple' --po de.po '{n} apple' n:=1
    message '2 apples' --po de.po '{n} apple' n:=2
    message $'Nicht\nfuzzy' --po de.po 'No\fuzzy'
    message 'Hallo &lt;!' --po --html de.po 'Hello {name}!' 'name=<'
    told 'de.po: no message `Open`' --po de.po Open
    told 'de.po: `{n} apple` wants `n:=NUMBER`' --po de.po '{n} apple' n=1
    told "$(printf '%s\n' 'de.po:9:16: specified value not in context `name` at 7' \
        '  |' '9 | msgstr "Hallo {name}!"' '  |                ^')" --po de.po 'Hello {name}!'
    wrong 'bad word: x' --po de.po 'Hello {name}!' x

    printf '%s\n' 'msgid ""' 'msgstr ""' \
        '"Plural-Forms: nplurals=2; plural=n == 1 ? 0 : n == 2 ? 1 : 2;\n"' '' \
        'msgid "{a} and {b:x} and {l:i({:?})(, )}"' 'msgstr "\t{c} und "' \
        '"é{b} und {a:i} {l:i({}{:?}{:x})}{l:?"' '' 'msgid "{a}{b}{a:x}"' 'msgstr "{a}"' '' \
        'msgid "{a}{b}{a:x}"' 'msgstr ""' '' 'msgid "{n} file"' 'msgid_plural "{n} files"' \
        'msgstr[0] "eine {m}"' >bad.po
    told "$(printf '%s\n' 'bad.po:3:35: the rule chooses form 2 of 2 for 0' '  |' \
        '3 | "Plural-Forms: nplurals=2; plural=n == 1 ? 0 : n == 2 ? 1 : 2;\n"' \
        '  |                                   ^' \
        'bad.po:7:37: error while parsing input: Expected `}` at 45' \
        '  |' '7 | "é{b} und {a:i} {l:i({}{:?}{:x})}{l:?"' \
        '  |                                     ^' \
        'bad.po:6:12: the message has no `{c}`' \
        '  |' '6 | msgstr "\t{c} und "' '  |            ^' \
        'bad.po:7:4: the message has `{b}` otherwise' \
        '  |' '7 | "é{b} und {a:i} {l:i({}{:?}{:x})}{l:?"' '  |    ^' \
        'bad.po:7:12: the message has `{a}` otherwise' \
        '  |' '7 | "é{b} und {a:i} {l:i({}{:?}{:x})}{l:?"' '  |            ^' \
        'bad.po:7:29: the message has `{}` otherwise' \
        '  |' '7 | "é{b} und {a:i} {l:i({}{:?}{:x})}{l:?"' '  |                             ^' \
        'bad.po:7:35: the message has `{l}` otherwise' \
        '  |' '7 | "é{b} und {a:i} {l:i({}{:?}{:x})}{l:?"' \
        '  |                                   ^' \
        'bad.po:10:9: the translation lacks `{b}`' '   |' '10 | msgstr "{a}"' '   |         ^' \
        'bad.po:12:8: line 9 has this message too' \
        '   |' '12 | msgid "{a}{b}{a:x}"' '   |        ^' \
        'bad.po:15:8: 1 of 2 forms that Plural-Forms tells' \
        '   |' '15 | msgid "{n} file"' '   |        ^' \
        'bad.po:17:18: the message has no `{m}`' \
        '   |' '17 | msgstr[0] "eine {m}"' '   |                  ^')" --po --check bad.po
    printf '%s\n' 'msgid ""' 'msgstr "Plural-Forms: nplurals=2; plural=n == ;\n"' '' 'msgid "<p {x}>"' \
        'msgstr ""' >rule.po
    told "$(printf '%s\n' 'rule.po:2:47: a name, a number, `!` or `(` is missing here' \
        '  |' '2 | msgstr "Plural-Forms: nplurals=2; plural=n == ;\n"' \
        '  |                                               ^' \
        'rule.po:4:11: this value is out of place' '  |' '4 | msgid "<p {x}>"' '  |           ^')" \
        --po --check --html rule.po
    printf '%s\n' 'msgid ""' "msgstr \"Plural-Forms: nplurals=2; plural=n == 'f';\\n\"" >text.po
    told "$(printf '%s\n' 'text.po:2:42: a rule of a PO file compares no texts' '  |' \
        "2 | msgstr \"Plural-Forms: nplurals=2; plural=n == 'f';\\n\"" \
        '  |                                          ^')" --po --check text.po
    printf '%s\n' 'msgid ""' 'msgstr "text/plain; charset=ISO-8859-1\n"' '' 'msgid "a"' 'msgstr "é"' >latin.po
    told "$(printf '%s\n' 'latin.po:2:29: a PO file is read as UTF-8' '  |' \
        '2 | msgstr "text/plain; charset=ISO-8859-1\n"' '  |                             ^')" \
        --po --check latin.po
    wrong "$usage" --po --context menu --check de.po
    wrong "$usage" --context menu de.po x
    wrong "$usage" --po --po de.po x
    wrong "$usage" --po --fallback de.po de.po x
    unread 'none.po: No such file or directory (os error 2)' --po none.po x
    unread '.: Is a directory (os error 21)' --po --check .
    case_of closed file 3 '' $'cannot write: Bad file descriptor (os error 9)\n' --po de.po 'No\fuzzy'
    case_of full file 3 '' $'cannot write: No space left on device (os error 28)\n' \
        --po de.po '{n} apple' n:=2
    refusals_of 0 $'2 apples\n' '' --po de.po '{n} apple' n:=2
}

# Files that are no PO files, and some that are.
broken_po_cases() {
    local string='a string ends on its line, and has no NUL'
    local escape='an escape is one of `\n \t \r \a \b \f \v \\ \"`, or `\001` to `\177`'
    local entry='an entry is `msgctxt` or none, `msgid`, and `msgstr`, or `msgid_plural` and '
    entry+='`msgstr[0]`, `msgstr[1]`.., with no comment in it'
    broken_po "2:10: $string" 'msgid "a"\nmsgstr "b\n'
    broken_po "2:10: $string" 'msgid "a"\nmsgstr "b'
    broken_po "2:10: $escape" 'msgid "a"\nmsgstr "b\\'
    broken_po "1:9: $string" 'msgid "a\0"\nmsgstr "b"\n'
    broken_po "2:10: $escape" 'msgid "a"\nmsgstr "é\\q"\n'
    broken_po "2:9: $escape" 'msgid "a"\nmsgstr "\\400"\n'
    broken_po "2:9: $escape" 'msgid "a"\nmsgstr "\\000"\n'
    broken_po "2:1: $entry" 'msgid "a"\n# b\nmsgstr "c"\n'
    broken_po "2:1: $entry" 'msgid "a"\n'
    broken_po '1:6: a string is missing here' 'msgid'
    broken_po '1:7: a string is missing here' 'msgid msgstr "a"'
    broken_po "1:1: $entry" 'msgstr "a"\n'
    broken_po "1:1: $entry" '"a"\n'
    broken_po "1:1: $entry" '\0'
    broken_po "3:1: $entry" 'msgid "a"\nmsgid_plural "b"\nmsgstr[1] "c"\n'
    broken_po "4:1: $entry" 'msgid "a"\nmsgid_plural "b"\nmsgstr[0] "c"\nmsgstr[2] "d"\n'
    broken_po "2:1: $entry" 'msgid "a"\nmsgstr[0] "c"\n'
    broken_po "1:1: $entry" 'domain "a"\n'
    broken_po "1:1: $entry" '\xef\xbb\xbfmsgid "a"\nmsgstr "b"\n'
    broken_po '' ''
    broken_po '' '# a'
    broken_po '' 'msgid "a" "b"\rmsgstr\r\n"c" ""\r#, fuzzy'
    broken_po '' 'msgid"a"msgstr"b"msgctxt""msgid"a"msgstr""'
}

# broken_po WHAT FILE: a file, written as printf does, of which the check says this first.
broken_po() {
    local found status=0
    printf "$2" >broken.po
    found=$("$program" --po --check broken.po 2>&1 >/dev/null | tr -d '\0'; exit "${PIPESTATUS[0]}") || status=$?
    if [[ ${found%%$'\n'*} == "${1:+broken.po:$1}" && $status -eq $((${#1} > 0)) ]]; then
        passed=$((passed + 1))
    else
        fail "the PO file $2: $status $found"
    fi
}

refused_calls() {
    refusals_of 0 $'Ann: -07 of <a>, <b>\n' '' declared.txt cart name=Ann n:=-7 'l[]=a,b'
    refusals_of 0 $'<a title="&lt;">&quot;&lt;&quot; 1</a>\n' '' --html page.txt link 'to=<' n:=1
    refusals_of 1 '' "$misplaced"$'\n' --check --html out.txt
    refusals_of 0 $'2 Artikel\n' '' --fallback m.txt forms.txt cart n:=2
    refusals_of 0 '' '' --check m.txt
    refusals_of 1 '' "$faults"$'\n' --check one.txt m.txt two.txt
    refusals_of 1 '' $'declared.txt:3: `cart` wants `n:=NUMBER`\n' declared.txt cart name=Ann 'n[]=7'
    refusals_of 1 '' $'de.txt: no message `gone`\nm.txt: no message `gone`\n' \
        --fallback m.txt de.txt gone
    refusals_of 1 '' $'m.txt: no message `helo`\ndid you mean `hello`?\n' m.txt helo
    refusals_of 0 $'Bye,   Ann.\n' $'m.txt: no message uses `z`\n' m.txt bye name=Ann z=1
    refusals_of 2 '' $'bad word: x\n' m.txt hello y=1 x z:=z
    refusals_of 2 '' "$usage"$'\n' m.txt
    refusals_of 3 '' $'none.txt: No such file or directory (os error 2)\n' none.txt hello
    refusals_of 3 '' $'latin.txt:1:2: byte 0xC3 is no UTF-8\n' latin.txt a
}

all_cases() {
    message_cases
    broken_cases
    head_cases
    declared_cases
    kind_cases
    folded_cases
    decimal_cases
    float_cases
    key_cases
    fallback_cases
    form_cases
    text_cases
    broken_rule_cases
    language_cases
    escape_cases
    po_cases
    broken_po_cases
    check_cases
    use_cases
    refused_calls
}

run_cases "$@"
