#!/usr/bin/env python3
"""Holds the readers of specs/ against readers that nobody here wrote.

The readers say where in a format a value may stand. Each is written here once more, line for line
as in specs/, and random formats are checked by it. Where the check lets a value stand, no value may
change what another reader of the language reads, and it reads the value back: html5lib and
html.parser for HTML, csv, json, dash and bash, and Python's own literals and Unicode tables for
lines. What is not installed is left out, and named.

    python3 compare.py [FORMATS [SEED]]      20000 formats for each reader, if no number is given
"""

import ast
import csv
import io
import json
import random
import shutil
import subprocess
import sys
import tempfile
import unicodedata
import warnings
from html.parser import HTMLParser

try:
    import html5lib
except ImportError:
    html5lib = None

HOLE = None
QUOTED = object()

# ---- escapes, as in Escapes.antt


def code(prefix, digits, c):
    return prefix + format(ord(c), "0%dx" % digits)


def is_control(c):
    n = ord(c)
    return (
        n < 32
        or 127 <= n <= 159
        or n == 1564
        or 8206 <= n <= 8207
        or 8232 <= n <= 8238
        or 8294 <= n <= 8297
    )


LETTERS = {"\\": "\\\\", "\n": "\\n", "\r": "\\r", "\t": "\\t"}


def line_escape(c):
    if c in LETTERS:
        return LETTERS[c]
    if is_control(c):
        return code("\\x", 2, c) if ord(c) < 256 else code("\\u", 4, c)
    return c


def html_escape(c):
    return {"&": "&amp;", "<": "&lt;", ">": "&gt;", '"': "&quot;", "'": "&#39;"}.get(c, c)


def csv_escape(c):
    return '""' if c == '"' else c


def json_escape(c):
    if c in LETTERS:
        return LETTERS[c]
    if c == '"':
        return '\\"'
    return code("\\u", 4, c) if ord(c) < 32 or c == "<" else c


def shell_escape(c):
    return "'\\''" if c == "'" else c


def escaped(escape, text):
    return "".join(escape(c) for c in text)


# ---- readers: the state after a character


def line_step(s, c):
    if is_control(c):
        return "in_line"
    if s == "in_line":
        return "after_slash" if c == "\\" else "in_line"
    if s == "after_slash":
        return {"x": ("in_code", 2), "u": ("in_code", 4)}.get(c, "in_line")
    return "in_line" if s[1] == 1 else ("in_code", s[1] - 1)


def csv_step(s, c):
    bare = "field_start" if c in ",\r\n" else "bare"
    if s == "field_start":
        return "quoted" if c == '"' else bare
    if s == "bare":
        return bare
    if s == "quoted":
        return "quote_seen" if c == '"' else "quoted"
    return "quoted" if c == '"' else bare


def json_step(s, c):
    if s == "between":
        return "in_string" if c == '"' else "between"
    if s == "in_string":
        return {'"': "between", "\\": "after_slash"}.get(c, "in_string")
    if s == "after_slash":
        return ("in_code", 4) if c == "u" else "in_string"
    return "in_string" if s[1] == 1 else ("in_code", s[1] - 1)


def shell_step(s, c):
    if s == "outside":
        if c == "'":
            return "single_quoted"
        if c == "\\":
            return "after_slash"
        return "elsewhere" if c in '"#$(<[`' else "outside"
    if s == "after_slash":
        return "outside"
    if s == "single_quoted":
        return "outside" if c == "'" else "single_quoted"
    return "elsewhere"


# HTML, as in Html.antt. A base is "text" or (quote, element, kind).

RAW = "script style title textarea iframe xmp noscript noembed noframes".split()
SPACE = " \t\n\x0c\r"
PLAIN, READ_AGAIN = "plain", "read_again"


def is_letter(c):
    return "A" <= c <= "Z" or "a" <= c <= "z"


def lower(c):
    return c.lower() if "A" <= c <= "Z" else c


def is_in_reference(c):
    return is_letter(c) or "0" <= c <= "9" or c == "#"


def kind_of(name):
    if name[:2] == "on" or name in ("style", "srcdoc"):
        return READ_AGAIN
    if name in ("href", "src", "action", "formaction", "data", "xlink:href"):
        return ("address", "")
    return PLAIN


def kind_after(kind, c):
    if kind in (PLAIN, READ_AGAIN):
        return kind
    if c in "/?#":
        return PLAIN
    if c == ":":
        return PLAIN if kind[1] in ("http", "https", "mailto", "tel") else READ_AGAIN
    return READ_AGAIN if c == "&" else ("address", kind[1] + lower(c))


TEXT = ("in_base", "text")


def past_tag(element):
    if element in RAW:
        return ("in_raw", element)
    return "lost" if element == "plaintext" else TEXT


def in_declared(c):
    return TEXT if c == ">" else "declared"


def in_spaced(element, c):
    if c == ">":
        return past_tag(element)
    return ("spaced", element) if c in SPACE + "/" else ("in_name", element, lower(c))


def base_after(base, c):
    return base if base == "text" else (base[0], base[1], kind_after(base[2], c))


def base_step(base, c):
    if c == ("<" if base == "text" else base[0]):
        return "opened" if base == "text" else ("spaced", base[1])
    return ("in_reference" if c == "&" else "in_base", base_after(base, c))


def opened(c):
    if is_letter(c):
        return ("named", True, lower(c))
    return {"/": "closing", "!": "marked", "?": "declared"}.get(c) or base_step("text", c)


def past_mark(c):
    return {"-": "marked_dash", "[": "lost"}.get(c) or in_declared(c)


def past_dashes(c):
    return {"-": "comment_dashes", ">": TEXT, "!": "lost"}.get(c, "comment")


def in_named(begins, name, c):
    element = name if begins else ""
    if c == ">":
        return past_tag(element)
    return ("spaced", element) if c in SPACE + "/" else ("named", begins, name + lower(c))


def past_name(element, name, c):
    if c == "=":
        return ("before_value", element, name)
    if c in SPACE:
        return ("after_name", element, name)
    return in_spaced(element, c) if c in ">/" else ("in_name", element, name + lower(c))


def past_named(element, name, c):
    if c == "=":
        return ("before_value", element, name)
    return ("after_name", element, name) if c in SPACE else in_spaced(element, c)


def past_equals(element, name, c):
    if c in "\"'":
        return ("in_base", (c, element, kind_of(name)))
    if c == ">":
        return past_tag(element)
    return ("before_value", element, name) if c in SPACE else ("in_bare_value", element)


def past_bare(element, c):
    if c == ">":
        return past_tag(element)
    return ("spaced", element) if c in SPACE else ("in_bare_value", element)


def past_raw_open(element, c):
    if c == "/":
        return ("raw_closing", element, element)
    if c == "<":
        return ("raw_opened", element)
    return "lost" if is_letter(c) or c in "!?" else ("in_raw", element)


def past_raw_close(element, rest, c):
    if rest == "":
        return TEXT if c == ">" else ("spaced", "") if c in SPACE + "/" else "lost"
    return ("raw_closing", element, rest[1:]) if lower(c) == rest[0] else "lost"


MARKUP = {
    "closing": lambda c: ("named", False, lower(c)) if is_letter(c) else in_declared(c),
    "marked": past_mark,
    "marked_dash": lambda c: "comment_dashes" if c == "-" else in_declared(c),
    "declared": in_declared,
    "comment": lambda c: "comment_dash" if c == "-" else "comment",
    "comment_dash": lambda c: "comment_dashes" if c == "-" else "comment",
    "comment_dashes": past_dashes,
    "named": in_named,
    "spaced": in_spaced,
    "in_name": past_name,
    "after_name": past_named,
    "before_value": past_equals,
    "in_bare_value": past_bare,
    "in_raw": lambda e, c: ("raw_opened", e) if c == "<" else ("in_raw", e),
    "raw_opened": past_raw_open,
    "raw_closing": past_raw_close,
    "lost": lambda c: "lost",
}


def html_step(s, c):
    if s == "opened":
        return opened(c)
    if s[0] == "in_base":
        return base_step(s[1], c)
    if s[0] == "in_reference":
        if c == ";":
            return ("in_base", s[1])
        return s if is_in_reference(c) else base_step(s[1], c)
    return MARKUP[s](c) if isinstance(s, str) else MARKUP[s[0]](*s[1:], c)


def is_html_place(s):
    return s[0] == "in_base" and (s[1] == "text" or s[1][2] == PLAIN)


# ---- formats and values


def stand(step, start, is_place, pieces, ends=lambda s: True):
    """Whether each value of a format stands in a place, and the format ends where it should."""
    s = start
    for piece in pieces:
        if piece is HOLE:
            if not is_place(s):
                return False
        else:
            for c in piece:
                s = step(s, c)
    return ends(s)


def marker(i):
    return "Qm%dZ" % i


def filled(pieces, values, escape):
    values = iter(values)
    return "".join(escaped(escape, next(values)) if p is HOLE else p for p in pieces)


def with_values(tree, values):
    """What was read with markers, with the values in their places."""
    if isinstance(tree, str):
        for i, value in enumerate(values):
            tree = tree.replace(marker(i), value)
        return tree
    if isinstance(tree, (list, tuple)):
        return [with_values(t, values) for t in tree]
    return tree


EVIL = (
    "< > & \" ' ` \\ / = ; # ! - -- --> ]]> <!-- </script> </style> </title> <script> <b> "
    "<![CDATA[ &lt; &amp &#39; amp; #39; lt; $(p+INJ) ${IFS} ';p+INJ;' \\' \\\" \\n \\x41 \\u003c "
    "u003c on x javascript: 1 , ,, {} [] : * ~ | && || () %41 =cmd @ +"
).split(" ")
CHARACTERS = list("\0\n\r\t\x0b\x0c\x1b\x7f\x85\x9b \u061c\u200e\u200f\u2028\u2029\u202a\u202e")
CHARACTERS += ["\r\n", "\x1b[2J", "\u2066", "\u2069", "\ufeff", "\ufffe", "\ufffd"]


def a_character(r):
    while True:
        c = chr(r.randrange(r.choice([0x20, 0x80, 0x3000, 0x110000])))
        if not 0xD800 <= ord(c) < 0xE000:
            return c


def a_value(r, first=""):
    makers = (lambda: r.choice(EVIL), lambda: r.choice(CHARACTERS), lambda: a_character(r))
    parts = [r.choice(makers)() for _ in range(r.randrange(6))]
    return first + "".join(parts).replace("+", " ")


def a_format(r, fragments, most):
    pieces = [r.choice(fragments) for _ in range(r.randrange(1, most))]
    pieces.insert(r.randrange(len(pieces) + 1), HOLE)
    return pieces


class Report:
    """Counts what was compared, and shows the first differences."""

    def __init__(self, name):
        self.name = name
        self.compared = 0
        self.refused = 0
        self.passed_over = 0
        self.different = []

    def differs(self, pieces, values, before, after):
        self.different.append((pieces, values, before, after))

    def show(self):
        text = "%s: %d compared" % (self.name, self.compared)
        if self.refused:
            text += ", %d formats refused by the check" % self.refused
        if self.passed_over:
            text += ", %d passed over" % self.passed_over
        print(text + ", %d different" % len(self.different))
        for pieces, values, before, after in self.different[:3]:
            print("  format %r\n  values %r" % (pieces, values))
            print("  wanted %.300r\n  was    %.300r" % (before, after))
        return not self.different


def compare(report, r, count, make, check, escape, read, value=a_value, fit=lambda x: x):
    """Compares what is read of formats whose values stand, with markers and with values."""
    while report.compared < count:
        pieces = make(r)
        if not stand(*check, pieces):
            report.refused += 1
            continue
        holes = pieces.count(HOLE)
        values = [value(r) for _ in range(holes)]
        plain = read(filled(pieces, [marker(i) for i in range(holes)], lambda c: c))
        if plain is OVER:
            report.passed_over += 1
            continue
        report.compared += 1
        wanted = with_values(plain, values)
        was = read(filled(pieces, values, escape))
        if fit(wanted) != fit(was):
            report.differs(pieces, values, fit(wanted), fit(was))


OVER = object()
FAILED = "does not read"

# ---- lines


def read_literal(text):
    with warnings.catch_warnings():
        warnings.simplefilter("ignore")
        try:
            return ast.literal_eval('"' + text.replace('"', '\\"') + '"')
        except (SyntaxError, ValueError):
            return FAILED


def compare_lines(count, r):
    report = Report("lines, by Python's literals")
    fragments = ["a", " ", "user ", "\\\\", "\\n", "\\t", "\\x41", "\\u00e9", "\u00e9", "'", HOLE]
    check = (line_step, "in_line", lambda s: s == "in_line")
    compare(report, r, count, lambda r: a_format(r, fragments, 9), check, line_escape, read_literal)
    table = Report("controls, by the tables of Unicode")
    marks = ("LRE", "RLE", "LRO", "RLO", "PDF", "LRI", "RLI", "FSI", "PDI")
    names = ("LEFT-TO-RIGHT MARK", "RIGHT-TO-LEFT MARK", "ARABIC LETTER MARK")
    for c in map(chr, range(0x110000)):
        wanted = (
            unicodedata.category(c) in ("Cc", "Zl", "Zp")
            or unicodedata.bidirectional(c) in marks
            or unicodedata.name(c, "") in names
        )
        table.compared += 1
        if wanted != is_control(c):
            table.differs([c], [], wanted, is_control(c))
    ends = Report("lines, by str.splitlines")
    fragments = ["a", "\\", "x", "\n", "\r\n", "\u2028", "\x1b", HOLE]
    everywhere = (lambda s, c: s, "", lambda s: True)
    make = lambda r: a_format(r, fragments, 9)
    compare(ends, r, count, make, everywhere, line_escape, lambda t: len((t + ".").splitlines()))
    return [report, table, ends]


# ---- CSV


def read_csv(text):
    try:
        return list(csv.reader(io.StringIO(text, newline="")))
    except csv.Error:
        return FAILED


def compare_csv(count, r):
    report = Report("csv")
    fragments = ['"', '"', '""', ",", '","', "\n", "\r", "\r\n", "a", " ", "'", HOLE, HOLE]
    check = (csv_step, "field_start", lambda s: s == "quoted")
    compare(report, r, count, lambda r: a_format(r, fragments, 12), check, csv_escape, read_csv)
    return [report]


# ---- JSON


def read_json(text):
    try:
        return json.loads(text, object_pairs_hook=lambda pairs: ["object", *map(list, pairs)])
    except ValueError:
        return FAILED


def json_pieces(r, depth):
    """A random text of JSON, in fragments."""
    if depth == 0 or r.random() < 0.4:
        texts = ["a", "\\n", "\\\\", '\\"', "\\u0041", "</", "é", HOLE, HOLE]
        inside = [r.choice(texts) for _ in range(r.randrange(4))]
        return r.choice([["1"], ["null"], ['"', *inside, '"'], ['"', *inside, '"']])
    parts = []
    for i in range(r.randrange(4)):
        parts += [","] if i else []
        parts += ['"k', HOLE, '":'] if depth % 2 else []
        parts += json_pieces(r, depth - 1)
    return ["{", *parts, "}"] if depth % 2 else ["[", *parts, "]"]


def compare_json(count, r):
    check = (json_step, "between", lambda s: s == "in_string")
    report = Report("json, random formats")
    fragments = [*'""\\u{}[]:,a1 \n', "0041", HOLE, HOLE]
    compare(report, r, count, lambda r: a_format(r, fragments, 12), check, json_escape, read_json)
    whole = Report("json, formats of JSON")
    while whole.compared < count:
        pieces = json_pieces(r, r.randrange(4))
        holes = pieces.count(HOLE)
        if not holes:
            continue
        if not stand(*check, pieces):
            whole.refused += 1
            continue
        values = [a_value(r) for _ in range(holes)]
        whole.compared += 1
        plain = read_json(filled(pieces, [marker(i) for i in range(holes)], lambda c: c))
        text = filled(pieces, values, json_escape)
        was = read_json(text)
        if plain == FAILED or with_values(plain, values) != was:
            whole.differs(pieces, values, with_values(plain, values), was)
        inside = escaped(json_escape, "".join(values))
        if "<" in inside:
            whole.differs(pieces, values, "no <", inside)
    return [report, whole]


# ---- shells

ENDS = ("\n", ";", "| ", "{", "}", "!")
NOWHERE = tempfile.TemporaryDirectory()
WORDS = """p() { for word do printf '<%s>' "$word"; done; printf '.'; }
( eval "$1" )
printf '%s' '@@'
( eval "$2" )
"""


def read_shell(shell, plain, text):
    """What a shell calls `p` with, for two commands; nothing that it could run is in its path."""
    run = subprocess.run(
        [shell, "-c", WORDS, shell, plain, text],
        stdin=subprocess.DEVNULL,
        stdout=subprocess.PIPE,
        stderr=subprocess.DEVNULL,
        cwd=NOWHERE.name,
        env={"PATH": "/nonexistent", "LC_ALL": "C.UTF-8"},
        timeout=20,
    )
    before, _, after = run.stdout.decode("utf-8", "surrogateescape").partition("@@")
    return before, after


def compare_shell(count, r, shell):
    report = Report(shell)
    path = shutil.which(shell)
    if not path:
        print("%s: not installed" % shell)
        return []
    fragments = ["p ", "| ", "a=", *" x=\n;,:*~%!{}"] * 3
    fragments += ["\\'", *"'\\\"$#()[]`<", HOLE] + [QUOTED] * 20
    within = [f for f in fragments if f not in ENDS]
    check = (shell_step, "outside", lambda s: s == "single_quoted")
    while report.compared < count:
        # a value in the first word names the command, so there none may be empty
        first, drawn_from = r.choice([("", within), ("v", fragments)])
        pieces = ["p", " "]
        for piece in (r.choice(drawn_from) for _ in range(r.randrange(1, 9))):
            pieces += ["'", HOLE, "'"] if piece is QUOTED else [piece]
        if HOLE not in pieces or not stand(*check, pieces, lambda s: s == "outside"):
            report.refused += 1
            continue
        values = [a_value(r, first) for _ in range(pieces.count(HOLE))]
        values = [value.replace("\0", "").replace("@@", "") for value in values]
        report.compared += 1
        plain = filled(pieces, [marker(i) for i in range(len(values))], lambda c: c)
        before, after = read_shell(path, plain, filled(pieces, values, shell_escape))
        if with_values(before, values) != after:
            report.differs(pieces, values, with_values(before, values), after)
    return [report]


# ---- HTML

HTML_FRAGMENTS = (
    "< </ > > / = \" \" ' ' & ; ! - -- ? [ # a b x p on href src data action style title srcdoc id "
    "class script textarea select svg math table option plaintext template iframe xmp noscript "
    "head body frameset https: javascript: mailto: // &amp; &lt &#39 amp \\ ` ] <p+ <a+ <b> </b> "
    "</p> <p> <!-- --> -> <! <? <![CDATA[ ]]> <script> </script> <style> </style> <title> </title> "
    "<textarea> </textarea> <svg> </svg> <math> <select> </select> <table> <template> <noscript> "
    "</noscript> <iframe> </iframe> <!DOCTYPE+html> class=\" id=' href=\" src=\" onclick=\" "
    "style=\" title=\" <a+href=\"/ </SCRIPT> <TITLE> </title+ </style/ <foreignObject> <desc> <mi> "
    "<annotation-xml> <frameset> <br/>"
).split(" ")
HTML_FRAGMENTS = [f.replace("+", " ") for f in HTML_FRAGMENTS] + [" ", " ", "\n", "\t", "é"]
HTML_FRAGMENTS += [HOLE] * 30


def a_text(r):
    """Text of a page, with values."""
    texts = ["a", " ", "é", "&amp;", "&lt", "&", "#", "1", ";", "a < b", HOLE, HOLE]
    return [r.choice(texts) for _ in range(r.randrange(4))]


def an_attribute(r):
    """An attribute, with or without quotes."""
    name = r.choice("class id title href src data onclick style srcdoc HREF x=".split())
    quote = r.choice(['"', '"', "'", "'", ""])
    front = r.choice(["", "", "/", "https:", "?q=", "javascript:", "a"])
    between = r.choice(["=", "=", "=", " = ", ""])
    return [r.choice([" ", " ", "\n", "/", ""]), name, between, quote, front, *a_text(r), quote]


def a_tag(r, name):
    attributes = [an_attribute(r) for _ in range(r.choice([0, 0, 1, 1, 2]))]
    return ["<", name, *(f for a in attributes for f in a), r.choice([">", ">", ">", "/>", " >"])]


def a_page(r, depth):
    """A page that is nearly one, with values in and out of place."""
    pieces = []
    for _ in range(r.randrange(1, 4)):
        kind = r.randrange(8)
        if kind < 3 or depth == 0:
            pieces += a_text(r)
        elif kind < 6:
            name = r.choice("p b A svg math select option table tr td template desc mi br".split())
            pieces += [*a_tag(r, name), *a_page(r, depth - 1)]
            pieces += ["</", name, r.choice([">", " >", "/>"])]
        elif kind == 6:
            pieces += ["<!--", r.choice(["", "a", "-", ">", "<!--"]), *a_text(r)]
            pieces.append(r.choice(["-->", "--!>", "->"]))
        else:
            name = r.choice(RAW + ["TITLE", "Style", "plaintext"])
            pieces += [*a_tag(r, name), *a_text(r), *([] if r.random() < 0.6 else a_page(r, 0))]
            pieces += [r.choice(["", "</", "<!--", "'\"", "<b>"]), "</", name, ">", *a_text(r)]
    return pieces


def a_page_amiss(r):
    """A page, with a fragment or two changed, and a value at least."""
    pieces = a_page(r, 2)
    for _ in range(r.choice([0, 0, 1, 2])):
        i = r.randrange(len(pieces) + 1)
        pieces[i : i + r.randrange(2)] = [r.choice(HTML_FRAGMENTS)]
    return pieces if HOLE in pieces else pieces + [HOLE]


def joined(events):
    """Events with neighbouring texts as one."""
    out = []
    for event in events:
        if event[0] == "text" and out and out[-1][0] == "text":
            out[-1] = ["text", out[-1][1] + event[1]]
        else:
            out.append(list(event))
    return out


if html5lib:
    from html5lib.constants import tokenTypes

    KINDS = {number: name for name, number in tokenTypes.items()}

    class Recorder:
        """A tokenizer that keeps the tokens that it gave."""

        def __init__(self, tokenizer):
            self.tokenizer = tokenizer
            self.events = []

        def __getattr__(self, name):
            return getattr(self.tokenizer, name)

        def __setattr__(self, name, value):
            if name in ("tokenizer", "events"):
                object.__setattr__(self, name, value)
            else:
                setattr(self.tokenizer, name, value)

        def __iter__(self):
            for token in self.tokenizer:
                kind = KINDS[token["type"]]
                if kind in ("Characters", "SpaceCharacters"):
                    self.events.append(["text", token["data"]])
                elif kind in ("StartTag", "EmptyTag"):
                    pairs = token["data"]
                    pairs = pairs.items() if hasattr(pairs, "items") else pairs
                    self.events.append(["start", token["name"], [list(p) for p in pairs]])
                elif kind == "EndTag":
                    self.events.append(["end", token["name"]])
                elif kind == "Comment":
                    self.events.append(["comment", token["data"]])
                elif kind == "Doctype":
                    self.events.append(["doctype", token["name"]])
                yield token

    class Parser(html5lib.HTMLParser):
        """A parser whose tokens are kept."""

        def mainLoop(self):
            self.tokenizer = Recorder(self.tokenizer)
            super().mainLoop()

    def elements(node):
        """The elements of a tree, without its texts."""
        return [
            str(node.tag),
            [[str(name), value] for name, value in sorted(node.attrib.items(), key=str)],
            [elements(child) for child in node],
        ]

    def read_tokens(text):
        parser = Parser(strict=False)
        parser.parse(text)
        return joined(parser.tokenizer.events)

    def read_tree(text):
        return elements(Parser(strict=False).parse(text))


class Events(HTMLParser):
    """What html.parser reads, as a list."""

    def __init__(self):
        super().__init__(convert_charrefs=True)
        self.events = []

    def handle_starttag(self, tag, attrs):
        self.events.append(["start", tag, [[name, value or ""] for name, value in attrs]])

    def handle_endtag(self, tag):
        self.events.append(["end", tag])

    def handle_data(self, data):
        self.events.append(["text", data])

    def handle_comment(self, data):
        self.events.append(["comment", data])

    def handle_decl(self, decl):
        self.events.append(["doctype", decl])

    def handle_pi(self, data):
        self.events.append(["comment", data])

    def unknown_decl(self, data):
        self.events.append(["comment", data])


def read_parser(text):
    reader = Events()
    try:
        reader.feed(text)
        reader.close()
    except (AssertionError, ValueError):
        return OVER
    return joined(reader.events)


def unlike(events):
    """What html.parser and html5lib agree on, where they read alike: tags, attributes and texts."""
    return [e[:2] if e[0] == "comment" else e for e in events if e[0] != "doctype"]


def read_alike(text):
    """What html.parser reads, if html5lib reads the same."""
    events = read_parser(text)
    if not html5lib or "Qm" not in text or events is OVER:
        return events
    return events if unlike(events) == unlike(read_tokens(text)) else OVER


def without_ends(tree):
    """Line ends are one to a reader of HTML, a NUL is no character, and an empty text is none."""
    if isinstance(tree, str):
        return tree.replace("\r", "").replace("\n", "").replace("\0", "\ufffd")
    if isinstance(tree, (list, tuple)):
        return [t for t in map(without_ends, tree) if t != ["text", ""]]
    return tree


def a_html_format(r):
    return a_page_amiss(r) if r.random() < 0.7 else a_format(r, HTML_FRAGMENTS, 16)


def compare_html(count, r):
    check = (html_step, TEXT, is_html_place)
    reports = []
    if html5lib:
        report = Report("html5lib, tokens")
        compare(report, r, count, a_html_format, check, html_escape, read_tokens, fit=without_ends)
        # text that begins with a space may stand elsewhere in the tree than other text
        tree = Report("html5lib, trees")
        value = lambda r: a_value(r, "v")
        compare(tree, r, count, a_html_format, check, html_escape, read_tree, value, without_ends)
        reports += [report, tree]
    else:
        print("html5lib: not installed")
    report = Report("html.parser")
    compare(report, r, count, a_html_format, check, html_escape, read_alike, fit=without_ends)
    return reports + [report]


def main():
    count = int(sys.argv[1]) if len(sys.argv) > 1 else 20000
    seed = int(sys.argv[2]) if len(sys.argv) > 2 else 1
    r = random.Random(seed)
    reports = compare_lines(count, r) + compare_csv(count, r) + compare_json(count, r)
    reports += compare_html(count, r)
    reports += compare_shell(count, r, "dash") + compare_shell(count, r, "bash")
    alike = [report.show() for report in reports]
    return 0 if all(alike) else 1


if __name__ == "__main__":
    sys.exit(main())
