"""Formats whose values are written escaped, held against readers that nobody here wrote: csv, json,
shlex and sh, html.parser, and str.splitlines with Python's own escapes.

A format is put together at random, of pieces that make a text of the language, with values in places
and out of them. Where the check lets all values stand, the text is read twice: with a mark in the place
of each value, and with the values. Whatever the values are, the second is the first with each mark
replaced by what the value shows, and nothing else."""

from __future__ import annotations

import csv
import io
import json
import math
import random
import shlex
import subprocess
import sys
import unittest
from html.parser import HTMLParser
from typing import Any, Callable, Dict, List, NamedTuple, Optional, Tuple, Union

import interpolator

# How many values are read by each reader, and how many by sh.
VALUES = 20_000
SH_VALUES = 600

# How many rows of values a format is written with.
ROWS = 4

EVIL = (
    "< > & \" ' ` \\ / = ; # ! - -- --> --!> ]]> <!-- </script> </style> </title> <script> <b> <![CDATA[ "
    "&lt; &amp &#39; amp; #39; lt; lt copy ; x41 $(id) ${IFS} ';id;' \\' \\\" \\n \\x41 \\u003c u003c "
    "onx= javascript: , ,, {} {0} [] : * ~ | && || %41 =1+1 @"
).split(" ")
CHARACTERS = list("\0\t\n\r\x07\x0b\x0c\x1a\x1b\x1c\x7f\x85\x9b \xa0\u061c\u200e\u2028\u2029\u202e\u2066")
CHARACTERS += ["\r\n", "\n\n", "\ufeff", "\ufffd", "\uffff", "\U0010ffff"]


def a_character(r: random.Random) -> str:
    while True:
        code = r.randrange(r.choice([0x20, 0x80, 0x3000, 0x110000]))
        if not 0xD800 <= code < 0xE000:
            return chr(code)


def a_part(r: random.Random) -> str:
    kind = r.randrange(3)
    return a_character(r) if kind == 2 else r.choice((EVIL, CHARACTERS)[kind])


def a_value(r: random.Random) -> str:
    return "".join(a_part(r) for _ in range(r.randrange(7)))


# ---- formats: texts, values by their specs, and lists


class Value(NamedTuple):
    """A value, or the item of a list, under a spec that Python has, too, or under `?`: then it is
    written as a whole value of JSON."""

    spec: str


class Listed(NamedTuple):
    """A list: a format for each item, a text between two, and a spec by which it is padded."""

    before: str
    item: Value
    after: str
    join: str
    pad: str = ""


Piece = Union[str, Value, Listed]


def one_of(r: random.Random, texts: List[str], wrong: float) -> Piece:
    """One of the texts, or, seldom, a value where none may stand."""
    return Value("") if r.random() < wrong else r.choice(texts)


def argument(name: str, spec: str) -> str:
    return f"{{{name}:{spec}}}" if spec else f"{{{name}}}"


def braced(text: str) -> str:
    return text.replace("{", "{{").replace("}", "}}")


def format_of(pieces: List[Piece]) -> str:
    """The format, whose values have the names v0, v1 .. in order."""
    parts = []
    for number, piece in enumerate(pieces):
        if isinstance(piece, str):
            parts.append(braced(piece))
        elif isinstance(piece, Value):
            parts.append(argument(f"v{number}", piece.spec))
        else:
            item = braced(piece.before) + argument("", piece.item.spec) + braced(piece.after)
            parts.append(f"{{v{number}:{piece.pad}i##({item})####({braced(piece.join)})##}}")
    return "".join(parts)


class Row(NamedTuple):
    """Values for a format, what is shown in the place of each mark, and the text with the marks."""

    values: Dict[str, Any]
    shown: List[str]
    marked: str


def a_row(r: random.Random, pieces: List[Piece], value: Callable[[random.Random], str]) -> Row:
    values: Dict[str, Any] = {}
    shown: List[str] = []

    def mark(spec: str, of: str) -> str:
        shown.append(of if spec == "?" else format(of, spec))
        name = f"Qm{len(shown) - 1}Z"
        return f'"{name}"' if spec == "?" else name

    text = ""
    for number, piece in enumerate(pieces):
        if isinstance(piece, str):
            text += piece
        elif isinstance(piece, Value):
            values[f"v{number}"] = given = value(r)
            text += mark(piece.spec, given)
        else:
            values[f"v{number}"] = items = [value(r) for _ in range(r.randrange(4))]
            text += piece.join.join(
                piece.before + mark(piece.item.spec, item) + piece.after for item in items)
    return Row(values, shown, text)


def with_values(read: Any, shown: List[str]) -> Any:
    """What was read with marks, with what is shown in their places."""
    if isinstance(read, str):
        parts = read.split("Qm")
        for number, part in enumerate(parts[1:], 1):
            mark, _, rest = part.partition("Z")
            parts[number] = shown[int(mark)] + rest
        return "".join(parts)
    if isinstance(read, (list, tuple)):
        return [with_values(part, shown) for part in read]
    return read


def as_lists(read: Any) -> Any:
    return [as_lists(part) for part in read] if isinstance(read, (list, tuple)) else read


def a_spec(r: random.Random) -> str:
    fill = r.choice(["", "", "<", '"', "'", "\\", "*", "é"])
    align = fill + r.choice("<>^") if fill else r.choice(["", "", "<", ">", "^"])
    width = r.choice(["", "", "3", "8"]) if align else ""
    return f"{align if width else ''}{width}{r.choice(['', '', '', '.2', '.5'])}"


def some(r: random.Random, texts: List[str], joins: List[str]) -> List[Piece]:
    """Texts, values and lists in a row, in one place."""
    pieces: List[Piece] = []
    for _ in range(r.randrange(4)):
        kind = r.randrange(5)
        if kind < 2:
            pieces.append(r.choice(texts))
        elif kind < 4:
            pieces.append(Value(a_spec(r)))
        else:
            pieces.append(Listed(r.choice(["", "x"]), Value(a_spec(r)), "", r.choice(joins)))
    return pieces


# ---- a line


def a_log(r: random.Random) -> List[Piece]:
    texts = ["user ", "é=", ": ", "\n", "\r\n", "\u2028", "C:/", "a", '"', "'", "{}"]
    return some(r, texts, [", ", "\n"]) + some(r, texts, ["; "])


def read_lines(text: str) -> List[str]:
    """The lines, of which each is read as a Python literal reads its escapes."""
    return [
        line.encode("latin-1", "backslashreplace").decode("unicode_escape")
        for line in (text + ".").splitlines()
    ]


# ---- a page

TEXTS = ["a", " ", "\n", "é", "&amp;", "&lt", "&", "&#3", "&copy", "&#x2;", "a < b", "]]>", "-->", '"', "'"]


def an_attribute(r: random.Random) -> List[Piece]:
    name = r.choice("class id title ALT data-x href src value name label lang onclick style".split())
    quote = r.choice("\"'")
    front = r.choice(["", "/", "https://a/", "?q="])
    inside = [
        piece for piece in some(r, TEXTS, [" ", ", "])
        if not isinstance(piece, str) or quote not in piece
    ]
    return [r.choice([" ", "\n"]), name, r.choice(["=", " = "]), quote, front, *inside, quote]


def an_element(r: random.Random, depth: int) -> List[Piece]:
    kind = r.randrange(9)
    if kind == 0:
        return ["<!-- ", one_of(r, ["a", "<b>", "&lt;", "{"], 0.02), " -->"]
    if kind == 1:
        return ["<script>", "if (a < b) x = '", one_of(r, ["", "</b>"], 0.1), "';", "</script>"]
    if kind == 2:
        return ["<br", *an_attribute(r), r.choice([">", " />"])]
    name = r.choice("p b A h1 td textarea option".split())
    attributes = [piece for _ in range(r.randrange(3)) for piece in an_attribute(r)]
    if r.random() < 0.05:
        attributes += [" id=", Value("")]
    inside = a_page(r, depth - 1) if depth else some(r, TEXTS, [", "])
    return ["<", name, *attributes, ">", *inside, "</", name, ">"]


def a_page(r: random.Random, depth: int = 2) -> List[Piece]:
    pieces: List[Piece] = []
    for _ in range(r.randrange(1, 3)):
        pieces += some(r, TEXTS, [", ", "<br>"]) if r.random() < 0.5 else an_element(r, depth)
    if r.random() < 0.3:
        pieces.append(Listed("<li>", Value(a_spec(r)), "</li>", r.choice(["", "\n", "<hr>"])))
    return pieces


class Page(HTMLParser):
    """Collects what is read, with texts beside one another as one."""

    def __init__(self) -> None:
        super().__init__(convert_charrefs=True)
        self.read: List[Tuple[Any, ...]] = []

    def handle_starttag(self, tag: str, attrs: List[Tuple[str, Optional[str]]]) -> None:
        self.read.append(("start", tag, *attrs))

    def handle_endtag(self, tag: str) -> None:
        self.read.append(("end", tag))

    def handle_comment(self, data: str) -> None:
        self.read.append(("comment", data))

    def handle_decl(self, decl: str) -> None:
        self.read.append(("declared", decl))

    def handle_pi(self, data: str) -> None:
        self.read.append(("instruction", data))

    def unknown_decl(self, data: str) -> None:
        self.read.append(("unknown", data))

    def handle_data(self, data: str) -> None:
        if self.read and self.read[-1][0] == "text":
            data = self.read.pop()[1] + data
        self.read.append(("text", data))


def read_page(text: str) -> List[Tuple[Any, ...]]:
    page = Page()
    try:
        page.feed(text)
        page.close()
    except AssertionError:
        page.read.append(("broken",))
    return page.read


def without_empty(read: Any) -> Any:
    """Without texts that are empty."""
    return [part for part in read if part != ["text", ""]]


# ---- a table


def a_table(r: random.Random) -> List[Piece]:
    pieces: List[Piece] = []
    for _ in range(r.randrange(1, 4)):
        for column in range(r.randrange(1, 4)):
            pieces += [","] * (column > 0)
            if r.random() < 0.3:
                pieces.append(one_of(r, ["a", "é 1", "it's", ""], 0.05))
            else:
                texts = ["a", " ", '""', ",", "\n", "it's", "{}"]
                pieces += ['"', *some(r, texts, [";", ",", '""']), '"']
        pieces += [r.choice(["\r\n", "\n"])]
    if r.random() < 0.3:
        pieces.append(Listed('"', Value(a_spec(r)), '",x\r\n', ""))
    return pieces


def read_table(text: str) -> List[List[str]]:
    return list(csv.reader(io.StringIO(text, newline=""), strict=True))


# ---- JSON


def a_string(r: random.Random) -> List[Piece]:
    texts = ["a", "\\n", "\\\\", '\\"', "\\u0041", "</", "é", "{"]
    return ['"', *some(r, texts, [", ", "\\n"]), '"']


def a_json(r: random.Random, depth: int = 3) -> List[Piece]:
    kind = r.randrange(6) if depth else r.randrange(3)
    if kind == 0:
        return [one_of(r, ["1", "-2.5e3", "null", "true"], 0.02)] if r.random() < 0.5 else [Value("?")]
    if kind < 3:
        return a_string(r)
    if kind == 3:
        item = r.choice([Listed('"', Value(a_spec(r)), '"', ", "), Listed("", Value("?"), "", ", ")])
        return ["[", item, "]"]
    pieces: List[Piece] = ["[" if kind == 4 else "{"]
    for number in range(r.randrange(4)):
        pieces += [", "] * (number > 0)
        pieces += [*a_string(r), ": "] if kind == 5 else []
        pieces += a_json(r, depth - 1)
    return [*pieces, "]" if kind == 4 else "}"]


class Document(NamedTuple):
    """A format of JSON, its values, and what json reads of it."""

    format: str
    values: Dict[str, Any]
    read: Any


def a_whole(r: random.Random) -> Any:
    """A text, a number or a truth value."""
    kind = r.randrange(8)
    if kind < 4:
        return a_value(r)
    if kind == 4:
        return r.random() < 0.5
    if kind == 5:
        return r.choice([1, -1]) * r.randrange(1 << r.choice([1, 8, 32, 64, 127]))
    number = r.choice([0.1, 1.0, r.random(), 1e300, 5e-324, 2.0**53, float("inf"), float("nan")])
    return r.choice([1, -1]) * number * 10.0 ** r.randrange(-20, 20)


def as_read(value: Any) -> Any:
    """A value, and None for a float that is not finite."""
    return value if not isinstance(value, float) or math.isfinite(value) else None


def a_document(r: random.Random, depth: int = 3) -> Document:
    """A document whose values are whole, but for some texts that stand in strings."""
    values: Dict[str, Any] = {}

    def named(value: Any) -> str:
        name = f"v{len(values)}"
        values[name] = value
        return name

    def some_value(depth: int) -> Tuple[str, Any]:
        kind = r.randrange(7) if depth else r.randrange(4)
        if kind < 2:
            value, spec = a_whole(r), r.choice(["", "", "", "", ">5", "^9", " <3", "30"])
            return f"{{{named(value)}:{spec}?}}", as_read(value)
        if kind == 2:
            text = a_value(r)
            return f'"a{{{named(text)}}}b"', f"a{text}b"
        if kind == 3:
            items = [a_whole(r) for _ in range(r.randrange(4))]
            pad = r.choice(["", "", "9", ">30"])
            return f"[{{{named(items)}:{pad}i({{:?}})(, )}}]", list(map(as_read, items))
        inside = [some_value(depth - 1) for _ in range(r.randrange(4))]
        if kind < 6:
            return "[" + ",".join(text for text, _ in inside) + "]", [read for _, read in inside]
        members = ", ".join(f'"k{number}": {text}' for number, (text, _) in enumerate(inside))
        return f"{{{{{members}}}}}", {f"k{number}": read for number, (_, read) in enumerate(inside)}

    text, read = some_value(depth)
    return Document(text, values, read)


def read_json(text: str) -> Any:
    return json.loads(text, object_pairs_hook=lambda pairs: ["object", *map(list, pairs)])


# ---- a command


def a_command(r: random.Random) -> List[Piece]:
    pieces: List[Piece] = []
    for _ in range(r.randrange(1, 5)):
        pieces.append(r.choice([" ", " ", " -- ", "\t"]))
        for _ in range(r.randrange(1, 4)):
            texts = ["a", " ", "$x", "`", '"', "\\", ";", "#", "\n", "{}"]
            quoted: List[Piece] = ["'", *some(r, texts, [" ", ","]), "'"]
            others: List[List[Piece]] = [["a"], ["-x="], ["é"], ["\\'"], ["\\ "], ["%"]]
            wrong: List[List[Piece]] = [[Value("")], ['"', Value(""), '"']]
            pieces += quoted if r.random() < 0.6 else r.choice(others if r.random() < 0.95 else wrong)
    if r.random() < 0.3:
        pieces += [" ", Listed("'", Value(a_spec(r)), "'", " ")]
    return pieces


def read_sh(text: str) -> List[str]:
    """The words that sh calls a command with."""
    ran = subprocess.run(
        ["sh", "-c", f"printf '%s\\0' {text}".encode()], check=True, capture_output=True,
        env={"LC_ALL": "C.UTF-8"})
    return ran.stdout.decode().split("\0")[:-1]


# ---- the comparison


class Escapes(unittest.TestCase):
    def compare(
        self,
        escape: str,
        made: Callable[[random.Random], List[Piece]],
        read: Callable[[str], Any],
        count: int = VALUES,
        without: str = "",
        fit: Callable[[Any], Any] = lambda read: read,
    ) -> None:
        r = random.Random(f"{escape} {count}")

        def value(r: random.Random) -> str:
            text = a_value(r)
            return text.replace(without, "") if without else text

        seen = formats = refused = 0
        while seen < count:
            pieces = made(r)
            text = format_of(pieces)
            template = interpolator.Template(text)
            rows = [a_row(r, pieces, value) for _ in range(ROWS)]
            formats += 1
            try:
                template.format_escaped(escape, **rows[0].values)
            except interpolator.Misplaced as error:
                self.assertEqual(text[error.index], "{")
                refused += 1
                continue
            for row in rows:
                wanted = fit(with_values(read(row.marked), row.shown))
                written = template.format_escaped(escape, **row.values)
                self.assertEqual(wanted, fit(as_lists(read(written))), (text, row.values))
                seen += len(row.shown)
        self.assertLess(refused * 2, formats, "more than half of the formats are refused")
        self.assertGreater(refused, 0 if escape != "line" else -1)

    def test_lines(self) -> None:
        self.compare("line", a_log, read_lines)

    def test_pages(self) -> None:
        self.compare("html", a_page, read_page, fit=without_empty)

    def test_tables(self) -> None:
        # before Python 3.11, csv reads no NUL
        self.compare("csv", a_table, read_table, without="" if sys.version_info >= (3, 11) else "\0")

    def test_json(self) -> None:
        self.compare("json", a_json, read_json)

    def test_documents_of_whole_values(self) -> None:
        r = random.Random("documents")
        seen = 0
        while seen < VALUES:
            document = a_document(r)
            text = interpolator.Template(document.format).format_escaped("json", **document.values)
            # a whole number is not a float, and is told from one by its text
            self.assertEqual(repr(document.read), repr(json.loads(text)), document)
            self.assertNotIn("<", text)
            seen += len(document.values)

    def test_commands(self) -> None:
        self.compare("shell", a_command, shlex.split, without="\0")

    def test_commands_by_sh(self) -> None:
        self.compare("shell", a_command, read_sh, SH_VALUES, without="\0")


class Calls(unittest.TestCase):
    def test_an_escape_is_known(self) -> None:
        for wrong in ("none", "HTML", "", 2):
            with self.assertRaises(ValueError):
                interpolator.format_escaped(wrong, "", n=1)  # type: ignore[arg-type]

    def test_what_python_writes_is_escaped(self) -> None:
        class Tag:
            def __format__(self, spec: str) -> str:
                return f"<{spec}>"

        text = interpolator.format_escaped("html", "{tag:>9}|{tag:?}", tag=Tag())
        self.assertEqual(text.count("<"), 0)
        self.assertEqual(text.split("|")[0], "&lt;&gt;9&gt;")

    def test_faults(self) -> None:
        with self.assertRaises(interpolator.MissingValue) as raised:
            interpolator.format_escaped("json", '"{name}"')
        self.assertEqual(raised.exception.place, 2)
        with self.assertRaises(interpolator.Misplaced) as misplaced:
            interpolator.format_escaped("csv", 'é\n"{a}",\n\n{b}', a=1, b=2)
        error = misplaced.exception
        self.assertEqual((error.code, error.place, error.index), (interpolator.Code.MISPLACED, 11, 10))
        self.assertEqual(
            error.picture, "<format>:4:1: this value is out of place\n  |\n4 | {b}\n  | ^")
