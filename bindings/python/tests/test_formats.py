"""Formats that no check has seen: texts of the characters that mean something in a language, in any
order, with values and lists in them. Where the check lets all of these stand, no value changes what
a reader reads that nobody here wrote: html5lib and html.parser, csv, json, dash, bash and
str.splitlines.

As in test_escapes, a text is read with a mark in the place of each value, and with the values."""

from __future__ import annotations

import csv
import functools
import importlib
import io
import json
import os
import random
import re
import shlex
import shutil
import subprocess
import sys
import tempfile
import unicodedata
import unittest
from json.decoder import scanstring  # type: ignore[attr-defined]
from typing import Any, Callable, Dict, List, NamedTuple, Sequence, Tuple

import interpolator
from interpolator._plans import HAS_SPEED

from .test_escapes import (
    Listed, Piece, Value, a_row, a_spec, a_value, as_lists, format_of, read_json, read_page, with_values,
)

# How many formats are made for each escape.
FORMATS = 20_000

# How many of them have to stand.
STANDING = 2_000

# How many rows of values each that stands is written with.
ROWS = 2

# What the texts are made of; what a language uses most stands more than once.
ALPHABETS: Dict[str, List[str]] = {
    "line": list("\\\\xu40na;'\"{}\n\t\x0b\x1c\x85\u2028\u202e") + ["\r\n"],
    "html": (
        "< < </ <! <!-- --> - -- --!> <!a > > > /> / ! ? <? = =\" =\" =' \" \" ' ' & & ; # &lt; &amp "
        "&#3 a b é x { } ` [ <a <a <b> <b> <p </a> </p </ script <script <script> </script> <style> "
        "</style> <title> </title> <textarea> </textarea> <svg> </svg> <math> <mi> <![CDATA[ ]]> "
        "<!DOCTYPE <table> <select> <option> <noscript> </noscript> <iframe> <xmp> <plaintext> "
        "<frameset> <template> <head> <body <pre> <br/> class= class=\" href=\" src=' onx= style=\" "
        "xlink:href= srcdoc='"
    ).split(" ") + [" ", " ", " ", "\n", "\t", "\f", "\0", "\x0b", "\xa0"],
    "csv": list("\"\"\"\"\"\",,,\n\n\r;'a b\\\t\0é{}=") + ["\r\n", '""'],
    "json": list("\"\"\"\"\"\"\\\\:,,[]{}u04nx/b a1-.etrnull\n\té\x7f'") + ['\\"', "\\u", "0041", "\\\\"],
    "shell": list("'''''''''\\  \t\n;|<>(){}[]\"`#=*?~!%^:+,a1é-@")
    + ["\\'", "$'", "$(", "${", "$a", "{a,", "..", "\\\n", "&&", ">&"],
}


class Case(NamedTuple):
    """A format whose values all stand, with a row of them."""

    format: str
    values: Dict[str, Any]
    shown: List[str]
    marked: str
    written: str
    fill: str
    """what pads lists, and is not looked at"""


def a_text(r: random.Random, escape: str) -> str:
    return "".join(r.choice(ALPHABETS[escape]) for _ in range(r.choice((0, 1, 1, 2, 3, 5, 8))))


def a_slot(r: random.Random, escape: str) -> Value:
    """A value under a spec; for JSON, sometimes a whole value."""
    if escape == "json" and r.random() < 0.3:
        return Value("?")
    return Value(a_spec(r))


def some_pieces(r: random.Random, escape: str, pad: str) -> List[Piece]:
    pieces: List[Piece] = [a_text(r, escape)]
    for _ in range(r.choice((1, 1, 2, 3))):
        if r.random() < 0.75:
            pieces.append(a_slot(r, escape))
        else:
            before, after, join = (a_text(r, escape) if r.random() < 0.5 else "" for _ in range(3))
            pieces.append(Listed(before, a_slot(r, escape), after, join, r.choice(["", pad])))
        pieces.append(a_text(r, escape))
    return pieces


def a_word(r: random.Random) -> str:
    """A value for a shell, which may make a file of that name."""
    return re.sub("[\0/]", "", a_value(r))


@functools.lru_cache(maxsize=None)
def cases(escape: str) -> Sequence[Case]:
    """The formats that stand, with rows of values."""
    r = random.Random(f"formats of {escape}")
    value = a_word if escape == "shell" else a_value
    found: List[Case] = []
    for _ in range(FORMATS):
        fill = r.choice(["*", "&", "<", '"', "'", "\\", ",", "\n", "é"])
        pieces = some_pieces(r, escape, f"{fill}{r.choice('<>^')}{r.choice((3, 30))}")
        text = format_of(pieces)
        template = interpolator.Template(text)
        for _ in range(ROWS):
            row = a_row(r, pieces, value)
            try:
                written = template.format_escaped(escape, **row.values)
            except interpolator.Misplaced as error:
                assert text[error.index] == "{", text
                break
            except interpolator.BrokenFormat:
                # a text that ends its group
                break
            found.append(Case(text, row.values, row.shown, row.marked, written, fill))
    assert len(found) > STANDING * ROWS, f"{len(found)} texts of {escape}"
    return found


def without(read: Any, fill: str) -> Any:
    """Without what pads lists, and without texts that are then empty."""
    if isinstance(read, str):
        return read.replace(fill, "")
    if not isinstance(read, list):
        return read
    return [part for part in (without(part, fill) for part in read) if part != ["text", ""]]


# ---- readers, none of which fails


def read_structure(text: str) -> List[Any]:
    """How many lines there are, and each character that ends one, controls, or has a direction of its
    own."""
    directed = ("LRE", "RLE", "PDF", "LRO", "RLO", "LRI", "RLI", "FSI", "PDI")
    return [len((text + ".").splitlines())] + [
        [c] for c in text
        if unicodedata.category(c) in ("Cc", "Zl", "Zp") or unicodedata.bidirectional(c) in directed
    ]


def read_tables(text: str) -> List[Any]:
    """The records, as csv reads them strictly and not."""
    read: List[Any] = []
    for strict in (True, False):
        try:
            for record in csv.reader(io.StringIO(text, newline=""), strict=strict):
                read.append(record)
        except csv.Error:
            read.append("broken")
    return read


def read_strings(text: str) -> List[Any]:
    """The strings, up to the first that is broken, each other character, and the whole if it is JSON."""
    read: List[Any] = []
    at = 0
    while at < len(text):
        if text[at] == '"':
            try:
                string, at = scanstring(text, at + 1)
            except ValueError:
                return [*read, "broken"]
            read.append(["string", string])
        else:
            read.append(text[at])
            at += 1
    try:
        return [*read, read_json(text)]
    except ValueError:
        return read


def import_html5lib() -> Any:
    """Of this Python, or of Debian's package python3-html5lib, which any Python reads; None if there
    is none."""
    sys.path.append("/usr/lib/python3/dist-packages")
    try:
        return importlib.import_module("html5lib.html5parser")
    except ImportError:
        return None
    finally:
        sys.path.pop()


def reader_of_html5lib(parser: Any) -> Callable[[str, int], List[Any]]:
    """What html5lib's tokenizer reads, whose states its parser switches: by a number from 0 to 3, of a
    document or in an element, where scripts run or not."""
    kinds: Dict[int, str] = {number: kind for kind, number in parser.tokenTypes.items()}

    class Recording(parser._tokenizer.HTMLTokenizer):  # type: ignore[misc]
        read: List[Any]

        def __iter__(self) -> Any:
            for token in super().__iter__():
                self.record(kinds[token["type"]], token)
                yield token

        def record(self, kind: str, token: Dict[str, Any]) -> None:
            if kind in ("Characters", "SpaceCharacters"):
                before = self.read.pop()[1] if self.read and self.read[-1][0] == "text" else ""
                self.read.append(["text", before + token["data"]])
            elif kind in ("StartTag", "EndTag"):
                pairs = token["data"].items() if hasattr(token["data"], "items") else token["data"]
                self.read.append([kind, token["name"], *map(list, pairs)])
            elif kind == "Doctype":
                self.read.append([kind, *(str(token[part]) for part in ("name", "publicId", "systemId"))])
            elif kind == "Comment":
                self.read.append([kind, token["data"]])

    class Recorder(parser.HTMLParser):  # type: ignore[misc]
        def mainLoop(self) -> None:
            self.tokenizer.__class__ = Recording
            self.tokenizer.read = []
            super().mainLoop()

    def read(text: str, kind: int) -> List[Any]:
        recorder = Recorder()
        if kind % 2:
            recorder.parse(text, scripting=kind == 1)
        else:
            recorder.parseFragment(text, scripting=kind == 2)
        read: List[Any] = recorder.tokenizer.read
        return read

    return read


def as_read_by_html(read: Any) -> Any:
    """With the ends of lines, and for a NUL, what HTML's tokenizer reads in their place."""
    if isinstance(read, str):
        return read.replace("\r\n", "\n").replace("\r", "\n").replace("\0", "\ufffd")
    return [as_read_by_html(part) for part in read] if isinstance(read, list) else read


def read_by(shell: str, texts: Sequence[str]) -> List[List[str]]:
    """The words that a command has in each text, and those of commands after it, as far as the shell
    tells them; by one process, and one more for each text that ends it."""
    read: List[List[str]] = []
    while len(read) < len(texts):
        *whole, rest = words_of(shell, texts[len(read):])
        read += whole
        if len(read) < len(texts):
            read.append([*rest, "ended"])
    return read


def words_of(shell: str, texts: Sequence[str]) -> List[List[str]]:
    """These words of the texts up to the one that ends the shell, or of all, and no words. The shell
    runs in an empty folder, and finds no other command."""
    lines = [
        "set -f; unset PWD OLDPWD; enable -n . : [",
        "command_not_found_handle() { printf '%s\\0' not-found \"$@\"; }",
    ]
    for text in texts:
        lines.append("command eval " + shlex.quote(f"printf '%s\\0' {text}\n"))
        lines.append("wait; printf '%s\\0' --next--; unset a")
    with tempfile.TemporaryDirectory() as folder:
        script, empty = os.path.join(folder, "script"), os.path.join(folder, "empty")
        with open(script, "wb") as file:
            file.write("\n".join(lines).encode())
        os.mkdir(empty)
        ran = subprocess.run(
            [shell, script], stdin=subprocess.DEVNULL, stdout=subprocess.PIPE, stderr=subprocess.DEVNULL,
            env={"LC_ALL": "C.UTF-8", "PATH": "/nowhere", "HOME": "/nowhere"}, cwd=empty)
    told = "\0" + ran.stdout.decode(errors="surrogateescape")
    return [words.split("\0")[1:] for words in told.split("\0--next--")]


# ---- the comparison


@unittest.skipIf(HAS_SPEED, "texts are written escaped by ctypes, with the extension module too")
class Formats(unittest.TestCase):
    def compare(
        self,
        held: Sequence[Case],
        read: Callable[[Sequence[str]], List[Any]],
        fit: Callable[[Any], Any] = lambda read: read,
        order: Callable[[Any], Any] = lambda read: read,
    ) -> None:
        def read_twice(cases: Sequence[Case]) -> List[Tuple[Any, Any]]:
            """What is read with the marks replaced by the values, and with the values."""
            marked = read([case.marked for case in cases])
            written = read([case.written for case in cases])
            return [
                (order(without(fit(with_values(as_lists(by_marks), case.shown)), case.fill)),
                 order(without(fit(as_lists(by_values)), case.fill)))
                for case, by_marks, by_values in zip(cases, marked, written)]

        for case, (wanted, found) in zip(held, read_twice(held)):
            if wanted != found:
                # after a broken text bash may read others wrongly
                wanted, found = read_twice([case])[0]
            self.assertEqual(wanted, found, (case.format, case.values))

    def each(self, held: Sequence[Case], read: Callable[[str], Any]) -> None:
        self.compare(held, lambda texts: list(map(read, texts)))

    def test_lines(self) -> None:
        self.each(cases("line"), read_structure)

    def test_pages_by_html_parser(self) -> None:
        # it ends the name of a tag at a NUL, and reads a tag that the page does not end as text
        self.each([
            case for case in cases("html")
            if "\0" not in case.format and case.marked.count("'") % 2 == case.marked.count('"') % 2 == 0
        ], read_page)

    def test_pages_by_html5lib(self) -> None:
        parser = import_html5lib()
        if parser is None:
            self.skipTest("html5lib is not installed (Debian's python3-html5lib)")
        read = reader_of_html5lib(parser)
        self.compare(
            cases("html"),
            lambda texts: [read(text, index // ROWS % 4) for index, text in enumerate(texts)],
            fit=as_read_by_html)

    def test_tables(self) -> None:
        # before Python 3.11, csv reads no NUL
        is_old = sys.version_info < (3, 11)
        self.each([case for case in cases("csv") if not (is_old and "\0" in case.written)], read_tables)

    def test_json(self) -> None:
        self.each(cases("json"), read_strings)

    def by_shell(self, name: str) -> None:
        shell = shutil.which(name)
        if shell is None:
            self.skipTest(f"{name} is not installed")
        read = functools.partial(read_by, shell)
        self.compare([case for case in cases("shell") if "&" not in case.format], read)
        # of commands that run beside others, the order is not known
        self.compare([case for case in cases("shell") if "&" in case.format], read, order=sorted)

    def test_commands_by_dash(self) -> None:
        self.by_shell("dash")

    def test_commands_by_bash(self) -> None:
        self.by_shell("bash")
