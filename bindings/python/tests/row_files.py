"""A reader of the conformance suite's files (crates/interpolator_vectors/ROWS.md), for what Python can express."""

from __future__ import annotations

import re
from pathlib import Path
from typing import Any, Dict, Iterator, List, NamedTuple, Optional, Set, Tuple

from interpolator import Character, Integer, Only, Plain
from interpolator._values import ItemsOnly

FOLDER = Path(__file__).resolve().parents[3] / "crates" / "interpolator_vectors" / "data"

_SLOTS = (
    "display", "debug", "binary", "octal", "lower_hex", "upper_hex", "lower_exp", "upper_exp",
)
_GROUPS = {
    "debug_display": ("debug", "display"),
    "integer": _SLOTS,
    "float": ("debug", "display", "lower_exp", "upper_exp"),
}

_WORD = re.compile(r'"(?:[^"\\]|\\.)*"|[()]|[^\s()"]+')
_ESCAPE = re.compile(r"\\(?:u\{([0-9a-fA-F]+)\}|(.))")
_ESCAPED = {"n": "\n", "r": "\r", "t": "\t", "0": "\0", '"': '"', "\\": "\\"}


class NotExpressible(Exception):
    """Something that Python has no value for."""


class Failing:
    """A value that fails under every trait."""

    def __format__(self, spec: str) -> str:
        raise ValueError("it fails")

    def __repr__(self) -> str:
        raise ValueError("it fails")


class Row(NamedTuple):
    """A row: where it is, its facts, the values of its context, and the names of the context that
    Python has no value for."""

    where: str
    facts: Dict[str, List[str]]
    values: Dict[str, Any]
    missing: Set[str]


def text_of(words: List[str]) -> str:
    """Takes a text from the front of the words, with what `*` repeats and `+` joins."""
    text = ""
    while True:
        word = words.pop(0)
        if not word.startswith('"'):
            raise NotExpressible(f"no text: {word}")
        part = _ESCAPE.sub(
            lambda found: chr(int(found[1], 16)) if found[1] else _ESCAPED[found[2]], word[1:-1])
        if words[:1] == ["*"]:
            words.pop(0)
            part *= int(words.pop(0))
        text += part
        if words[:1] != ["+"]:
            return text
        words.pop(0)


def view_of(words: List[str]) -> Any:
    """Takes a view from the front of the words."""
    kind = words.pop(0)
    if kind[0] in "iu" and kind[1:].isdigit():
        return Integer(int(words.pop(0)), int(kind[1:]))
    if kind == "truth":
        return words.pop(0) == "true"
    if kind == "character":
        return Character(text_of(words))
    if kind == "text":
        return text_of(words)
    if kind == "plain":
        return Plain(text_of(words))
    if kind == "failed":
        return Failing()
    raise NotExpressible(kind)


def slots_of(word: str) -> Tuple[str, ...]:
    """The slots that a word names, joined by commas."""
    return tuple(slot for part in word.split(",") for slot in _GROUPS.get(part, (part,)))


def value_of(words: List[str]) -> Any:
    """What the words say of a name or an item: a list, or one view in some slots."""
    items: Optional[List[Any]] = None
    found: List[Tuple[Tuple[str, ...], Any]] = []
    while words:
        word = words.pop(0)
        if word == "list":
            items = []
            while words[:1] == ["("]:
                items.append(value_of(_in_parentheses(words)))
        else:
            found.append((slots_of(word), view_of(words)))
    if items is not None and not found:
        return ItemsOnly(items)
    if items is None and len(found) == 1:
        slots, view = found[0]
        return Only(view, *slots)
    raise NotExpressible("several views, or none")


def _in_parentheses(words: List[str]) -> List[str]:
    """Takes the words between a parenthesis at the front and the one that closes it."""
    words.pop(0)
    inside: List[str] = []
    depth = 1
    while True:
        word = words.pop(0)
        depth += {"(": 1, ")": -1}.get(word, 0)
        if depth == 0:
            return inside
        inside.append(word)


def _values_of(facts: Dict[str, List[str]]) -> Tuple[Dict[str, Any], Set[str]]:
    """The values of a context, and the names that Python has no value for."""
    values, missing = {}, set()
    for name, words in facts.items():
        try:
            values[name] = value_of(list(words))
        except NotExpressible:
            missing.add(name)
    return values, missing


def rows() -> Iterator[Row]:
    """All rows of all files."""
    for file in sorted(FOLDER.glob("*.rows")):
        context: Dict[str, List[str]] = {}
        row: Optional[Tuple[str, Dict[str, List[str]]]] = None
        for number, line in enumerate(file.read_text("utf-8").split("\n"), 1):
            words = _WORD.findall(line)
            if not words or line.lstrip().startswith("#"):
                continue
            if line[0] != " ":
                if row is not None:
                    yield Row(*row, *_values_of(context))
                    row = None
                if words[0] == "context":
                    context = {}
                else:
                    row = (f"{file.name}:{number}", {})
            elif row is None:
                name = text_of(words) if words[0][0] == '"' else words.pop(0)
                context[name] = context.get(name, []) + words
            else:
                row[1].setdefault(words[0], words[1:])
        if row is not None:
            yield Row(*row, *_values_of(context))
