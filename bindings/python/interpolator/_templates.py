"""Formats, and what can be done with them."""

from __future__ import annotations

import ctypes
import functools
import itertools
from dataclasses import dataclass
from typing import (
    Any, Callable, Dict, Iterable, Iterator, List, Mapping, NamedTuple, Optional, Tuple,
)

from . import _library as c
from ._faults import PLACED, SENTENCES, Code, FormatError, fault
from ._pieces import Piece, pieces_of
from ._plans import Plan, plan_of
from ._reading import Reading
from ._requests import Request, request_of
from ._tables import Columns, Row, Table
from ._values import UNUSED, Fields, Uses, bytes_of, encoded

# What a format is called in the picture of its fault.
NAME = "<format>"

# Up to so many faults are shown by their numbers.
_FEW = 8

# The code, the detail and the place of a fault.
_Numbers = Tuple[int, int, int]

_library = c.library


@dataclass(frozen=True)
class Argument:
    """An argument of a format: what is in braces.

    >>> Template("{users:i({:>8})(, )}").arguments  # doctest: +NORMALIZE_WHITESPACE
    (Argument(name='users', place=1, index=1, request=Request(trait=<Trait.LIST: 8>, fill=None,
              alignment='', sign='', alternate=False, zero=False, hex_debug='', width=None,
              precision=None), item='{:>8}', join=', '),
     Argument(name='', place=10, index=10, request=Request(trait=<Trait.DISPLAY: 0>, fill=None,
              alignment='>', sign='', alternate=False, zero=False, hex_debug='', width=8,
              precision=None), item=None, join=None))
    """

    name: str
    """the name; in the format of an item that of the item is empty"""
    place: int
    """the byte of the format, in UTF-8, at which the name begins"""
    index: int
    """the same place as an index of the format"""
    request: Request
    """its trait, LIST for a list, and its spec"""
    item: Optional[str]
    """of a list, the format of an item, if there is one"""
    join: Optional[str]
    """of a list, the format of what is between two items, if there is one"""


class Cost(NamedTuple):
    """How much a format can write at most. Of each count the greatest `size_t`, 2**64 - 1, stands
    for as many or more."""

    characters: int
    """the most characters of the text"""
    pieces: int
    """the most pieces that are gone through"""
    buffered: int
    """the most characters that lists under a width hold in memory at a time"""


class Template:
    """A format.

    A broken one can be made, too; its fault is raised where it is used or checked.

    >>> line = Template("{name:<6}|{price:>8.2}|")
    >>> line.format(name="tea", price=3.5)
    'tea   |    3.50|'
    >>> line.names
    ('name', 'price')
    """

    __slots__ = ("text", "_bytes", "_read", "_plan", "_arguments")

    def __init__(self, text: str) -> None:
        if not isinstance(text, str):
            raise TypeError(f"a format is a str, not {type(text).__name__}")
        self.text = text
        """the text of the format"""
        self._bytes = encoded(text)
        self._read: Optional[Reading] = None
        self._plan: Optional[Plan] = None
        self._arguments: Optional[Tuple[Argument, ...]] = None

    def __repr__(self) -> str:
        return f"Template({self.text!r})"

    def __eq__(self, other: object) -> bool:
        return isinstance(other, Template) and self.text == other.text

    def __hash__(self) -> int:
        return hash(self.text)

    def format(self, /, **values: Any) -> str:
        """The text of the format with these values.

        >>> Template("{n:03} of {all}").format(n=7, all=12)
        '007 of 12'
        """
        return self.format_map(values)

    def format_map(self, values: Mapping[str, Any]) -> str:
        """The text of the format with the values of a mapping, whose names may be any text. Of
        the mapping those are looked up that the format names, each once, as `mapping[name]`; a
        KeyError says that it has none."""
        if type(values) is not dict:
            found, failures = self._found_in(values)
            quick = self._quick(found)
            return self._slow(found, failures) if quick is None else quick
        quick = self._quick(values) if self._plan is None else self._plan.format(values)
        return self._slow(values, {}) if quick is None else quick

    def _quick(self, values: Dict[str, Any]) -> Optional[str]:
        """The text by the extension module; None if it cannot make it, or there is none."""
        plan = self._planned()
        return None if plan is None else plan.format(values)

    def _slow(self, values: Dict[str, Any], failures: "_Failures") -> str:
        """The text by ctypes, or its fault."""
        fields = self._fields_of(values)
        code, answer, text = self._call(_library.interpolator_format, fields)
        if code:
            raise self._fault(answer, text, fields, failures)
        return text

    def format_escaped(self, escape: str, /, **values: Any) -> str:
        """The text of the format with these values, each escaped for where it is shown: "html" in the
        text of a page, or between the quotes of an attribute that is a text; "csv" and "json" between
        double quotes; "shell" between single quotes; "line" anywhere. A text is escaped after its spec
        has cut and padded it. `Misplaced` is raised if a value stands elsewhere, whatever it is.

        >>> Template('<p title="{name}">{name:.4}</p>').format_escaped("html", name="<Ann>")
        '<p title="&lt;Ann&gt;">&lt;Ann</p>'
        >>> Template("<p title={name}>").format_escaped("html", name="Ann")
        Traceback (most recent call last):
        interpolator.Misplaced: this value is out of place
        """
        if escape not in c.ESCAPES:
            raise ValueError(f"an escape is one of {', '.join(c.ESCAPES)}, not {escape!r}")
        fields = self._fields_of(values)
        before = (c.ESCAPES[escape],)
        code, answer, text = self._call(_library.interpolator_escaped, fields, before)
        if code:
            raise self._fault(answer, text, fields)
        return text

    def check(self, /, **examples: Any) -> None:
        """Raises the first fault that the format has, by itself or with these examples.

        If it returns, no values that resemble the examples make a fault: under each name that the
        format uses a value of the kinds that the example has there. Give a list an item of each
        kind.

        >>> Template("{name:x}").check(name="Ann")
        Traceback (most recent call last):
        interpolator.MissingTrait: trait `LowerHex` not implemented, used by format argument at 7
        """
        self.check_map(examples)

    def check_map(self, examples: Mapping[str, Any]) -> None:
        """Raises the first fault that the format has with the examples of a mapping."""
        found, failures = self._found_in(examples)
        fields = self._fields_of(found, are_examples=True)
        code, answer, text = self._call(_library.interpolator_check, fields)
        if code:
            raise self._fault(answer, text, fields, failures)

    def check_alone(self) -> None:
        """Raises the first fault that the format has by itself, whatever the values are.

        >>> Template("{name}").check_alone()
        >>> Template("{name").check_alone()
        Traceback (most recent call last):
        interpolator.BrokenFormat: error while parsing input: Format spec at 1 is nether closed with a `}`
        """
        given = (self._bytes, len(self._bytes))
        answer, room, length = c.with_room(_library.interpolator_check_alone, given, 256)
        if answer.code:
            raise self._fault(answer, ctypes.string_at(room, length).decode(), Fields())

    def faults(
        self, examples: Optional[Mapping[str, Any]] = None, /, **named: Any
    ) -> List[FormatError]:
        """All faults that the format has, by itself or with these examples, in order: of them `check`
        raises the first. The examples are those of a mapping, or named ones.

        >>> for error in Template("{nane} {name:x} {name").faults({"name": "Ann"}):
        ...     print(error)
        specified value not in context `nane` at 1
        trait `LowerHex` not implemented, used by format argument at 14
        error while parsing input: Format spec at 17 is nether closed with a `}`
        """
        if named and examples is not None:
            raise TypeError("examples are those of a mapping or named ones, and not both")
        examples = named if examples is None else examples
        return list(self.faults_in(Source(NAME, self.text), examples))

    def faults_in(
        self, source: "Source", examples: Optional[Mapping[str, Any]] = None
    ) -> Iterator[FormatError]:
        """The same, with pictures of a text in which the format begins."""
        found, _ = self._found_in({} if examples is None else examples)
        fields = self._fields_of(found, are_examples=True)
        faults = self._numbers(fields)
        yield from self._by_pieces(source, found, faults) or self._by_numbers(source, fields)

    def _numbers(self, fields: Fields) -> List[_Numbers]:
        """All faults over fields as examples, in order; none if they are not known."""
        row, items = fields.fields(), fields.items()
        given = (self._bytes, len(self._bytes), row, len(row), items, len(items))
        places = (c.Fault * 8)()
        answer = _library.interpolator_faults(*given, places, len(places))
        if answer.length > len(places):
            places = (c.Fault * answer.length)()
            answer = _library.interpolator_faults(*given, places, len(places))
        return [(one.code, one.detail, one.place) for one in places[: answer.length]]

    def _by_numbers(self, source: "Source", fields: Fields) -> Iterator[FormatError]:
        """The faults, each of which the library shows by its number."""
        for which in itertools.count():
            code, answer, picture = self._explained(fields, source, which)
            if not code:
                return
            if code not in PLACED:
                raise self._fault(answer, picture, fields)
            index = self._index(answer.place)
            message = source.message_of(picture, answer.place)
            yield fault(Code(code), message, answer.place, index, picture, answer.detail)

    def _by_pieces(
        self, source: "Source", values: Dict[str, Any], faults: List[_Numbers]
    ) -> Optional[List[FormatError]]:
        """The faults, each shown by a piece of the format; None if there are few, or if the pieces have
        other faults than the format."""
        if len(faults) <= _FEW or not source.has(self._bytes):
            return None
        found: List[FormatError] = []
        for piece in source.pieces(self._bytes, self._reading().structs):
            end = piece.first + len(piece.format)
            part = Template(piece.format.decode())
            fields = part._fields_of(values, are_examples=True)
            where = Source.of_piece(source.name, piece)
            for which in itertools.count():
                wanted = faults[len(found)] if len(found) < len(faults) else None
                if wanted is None or wanted[2] >= end and end < len(self._bytes):
                    break
                code, answer, picture = part._explained(fields, where, which)
                if (code, answer.detail, piece.first + answer.place) != wanted:
                    return None
                index = piece.characters + part._index(answer.place)
                message, picture = source.told_of(where, piece, picture, answer.place)
                found.append(fault(Code(code), message, wanted[2], index, picture, answer.detail))
        return found if len(found) == len(faults) else None

    def explain(
        self,
        examples: Optional[Mapping[str, Any]] = None,
        *,
        name: str = NAME,
        first_line: int = 1,
        text: Optional[str] = None,
        start: int = 0,
    ) -> Optional[str]:
        """The first fault that the format has with these examples, as a compiler shows it; None
        without a fault. `first_line` is the line of the file `name` that the format begins at; or
        that of a `text`, such as a line of the file, in which the format begins at an index.

        >>> print(Template("Hello {name").explain(name="hello.txt", first_line=3))
        hello.txt:3:8: error while parsing input: Format spec at 7 is nether closed with a `}`
          |
        3 | Hello {name
          |       ~^~~~
        """
        fields = self._examples(examples)
        source = Source(name, self.text if text is None else text, first_line, start)
        code, answer, picture = self._explained(fields, source, 0)
        if code in PLACED:
            return picture
        if code:
            raise self._fault(answer, picture, fields)
        return None

    def rows(self, columns: Columns, cells: Iterable[Row]) -> List[str]:
        """The text of the format for each row of a table. `columns` are the names with an example
        each. A row has a cell for each of them in their order, as a tuple has, or by their names,
        as a dict has; by names it may have others too, and needs none that the format does not
        use. The format is read once. A cell may not be a list.

        >>> line = Template("{item}: {n:>3}")
        >>> line.rows({"item": "", "n": 0}, [("tea", 5), {"n": 12, "item": "milk"}])
        ['tea:   5', 'milk:  12']
        """
        return Table(self, columns).texts(cells)

    def cost(self, *, text: int, items: int) -> Cost:
        """How much the format can write at most, with values whose texts have at most `text`
        characters and whose lists have at most `items` items. A text that Python makes, as of a
        date, counts as it is made, with its padding.

        >>> Template("{a:>40}{b}").cost(text=60, items=0)
        Cost(characters=120, pieces=2, buffered=0)
        """
        limits = [_count(text), _count(items)]
        answer = _library.interpolator_cost(self._bytes, len(self._bytes), *limits)
        if answer.code:
            raise fault(Code(answer.code), SENTENCES[Code(answer.code)])
        return Cost(answer.characters, answer.pieces, answer.buffered)

    @property
    def arguments(self) -> Tuple[Argument, ...]:
        """The arguments in order, and after a list those of its item format and of its join. A
        broken argument is not among them."""
        if self._arguments is None:
            self._arguments = tuple(map(self._argument, self._reading().structs))
        return self._arguments

    @property
    def names(self) -> Tuple[str, ...]:
        """The names that the format uses, each once, without those of items."""
        return tuple(self._reading().uses)

    def _argument(self, struct: c.Argument) -> Argument:
        return Argument(
            name=self._part(struct.name_first, struct.name_end),
            place=struct.name_first,
            index=self._index(struct.name_first),
            request=request_of(struct.request),
            item=self._part(struct.item_first, struct.item_end) if struct.item_first else None,
            join=self._part(struct.join_first, struct.join_end) if struct.join_first else None,
        )

    def _part(self, first: int, end: int) -> str:
        """The text between two places."""
        return self._bytes[first:end].decode()

    def _index(self, place: int) -> int:
        """A place as an index."""
        return len(self._bytes[:place].decode(errors="ignore"))

    def _reading(self) -> Reading:
        if self._read is None:
            self._read = Reading(self._bytes)
        return self._read

    def _planned(self) -> Optional[Plan]:
        """The quick way over the names of the format, where there is one."""
        if self._plan is None:
            self._plan = plan_of(self._bytes, self._reading().uses)
        return self._plan

    def _uses_of(self, name: str) -> Uses:
        """How the format uses a name."""
        return self._reading().uses.get(name, UNUSED)

    def _found_in(self, values: Mapping[str, Any]) -> Tuple[Dict[str, Any], "_Failures"]:
        """The values of a mapping under the names that the format uses, and why there are not
        others."""
        failures: _Failures = {}
        if type(values) is dict:
            return values, failures
        found = {}
        for name in self._reading().uses:
            try:
                found[name] = values[name]
            except KeyError as cause:
                failures[name] = cause
        return found, failures

    def _fields_of(self, values: Dict[str, Any], are_examples: bool = False) -> Fields:
        """The fields of the values that the format uses, under their names."""
        fields = Fields(are_examples)
        for name, uses in self._reading().uses.items():
            if name in values:
                fields.add(name, values[name], uses)
        return fields

    def _examples(self, examples: Optional[Mapping[str, Any]]) -> Fields:
        found, _ = self._found_in({} if examples is None else examples)
        return self._fields_of(found, are_examples=True)

    def _call(
        self,
        call: Callable[..., c.Answer],
        fields: Fields,
        before: Tuple[Any, ...] = (),
        after: Tuple[Any, ...] = (),
    ) -> Tuple[int, c.Answer, str]:
        """Calls a function over fields, and returns its code, its answer, and its text or
        sentence."""
        row, items = fields.fields(), fields.items()
        given = (*before, self._bytes, len(self._bytes), row, len(row), items, len(items), *after)
        answer, room, length = c.with_room(call, given, len(self._bytes) + 256)
        return answer.code, answer, ctypes.string_at(room, length).decode()

    def _has_fault(self, fields: Fields) -> bool:
        """Whether the format has a fault over fields as examples."""
        return self._explained(fields, Source(NAME, self.text), 0)[0] in PLACED

    def _explained(
        self, fields: Fields, source: "Source", which: int
    ) -> Tuple[int, c.Answer, str]:
        before = (ctypes.byref(source.struct()),)
        return self._call(_library.interpolator_explain, fields, before, (which,))

    def _fault(
        self,
        answer: c.Answer,
        message: str,
        fields: Fields,
        failures: Optional["_Failures"] = None,
        row: Optional[int] = None,
    ) -> FormatError:
        """The exception for what a call over fields returned."""
        code = Code(answer.code)
        message = message or SENTENCES.get(code, "")
        if code == Code.MISPLACED:
            return self._misplaced(answer.place, message)
        if code not in PLACED:
            return fault(code, message, picture=f"{NAME}: {message}")
        index = self._index(answer.place)
        picture = self._picture(answer, message, fields)
        found = fault(code, message, answer.place, index, picture, answer.detail, row)
        if code == Code.FMT:
            found.__cause__ = self._cause(answer, fields)
        elif code == Code.MISSING_VALUE and failures:
            found.__cause__ = failures.get(self._reading().name_at(answer.place))
        return found

    def _misplaced(self, place: int, message: str) -> FormatError:
        """The exception for a value that begins at a place, and stands where it may not."""
        index = self._index(place)
        before, line = self.text[:index].rpartition("\n")[::2]
        first = before.count("\n") + (1 if index == len(line) else 2)
        head = f"{NAME}:{first}:{len(line) + 1}: {message}"
        margin = " " * len(str(first))
        shown = line + self.text[index:].partition("\n")[0]
        lines = (head, f"{margin} |", f"{first} | {shown}", f"{margin} | {' ' * len(line)}^")
        return fault(Code.MISPLACED, message, place, index, "\n".join(lines))

    def _picture(self, answer: c.Answer, message: str, fields: Fields) -> str:
        """The picture of a fault: that of one of the faults over the values as examples, among which
        it is."""
        wanted = (answer.code, answer.detail, answer.place)
        faults = self._numbers(fields)
        if wanted not in faults:
            return f"{NAME}: {message}"
        code, _, picture = self._explained(fields, Source(NAME, self.text), faults.index(wanted))
        return picture if code else f"{NAME}: {message}"

    def _cause(self, answer: c.Answer, fields: Fields) -> Optional[Exception]:
        """What the `__format__` raised of the value that failed at a place."""
        used = self._reading().used_at(answer.place)
        return fields.failure(*used) if used else None


# Why a mapping has no value under a name.
_Failures = Dict[str, KeyError]


class Source:
    """A text, in which a format begins at an index."""

    __slots__ = ("name", "_text", "_first_line", "_start")

    def __init__(self, name: str, text: str, first_line: int = 1, start: int = 0) -> None:
        self.name = name
        self._text = encoded(text)
        self._first_line = _count(first_line)
        self._start = len(encoded(text[:start]))

    def struct(self) -> c.Source:
        """The source as the library takes it."""
        name = bytes_of(self.name)
        text = c.Bytes(self._text, len(self._text))
        return c.Source(name=name, text=text, first_line=self._first_line, start=self._start)

    @classmethod
    def of_piece(cls, name: str, piece: Piece) -> "Source":
        """The text around a piece of a format."""
        source = cls(name, "", piece.line)
        source._text, source._start = piece.text, piece.start
        return source

    def has(self, format: bytes) -> bool:
        """Whether the format is where this says."""
        return self._text.startswith(format, self._start)

    def pieces(self, format: bytes, structs: List[c.Argument]) -> Iterator[Piece]:
        """The pieces of a format that is here."""
        return pieces_of(format, structs, self._text, self._first_line, self._start)

    def message_of(self, picture: str, place: int) -> str:
        """What a picture says of a fault, between the place and the three lines with the marks, and
        without the note that there is if the format does not begin the text."""
        head = picture.rsplit("\n", 3)[0]
        message = head[len(self.name) + 1 :].partition(": ")[2]
        return message[: len(message) - len(self._note(place))]

    def _note(self, place: int) -> str:
        return f" (byte {place} of the format)" if self._start else ""

    def told_of(self, where: "Source", piece: Piece, picture: str, place: int) -> Tuple[str, str]:
        """What is said of a fault of the whole format, and its picture, by what is said and shown at a
        place of a piece of it."""
        marks = picture.rsplit("\n", 3)[1:]
        line, column = map(int, picture[len(self.name) + 1 :].partition(": ")[0].split(":"))
        column += piece.left_out if line == piece.line else 0
        # each sentence says the place once, behind all that it tells of the format
        before, at, after = where.message_of(picture, place).rpartition(f" at {place}")
        message = f"{before} at {piece.first + place}{after}"
        head = f"{self.name}:{line}:{column}: {message}{self._note(piece.first + place)}"
        return message, "\n".join((head, *marks))


def _count(number: int) -> int:
    """A count as the library takes it."""
    if number < 0:
        raise ValueError("a count is not negative")
    return min(number, c.SIZE_MAX)


# The longest format that is kept.
_LONGEST_KEPT = 4096


@functools.lru_cache(maxsize=256)
def _kept(text: str) -> Template:
    return Template(text)


def _template(text: str) -> Template:
    """The format of a text, which is read once as long as it is among the last ones."""
    if type(text) is str and len(text) <= _LONGEST_KEPT:
        return _kept(text)
    return Template(text)


def format(text: str, /, **values: Any) -> str:
    """The text of a format with these values.

    >>> format("Hello {name}, {{n}} is {n:>5} }", name="Ann", n=-7)
    'Hello Ann, {n} is    -7 }'
    >>> format("{l:i..-1({:?})(, )} and {l:i-1({:?})}", l=["a", "b", "c"])
    '"a", "b" and "c"'
    """
    return _template(text).format_map(values)


def format_map(text: str, values: Mapping[str, Any], /) -> str:
    """The text of a format with the values of a mapping, whose names may be any text.

    >>> format_map("{first name}", {"first name": "Ann"})
    'Ann'
    """
    return _template(text).format_map(values)


def format_escaped(escape: str, text: str, /, **values: Any) -> str:
    """The text of a format with these values, each escaped: see `Template.format_escaped`.

    >>> format_escaped("csv", '"{name}","{city}"', name='Ann "Zoë" Lee', city="Ulm")
    '"Ann ""Zoë"" Lee","Ulm"'
    """
    return _template(text).format_escaped(escape, **values)


def check(text: str, /, **examples: Any) -> None:
    """Raises the first fault that a format has with these examples: see `Template.check`.

    >>> check("{users:i({:>8})(, )}", users=["Ann"])
    """
    _template(text).check_map(examples)


def check_map(text: str, examples: Mapping[str, Any], /) -> None:
    """Raises the first fault that a format has with the examples of a mapping."""
    _template(text).check_map(examples)


def check_alone(text: str, /) -> None:
    """Raises the first fault that a format has by itself: see `Template.check_alone`."""
    _template(text).check_alone()


def explain(
    text: str,
    examples: Optional[Mapping[str, Any]] = None,
    /,
    *,
    name: str = NAME,
    first_line: int = 1,
) -> Optional[str]:
    """The first fault that a format has with these examples, as a compiler shows it: see
    `Template.explain`."""
    return _template(text).explain(examples, name=name, first_line=first_line)


def faults(
    text: str, examples: Optional[Mapping[str, Any]] = None, /, **named: Any
) -> List[FormatError]:
    """All faults that a format has with these examples: see `Template.faults`."""
    return _template(text).faults(examples, **named)


def rows(text: str, columns: Columns, cells: Iterable[Row], /) -> List[str]:
    """The text of a format for each row of a table: see `Template.rows`."""
    return _template(text).rows(columns, cells)


def cost(text: str, /, *, text_limit: int, items: int) -> Cost:
    """How much a format can write at most: see `Template.cost`."""
    return _template(text).cost(text=text_limit, items=items)
