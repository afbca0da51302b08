"""Python's values as the fields of a call."""

from __future__ import annotations

import ctypes
from collections import deque
from dataclasses import dataclass
from typing import Any, Deque, Dict, Iterable, List, Optional, Tuple, Union

from . import _library as c
from ._faults import SENTENCES, Code, fault
from ._requests import Request, Trait, has_own_str, struct_of, text_for


@dataclass(frozen=True)
class Integer:
    """A number of this many bits: 8, 16, 32, 64 or 128.

    The bits matter for a negative number in base 2, 8 or 16, which is shown in two's complement. An
    `int` has 128.

    >>> from interpolator import format
    >>> format("{n:x} {n}", n=Integer(-1, bits=16))
    'ffff -1'
    """

    number: int
    bits: int = 128

    def __post_init__(self) -> None:
        if self.bits not in c.SIGNED:
            raise ValueError("a number has 8, 16, 32, 64 or 128 bits")
        if not -(2 ** (self.bits - 1)) <= self.number < 2**self.bits:
            raise OverflowError(f"{self.number} has more than {self.bits} bits")


@dataclass(frozen=True)
class Character:
    """A character, which is quoted by `'` under `{:?}`.

    >>> from interpolator import format
    >>> format("{c} {c:?}", c=Character("x"))
    "x 'x'"
    """

    character: str

    def __post_init__(self) -> None:
        if len(self.character) != 1:
            raise ValueError("a character is a text of length 1")


@dataclass(frozen=True)
class Plain:
    """A text that is written as it is under every spec, without padding and quotes.

    >>> from interpolator import format
    >>> format("{t:>9} {t:?}", t=Plain("<b>"))
    '<b> <b>'
    """

    text: str


@dataclass(frozen=True, init=False)
class Only:
    """A value that a format may write under these traits alone.

    >>> from interpolator import check
    >>> check("{key:?}", key=Only("k1", "display"))
    Traceback (most recent call last):
    interpolator.MissingTrait: trait `Debug` not implemented, used by format argument at 6
    """

    value: Any
    traits: Tuple[Trait, ...]

    def __init__(self, value: Any, *traits: Union[Trait, str]) -> None:
        chosen = tuple(Trait[t.upper()] if isinstance(t, str) else t for t in traits)
        if not chosen or Trait.LIST in chosen or is_list(value):
            raise ValueError("a value that is no list has one trait or more, and LIST is none of them")
        object.__setattr__(self, "value", value)
        object.__setattr__(self, "traits", chosen)


class Uses:
    """How a format uses a value: the requests under which it writes it, and how it uses the items,
    if it writes it as a list."""

    __slots__ = ("requests", "items")

    def __init__(self) -> None:
        # a set that keeps its order
        self.requests: Dict[Request, None] = {}
        self.items: Optional[Uses] = None

    def of_items(self) -> "Uses":
        """How the items are used, which from now on they are."""
        if self.items is None:
            self.items = Uses()
        return self.items


UNUSED = Uses()

# The slots of a list as a whole.
_WHOLE = 1 << Trait.DISPLAY | 1 << Trait.DEBUG


def encoded(text: str) -> bytes:
    """A text in UTF-8. A lone surrogate makes bytes that are not UTF-8: the library says so."""
    return text.encode("utf-8", "surrogatepass")


def bytes_of(text: str) -> c.Bytes:
    """A text as the library takes it."""
    made = text.encode("utf-8", "surrogatepass")
    return c.Bytes(made, len(made))


NOT_UTF8 = b"\xff"


class ItemsOnly(List[Any]):
    """A list that is written by `{name:i}` alone, as an example of a list in any language."""


def is_list(value: Any) -> bool:
    """Whether a value is written by `{name:i}`."""
    return isinstance(value, (list, tuple)) and (
        type(value).__format__ is object.__format__
    )


class Fields:
    """The fields of a call, and the items of their lists.

    Keep it until the call has returned: it holds the texts of which the fields have the addresses.
    Of examples no text is written, so those that Python makes are kept short.
    """

    def __init__(self, are_examples: bool = False) -> None:
        self._are_examples = are_examples
        self._fields: List[c.Field] = []
        self._items: List[c.Field] = []
        self._lists: Deque[Tuple[c.Field, Iterable[Any], Uses, int]] = deque()
        # why a value has no text for a request, by its uses and the row that it is in
        self._failures: Dict[Tuple[int, int, Request], Exception] = {}
        self._row = -1

    def add(self, name: str, value: Any, uses: Uses) -> None:
        """Adds a value under a name that is used so."""
        field = self._field(value, uses, 0)
        self._lay_lists()
        field.name = bytes_of(name)
        self._fields.append(field)

    def add_row(self, cells: Iterable[Any], uses: Iterable[Uses]) -> None:
        """Adds the cells of the next row of a table."""
        self._row += 1
        for cell, its_uses in zip(cells, uses):
            self._fields.append(self._field(cell, its_uses, 0))

    def fields(self) -> "ctypes.Array[c.Field]":
        """The fields as the library takes them."""
        return (c.Field * len(self._fields))(*self._fields)

    def items(self) -> "ctypes.Array[c.Field]":
        """The items of all lists as the library takes them."""
        return (c.Field * len(self._items))(*self._items)

    def row(self, number: int, names: Iterable[str]) -> "Fields":
        """The cells of a row of a table as fields under the names of their columns."""
        row = Fields()
        named = list(names)
        for name, field in zip(named, self._fields[number * len(named) :]):
            field.name = bytes_of(name)
            row._fields.append(field)
        for (uses, its_row, request), cause in self._failures.items():
            if its_row == number:
                row._failures[uses, row._row, request] = cause
        return row

    def failure(self, uses: Uses, request: Request) -> Optional[Exception]:
        """Why a value that is used so has no text for a request."""
        return self._failures.get((id(uses), self._row, request))

    def _lay_lists(self) -> None:
        """Lays the items of the lists that are waiting, level by level."""
        while self._lists:
            field, values, uses, level = self._lists.popleft()
            if level > c.LEVELS:
                raise fault(Code.LISTS, SENTENCES[Code.LISTS])
            field.first = len(self._items)
            for value in values:
                self._items.append(self._field(value, uses, level))
            field.end = len(self._items)

    def _field(self, value: Any, uses: Uses, level: int) -> c.Field:
        if is_list(value):
            texts = None if isinstance(value, ItemsOnly) else self._texts(value, uses, _WHOLE)
            field = c.Field(kind=c.LIST)
            if texts:
                field.lent, field.lent_count = texts, len(texts)
                field.slots = sum({1 << lent.request.slot for lent in texts})
            # the items of a list that is not written as one are left out
            items = () if uses.items is None else value
            self._lists.append((field, items, uses.items or UNUSED, level + 1))
            return field
        mask = 0
        if isinstance(value, Only):
            mask = sum(1 << trait for trait in set(value.traits))
            value = value.value
        field = _own(value) or self._lent(value, uses, mask)
        if mask:
            field.slots = mask
        return field

    def _lent(self, value: Any, uses: Uses, mask: int) -> c.Field:
        """A value that Python makes the texts of."""
        texts = self._texts(value, uses, mask)
        return c.Field(kind=c.LENT, lent=texts, lent_count=len(texts))

    def _texts(self, value: Any, uses: Uses, mask: int) -> "ctypes.Array[c.Lent]":
        """The texts that Python makes of a value, one for each request."""
        wanted = [r for r in uses.requests if r.trait != Trait.LIST]
        wanted = [r for r in wanted if not mask or mask >> r.trait & 1]
        texts = (c.Lent * len(wanted))()
        for lent, request in zip(texts, wanted):
            text = self._text_for(value, request, uses)
            lent.request = struct_of(request)
            lent.text = c.Bytes(text, len(text))
        return texts

    def _text_for(self, value: Any, request: Request, uses: Uses) -> bytes:
        """The text of a value for a request; of a value that fails, bytes that are no text."""
        asked = _shortened(request) if self._are_examples else request
        try:
            return encoded(text_for(value, asked))
        except (ValueError, TypeError, ArithmeticError) as cause:
            self._failures.setdefault((id(uses), self._row, request), cause)
            return NOT_UTF8


def _shortened(request: Request) -> Request:
    """A request without a great width or precision."""
    width, precision = request.width, request.precision
    return request._replace(
        width=width and min(width, 100), precision=precision and min(precision, 100))


def _own(value: Any) -> Optional[c.Field]:
    """The field of a value that the library writes itself."""
    kind = type(value)
    if kind is str or isinstance(value, str) and _shows_as(kind, str):
        return c.Field(kind=c.TEXT, text=bytes_of(value))
    if kind is bool:
        return c.Field(kind=c.TRUTH, natural=value)
    if kind is int or isinstance(value, int) and _shows_as(kind, int):
        return _number(value, 128)
    if kind is float or isinstance(value, float) and _shows_as(kind, float):
        return c.Field(kind=c.DOUBLE, real=value)
    if kind is Integer:
        return _number(value.number, value.bits)
    if kind is Plain:
        return c.Field(kind=c.PLAIN, text=bytes_of(value.text))
    if kind is Character:
        return c.Field(kind=c.CHARACTER, natural=ord(value.character))
    return None


def _shows_as(its: type, kind: type) -> bool:
    """Whether a type formats, shows and represents its values as this one does."""
    return (
        its.__format__ is kind.__format__
        and its.__repr__ is kind.__repr__
        and not has_own_str(its, kind)
    )


_LOW = 2**64 - 1


def _number(number: int, bits: int) -> Optional[c.Field]:
    """The field of a number of so many bits, unless it has more than 128."""
    if 0 <= number < 2**64:
        return c.Field(kind=c.UNSIGNED, natural=number)
    if 0 <= number < 2**128:
        return c.Field(kind=c.UNSIGNED128, natural=number & _LOW, upper=number >> 64)
    if number < -(2**127) or number >= 2**128:
        return None
    if bits == 128:
        return c.Field(kind=c.SIGNED[128], natural=number & _LOW, number=number >> 64)
    return c.Field(kind=c.SIGNED[bits], number=number)
