"""The faults of formats, as exceptions."""

from __future__ import annotations

import enum
from typing import Any, Dict, Optional, Tuple, Type

from ._requests import Trait


class Code(enum.IntEnum):
    """What is wrong, by the numbers of `interpolator.h`."""

    MISSING_TRAIT = 1
    FMT = 2
    PARSE = 3
    MISSING_VALUE = 4
    UNSUPPORTED = 5
    NO_MEMORY = 6
    NOT_UTF8 = 7
    LISTS = 8
    FULL = 9
    TABLE = 10
    MISPLACED = 11
    NO_ESCAPE = 12


class FormatError(ValueError):
    """A fault of a format.

    >>> from interpolator import format
    >>> try:
    ...     format("Grüße, {name}!", nam="Ann")
    ... except FormatError as error:
    ...     print(error)
    ...     print(error.code.name, error.place, error.index)
    ...     print(error.picture)
    specified value not in context `name` at 10
    MISSING_VALUE 10 8
    <format>:1:9: specified value not in context `name` at 10
      |
    1 | Grüße, {name}!
      |        ~^~~~~
    """

    code: Code
    """what is wrong"""
    place: int
    """the byte of the format, in UTF-8, at which it is; 0 if it is at none"""
    index: int
    """the same place as an index of the format"""
    message: str
    """the sentence that says what is wrong"""
    picture: str
    """the fault as a compiler shows it: line, column, and the line with its argument marked"""
    trait: Optional[Trait]
    """of a missing trait, which one"""
    row: Optional[int]
    """the number of the row of a table that it is in, the first of which is 0; else None"""

    __module__ = "interpolator"

    def __init__(
        self,
        message: str,
        code: Code = Code.PARSE,
        place: int = 0,
        index: int = 0,
        picture: str = "",
        trait: Optional[Trait] = None,
        row: Optional[int] = None,
    ) -> None:
        super().__init__(message)
        self.message = message
        self.code = code
        self.place = place
        self.index = index
        self.picture = picture
        self.trait = trait
        self.row = row

    def __str__(self) -> str:
        return self.message if self.row is None else f"{self.message}, in row {self.row}"

    def __reduce__(self) -> Tuple[Any, ...]:
        parts = (
            self.message, self.code, self.place, self.index, self.picture, self.trait, self.row)
        return type(self), parts


class MissingTrait(FormatError):
    """The value cannot be written under this trait, as a text in hexadecimal."""

    __module__ = "interpolator"


class ValueFailed(FormatError):
    """The value failed. If its `__format__` did, the exception that it raised is the cause."""

    __module__ = "interpolator"


class BrokenFormat(FormatError):
    """The format is broken: an argument is not closed, or its spec cannot be read."""

    __module__ = "interpolator"


class MissingValue(FormatError, KeyError):
    """The format uses a name that has no value."""

    __module__ = "interpolator"


class UnsupportedOption(FormatError):
    """The format has the option `p`."""

    __module__ = "interpolator"


class NoMemory(FormatError, MemoryError):
    """There was not enough memory."""

    __module__ = "interpolator"


class NotUtf8(FormatError, UnicodeError):
    """The format has a character that UTF-8 does not have, a lone surrogate."""

    __module__ = "interpolator"


class TooDeep(FormatError):
    """Lists are nested in lists more than 64 deep."""

    __module__ = "interpolator"


class Misplaced(FormatError):
    """A value or a list stands where the escape does not let it stand."""

    __module__ = "interpolator"


_CLASSES: Dict[Code, Type[FormatError]] = {
    Code.MISSING_TRAIT: MissingTrait,
    Code.FMT: ValueFailed,
    Code.PARSE: BrokenFormat,
    Code.MISSING_VALUE: MissingValue,
    Code.UNSUPPORTED: UnsupportedOption,
    Code.NO_MEMORY: NoMemory,
    Code.NOT_UTF8: NotUtf8,
    Code.LISTS: TooDeep,
    Code.MISPLACED: Misplaced,
}

# The codes of faults that are at a place.
PLACED = frozenset(Code(number) for number in range(1, 6))

# What is said of a code that comes without a sentence.
SENTENCES = {
    Code.NO_MEMORY: "out of memory",
    Code.NOT_UTF8: "not UTF-8",
    Code.LISTS: "lists are nested more than 64 deep",
}


def fault(
    code: Code,
    message: str,
    place: int = 0,
    index: int = 0,
    picture: str = "",
    detail: int = 0,
    row: Optional[int] = None,
) -> FormatError:
    """The exception for a code."""
    trait = Trait(detail) if code == Code.MISSING_TRAIT else None
    return _CLASSES.get(code, FormatError)(message, code, place, index, picture, trait, row)
