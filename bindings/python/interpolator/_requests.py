"""How an argument wants its value written, and the texts that Python makes for that."""

from __future__ import annotations

import datetime
import enum
import numbers
from typing import Any, NamedTuple, Optional

from . import _library as c


class Trait(enum.IntEnum):
    """Under which trait a format writes a value."""

    DISPLAY = 0
    """`{x}`"""
    DEBUG = 1
    """`{x:?}`"""
    BINARY = 2
    """`{x:b}`"""
    OCTAL = 3
    """`{x:o}`"""
    LOWER_HEX = 4
    """`{x:x}`"""
    UPPER_HEX = 5
    """`{x:X}`"""
    LOWER_EXP = 6
    """`{x:e}`"""
    UPPER_EXP = 7
    """`{x:E}`"""
    LIST = 8
    """`{x:i}`"""


_ALIGNMENTS = ("", "<", "^", ">")
_SIGNS = ("", "+", "-")
_HEX_DEBUGS = ("", "x", "X")
_TYPES = {
    Trait.BINARY: "b",
    Trait.OCTAL: "o",
    Trait.LOWER_HEX: "x",
    Trait.UPPER_HEX: "X",
    Trait.LOWER_EXP: "e",
    Trait.UPPER_EXP: "E",
}


class Request(NamedTuple):
    """The trait of an argument, and the parts of its spec.

    >>> from interpolator import Template
    >>> Template("{x:*^+#09.2e}").arguments[0].request
    ... # doctest: +NORMALIZE_WHITESPACE
    Request(trait=<Trait.LOWER_EXP: 6>, fill='*', alignment='^', sign='+', alternate=True,
            zero=True, hex_debug='', width=9, precision=2)
    """

    trait: Trait = Trait.DISPLAY
    fill: Optional[str] = None
    alignment: str = ""
    """`<`, `^`, `>` or nothing"""
    sign: str = ""
    """`+`, `-` or nothing"""
    alternate: bool = False
    """whether there is a `#`"""
    zero: bool = False
    """whether there is the flag `0`"""
    hex_debug: str = ""
    """`x` of `x?`, `X` of `X?`, or nothing"""
    width: Optional[int] = None
    precision: Optional[int] = None


PLAIN_DISPLAY = Request()


def request_of(struct: c.Request) -> Request:
    """The request that the library lays out so."""
    return Request(
        trait=Trait(struct.slot),
        fill=None if struct.fill == c.NO_FILL else chr(struct.fill),
        alignment=_ALIGNMENTS[struct.alignment],
        sign=_SIGNS[struct.sign],
        alternate=bool(struct.alternate),
        zero=bool(struct.zero),
        hex_debug=_HEX_DEBUGS[struct.hex_debug],
        width=struct.width if struct.given & c.GIVEN_WIDTH else None,
        precision=struct.precision if struct.given & c.GIVEN_PRECISION else None,
    )


def struct_of(request: Request) -> c.Request:
    """How the library lays out a request."""
    given = 0
    if request.width is not None:
        given |= c.GIVEN_WIDTH
    if request.precision is not None:
        given |= c.GIVEN_PRECISION
    return c.Request(
        slot=request.trait,
        fill=c.NO_FILL if request.fill is None else ord(request.fill),
        alignment=_ALIGNMENTS.index(request.alignment),
        sign=_SIGNS.index(request.sign),
        alternate=request.alternate,
        zero=request.zero,
        hex_debug=_HEX_DEBUGS.index(request.hex_debug),
        given=given,
        width=request.width or 0,
        precision=request.precision or 0,
    )


def python_spec(request: Request, fixed: bool = False) -> str:
    """The spec that asks Python's `format()` for the same; `fixed`: a precision counts the digits
    after the point.

    >>> python_spec(Request(fill="*", alignment="^", sign="+", width=9, precision=2))
    '*^+9.2'
    >>> python_spec(Request(zero=True, width=8, precision=2), fixed=True)
    '08.2f'
    """
    parts = []
    zero = request.zero and request.width is not None
    if request.alignment and not zero:
        parts.append((request.fill or "") + request.alignment)
    parts.append(request.sign)
    if request.alternate:
        parts.append("#")
    if zero:
        parts.append("0")
    # in Python a width that begins with 0 is the flag again
    if request.width:
        parts.append(str(request.width))
    if request.precision is not None:
        parts.append(f".{request.precision}")
    kind = _TYPES.get(request.trait, "")
    if not kind and fixed and request.precision is not None:
        kind = "f"
    parts.append(kind)
    return "".join(parts)


def padded(text: str, request: Request) -> str:
    """A text cut to the precision and padded to the width, as a text is under this spec.

    >>> padded("Zoë", Request(fill=".", alignment="^", width=6))
    '.Zoë..'
    """
    if request.precision is not None:
        text = text[: request.precision]
    missing = (request.width or 0) - len(text)
    if missing <= 0:
        return text
    before = {"^": missing // 2, ">": missing}.get(request.alignment, 0)
    fill = request.fill or " "
    return fill * before + text + fill * (missing - before)


def text_for(value: Any, request: Request) -> str:
    """The text that Python makes of a value for a request.

    Under `{:?}` it is `repr(value)`, padded like a text; what has the `repr` of a `float` or an
    `int` is debugged as it is displayed. Under any other trait it is `format(value, spec)` with
    the same spec in Python's form; a precision of a number counts the digits after the point.
    These are displayed as `format(value, "")`, padded here, since their `__format__` does not
    know widths: a date or a time, a value whose type does not say how it is formatted, and a
    text or a whole number whose type has a `__str__` of its own. What a whole number or a text
    ignores is left out.

    >>> from decimal import Decimal
    >>> text_for(Decimal("3.14159"), Request(width=8, precision=2))
    '    3.14'
    >>> text_for(datetime.date(2024, 2, 29), Request(alignment=">", width=12))
    '  2024-02-29'
    >>> text_for(None, Request(trait=Trait.DEBUG, width=6))
    'None  '
    """
    if isinstance(value, int) and type(value).__format__ is int.__format__:
        text = _whole_number(value, request)
        if text is not None:
            return text
    if isinstance(value, str):
        request = request._replace(sign="", alternate=False, zero=False)
    if request.trait == Trait.DEBUG:
        its: Any = type(value)
        if its.__repr__ not in (int.__repr__, float.__repr__):
            return padded(repr(value), request)
        request = request._replace(trait=_DEBUGS[request.hex_debug])
    if request.trait == Trait.DISPLAY and _leaves_padding(value):
        return padded(format(value, ""), request)
    if isinstance(value, int) and not _says_how(value):
        request = request._replace(precision=None)
    return format(value, python_spec(request, fixed=isinstance(value, numbers.Number)))


# What a number is debugged as.
_DEBUGS = {"": Trait.DISPLAY, "x": Trait.LOWER_HEX, "X": Trait.UPPER_HEX}

_BASES = (Trait.BINARY, Trait.OCTAL, Trait.LOWER_HEX, Trait.UPPER_HEX)


def _whole_number(value: int, request: Request) -> Optional[str]:
    """The text of a whole number where Python would make another one than the library does of
    those that it writes itself: in exponent form, and of a negative one in two's complement."""
    if request.trait in (Trait.LOWER_EXP, Trait.UPPER_EXP):
        digits = exponent_form(abs(int(value)), request.precision, _TYPES[request.trait])
        return _padded_number("-" if value < 0 else "", digits, request)
    if request.trait in _BASES and -(2**127) <= value < 0:
        request = request._replace(precision=None)
        return format(int(value) + 2**128, python_spec(request))
    return None


def exponent_form(number: int, precision: Optional[int], letter: str) -> str:
    """A whole number that is not negative in exponent form.

    >>> exponent_form(1200, None, "e"), exponent_form(1250, 1, "e"), exponent_form(1350, 1, "E")
    ('1.2e3', '1.2e3', '1.4E3')
    >>> exponent_form(996, 1, "e"), exponent_form(12, 3, "e"), exponent_form(0, None, "e")
    ('1.0e3', '1.200e1', '0e0')
    """
    digits = str(number)
    exponent = len(digits) - 1
    if precision is None:
        digits = digits.rstrip("0") or "0"
    elif precision < exponent:
        unit = 10 ** (exponent - precision)
        units, rest = divmod(number, unit)
        units += 2 * rest > unit or (2 * rest == unit and units % 2)
        digits = str(units)
        if len(digits) > precision + 1:
            digits, exponent = digits[:-1], exponent + 1
    else:
        digits = digits.ljust(precision + 1, "0")
    point = "." if len(digits) > 1 else ""
    return f"{digits[0]}{point}{digits[1:]}{letter}{exponent}"


def _padded_number(sign: str, digits: str, request: Request) -> str:
    """A number padded as one: at the right, if no alignment is given."""
    sign = sign or request.sign.replace("-", "")
    if request.zero:
        digits = digits.rjust((request.width or 0) - len(sign), "0")
    aligned = request._replace(alignment=request.alignment or ">", precision=None)
    return padded(sign + digits, aligned)


def _leaves_padding(value: Any) -> bool:
    """Whether the `__format__` of a value does not know widths."""
    its: Any = type(value)
    if isinstance(value, (int, str)):
        plain: Any = int if isinstance(value, int) else str
        return its.__format__ is plain.__format__ and has_own_str(its, plain)
    if isinstance(value, numbers.Number):
        return False
    return (
        isinstance(value, (datetime.date, datetime.time))
        or its.__format__ is object.__format__
    )


def _says_how(value: Any) -> bool:
    """Whether a whole number is of a type with a `__format__` of its own, which an enum has from the
    number."""
    its: Any = type(value)
    return its.__format__ is not int.__format__ and not isinstance(value, enum.Enum)


def has_own_str(its: Any, plain: Any) -> bool:
    """Whether a type derived from `int` or `str` says itself how `str()` shows it."""
    return its.__str__ not in (plain.__str__, plain.__repr__)
