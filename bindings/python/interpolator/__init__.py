"""Format strings at run time, for formats that come from files.

A format and named values go in; the text, or one fault at its place, comes out. Check a format when
you load it, against example values, and it does not fail later with values like them.

>>> import interpolator
>>> interpolator.format("{name:<6}|{n:>+4}|{l:i({:02x})( )}", name="Zoë", n=7, l=[10, 255])
'Zoë   |  +7|0a ff'
>>> interpolator.check("Hello {name}, you have {count:>3} messages.", name="Ann", count=0)
>>> interpolator.check("Hello {nane}.", name="Ann")
Traceback (most recent call last):
interpolator.MissingValue: specified value not in context `nane` at 7

The work is done by a library that is proved; this module passes values to it.
"""

from ._faults import (
    BrokenFormat,
    Code,
    FormatError,
    Misplaced,
    MissingTrait,
    MissingValue,
    NoMemory,
    NotUtf8,
    TooDeep,
    UnsupportedOption,
    ValueFailed,
)
from ._requests import Request, Trait
from ._templates import (
    Argument,
    Cost,
    Template,
    check,
    check_alone,
    check_map,
    cost,
    explain,
    faults,
    format,
    format_escaped,
    format_map,
    rows,
)
from ._values import Character, Integer, Only, Plain

__version__ = "0.5.0"

__all__ = [
    "Argument",
    "BrokenFormat",
    "Character",
    "Code",
    "Cost",
    "FormatError",
    "Integer",
    "Misplaced",
    "MissingTrait",
    "MissingValue",
    "NoMemory",
    "NotUtf8",
    "Only",
    "Plain",
    "Request",
    "Template",
    "TooDeep",
    "Trait",
    "UnsupportedOption",
    "ValueFailed",
    "check",
    "check_alone",
    "check_map",
    "cost",
    "explain",
    "faults",
    "format",
    "format_escaped",
    "format_map",
    "rows",
]
