"""The shared library, and its structs as `bindings/c/interpolator.h` has them.

It is looked for in this order: the file that the environment variable `INTERPOLATOR_LIBRARY`
names; `libinterpolator.so` beside this module; the one that `bindings/c/Makefile` builds; the
system's. Without one, or with one of another version, importing this module fails with an
ImportError that says why.
"""

from __future__ import annotations

import ctypes
import ctypes.util
import os
from pathlib import Path
from typing import Any, Callable, Dict, List, Tuple

VERSION = 1

NO_FILL = 0xFFFFFFFF
GIVEN_WIDTH = 1
GIVEN_PRECISION = 2

# The most that a `size_t` holds.
SIZE_MAX = ctypes.c_size_t(-1).value

# The most levels of lists in lists.
LEVELS = 64

# The kinds of a field.
TEXT = 0
PLAIN = 1
TRUTH = 2
CHARACTER = 3
UNSIGNED = 4
UNSIGNED128 = 5
SIGNED = {8: 6, 16: 7, 32: 8, 64: 9, 128: 10}
LIST = 11
LENT = 12
DOUBLE = 13

# The numbers of the escapes.
ESCAPES = {"line": 1, "html": 2, "csv": 3, "json": 4, "shell": 5}


class Bytes(ctypes.Structure):
    _fields_ = [("at", ctypes.c_char_p), ("length", ctypes.c_size_t)]


class Request(ctypes.Structure):
    _fields_ = [
        ("slot", ctypes.c_uint32),
        ("fill", ctypes.c_uint32),
        ("alignment", ctypes.c_uint32),
        ("sign", ctypes.c_uint32),
        ("alternate", ctypes.c_uint32),
        ("zero", ctypes.c_uint32),
        ("hex_debug", ctypes.c_uint32),
        ("given", ctypes.c_uint32),
        ("width", ctypes.c_size_t),
        ("precision", ctypes.c_size_t),
    ]


class Lent(ctypes.Structure):
    _fields_ = [("request", Request), ("text", Bytes)]


class Field(ctypes.Structure):
    _fields_ = [
        ("name", Bytes),
        ("text", Bytes),
        ("lent", ctypes.POINTER(Lent)),
        ("lent_count", ctypes.c_size_t),
        ("kind", ctypes.c_uint32),
        ("slots", ctypes.c_uint32),
        ("number", ctypes.c_int64),
        ("natural", ctypes.c_uint64),
        ("upper", ctypes.c_uint64),
        ("first", ctypes.c_size_t),
        ("end", ctypes.c_size_t),
        ("real", ctypes.c_double),
        ("single", ctypes.c_float),
        ("spare", ctypes.c_uint32),
    ]


class Answer(ctypes.Structure):
    _fields_ = [
        ("code", ctypes.c_uint32),
        ("detail", ctypes.c_uint32),
        ("place", ctypes.c_size_t),
        ("length", ctypes.c_size_t),
        ("message", ctypes.c_size_t),
        ("row", ctypes.c_size_t),
    ]


class Source(ctypes.Structure):
    _fields_ = [
        ("name", Bytes),
        ("text", Bytes),
        ("first_line", ctypes.c_size_t),
        ("start", ctypes.c_size_t),
    ]


class CostAnswer(ctypes.Structure):
    _fields_ = [
        ("code", ctypes.c_uint32),
        ("detail", ctypes.c_uint32),
        ("characters", ctypes.c_size_t),
        ("pieces", ctypes.c_size_t),
        ("buffered", ctypes.c_size_t),
    ]


class Fault(ctypes.Structure):
    _fields_ = [
        ("code", ctypes.c_uint32),
        ("detail", ctypes.c_uint32),
        ("place", ctypes.c_size_t),
    ]


class Argument(ctypes.Structure):
    _fields_ = [
        ("name_first", ctypes.c_size_t),
        ("name_end", ctypes.c_size_t),
        ("request", Request),
        ("item_first", ctypes.c_size_t),
        ("item_end", ctypes.c_size_t),
        ("join_first", ctypes.c_size_t),
        ("join_end", ctypes.c_size_t),
    ]


class Sizes(ctypes.Structure):
    _fields_ = [
        (name, ctypes.c_size_t)
        for name in (
            "request", "lent", "field", "answer", "argument", "cost_answer", "fault", "source",
            "request_width", "lent_text", "field_kind", "field_number", "field_first", "field_real",
            "field_single", "answer_place", "argument_request", "argument_item",
        )
    ]


def _layout() -> Dict[str, int]:
    """How this module lays out the structs, by the names of `interpolator_sizes`."""
    return {
        "request": ctypes.sizeof(Request),
        "lent": ctypes.sizeof(Lent),
        "field": ctypes.sizeof(Field),
        "answer": ctypes.sizeof(Answer),
        "argument": ctypes.sizeof(Argument),
        "cost_answer": ctypes.sizeof(CostAnswer),
        "fault": ctypes.sizeof(Fault),
        "source": ctypes.sizeof(Source),
        "request_width": Request.width.offset,
        "lent_text": Lent.text.offset,
        "field_kind": Field.kind.offset,
        "field_number": Field.number.offset,
        "field_first": Field.first.offset,
        "field_real": Field.real.offset,
        "field_single": Field.single.offset,
        "answer_place": Answer.place.offset,
        "argument_request": Argument.request.offset,
        "argument_item": Argument.item_first.offset,
    }


def _candidates() -> List[str]:
    """The files to try, in order."""
    named = os.environ.get("INTERPOLATOR_LIBRARY")
    if named:
        return [named]
    here = Path(__file__).resolve().parent
    folders = [here, here.parent.parent / "c" / "build"]
    found = [
        str(folder / name)
        for folder in folders
        for name in ("libinterpolator.so", "libinterpolator.so.1")
        if (folder / name).is_file()
    ]
    system = ctypes.util.find_library("interpolator")
    return found + ([system] if system else []) + ["libinterpolator.so.1"]


def _declare(library: ctypes.CDLL) -> None:
    """Says what each call takes and returns; an AttributeError if it is missing."""
    size = ctypes.c_size_t
    text = [ctypes.c_char_p, size]
    fields = [ctypes.POINTER(Field), size]
    room = [ctypes.c_char_p, size]
    calls: Dict[str, Any] = {
        "interpolator_format": (Answer, text + fields + fields + room),
        "interpolator_escaped": (Answer, [ctypes.c_uint32] + text + fields + fields + room),
        "interpolator_check": (Answer, text + fields + fields + room),
        "interpolator_check_alone": (Answer, text + room),
        "interpolator_faults": (
            Answer, text + fields + fields + [ctypes.POINTER(Fault), size]),
        "interpolator_explain": (
            Answer, [ctypes.POINTER(Source)] + text + fields + fields + [size] + room),
        "interpolator_rows": (
            Answer, text + fields + fields + [ctypes.POINTER(size), size] + room),
        "interpolator_cost": (CostAnswer, text + [size, size]),
        "interpolator_arguments": (Answer, text + [ctypes.POINTER(Argument), size]),
        "interpolator_version": (ctypes.c_uint32, []),
        "interpolator_layout": (Sizes, []),
    }
    for name, (result, parameters) in calls.items():
        call = getattr(library, name)
        call.restype = result
        call.argtypes = parameters


def _agree(library: ctypes.CDLL, path: str) -> None:
    """An ImportError unless the library has the version and the structs of this module."""
    try:
        _declare(library)
    except AttributeError as cause:
        raise ImportError(f"{path} is not the library of interpolator: {cause}") from cause
    version = library.interpolator_version()
    if version != VERSION:
        raise ImportError(f"{path} has version {version} of the calls, not {VERSION}")
    sizes = library.interpolator_layout()
    for name, here in _layout().items():
        there = getattr(sizes, name)
        if there != here:
            raise ImportError(
                f"{path} lays out its structs otherwise: {name} is {there}, not {here}")


def with_room(
    call: Callable[..., Answer], given: Tuple[Any, ...], guess: int
) -> Tuple[Answer, Any, int]:
    """Calls a function with a room, and once more if its text does not fit. Returns its answer, the
    room, and how many bytes at its front are the text's or the sentence's."""
    size = guess
    while True:
        room = ctypes.create_string_buffer(size)
        answer = call(*given, room, size)
        length = answer.message if answer.code else answer.length
        if length <= size:
            return answer, room, length
        size = length


def load() -> ctypes.CDLL:
    """The library, with its calls declared."""
    failures = []
    for path in _candidates():
        try:
            library = ctypes.CDLL(path)
        except OSError as cause:
            failures.append(str(cause))
            continue
        _agree(library, path)
        return library
    raise ImportError(
        "the library libinterpolator.so was not found: build it in bindings/c, or let the "
        "environment variable INTERPOLATOR_LIBRARY name it (" + "; ".join(failures) + ")")


library = load()
