"""The quick way through a call, by the extension module, where it could be built. Without it, and
with the environment variable `INTERPOLATOR_CTYPES`, all calls go by ctypes."""

from __future__ import annotations

import ctypes
import os
from decimal import Decimal
from typing import Any, Dict, List, Optional, Tuple

from . import _library as c
from ._requests import python_spec, struct_of, text_for
from ._values import Character, Integer, Only, Plain, Uses

try:
    if os.environ.get("INTERPOLATOR_CTYPES"):
        raise ImportError
    from ._speed import Plan as Plan, bind
except ImportError:
    HAS_SPEED = False

    class Plan:  # type: ignore[no-redef]
        """A format with its names, and how it uses each."""

        def format(self, values: Dict[str, Any]) -> Optional[str]:
            """The text over these values; None if it has to be made by ctypes, or has a fault."""

        def rows(self, columns: bytes, rows: List[Any]) -> Optional[List[str]]:
            """The texts of some rows; None likewise."""
else:
    HAS_SPEED = True
    bind(
        ctypes.cast(c.library.interpolator_format, ctypes.c_void_p).value,
        ctypes.cast(c.library.interpolator_rows, ctypes.c_void_p).value,
        ctypes.sizeof(c.Field),
        text_for,
        (Character, Integer, Only, Plain),
        Decimal,
    )


def plan_of(text: bytes, used: Dict[str, Uses]) -> Optional[Plan]:
    """A format in UTF-8 with its names and their uses, for the quick way."""
    if not HAS_SPEED:
        return None
    return Plan(text, tuple(used), tuple(map(_told, used.values())))


def _told(uses: Uses) -> Tuple[Any, ...]:
    """How a value is used, as the extension takes it."""
    wanted = tuple(
        (bytes(struct_of(request)), request, python_spec(request, fixed=True))
        for request in uses.requests
    )
    return wanted, None if uses.items is None else _told(uses.items)
