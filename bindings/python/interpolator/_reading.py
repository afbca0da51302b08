"""How a format uses its names."""

from __future__ import annotations

from typing import Dict, List, Optional, Tuple

from . import _library as c
from ._faults import SENTENCES, Code, fault
from ._requests import PLAIN_DISPLAY, Request, Trait, request_of
from ._values import Uses


class Reading:
    """The arguments of a format, and how it uses each name."""

    __slots__ = ("structs", "uses", "_text", "_used")

    def __init__(self, text: bytes) -> None:
        self.structs = _arguments_of(text)
        self.uses: Dict[str, Uses] = {}
        self._text = text
        # of each argument the place of its name, whose value it writes, and how
        self._used: List[Tuple[int, Uses, Request]] = []
        self._read()

    def _read(self) -> None:
        # the item formats around an argument, each with its end and how its items are used
        around: List[Tuple[int, Uses]] = []
        for struct in self.structs:
            while around and struct.name_first > around[-1][0]:
                around.pop()
            name = self._name_of(struct)
            if name or not around:
                uses = self.uses.setdefault(name, Uses())
            else:
                uses = around[-1][1]
            request = request_of(struct.request)
            self._used.append((struct.name_first, uses, request))
            if request.trait != Trait.LIST:
                uses.requests[request] = None
            elif struct.item_first:
                around.append((struct.item_end, uses.of_items()))
            else:
                uses.of_items().requests[PLAIN_DISPLAY] = None

    def _name_of(self, struct: c.Argument) -> str:
        return self._text[struct.name_first : struct.name_end].decode()

    def name_at(self, place: int) -> str:
        """The name of the argument whose name begins here."""
        return next((self._name_of(one) for one in self.structs if one.name_first == place), "")

    def used_at(self, place: int) -> Optional[Tuple[Uses, Request]]:
        """Whose value the argument writes that has the byte after its spec here, and how."""
        found = None
        for first, uses, request in self._used:
            if first > place:
                break
            found = uses, request
        if found and found[1].trait == Trait.LIST and found[0].items:
            # items that are displayed plainly
            return found[0].items, PLAIN_DISPLAY
        return found


def _arguments_of(text: bytes) -> List[c.Argument]:
    """The arguments of a format, of which each begins with a brace of its own."""
    places = (c.Argument * text.count(b"{"))()
    answer = c.library.interpolator_arguments(text, len(text), places, len(places))
    # a format that is not UTF-8 has none, and its fault is raised where it is used
    if answer.code == Code.NO_MEMORY:
        raise fault(Code.NO_MEMORY, SENTENCES[Code.NO_MEMORY])
    return places[: answer.length] if answer.code == 0 else []
