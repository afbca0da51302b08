"""The pieces of a format that has many faults: each an argument with what follows it, and the part of
the text that a picture shows around it. The library reads a piece once for each of its faults, and so
not the whole format for each fault."""

from __future__ import annotations

from typing import Iterator, List, NamedTuple

from . import _library as c

# How many bytes of a line are kept on each side of a piece. That are more than the 120 characters that
# a picture shows at most.
_AROUND = 512


class Piece(NamedTuple):
    """A piece of a format."""

    first: int
    """the byte of the format at which it begins"""
    characters: int
    """how many characters of the format come before it"""
    format: bytes
    text: bytes
    """the text around it"""
    start: int
    """the byte of that text at which it begins"""
    line: int
    """the number of the line in which it begins"""
    left_out: int
    """how many characters of that line come before the text"""


def pieces_of(
    format: bytes, structs: List[c.Argument], text: bytes, first_line: int, start: int
) -> Iterator[Piece]:
    """The pieces of a format that begins at a byte of a text, whose first line has this number."""
    firsts = _firsts(format, structs)
    characters, at = 0, start
    number = first_line + text.count(b"\n", 0, start)
    line = text.rfind(b"\n", 0, start) + 1
    column = len(text[line:start].decode())
    for first, end in zip(firsts, [*firsts[1:], len(format)]):
        passed = text[at : start + first]
        newline = passed.rfind(b"\n") + 1
        characters += len(passed.decode())
        number += passed.count(b"\n")
        column = len(passed[newline:].decode()) + (0 if newline else column)
        line = at + newline if newline else line
        at = start + first
        begin = _boundary(text, max(line, at - _AROUND))
        until = _boundary(text, start + end + _AROUND)
        newline = text.find(b"\n", start + end, until) + 1
        around = text[begin : newline or until]
        left_out = column - len(text[begin:at].decode())
        yield Piece(first, characters, format[first:end], around, at - begin, number, left_out)


def _boundary(text: bytes, place: int) -> int:
    """The place, or the first before it at which a character begins."""
    place = min(place, len(text))
    while place < len(text) and text[place] & 0xC0 == 0x80:
        place -= 1
    return place


def _firsts(format: bytes, structs: List[c.Argument]) -> List[int]:
    """Where the pieces begin: at the front of the format, and at each argument that is in no other's
    group."""
    firsts, end = [0], 0
    for struct in structs:
        if struct.name_first >= end:
            end = max(struct.name_end, struct.item_end, struct.join_end)
            # between the brace and the name there is at most white space
            first = format.rindex(b"{", 0, struct.name_first)
            firsts += [first] if first else []
    return firsts
