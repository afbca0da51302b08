"""The rows of the conformance suite that Python can express: the texts, faults, checks and
arguments of formats, and the texts of single values."""

from __future__ import annotations

import unittest
from typing import Any, Callable, Counter, Dict, List, Optional, Tuple

from interpolator import Code, FormatError, Only, Request, Template, Trait

from . import row_files
from .row_files import NotExpressible, Row, text_of

# How many facts of each kind are compared at least: as many as there were when this was written, so
# that none is left out unseen.
LEAST = {"text": 327, "fault": 198, "check": 163, "sample": 64, "names": 24, "arguments": 7,
         "argument": 53, "view": 147}

_NUMBER_FAULTS = {
    "Empty": "cannot parse integer from empty string",
    "InvalidDigit": "invalid digit found in string",
    "PosOverflow": "number too large to fit in target type",
    "NegOverflow": "number too small to fit in target type",
}


def trait_of(word: str) -> Trait:
    return Trait.LIST if word == "iter" else Trait[word.upper()]


def parse_fault(words: List[str]) -> Tuple[int, str]:
    """The place and the sentence of a fault of parsing."""
    kind = words.pop(0)
    if kind in _SENTENCES:
        text = text_of(words) if kind == "Expected" else ""
        place = words.pop(0)
        return int(place), _SENTENCES[kind].format(P=place, S=text)
    what = {"InvalidWidth": "width at {} as usize", "InvalidPrecision": "precision at {} as usize",
            "RangeBound": "range bound at {} as isize"}[kind]
    number, place = words.pop(0), words.pop(0)
    return int(place), f"Unable to parse {what.format(place)}: {_NUMBER_FAULTS[number]}"


_SENTENCES = {
    "FormatSpecUnclosed": "Format spec at {P} is nether closed with a `}}`",
    "Expected": "Expected `{S}` at {P}",
    "Fill": "Fill is not supported due to https://github.com/rust-lang/rfcs/pull/3394 at {P}",
    "Iter": "Width, precision, `-`, `+` and `#` are not supported for `i` at {P}",
}


def fault_of(words: List[str]) -> Optional[Tuple[Code, int, str]]:
    """The code, the place and the sentence of a fault, as docs/DEFINITIONS.md has them; None of
    `ok`."""
    words = list(words)
    kind = words.pop(0)
    if kind == "ok":
        return None
    if kind == "Parse":
        at, text = parse_fault(words)
        return Code.PARSE, at, f"error while parsing input: {text}"
    if kind == "MissingValue":
        name, place = text_of(words), words.pop(0)
        return Code.MISSING_VALUE, int(place), f"specified value not in context `{name}` at {place}"
    if kind == "MissingTraitImpl":
        trait, place = words
        name = "Iter" if trait == "iter" else trait.title().replace("_", "")
        return (Code.MISSING_TRAIT, int(place),
                f"trait `{name}` not implemented, used by format argument at {place}")
    if kind == "Fmt":
        place = words.pop(0)
        return (Code.FMT, int(place), f"error while formatting at {place}: an error occurred when "
                "formatting an argument")
    if kind == "UnsupportedOption":
        option, feature, place = text_of(words), text_of(words), words.pop(0)
        return (Code.UNSUPPORTED, int(place),
                f"option `{option}` is not supported without feature `{feature}` at {place}")
    raise NotExpressible(kind)


def raised(call: Callable[[], Any]) -> Optional[Tuple[Code, int, str]]:
    """The fault that a call raises."""
    try:
        call()
    except FormatError as error:
        return error.code, error.place, error.message
    return None


def request_of(trait: Trait, words: List[str]) -> Request:
    """A trait, and a spec as the rows write it."""
    words = list(words)
    request = Request(trait)
    while words:
        word = words.pop(0)
        if word == "fill":
            request = request._replace(fill=text_of(words))
        elif word in ("<", "^", ">"):
            request = request._replace(alignment=word)
        elif word in ("+", "-"):
            request = request._replace(sign=word)
        elif word == "#":
            request = request._replace(alternate=True)
        elif word == "0":
            request = request._replace(zero=True)
        elif word in ("width", "precision"):
            number = int(words.pop(0))
            request = (request._replace(width=number) if word == "width"
                       else request._replace(precision=number))
        else:
            request = request._replace(hex_debug=word[0])
    return request


_LETTERS = {"debug": "?", "display": "", "binary": "b", "octal": "o", "lower_hex": "x",
            "upper_hex": "X", "lower_exp": "e", "upper_exp": "E"}


def spec_text(trait: str, request: Request) -> str:
    """The spec as a format has it."""
    if request.fill is not None and (request.fill in "{}" or not request.alignment):
        raise NotExpressible("a fill that no format has")
    if trait == "iter":
        raise NotExpressible("a list")
    if request.hex_debug and trait != "debug":
        raise NotExpressible("a debug flag without debug")
    parts = [
        (request.fill or "") + request.alignment,
        request.sign,
        "#" if request.alternate else "",
        "0" if request.zero else "",
        "" if request.width is None else str(request.width),
        "" if request.precision is None else f".{request.precision}",
        request.hex_debug + _LETTERS[trait],
    ]
    return "".join(parts)


class Rows(unittest.TestCase):
    """Each row is a case of its own."""

    counts: Dict[str, int]

    def test_rows(self) -> None:
        self.counts = Counter()
        ran, total = 0, 0
        for row in row_files.rows():
            before = sum(self.counts.values())
            with self.subTest(row.where):
                try:
                    self.run_row(row)
                except NotExpressible:
                    pass
            total += 1
            ran += sum(self.counts.values()) > before
        facts = ", ".join(f"{self.counts[kind]} {kind}" for kind in LEAST)
        print(f"\nrows that ran: {ran} of {total} (compared: {facts})")
        for kind, least in LEAST.items():
            self.assertGreaterEqual(self.counts[kind], least, kind)

    def run_row(self, row: Row) -> None:
        if "format" in row.facts:
            self.run_format(row)
        elif "argument" in row.facts:
            self.run_argument(row)
        elif "view" in row.facts:
            self.run_view(row)

    def run_format(self, row: Row) -> None:
        facts = row.facts
        template = Template(text_of(list(facts["format"])))
        if "check" in facts:
            self.assertEqual(fault_of(facts["check"]), raised(template.check_alone))
            self.counts["check"] += 1
        if "names" in facts:
            words = list(facts["names"])
            names: Dict[str, None] = {}
            while words:
                names[text_of(words)] = None
            self.assertEqual(tuple(names), template.names)
            self.counts["names"] += 1
        if "arguments" in facts:
            self.run_arguments(list(facts["arguments"]), template)
        if row.missing & set(template.names):
            raise NotExpressible("several views, or none")
        if "sample" in facts:
            wanted = fault_of(facts["sample"])
            self.assertEqual(wanted, raised(lambda: template.check_map(row.values)))
            self.counts["sample"] += 1
        if not facts.keys() & {"room", "bytes", "line"} and facts.keys() & {"text", "fault"}:
            self.run_text(row, template)

    def run_text(self, row: Row, template: Template) -> None:
        if "fault" in row.facts:
            wanted = fault_of(row.facts["fault"])
            self.assertEqual(wanted, raised(lambda: template.format_map(row.values)))
            self.counts["fault"] += 1
        else:
            wanted_text = text_of(list(row.facts["text"]))
            self.assertEqual(wanted_text, template.format_map(row.values))
            self.counts["text"] += 1

    def run_arguments(self, words: List[str], template: Template) -> None:
        wanted = []
        while words:
            wanted.append((text_of(words), int(words.pop(0))))
        self.assertEqual(wanted, [(one.name, one.place) for one in template.arguments])
        self.counts["arguments"] += 1

    def run_argument(self, row: Row) -> None:
        facts = row.facts
        template = Template(text_of(list(facts["argument"])))
        if "fault" in facts:
            raise NotExpressible("an argument that is broken")
        words = list(facts["name"])
        name, place = text_of(words), int(words.pop(0))
        found = [one for one in template.arguments if one.place == place]
        if not found:
            raise NotExpressible("an argument that is in no format")
        request = request_of(trait_of(facts["trait"][0]), facts.get("spec", []))
        groups = []
        for group in ("item", "join"):
            groups.append(text_of(list(facts[group])) if group in facts else None)
        self.assertEqual((name, request, *groups),
                         (found[0].name, found[0].request, found[0].item, found[0].join))
        self.counts["argument"] += 1

    def run_view(self, row: Row) -> None:
        facts = row.facts
        if "room" in facts:
            raise NotExpressible("a room")
        trait = facts["trait"][0]
        spec = spec_text(trait, request_of(trait_of(trait), facts.get("spec", [])))
        view = Only(row_files.view_of(list(facts["view"])), trait)
        template = Template(f"{{x:{spec}}}")
        if "fault" in facts:
            code = {"Failed": Code.FMT, "NotImplemented": Code.MISSING_TRAIT}[facts["fault"][0]]
            place = len(f"{{x:{spec}".encode())
            found = raised(lambda: template.format(x=view))
            self.assertEqual((code, place), found and found[:2])
        else:
            self.assertEqual(text_of(list(facts["text"])), template.format(x=view))
        self.counts["view"] += 1


if __name__ == "__main__":
    unittest.main()
