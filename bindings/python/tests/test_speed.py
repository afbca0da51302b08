"""The quick way, by the extension module, beside the way by ctypes: both make the same texts and faults, and
the quick way gives back its memory."""

from __future__ import annotations

import datetime
import decimal
import gc
import os
import random
import sys
import unittest
from typing import Any, Callable, Dict, List, Tuple
from unittest import mock

from interpolator import (
    Character, FormatError, Integer, Only, Plain, Template, ValueFailed, _plans, format,
)

SPECS = ("", ">9", "?", "x", ".2", "+08.1", "*^7", "e", ".1E", "#b", "X?", "<12?", ":", "i", "i({})(,)",
         "i({:.1}{a})({b})", "i#({:i({:>3})(;)})#(|)", "9i({:?})( )", "i1..-1", "i..2({:e})")

VALUES: Tuple[Any, ...] = ("Ann", "Zoë \U0001F600", "", "\ud800", 0, -1, 7, 2**63, 2**64 - 1, 2**64, -(2**63), -(2**63) - 1, 2**127,
          10**50, True, False, 0.0, -2.5, 1e300, float("nan"), None, decimal.Decimal("1.25"),
          datetime.date(2024, 2, 29), [], [1, "a", 2.5], (True, None), [[1, 2], [], ("x",)], [[[0.5]]],
          Plain("<b>"), Character("x"), Integer(-1, 8), Only(3, "display"), {"a": 1})


def outcome(call: Callable[[], Any]) -> Any:
    """What a call returns, or the fault that it raises."""
    try:
        return call()
    except FormatError as error:
        return type(error), error.code, error.place, error.message, error.picture, error.row


@unittest.skipUnless(_plans.HAS_SPEED, "there is no extension module")
class Speed(unittest.TestCase):
    def both(self, text: str, values: Dict[str, Any]) -> None:
        quick = outcome(lambda: Template(text).format_map(values))
        with mock.patch.object(_plans, "HAS_SPEED", False):
            self.assertEqual(outcome(lambda: Template(text).format_map(values)), quick)

    def test_each_value_under_each_spec(self) -> None:
        for spec in SPECS:
            for value in VALUES:
                with self.subTest(spec, value=value):
                    self.both(f"é{{v:{spec}}}{{a}}", {"v": value, "a": "x", "b": 0.5})

    def test_tables(self) -> None:
        chance = random.Random(1)
        cells = [value for value in VALUES if not isinstance(value, (list, tuple))]
        columns = {"a": Only(1, "display", "debug"), "b": 0.5, "c": ""}
        for _ in range(300):
            text = "".join(f"{{{name}:{chance.choice(SPECS[:12])}}} " for name in "abca"[: chance.randrange(5)])
            rows: List[Any] = [
                tuple(chance.choice(cells) for _ in "abc") for _ in range(chance.randrange(4))]
            rows += [dict(zip("cab", row)) for row in rows]
            quick = outcome(lambda: Template(text).rows(columns, rows))
            with mock.patch.object(_plans, "HAS_SPEED", False):
                self.assertEqual(outcome(lambda: Template(text).rows(columns, rows)), quick, (text, rows))

    def test_the_quick_way_is_taken(self) -> None:
        template = Template("{a:>5} {b:.2} {l:i({})(,)} {d:>12}")
        values = {"a": 1, "b": 0.5, "l": ["x", 2, [3]][:2], "d": datetime.date(2024, 2, 29)}
        with mock.patch.object(Template, "_fields_of", side_effect=AssertionError):
            self.assertEqual("    1 0.50 x,2   2024-02-29", template.format_map(values))

    def test_a_list_that_changes_while_it_is_laid_out(self) -> None:
        class Changing:
            def __init__(self, of: List[Any]) -> None:
                self.of = of

            def __format__(self, spec: str) -> str:
                self.of.clear()
                return "gone"

        values: List[Any] = ["a"]
        values += [Changing(values), "b" * 1000, "c"]
        self.assertEqual("a,gone", format("{l:i({})(,)}", l=values))
        rows: List[Any] = [[1, 2], [3, 4]]
        rows[0][0] = Changing(rows[0])
        self.assertRaises((IndexError, ValueError), Template("{a}{b}").rows, {"a": 1, "b": 1}, rows)

    def test_memory_is_given_back(self) -> None:
        class Failing:
            def __format__(self, spec: str) -> str:
                raise ValueError("it fails")

        template = Template("{a:>5} {b:.2} {c} {l:i({:?})(,)}")
        texts = [f"a text {number} é" for number in range(50)]

        def work() -> None:
            for text in texts:
                template.format(a=text, b=0.5, c=datetime.date(2024, 2, 29), l=[text, 1.5, [text]][:2])
                outcome(lambda: template.format(a=text, b=0.5, c=Failing(), l=[text]))
                outcome(lambda: template.rows({"a": "", "b": 0.5, "c": "", "l": ""}, []))
                Template("{a}{b}").rows({"a": "", "b": 0.5}, [(text, 0.5), {"a": text, "b": 1}])

        work()
        gc.collect()
        references = [sys.getrefcount(text) for text in texts]
        blocks = sys.getallocatedblocks()
        for _ in range(20):
            work()
        gc.collect()
        self.assertEqual(references, [sys.getrefcount(text) for text in texts])
        self.assertLess(sys.getallocatedblocks() - blocks, 500)

    def test_what_is_raised_is_passed_on(self) -> None:
        class Broken:
            def __format__(self, spec: str) -> str:
                raise RuntimeError("not a fault of the format")

        self.assertRaises(RuntimeError, format, "{x}", x=Broken())
        self.assertRaises(RuntimeError, Template("{x}").rows, {"x": 1}, [(Broken(),)])
        with self.assertRaises(ValueFailed):
            format("{x:x}", x=decimal.Decimal("0.5"))

    def test_it_can_be_switched_off(self) -> None:
        self.assertFalse(os.environ.get("INTERPOLATOR_CTYPES"))


if __name__ == "__main__":
    unittest.main()
