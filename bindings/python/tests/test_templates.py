"""Templates: arguments, tables, costs, and threads."""

from __future__ import annotations

import datetime
import decimal
import itertools
import pickle
import sqlite3
import threading
import unittest
from collections import ChainMap, defaultdict
from typing import Any, Dict, Iterator, List, Tuple

import interpolator
from interpolator import (
    Cost, FormatError, MissingTrait, MissingValue, Only, Plain, Request, Template, Trait, ValueFailed,
    rows,
)


class Arguments(unittest.TestCase):
    def test_names_and_requests(self) -> None:
        template = Template("é{a:*<+#012.3x} {b:X?}{a}")
        first, second, third = template.arguments
        self.assertEqual(
            Request(Trait.LOWER_HEX, "*", "<", "+", True, True, "", 12, 3), first.request)
        self.assertEqual(("a", 3, 2), (first.name, first.place, first.index))
        self.assertEqual(Request(Trait.DEBUG, hex_debug="X"), second.request)
        self.assertEqual(Request(), third.request)
        self.assertEqual(("a", "b"), template.names)

    def test_groups(self) -> None:
        template = Template("{l:i..2#({:>3}{u})#(, {v})}{w:i()}{x:i}")
        self.assertEqual(
            ["l", "", "u", "v", "w", "x"], [one.name for one in template.arguments])
        self.assertEqual(("l", "u", "v", "w", "x"), template.names)
        self.assertEqual(
            [("{:>3}{u}", ", {v}"), ("", None), (None, None)],
            [(one.item, one.join) for one in template.arguments if one.request.trait == Trait.LIST])

    def test_a_broken_format(self) -> None:
        self.assertEqual(("a",), Template("{a} {b").names)
        self.assertEqual((), Template("\ud800{a}").arguments)

    def test_equal_templates(self) -> None:
        self.assertEqual(Template("{a}"), Template("{a}"))
        self.assertNotEqual(Template("{a}"), Template("{b}"))
        self.assertEqual(1, len({Template("{a}"), Template("{a}")}))
        self.assertEqual("Template('{a}')", repr(Template("{a}")))

    def test_names_that_are_parameters(self) -> None:
        values = {"self": 1, "text": 2, "values": 3, "name": 4, "mapping": 5}
        text = "{self}{text}{values}{name}{mapping}"
        self.assertEqual("12345", interpolator.format(text, **values))
        self.assertEqual("12345", Template(text).format(**values))
        interpolator.check(text, **values)
        Template(text).check(**values)


class Lazy(Dict[str, Any]):
    """A mapping that notes what is looked up."""

    def __init__(self) -> None:
        self.asked: List[str] = []

    def __missing__(self, name: str) -> str:
        self.asked.append(name)
        if name == "none":
            raise KeyError(name)
        return name.upper()


class Mappings(unittest.TestCase):
    def test_what_the_format_names_is_looked_up_once(self) -> None:
        values = Lazy()
        text = "{a} {b} {a:?} {l:i({c})}"
        self.assertRaises(MissingTrait, Template(text).format_map, values)
        self.assertEqual(["a", "b", "l", "c"], values.asked)
        self.assertEqual("A B", interpolator.format_map("{a} {b}", Lazy()))
        self.assertEqual("x", interpolator.format_map("{y}", defaultdict(lambda: "x")))
        self.assertEqual("1 2", interpolator.format_map("{a} {b}", ChainMap({"a": 1}, {"b": 2})))

    def test_any_mapping(self) -> None:
        class Squares:
            def __getitem__(self, name: str) -> int:
                return int(name) ** 2

        self.assertEqual("9 16", interpolator.format_map("{3} {4}", Squares()))  # type: ignore[arg-type]
        interpolator.check_map("{3:x}", Squares())  # type: ignore[arg-type]
        self.assertEqual([], interpolator.faults("{a}", defaultdict(int)))

    def test_a_name_that_is_not_there(self) -> None:
        with self.assertRaises(MissingValue) as raised:
            interpolator.format_map("{a}{none}", Lazy())
        self.assertEqual(4, raised.exception.place)
        self.assertIsInstance(raised.exception.__cause__, KeyError)

    def test_an_unused_value_is_not_looked_at(self) -> None:
        ring: List[Any] = []
        ring.append(ring)
        self.assertEqual("1", interpolator.format("{a}", a=1, b=ring, c="\ud800"))


class Texts(unittest.TestCase):
    def test_a_format_that_is_no_text(self) -> None:
        for text in (b"{a}", None, 7, ["{a}"]):
            for call in (interpolator.format, interpolator.check, interpolator.check_alone,
                         interpolator.faults, interpolator.explain, Template):
                with self.subTest(text, call=call), self.assertRaisesRegex(TypeError, "a format is a str"):
                    call(text)  # type: ignore[operator]
            self.assertRaises(TypeError, rows, text, {}, [])

    def test_a_long_format_is_not_kept(self) -> None:
        self.assertEqual("x" * 9999 + "1", interpolator.format("x" * 9999 + "{a}", a=1))


class Tables(unittest.TestCase):
    def test_a_table(self) -> None:
        columns = {"item": "bread", "price": 1.0, "day": datetime.date(2024, 1, 1)}
        cells = [("tea", 3.5, datetime.date(2024, 2, 29)), ("é", 12, "-")]
        self.assertEqual(
            ["tea     3.50 2024-02-29", "é         12 -         "],
            rows("{item:<6}{price:>6.2} {day:10}", columns, cells))

    def test_columns_as_pairs(self) -> None:
        self.assertEqual(["x!", "!"], rows("{}!", [("", "a")], [["x"], [""]]))
        self.assertEqual([], rows("{a}", {"a": 1}, []))
        self.assertEqual(["", ""], rows("", {}, [(), ()]))

    def test_what_are_no_columns(self) -> None:
        no_columns: List[Any] = [
            ["a", "b"], ["ab"], "ab", ("a", 1), [("a",)], [("a", 1, 2)], [(1, 2)], [None]]
        for columns in no_columns:
            with self.subTest(columns):
                self.assertRaisesRegex(TypeError, "^columns are ", rows, "{a}", columns, [])

    def test_many_rows(self) -> None:
        cells = [(n, str(n)) for n in range(3000)]
        wanted = [f"{n:>5}{n}" for n in range(3000)]
        self.assertEqual(wanted, rows("{a:>5}{b}", {"a": 0, "b": ""}, cells))

    def test_long_rows(self) -> None:
        self.assertEqual(["é" * 9000] * 2, rows("{t}{t}{t}", {"t": ""}, [["é" * 3000]] * 2))

    def test_faults(self) -> None:
        self.assertRaises(MissingValue, rows, "{b}", {"a": 1}, [])
        self.assertRaises(MissingTrait, rows, "{a:x}", {"a": 1}, [(1,), ("b",)])
        self.assertRaisesRegex(
            ValueError, "row 1 has 2 cells, not 1", rows, "{a}", {"a": 1}, [(1,), (1, 2)])
        self.assertRaisesRegex(
            TypeError, "row 1 has a list", rows, "{a}", {"a": 1}, [(1,), ([],)])
        self.assertRaises(TypeError, rows, "{a}", {"a": []}, [])
        with self.assertRaises(ValueFailed) as raised:
            rows("{a:b}", {"a": 1}, [(1,), (decimal.Decimal("0.5"),)])
        self.assertIsInstance(raised.exception.__cause__, ValueError)

    def test_rows_by_names(self) -> None:
        columns = {"name": "", "n": 0}
        people = [{"name": "Ann", "n": 1}, {"n": 2, "name": "Zoë", "more": None}]
        self.assertEqual(["Ann: 1", "Zoë: 2"], rows("{name}: {n}", columns, people))
        self.assertEqual(
            ["Ann: 1", "Zoë: 2", "Eve: 3"], rows("{name}: {n}", columns, [*people, ("Eve", 3)]))
        # what the format does not use may be missing
        self.assertEqual(["Ann", "Eve"], rows("{name}", columns, [{"name": "Ann"}, {"name": "Eve"}]))
        kept = defaultdict(lambda: "?", name="Bob")
        self.assertEqual(["Bob ?"], rows("{name} {n}", columns, [kept]))
        self.assertEqual(["Bob 1"], rows("{name} {n}", columns, [ChainMap({"n": 1}, kept)]))
        self.assertEqual(["1"], rows("{a}", [("a", 1), ("b", 2)], iter([[1, 5]])))
        with self.assertRaisesRegex(ValueError, "row 1 has no cell `n`"):
            rows("{name}: {n}", columns, [people[0], {"name": "Bob"}])

    def test_rows_of_a_database(self) -> None:
        made = sqlite3.connect(":memory:")
        made.row_factory = sqlite3.Row
        found = made.execute("select 2 as n, 'Ann' as name union select 3, 'Bob' order by 1")
        self.assertEqual(["Ann: 2", "Bob: 3"], rows("{name}: {n}", {"name": "", "n": 0}, found))
        made.close()

    def test_what_is_no_row(self) -> None:
        no_rows: Tuple[Any, ...] = ("ab", b"ab", {"a", "b"}, 7, None)
        for row in no_rows:
            with self.subTest(row), self.assertRaisesRegex(TypeError, "row 1 is no tuple and no dict"):
                rows("{a}{b}", {"a": "", "b": ""}, [("x", "y"), row])

    def test_a_fault_says_its_row(self) -> None:
        good: List[Tuple[Any]] = [(n,) for n in range(5000)]
        with self.assertRaises(MissingTrait) as raised:
            rows("{a:x}", {"a": 1}, [*good, ("b",)])
        error = raised.exception
        self.assertEqual((5000, "trait `LowerHex` not implemented, used by format argument at 4, in row 5000"),
                         (error.row, str(error)))
        self.assertEqual(5000, pickle.loads(pickle.dumps(error)).row)
        with self.assertRaises(ValueFailed) as failed:
            rows("{a:b}", {"a": 1}, [*good, (decimal.Decimal("0.5"),), ("c",)])
        self.assertEqual(5000, failed.exception.row)
        self.assertIsInstance(failed.exception.__cause__, ValueError)
        with self.assertRaises(MissingTrait) as first:
            rows("{a:x}", {"a": 1}, [("b",)])
        self.assertEqual(0, first.exception.row)
        with self.assertRaises(MissingTrait) as column:
            rows("{a:x}", {"a": ""}, [(1,)])
        self.assertIsNone(column.exception.row)

    def test_a_row_is_laid_out_when_it_comes(self) -> None:
        def endless() -> Iterator[Tuple[object]]:
            for number in itertools.count():
                yield (number if number < 3000 else "x",)

        with self.assertRaises(MissingTrait) as raised:
            rows("{a:x}", {"a": 1}, endless())
        self.assertEqual(3000, raised.exception.row)

    def test_values_in_tables(self) -> None:
        cells = [(True, 2**100, decimal.Decimal("1.5"), Plain("<b>")), (None, -(2**64), "é", 10**60)]
        self.assertEqual(
            ["true|1267650600228229401496703205376| 1.5|<b>",
             f"None|-18446744073709551616|   é|1{'0' * 60}"],
            rows("{a}|{b}|{c:>4}|{d}", {"a": 1, "b": 1, "c": 1, "d": 1}, cells))

    def test_pictures_of_faults(self) -> None:
        with self.assertRaises(MissingTrait) as raised:
            rows("a: {a:x}", {"a": 1}, [(1,), ("b",)])
        self.assertEqual(
            "<format>:1:8: trait `LowerHex` not implemented, used by format argument at 7\n"
            "  |\n"
            "1 | a: {a:x}\n"
            "  |    ~~~~^", raised.exception.picture)

    def test_traits_of_cells(self) -> None:
        self.assertRaises(MissingTrait, rows, "{a:?}", {"a": 1}, [(Only(1, "display"),)])


class Costs(unittest.TestCase):
    def test_costs(self) -> None:
        # docs/USING.md: a text under `{:?}` costs six times the limit, and two
        self.assertEqual(122, Template("{a:?}").cost(text=20, items=0).characters)
        # and eight nested lists of ten items with empty formats cost no character, but 111,111,111
        # pieces
        text = ""
        for depth in range(1, 9):
            fence = "#" * depth
            name = "" if depth < 8 else "l"
            text = f"{{{name}:i{fence}({text}){fence}}}"
        self.assertEqual(
            Cost(0, 111_111_111, 0), interpolator.cost(text, text_limit=20, items=10))

    def test_limits(self) -> None:
        most = 2**64 - 1
        self.assertEqual(most, Template("{a}").cost(text=2**70, items=1).characters)
        self.assertRaises(ValueError, Template("{a}").cost, text=-1, items=0)
        # a list under a width is held: two items, of which each may be a number of 39 digits and a
        # sign, and a join
        self.assertEqual(82, Template("{l:9i({})(, )}").cost(text=3, items=2).buffered)


class Threads(unittest.TestCase):
    def test_threads(self) -> None:
        template = Template("{n:>8} {l:i({:.1})(,)} {t:?}")
        faults = []

        def work(number: int) -> None:
            for n in range(200):
                text = template.format(n=n * number, l=[0.5] * number, t="é")
                wanted = f'{n * number:>8} {",".join(["0.5"] * number)} "é"'
                if text != wanted:
                    faults.append(text)

        threads = [threading.Thread(target=work, args=(number,)) for number in range(8)]
        for thread in threads:
            thread.start()
        for thread in threads:
            thread.join()
        self.assertEqual([], faults)


if __name__ == "__main__":
    unittest.main()
