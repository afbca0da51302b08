"""Values of each kind, under each trait. The texts are those of docs/DEFINITIONS.md and README.md,
or of Python's own `format()`."""

from __future__ import annotations

import datetime
import decimal
import enum
import fractions
import random
import unittest
import uuid
from typing import Any, List, NamedTuple

from interpolator import (
    Character, Code, Integer, MissingTrait, Only, Plain, TooDeep, Trait, ValueFailed,
    format, format_map, rows,
)


class OwnValues(unittest.TestCase):
    """Values that the library formats itself."""

    def test_parts_of_a_spec(self) -> None:
        values = {"t": "Ann", "n": 7, "l": ["a", "b", "c"]}
        for text, wanted in (
            ("{t:*^7}", "**Ann**"),
            ("{n:+}", "+7"),
            ("{n:#x}", "0x7"),
            ("{n:03}", "007"),
            ("{t:>5}", "  Ann"),
            ("{l:>9i({})(, )}", "  a, b, c"),
            ("{t:.2}", "An"),
            ("{t:?}", '"Ann"'),
            ("{l:i..-1({})(, )}", "a, b"),
            ("{l:i(<{}>)(, )}", "<a>, <b>, <c>"),
            ("{l:i#(({}))#}", "(a)(b)(c)"),
            ("{{n}} is {n}", "{n} is 7"),
        ):
            with self.subTest(text):
                self.assertEqual(wanted, format_map(text, values))

    def test_texts(self) -> None:
        self.assertEqual("Zoë", format("{t}", t="Zoë"))
        self.assertEqual("..日本", format("{t:.>4}", t="日本"))
        self.assertEqual("a\0b", format("{t}", t="a\0b"))
        self.assertEqual("", format("{t}", t=""))
        self.assertEqual("", format(""))
        self.assertEqual("é" * 5000, format("{t}", t="é" * 5000))
        self.assertEqual(r'"a\"\n\\"', format("{t:?}", t='a"\n\\'))

    def test_truth_values(self) -> None:
        self.assertEqual("true, false", format("{a}, {b}", a=True, b=False))
        self.assertEqual("  true", format("{a:>6?}", a=True))

    def test_whole_numbers_of_every_size(self) -> None:
        for number in (0, 1, -1, 2**31, -(2**31), 2**63 - 1, -(2**63), 2**63, 2**64 - 1, 2**64,
                       -(2**64), 2**127 - 1, -(2**127), 2**127, 2**128 - 1):
            with self.subTest(number):
                self.assertEqual(str(number), format("{n}", n=number))
                self.assertEqual(str(number).rjust(45), format("{n:45}", n=number))
                self.assertEqual(f"{number:+}", format("{n:+}", n=number))
                if number >= 0:
                    for kind in "xXob":
                        wanted = f"{number:{kind}}"
                        self.assertEqual(wanted, format(f"{{n:{kind}}}", n=number))

    def test_numbers_past_128_bits_go_by_python(self) -> None:
        for number in (2**128, -(2**127) - 1, 10**60, -(10**60)):
            with self.subTest(number):
                self.assertEqual(str(number), format("{n}", n=number))
                self.assertEqual(str(number), format("{n:?}", n=number))
                self.assertEqual(f"{number:+070}", format("{n:+070}", n=number))
                self.assertEqual(f"{number:#x}", format("{n:#x}", n=number))
                self.assertEqual(f"{number:x}", format("{n:x?}", n=number))

    def test_twos_complement_has_128_bits(self) -> None:
        self.assertEqual("f" * 32, format("{n:x}", n=-1))
        self.assertEqual("1" * 128, format("{n:b}", n=-1))
        self.assertEqual("FF", format("{n:X}", n=Integer(-1, bits=8)))
        self.assertEqual("fffe", format("{n:x}", n=Integer(-2, 16)))
        self.assertEqual("255", format("{n}", n=Integer(255, 8)))
        self.assertEqual("-9223372036854775808", format("{n}", n=Integer(-(2**63), 64)))

    def test_numbers_that_do_not_fit(self) -> None:
        self.assertRaises(OverflowError, Integer, 256, 8)
        self.assertRaises(OverflowError, Integer, -129, 8)
        self.assertRaises(OverflowError, Integer, 2**128)
        self.assertRaises(ValueError, Integer, 1, 7)

    def test_exponent_forms(self) -> None:
        self.assertEqual("1.234e3 1.2E3 0e0", format("{n:e} {n:.1E} {z:e}", n=1234, z=0))

    def test_characters_and_plain_texts(self) -> None:
        self.assertEqual("' ' \\'", format("{a:?} {b}", a=Character(" "), b=Plain("\\'")))
        self.assertEqual("<b>|<b>", format("{t:>9}|{t:?}", t=Plain("<b>")))
        self.assertRaises(ValueError, Character, "ab")

    def test_only_some_traits(self) -> None:
        self.assertEqual("7 0x7", format("{n} {n:#x}", n=Only(7, "display", "lower_hex")))
        with self.assertRaises(MissingTrait) as raised:
            format("{n:o}", n=Only(7, Trait.DISPLAY))
        self.assertEqual(Trait.OCTAL, raised.exception.trait)
        self.assertRaises(ValueError, Only, 7)
        self.assertRaises(ValueError, Only, 7, Trait.LIST)
        self.assertRaises(ValueError, Only, [7], Trait.DISPLAY)

    def test_texts_have_no_hexadecimal(self) -> None:
        with self.assertRaises(MissingTrait) as raised:
            format("é{t:x}", t="Ann")
        self.assertEqual(Trait.LOWER_HEX, raised.exception.trait)
        self.assertEqual((6, 5), (raised.exception.place, raised.exception.index))

    def test_a_text_with_a_lone_surrogate_fails(self) -> None:
        with self.assertRaises(ValueFailed) as raised:
            format("{t}", t="\ud800")
        self.assertEqual(2, raised.exception.place)


class Lists(unittest.TestCase):
    def test_lists_in_lists(self) -> None:
        rows = [[1, 2], (), [3]]
        self.assertEqual("1,2;;3", format("{rows:i#({:i({})(,)})#(;)}", rows=rows))

    def test_items_of_every_kind(self) -> None:
        items = ["a", 1, True, 2.5, None, Character("c")]
        self.assertEqual("a 1 true 2.5 None c", format("{l:i({})( )}", l=items))
        self.assertEqual("a1true2.5Nonec", format("{l:i}", l=items))

    def test_a_name_in_an_item_format_and_in_a_join(self) -> None:
        text = "{l:i({:.1}{unit:>3})({sep:.2})}"
        self.assertEqual("1.0 kg0.502.0 kg", format(text, l=[1.0, 2.0], unit="kg", sep=0.5))

    def test_the_join_of_a_list_in_a_list_has_the_outer_item(self) -> None:
        # the empty name of the inner join is the item around it, a list
        text = "{l:i#({:i({:>4})({:i0})})#(|)}"
        self.assertEqual(" 1.51.5 2.5| 3.5", format(text, l=[[1.5, 2.5], [3.5]]))

    def test_a_named_tuple_is_a_list(self) -> None:
        class Point(NamedTuple):
            x: float
            y: float

        self.assertEqual("1.50, 2.50", format("{p:i({:.2})(, )}", p=Point(1.5, 2.5)))

    def test_a_list_as_a_whole(self) -> None:
        self.assertEqual("[1, 'a']|[1, 'a']", format("{l}|{l:?}", l=[1, "a"]))
        self.assertEqual("    (1, 2)|12", format("{l:>10}|{l:i}", l=(1, 2)))
        self.assertEqual("[1] [2]", format("{l:i({:?})( )}", l=[[1], [2]]))
        self.assertRaises(MissingTrait, format, "{l:x}", l=[1])
        self.assertRaises(MissingTrait, format, "{n:i}", n=1)

    def test_lists_as_deep_as_the_format_looks(self) -> None:
        ring: List[Any] = []
        ring.append(ring)
        self.assertEqual(";", format("{l:i#({:i(x)(,)})#(;)}", l=[[], []]))
        self.assertEqual("x", format("{l:i#({:i(x)})#}", l=ring))
        text = "y"
        for depth in range(1, 70):
            fence = "#" * depth
            text = f"{{:i{fence}({text}){fence}}}"
        self.assertRaises(TooDeep, format_map, text, {"": ring})

    def test_many_items(self) -> None:
        numbers = list(range(2000))
        self.assertEqual(",".join(map(str, numbers)), format("{l:i({})(,)}", l=numbers))


class Colour(enum.IntEnum):
    RED = 1


class Money:
    """A type with a `__format__` of its own, which notes the specs that it is called with."""

    def __init__(self, cents: int) -> None:
        self.cents = cents
        self.specs: List[str] = []

    def __format__(self, spec: str) -> str:
        self.specs.append(spec)
        return f"{f'{self.cents / 100:.2f} €':{spec}}"

    def __repr__(self) -> str:
        return f"Money({self.cents})"


class OtherValues(unittest.TestCase):
    """Values that Python formats."""

    def test_floats(self) -> None:
        for text, wanted in (
            ("{x}", "3.14159"),
            ("{x:.2}", "3.14"),
            ("{x:8.2}", "    3.14"),
            ("{x:<8.2}|", "3.14    |"),
            ("{x:*^8.2}", "**3.14**"),
            ("{x:+.1}", "+3.1"),
            ("{x:+08.2}", "+0003.14"),
            ("{x:<08.2}", "00003.14"),
            ("{x:?}", "3.14159"),
            ("{x:.3?}", "3.142"),
            ("{x:.2e}", "3.14e0"),
            ("{x:.1E}", "3.1E0"),
            ("{x:e}", "3.14159e0"),
        ):
            with self.subTest(text):
                self.assertEqual(wanted, format(text, x=3.14159))

    def test_floats_without_a_number(self) -> None:
        infinite = float("inf")
        self.assertEqual(
            "inf NaN   -inf", format("{a} {b} {c:>6}", a=infinite, b=float("nan"), c=-infinite))

    def test_floats_as_rust_writes_them(self) -> None:
        # by rustc 1.95
        for number, wanted in (
            (0.0, "0 0.0 0e0"),
            (-0.0, "-0 -0.0 -0e0"),
            (1.0, "1 1.0 1e0"),
            (0.1, "0.1 0.1 1e-1"),
            (1e21, "1000000000000000000000 1e21 1e21"),
            (1e-7, "0.0000001 1e-7 1e-7"),
            (123456789012345680.0, "123456789012345680 1.2345678901234568e17 1.2345678901234568e17"),
            (5e-324, "0." + "0" * 323 + "5 5e-324 5e-324"),
        ):
            with self.subTest(number):
                self.assertEqual(wanted, format("{x} {x:?} {x:e}", x=number))
                self.assertEqual(format("{x:e}", x=number), format("{l:i({:e})}", l=[number]))
                self.assertEqual([format("{x:?}", x=number)], rows("{x:?}", {"x": 0.5}, [(number,)]))

    def test_digits_of_floats_are_those_of_python(self) -> None:
        numbers = random.Random(7)
        for _ in range(2000):
            number = numbers.choice((1.0, 1e3, 1e-9, 1e25)) * numbers.uniform(-1, 1)
            digits = numbers.randrange(20)
            self.assertEqual(f"{number:.{digits}f}", format(f"{{x:.{digits}}}", x=number))
            self.assertEqual(number, float(format("{x}", x=number)))
            self.assertEqual(number, float(format("{x:e}", x=number)))

    def test_a_type_derived_from_float(self) -> None:
        class Same(float):
            pass

        class Metres(float):
            def __str__(self) -> str:
                return f"{float(self)} m"

        self.assertEqual("2 2.0", format("{x} {x:?}", x=Same(2.0)))
        self.assertRaises(MissingTrait, format, "{x:x}", x=Same(2.0))
        self.assertEqual("2.0 m", format("{x}", x=Metres(2.0)))

    def test_decimals_and_fractions(self) -> None:
        price = decimal.Decimal("1234.505")
        self.assertEqual("  1234.50", format("{p:9.2}", p=price))
        self.assertEqual("1234.505", format("{p}", p=price))
        self.assertEqual("Decimal('1234.505')", format("{p:?}", p=price))
        self.assertEqual("1/3", format("{f}", f=fractions.Fraction(1, 3)))

    def test_dates_and_times(self) -> None:
        day = datetime.date(2024, 2, 29)
        self.assertEqual("2024-02-29", format("{d}", d=day))
        self.assertEqual("  2024-02-29", format("{d:>12}", d=day))
        self.assertEqual("2024", format("{d:.4}", d=day))
        self.assertEqual("datetime.date(2024, 2, 29)", format("{d:?}", d=day))
        self.assertEqual("2024-02-29 12:00:00", format("{d}", d=datetime.datetime(2024, 2, 29, 12)))
        self.assertEqual("12:30:00..", format("{d:.<10}", d=datetime.time(12, 30)))

    def test_types_that_do_not_say_how_they_are_formatted(self) -> None:
        one = uuid.UUID(int=1)
        self.assertEqual("None  ", format("{n:6}", n=None))
        self.assertEqual("00000000 ", format("{u:<9.8}", u=one))
        self.assertEqual("{'a': 1}", format("{d}", d={"a": 1}))
        self.assertEqual("NotImplemented", format("{x:?}", x=NotImplemented))

    def test_a_type_with_a_format_of_its_own(self) -> None:
        money = Money(1250)
        self.assertEqual(
            "12.50 €|  12.50 €|12.50 €|Money(1250)  ",
            format("{m}|{m:>9}|{m}|{m:13?}", m=money))
        # once for each spec
        self.assertEqual(["", ">9"], money.specs)

    def test_a_type_is_called_only_for_what_the_format_uses(self) -> None:
        money = Money(1250)
        self.assertEqual("", format("{l:i(x)}", l=[], m=money))
        self.assertEqual("xx", format("{l:i(x)}", l=[money, money]))
        self.assertEqual([], money.specs)

    def test_enums(self) -> None:
        self.assertEqual(f"{Colour.RED}", format("{c}", c=Colour.RED))
        self.assertEqual("<Colour.RED: 1>", format("{c:?}", c=Colour.RED))
        self.assertEqual("0x1", format("{c:#.2x}", c=Colour.RED))

    def test_a_text_with_a_repr_of_its_own(self) -> None:
        class Secret(str):
            def __repr__(self) -> str:
                return "Secret(..)"

        # a text ignores the sign, `#` and `0`
        self.assertEqual("pass|pas  |Secret(..)", format("{s}|{s:+#05.3}|{s:?}", s=Secret("pass")))

    def test_texts_and_numbers_that_say_how_they_are_shown(self) -> None:
        class Shouted(str):
            def __str__(self) -> str:
                return self.upper()

        class Counted(int):
            def __str__(self) -> str:
                return f"no. {int(self)}"

        class Priced(int):
            def __format__(self, spec: str) -> str:
                return f"{self / 100:{spec}} EUR"

        self.assertEqual(f"{Shouted('ab')}|AB..", format("{s}|{s:.<4}", s=Shouted("ab")))
        self.assertEqual(f"{Counted(7)}| no. 7", format("{n}|{n:>6}", n=Counted(7)))
        self.assertEqual("7e0 0x7", format("{n:e} {n:#x}", n=Counted(7)))
        self.assertEqual("12.50 EUR|   12.5 EUR", format("{p:.2}|{p:7}", p=Priced(1250)))
        self.assertEqual("NO. 7", format("{l:i}", l=[Shouted("no. 7")]))

    def test_an_exponent_has_one_form(self) -> None:
        class Own(int):
            def __repr__(self) -> str:
                return "Own"

        for number in (0, 5, -1200, 1250, 99950, 10**30 + 1):
            for spec in ("e", "E", ".0e", ".2E", "+.3e", "012.1e", "<12e", "*^+14.2e"):
                with self.subTest(number, spec=spec):
                    text = f"{{n:{spec}}}"
                    self.assertEqual(format(text, n=number), format(text, n=Own(number)))
        self.assertEqual("1e60 -1.3e60 1.50E129", format(
            "{a:e} {b:.1e} {c:.2E}", a=10**60, b=-125 * 10**58 - 1, c=15 * 10**128))
        self.assertEqual("f" * 31 + "e", format("{n:x}", n=Own(-2)))

    def test_a_value_that_fails(self) -> None:
        with self.assertRaises(ValueFailed) as raised:
            format("é {x:x}", x=decimal.Decimal("1.5"))
        error = raised.exception
        self.assertEqual((Code.FMT, 7, 6), (error.code, error.place, error.index))
        self.assertIsInstance(error.__cause__, ValueError)
        self.assertIn("invalid format", str(error.__cause__))

    def test_an_item_that_fails(self) -> None:
        with self.assertRaises(ValueFailed) as raised:
            format("{l:i({:b})}", l=[1, 2, decimal.Decimal("0.5")])
        self.assertIsInstance(raised.exception.__cause__, ValueError)
        self.assertEqual("110", format("{l:i..2({:b})}", l=[1, 2, decimal.Decimal("0.5")]))

    def test_a_plain_item_that_fails(self) -> None:
        class Bad:
            def __format__(self, spec: str) -> str:
                raise ValueError("bad")

        with self.assertRaises(ValueFailed) as raised:
            format("{l:i}", l=[Bad()])
        self.assertEqual("bad", str(raised.exception.__cause__))

    def test_other_exceptions_are_raised_as_they_are(self) -> None:
        class Broken:
            def __format__(self, spec: str) -> str:
                raise RuntimeError("not a fault of the format")

        self.assertRaises(RuntimeError, format, "{x}", x=Broken())
        self.assertEqual("", format("", x=Broken()))


if __name__ == "__main__":
    unittest.main()
