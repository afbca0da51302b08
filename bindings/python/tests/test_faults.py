"""Faults: their classes, places and pictures. The sentences are those of docs/DEFINITIONS.md."""

from __future__ import annotations

import decimal
import pickle
import random
import subprocess
import sys
import unittest
from pathlib import Path

import interpolator
from interpolator import (
    BrokenFormat, Code, FormatError, MissingTrait, MissingValue, NotUtf8, Template, Trait,
    UnsupportedOption, check, check_alone, explain, format,
)
from interpolator._templates import Source

PACKAGE = Path(interpolator.__file__).resolve().parent.parent


class Classes(unittest.TestCase):
    def raised(self, text: str, **values: object) -> FormatError:
        with self.assertRaises(FormatError) as raised:
            format(text, **values)
        return raised.exception

    def test_a_missing_value(self) -> None:
        error = self.raised("Grüße, {name}!")
        self.assertIsInstance(error, MissingValue)
        self.assertIsInstance(error, KeyError)
        self.assertIsInstance(error, ValueError)
        self.assertEqual(Code.MISSING_VALUE, error.code)
        # `ü` and `ß` have two bytes each
        self.assertEqual((10, 8), (error.place, error.index))
        self.assertEqual("specified value not in context `name` at 10", str(error))

    def test_a_broken_format(self) -> None:
        error = self.raised("日本 {name", name="")
        self.assertIsInstance(error, BrokenFormat)
        self.assertEqual((8, 4), (error.place, error.index))
        self.assertEqual(
            "error while parsing input: Format spec at 8 is nether closed with a `}`", str(error))

    def test_a_missing_trait(self) -> None:
        error = self.raised("{t:e}", t="")
        self.assertIsInstance(error, MissingTrait)
        self.assertEqual(Trait.LOWER_EXP, error.trait)
        self.assertEqual(
            "trait `LowerExp` not implemented, used by format argument at 4", str(error))

    def test_an_unsupported_option(self) -> None:
        error = self.raised("{t:p}", t=1)
        self.assertIsInstance(error, UnsupportedOption)
        self.assertEqual(3, error.place)

    def test_a_format_that_is_not_utf8(self) -> None:
        error = self.raised("\ud800{")
        self.assertIsInstance(error, NotUtf8)
        self.assertIsInstance(error, UnicodeError)
        self.assertEqual((Code.NOT_UTF8, 0), (error.code, error.place))
        self.assertRaises(NotUtf8, check_alone, "\udfff")
        self.assertRaises(NotUtf8, interpolator.cost, "\udfff", text_limit=1, items=1)

    def test_no_memory(self) -> None:
        # in a process of its own that may take 256 MB
        program = (
            "import resource, interpolator\n"
            "resource.setrlimit(resource.RLIMIT_AS, (2**28, 2**28))\n"
            "try:\n"
            "    interpolator.format('{t:>9999999999999}', t='')\n"
            "except MemoryError as error:\n"
            "    print(type(error).__name__, error.code.name, error)\n")
        done = subprocess.run(
            [sys.executable, "-c", program], cwd=PACKAGE, text=True, capture_output=True)
        self.assertEqual(("NoMemory NO_MEMORY out of memory\n", ""), (done.stdout, done.stderr))

    def test_faults_can_be_pickled(self) -> None:
        error = self.raised("é{t:x}", t="")
        copy = pickle.loads(pickle.dumps(error))
        self.assertIs(MissingTrait, type(copy))
        for name in ("message", "code", "place", "index", "picture", "trait"):
            self.assertEqual(getattr(error, name), getattr(copy, name))


class Checks(unittest.TestCase):
    def test_no_fault(self) -> None:
        check("{n:>5x} {t:?} {l:i({:.1})}", n=0, t="", l=[0.5, "a"])

    def test_a_group_that_is_not_written_is_checked(self) -> None:
        text = "{l:i({:x})}"
        self.assertEqual("", format(text, l=[]))
        self.assertRaises(MissingTrait, check, text, l=["a"])
        check(text, l=[1])

    def test_a_value_that_python_formats(self) -> None:
        half = decimal.Decimal("0.5")
        check("{x:>99999999999999.99999999999}", x=half)
        self.assertRaises(interpolator.ValueFailed, check, "{x:b}", x=half)

    def test_a_format_by_itself(self) -> None:
        check_alone("{a} {b:x} {c:i({d:e}{:?})({})} {:>5}")
        check_alone("{a:i##({:i#({:i({}{:x})})#})##}")
        check_alone("{a:>99999999999999}")
        for text, place in (("{a", 1), ("{a} {b:y}", 7), ("{a:i({)}", 6), ("{a:i(x)({b:+i})}", 13)):
            with self.subTest(text), self.assertRaises(BrokenFormat) as raised:
                check_alone(text)
            self.assertEqual(place, raised.exception.place)
        self.assertRaises(UnsupportedOption, check_alone, "{a:p}")


    def test_all_faults(self) -> None:
        text = "é{nane}{name:x}{l:i({:b})}{q"
        found = interpolator.faults(text, {"name": "Ann", "l": ["a"]})
        self.assertEqual(
            [("MISSING_VALUE", 3, 2), ("MISSING_TRAIT", 15, 14), ("MISSING_TRAIT", 24, 23),
             ("PARSE", 28, 27)],
            [(error.code.name, error.place, error.index) for error in found])
        self.assertEqual("specified value not in context `nane` at 3", found[0].message)
        self.assertEqual([], interpolator.faults("{name}", {"name": "Ann"}))
        named = interpolator.faults(text, name="Ann", l=["a"])
        self.assertEqual([str(error) for error in found], [str(error) for error in named])
        self.assertEqual([], interpolator.faults("{examples}", examples=1))
        self.assertRaises(TypeError, interpolator.faults, text, {"name": "Ann"}, l=["a"])
        self.assertRaises(NotUtf8, interpolator.faults, "\ud800")

    def test_a_message_of_several_lines(self) -> None:
        (found,) = interpolator.faults("{a\n}")
        self.assertEqual("specified value not in context `a\n` at 1", found.message)


# Arguments with and without faults, and what is between.
WHOLE = [
    "{nobody}", "{a:x}", "{ a :e}", "{a}", "{l:i({:x}{nobody})(, )}", "{l:i#({:i({})}{a:x})#({nobody})}",
    "{l:i({})}", "{l}", "{b\n}", "{\u202ec\t:>5}", "{a at 7}", "text", "é" * 40, "\n", "x" * 90, "\r\n",
]

# What also has arguments that are broken, which can end all later ones.
PARTS = WHOLE + [
    "{d é: (byte 1 of the format)}", "{a:q}", "{a:>", "{a:99999999999999999999}", "{l:+i}", "{l:i-}", "{a:p}",
    "{l:i({:x)}", "{l:i#({a}", "{", "}", "{{", "}}", "{}", "\\n", "(", ")", "\U0010ffff" * 200,
]


class Many(unittest.TestCase):
    """Many faults are shown by the pieces of their format."""

    def test_pieces_show_what_the_format_does(self) -> None:
        r = random.Random(76)
        examples = {"a": "Ann", "l": ["x"]}
        by_pieces = 0
        for number in range(200):
            parts = (r.choice(PARTS if part % 8 == number % 8 else WHOLE) for part in range(24))
            template = Template("".join(parts))
            fields = template._examples(examples)
            faults = template._numbers(fields)
            before = "first: 1 line\nkey é: "
            for source in (
                Source("<format>", template.text),
                # a name that is a sentence, too
                Source("specified value not in context `nobody` at 1", f"{before}{template.text}\nlast", 3, 21),
            ):
                told = template._by_pieces(source, examples, faults)
                if told is not None:
                    by_pieces += 1
                    wanted = [vars(error) for error in template._by_numbers(source, fields)]
                    self.assertEqual(wanted, [vars(error) for error in told], template.text)
        self.assertGreater(by_pieces, 200)

    def test_a_text_without_the_format(self) -> None:
        template = Template("{nobody}" * 20)
        source = Source("astray", template.text, 1, 8)
        faults = template._numbers(template._examples({}))
        self.assertIsNone(template._by_pieces(source, {}, faults))
        self.assertEqual(20, len(list(template.faults_in(source))))

    def test_2000(self) -> None:
        for text in ("{nobody} {a}\n{a:x}", "{nobody} {a}{a:x}"):
            template = Template(text * 1000)
            found = template.faults({"a": "Ann"})
            self.assertEqual(2000, len(found))
            for which in (0, 1, 1998, 1999):
                _, _, picture = template._explained(
                    template._examples({"a": "Ann"}), Source("<format>", template.text), which)
                self.assertEqual(picture, found[which].picture)


class Pictures(unittest.TestCase):
    def test_of_a_line(self) -> None:
        line = "é = Hello {name:x}"
        self.assertEqual(
            "m.txt:3:18: trait `LowerHex` not implemented, used by format argument at 13 "
            "(byte 13 of the format)\n"
            "  |\n"
            "3 | é = Hello {name:x}\n"
            "  |           ~~~~~~~^",
            Template(line[4:]).explain(
                {"name": "Ann"}, name="m.txt", first_line=3, text=line, start=4))

    def test_of_a_fault(self) -> None:
        with self.assertRaises(FormatError) as raised:
            format("one\n\tGrüße, {name:y}!", name="Ann")
        self.assertEqual(
            "<format>:2:15: error while parsing input: Expected `}` at 20\n"
            "  |\n"
            "2 | \tGrüße, {name:y}!\n"
            "  | \t       ~~~~~~^~~", raised.exception.picture)

    def test_of_a_check(self) -> None:
        wanted = (
            "hello.txt:8:8: error while parsing input: "
            "Format spec at 7 is nether closed with a `}`\n"
            "  |\n"
            "8 | Hello {name\n"
            "  |       ~^~~~")
        broken = "Hello {name"
        self.assertEqual(wanted, explain(broken, name="hello.txt", first_line=8))
        self.assertEqual(wanted, Template(broken).explain({}, name="hello.txt", first_line=8))
        self.assertIsNone(explain("Hello {name}", {"name": "Ann"}))

    def test_after_a_fault_that_is_not_written(self) -> None:
        # the first fault over these values as examples is in a group that is not written
        with self.assertRaises(MissingValue) as raised:
            format("{l:i({)}\n {x}", l=[])
        self.assertEqual(
            "<format>:2:3: specified value not in context `x` at 11\n"
            "  |\n"
            "2 |  {x}\n"
            "  |  ~^~", raised.exception.picture)

    def test_says_what_the_message_says(self) -> None:
        # of some formats two faults are at one place
        for text in ("{l:i({:i})}", "{l:i({:x})}", "{l:i({:i({:x})})}", "{l:i}", "{l:i({})({:b})}", "{l:?}{l:x}"):
            for value in ([1, "a"], ["a", [1]], [[1], "a", 2], 7, "a", [[["a"]]], [0.5]):
                try:
                    format(text, l=value)
                except FormatError as error:
                    with self.subTest(text, value=value):
                        self.assertIn(f": {error.message}\n", error.picture)

    def test_without_a_place(self) -> None:
        with self.assertRaises(NotUtf8) as raised:
            format("\ud800")
        self.assertEqual("<format>: not UTF-8", raised.exception.picture)
        with self.assertRaises(NotUtf8):
            explain("\ud800")


if __name__ == "__main__":
    unittest.main()
