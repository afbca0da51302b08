"""How the library is found, and what is said if it is not the right one."""

from __future__ import annotations

import ctypes
import ctypes.util
import os
import re
import shutil
import subprocess
import sys
import tempfile
import unittest
from pathlib import Path
from typing import Any
from unittest import mock

import interpolator
from interpolator import _library

PACKAGE = Path(interpolator.__file__).resolve().parent.parent


def imported_with(library: str) -> "subprocess.CompletedProcess[str]":
    return subprocess.run(
        [sys.executable, "-c", "import interpolator"], cwd=PACKAGE, text=True,
        env={**os.environ, "INTERPOLATOR_LIBRARY": library}, capture_output=True)


HEADER = Path(__file__).resolve().parent.parent.parent / "c" / "interpolator.h"

STRUCTS = (_library.Bytes, _library.Request, _library.Lent, _library.Field, _library.Answer,
           _library.Source, _library.CostAnswer, _library.Fault, _library.Argument, _library.Sizes)


def c_name(struct: Any) -> str:
    """What the header calls a struct."""
    return "interpolator_" + re.sub("(?<!^)(?=[A-Z])", "_", struct.__name__).lower()


class Library(unittest.TestCase):
    @unittest.skipUnless(shutil.which("cc") and HEADER.is_file(), "there is no C compiler or no header")
    def test_sizes_and_offsets(self) -> None:
        wanted, lines = [], ['#include "interpolator.h"', "#include <stdio.h>", "int main(void) {"]
        for struct in STRUCTS:
            parts = [("sizeof(%s)" % c_name(struct), ctypes.sizeof(struct))]
            for name, *_ in struct._fields_:
                parts.append((f"offsetof({c_name(struct)}, {name})", getattr(struct, name).offset))
                parts.append((f"sizeof((({c_name(struct)} *)0)->{name})", getattr(struct, name).size))
            for told, number in parts:
                lines.append(f'printf("{told} %lu\\n", (unsigned long){told});')
                wanted.append(f"{told} {number}")
        with tempfile.TemporaryDirectory() as room:
            source = Path(room, "layout.c")
            source.write_text("\n".join([*lines, "return 0; }"]))
            subprocess.run(["cc", f"-I{HEADER.parent}", str(source), "-o", f"{room}/layout"], check=True)
            found = subprocess.run([f"{room}/layout"], check=True, capture_output=True, text=True)
        self.assertEqual(wanted, found.stdout.splitlines())
        self.assertGreater(len(wanted), 90)

    def test_one_that_is_not_there(self) -> None:
        done = imported_with("/nowhere/libinterpolator.so")
        self.assertEqual(1, done.returncode)
        self.assertIn("ImportError: the library libinterpolator.so was not found", done.stderr)
        self.assertIn("/nowhere/libinterpolator.so", done.stderr)

    @unittest.skipUnless(ctypes.util.find_library("c"), "there is no other library")
    def test_another_library(self) -> None:
        done = imported_with(ctypes.util.find_library("c") or "")
        self.assertEqual(1, done.returncode)
        self.assertIn("is not the library of interpolator", done.stderr)

    def test_another_version(self) -> None:
        with mock.patch.object(_library, "VERSION", 99):
            with self.assertRaisesRegex(ImportError, "has version 1 of the calls, not 99"):
                _library.load()

    def test_another_layout(self) -> None:
        layout = {**_library._layout(), "field_kind": 4}
        with mock.patch.object(_library, "_layout", return_value=layout):
            with self.assertRaisesRegex(ImportError, "otherwise: field_kind is 48, not 4"):
                _library.load()


if __name__ == "__main__":
    unittest.main()
