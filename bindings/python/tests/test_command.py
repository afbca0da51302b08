"""`python -m interpolator` on files: it is `catalogue --check`, whose own cases say what that finds."""

from __future__ import annotations

import os
import subprocess
import sys
import tempfile
import unittest
from pathlib import Path
from typing import Tuple

import interpolator
from interpolator.__main__ import candidates

PACKAGE = Path(interpolator.__file__).resolve().parent.parent

# A program that says what it is called with.
ECHO = """\
#!/bin/sh
printf '<%s>' "$@"
echo fault >&2
exit $#
"""


class Command(unittest.TestCase):
    def setUp(self) -> None:
        room = tempfile.TemporaryDirectory()
        self.addCleanup(room.cleanup)
        self.room = Path(room.name)

    def run_on(self, *words: str, **variables: str) -> Tuple[int, str, str]:
        """The exit status, and what is on standard output and standard error."""
        paths = [str(PACKAGE), os.environ.get("PYTHONPATH", "")]
        environment = {**os.environ, "PYTHONPATH": os.pathsep.join(filter(None, paths)), **variables}
        done = subprocess.run(
            [sys.executable, "-m", "interpolator", *words],
            cwd=self.room, env=environment, capture_output=True)
        return done.returncode, done.stdout.decode(), done.stderr.decode()

    def write(self, name: str, text: str) -> Path:
        path = self.room / name
        path.write_bytes(text.encode())
        return path

    def test_how_the_program_is_called(self) -> None:
        program = self.write("echo", ECHO)
        program.chmod(0o755)
        called = self.run_on("a.txt", "b c.txt", INTERPOLATOR_CATALOGUE=str(program))
        self.assertEqual((3, "<--check><a.txt><b c.txt>", "fault\n"), called)

    def test_without_the_program(self) -> None:
        status, out, err = self.run_on("a.txt", INTERPOLATOR_CATALOGUE="/nowhere/catalogue")
        self.assertEqual((3, ""), (status, out))
        self.assertIn("there is no /nowhere/catalogue: build the program", err)

    def test_wrong_command_lines(self) -> None:
        for words in ((), ("--no-such", "a.txt")):
            status, out, err = self.run_on(*words)
            self.assertEqual((2, ""), (status, out))
            self.assertIn("usage: python -m interpolator", err)
        status, out, _ = self.run_on("--help")
        self.assertEqual(0, status)
        self.assertIn("Checks each message", out)

    @unittest.skipUnless(
        any(path.is_file() for path in candidates()), "the program catalogue is not built")
    def test_files(self) -> None:
        self.write("m.txt", "# greetings\n\nhello = Hello {name}!\ncart(name, n:, l[]) = {name}: {n:03}, {l:i}\n")
        self.assertEqual((0, "", ""), self.run_on("m.txt"))
        self.write("é.txt", "a(name) = {nmae}\nb = {x")
        status, out, err = self.run_on("m.txt", "é.txt")
        self.assertEqual((1, ""), (status, out))
        self.assertIn("é.txt:1:12: specified value not in context `nmae` at 1", err)
        self.assertIn("é.txt:2:6: ", err)
        self.assertEqual(3, self.run_on("none.txt")[0])


if __name__ == "__main__":
    unittest.main()
