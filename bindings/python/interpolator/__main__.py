"""`python -m interpolator FILE ..` checks files of messages, by the program `catalogue --check`, which is
proved.

The program is the file that the environment variable `INTERPOLATOR_CATALOGUE` names; without that, the one
beside the modules, where pip puts it if it was built; else that of `crates/catalogue`.
"""

from __future__ import annotations

import argparse
import os
import subprocess
import sys
from pathlib import Path
from typing import List, Optional, Sequence

NO_PROGRAM = 3

_HERE = Path(__file__).resolve().parent

_DESCRIPTION = """\
Checks each message of some files: lines `key = format`, or `key(name, n:, price:., items[]) = format`, which
declare what the format is given. Each fault is shown in its line, on standard error.
"""

_STATUS = """\
The exit status is 0 without a fault, 1 with one, 2 if the command line is wrong, and 3 if a file
cannot be read or is not UTF-8, or if there is no program `catalogue`.
"""


def candidates() -> List[Path]:
    """Where the program may be."""
    named = os.environ.get("INTERPOLATOR_CATALOGUE")
    if named:
        return [Path(named)]
    return [_HERE / "catalogue", _HERE.parent.parent.parent / "crates" / "catalogue" / "out" / "catalogue"]


def main(words: Optional[Sequence[str]] = None) -> int:
    """Runs the command line, and returns its exit status."""
    parser = argparse.ArgumentParser(
        prog="python -m interpolator",
        description=_DESCRIPTION,
        epilog=_STATUS,
        formatter_class=argparse.RawDescriptionHelpFormatter,
    )
    parser.add_argument("files", metavar="FILE", nargs="+", help="a file of messages, in UTF-8")
    files: List[str] = parser.parse_args(words).files
    for program in candidates():
        if program.is_file():
            status = subprocess.run([str(program), "--check", *files]).returncode
            return status if status >= 0 else 128 - status
    missing = " and no ".join(map(str, candidates()))
    print(
        f"there is no {missing}: build the program by `rt run` in crates/catalogue, or let the environment "
        "variable INTERPOLATOR_CATALOGUE name it",
        file=sys.stderr)
    return NO_PROGRAM


if __name__ == "__main__":
    sys.exit(main())
