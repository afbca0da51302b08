"""Makes the wheel: the package, the library, the extension module, if there is a C compiler with
Python's headers, and the program `catalogue`, if it was built. It needs nothing but Python, so that `pip install .` works without a network, and
writes nothing into this folder.

The library is the file that the environment variable `INTERPOLATOR_LIBRARY` names; else the one
beside the modules; else that of `bindings/c/build`.
"""

from __future__ import annotations

import base64
import hashlib
import os
import re
import shlex
import stat
import subprocess
import sys
import sysconfig
import tempfile
import zipfile
from pathlib import Path
from typing import Any, Dict, List, Optional

HERE = Path(__file__).resolve().parent.parent
PACKAGE = HERE / "interpolator"
C_BINDING = HERE.parent / "c"
CATALOGUE = HERE.parent.parent / "crates" / "catalogue" / "out" / "catalogue"
LICENCES = ("LICENSE-APACHE", "LICENSE-MIT")

# The oldest Python whose stable calls the extension takes.
STABLE = (3, 10)


class UnsupportedOperation(Exception):
    """What this backend does not do."""


def get_requires_for_build_wheel(config_settings: Optional[Dict[str, Any]] = None) -> List[str]:
    """Nothing."""
    return []


def get_requires_for_build_sdist(config_settings: Optional[Dict[str, Any]] = None) -> List[str]:
    """Nothing."""
    return []


def build_sdist(sdist_directory: str, config_settings: Optional[Dict[str, Any]] = None) -> str:
    """There is none: the library is not made from files of this folder."""
    raise UnsupportedOperation("make a wheel: the library comes from the whole repository")


def prepare_metadata_for_build_wheel(
    metadata_directory: str, config_settings: Optional[Dict[str, Any]] = None
) -> str:
    """Writes what is said of the package, if there is a library, and returns the folder's name."""
    _library()
    info = Path(metadata_directory) / f"interpolator-{_version()}.dist-info"
    info.mkdir()
    (info / "METADATA").write_text(_metadata(_version()), "utf-8")
    return info.name


def build_wheel(
    wheel_directory: str,
    config_settings: Optional[Dict[str, Any]] = None,
    metadata_directory: Optional[str] = None,
) -> str:
    """Makes the wheel in a folder, and returns its name."""
    library = _library()
    version = _version()
    with tempfile.TemporaryDirectory() as scratch:
        extension = _extension(Path(scratch))
        tag = _tag(extension is not None)
        files = {f"interpolator/{path.name}": path.read_bytes() for path in _sources()}
        files["interpolator/libinterpolator.so"] = library.read_bytes()
        if extension is not None:
            files[f"interpolator/{extension.name}"] = extension.read_bytes()
    if CATALOGUE.is_file():
        files["interpolator/catalogue"] = CATALOGUE.read_bytes()
    info = f"interpolator-{version}.dist-info"
    files[f"{info}/METADATA"] = _metadata(version).encode()
    files[f"{info}/WHEEL"] = (
        f"Wheel-Version: 1.0\nGenerator: interpolator\nRoot-Is-Purelib: false\nTag: {tag}\n").encode()
    for name in LICENCES:
        path = HERE.parent.parent / name
        if path.is_file():
            files[f"{info}/{name}"] = path.read_bytes()
    name = f"interpolator-{version}-{tag}.whl"
    _write(Path(wheel_directory) / name, files, f"{info}/RECORD")
    return name


def _sources() -> List[Path]:
    """The files of the package that are written by hand."""
    return sorted(
        path for path in PACKAGE.iterdir() if path.suffix in (".py", ".pyi") or path.name == "py.typed")


def _version() -> str:
    """The version that the package says."""
    found = re.search(r'__version__ = "([^"]+)"', (PACKAGE / "__init__.py").read_text("utf-8"))
    assert found
    return found[1]


def _library() -> Path:
    """The library; without one the build ends with a sentence."""
    named = os.environ.get("INTERPOLATOR_LIBRARY")
    candidates = [Path(named)] if named else [
        PACKAGE / "libinterpolator.so", C_BINDING / "build" / "libinterpolator.so"]
    for path in candidates:
        if path.is_file():
            return path
    sys.exit(
        "interpolator cannot be installed without its library, and there is no "
        + " and no ".join(map(str, candidates))
        + ": build it with `make -C bindings/c`, or let the environment variable "
        "INTERPOLATOR_LIBRARY name it")


def _extension(scratch: Path) -> Optional[Path]:
    """The extension module, compiled in a folder; None if it cannot be, which is told."""
    include = sysconfig.get_paths()["include"]
    source, header = PACKAGE / "_speed.c", C_BINDING / "interpolator.h"
    stable = sys.version_info >= STABLE
    suffix = ".abi3.so" if stable else str(sysconfig.get_config_var("EXT_SUFFIX"))
    made = scratch / f"_speed{suffix}"
    compiler = shlex.split(os.environ.get("CC") or str(sysconfig.get_config_var("CC") or "cc"))
    words = [*compiler, "-std=c99", "-O2", "-fPIC", "-shared", f"-I{include}", f"-I{header.parent}"]
    words += ["-DINTERPOLATOR_LIMITED"] if stable else []
    why = "interpolator.h or Python.h is missing"
    if header.is_file() and (Path(include) / "Python.h").is_file():
        why = _compiled([*words, str(source), "-o", str(made)])
    if made.is_file():
        return made
    print(f"interpolator: without its extension module each call is slower: {why}", file=sys.stderr)
    return None


def _compiled(words: List[str]) -> str:
    """Runs a compiler, and returns what it says."""
    try:
        return subprocess.run(words, capture_output=True, text=True).stderr
    except OSError as cause:
        return str(cause)


def _tag(has_extension: bool) -> str:
    """The Python, the calls and the platform that the wheel is for."""
    platform = re.sub(r"[^a-zA-Z0-9]", "_", sysconfig.get_platform())
    if not has_extension:
        return f"py3-none-{platform}"
    if sys.version_info >= STABLE:
        return f"cp{STABLE[0]}{STABLE[1]}-abi3-{platform}"
    own = f"cp{sys.version_info[0]}{sys.version_info[1]}"
    return f"{own}-{own}-{platform}"


def _metadata(version: str) -> str:
    """What is said of the package."""
    return f"""\
Metadata-Version: 2.1
Name: interpolator
Version: {version}
Summary: Format strings at run time, for formats that come from files
License: MIT OR Apache-2.0
Classifier: Operating System :: POSIX :: Linux
Classifier: Programming Language :: Python :: 3
Classifier: Typing :: Typed
Requires-Python: >=3.9
Description-Content-Type: text/markdown

{(HERE / "README.md").read_text("utf-8")}"""


def _write(path: Path, files: Dict[str, bytes], record: str) -> None:
    """Writes a wheel, whose record of its files is the last of them."""
    lines = []
    with zipfile.ZipFile(path, "w", zipfile.ZIP_DEFLATED) as wheel:
        for name, content in files.items():
            digest = base64.urlsafe_b64encode(hashlib.sha256(content).digest()).rstrip(b"=").decode()
            lines.append(f"{name},sha256={digest},{len(content)}\n")
            _add(wheel, name, content)
        lines.append(f"{record},,\n")
        _add(wheel, record, "".join(lines).encode())


def _add(wheel: zipfile.ZipFile, name: str, content: bytes) -> None:
    entry = zipfile.ZipInfo(name, (2020, 1, 1, 0, 0, 0))
    is_run = name.endswith((".so", "/catalogue"))
    entry.external_attr = (stat.S_IFREG | (0o755 if is_run else 0o644)) << 16
    entry.compress_type = zipfile.ZIP_DEFLATED
    wheel.writestr(entry, content)
