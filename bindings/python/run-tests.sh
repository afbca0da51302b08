#!/usr/bin/env bash
# Tests the Python package against the built library: the one that INTERPOLATOR_LIBRARY names, else
# the one of bindings/c/build, which `make` and bindings/c/run-tests.sh build.
#
# The tests, and the examples of the docstrings and of README.md, run over the modules of this
# folder, which call by ctypes; and over the package as pip installs it, without a network, with its
# extension module, and with a wheel of the platform. Without the library, pip says what is missing.
# mypy reads the types, and html5lib the pages, where they are installed (Debian's mypy and
# python3-html5lib); else this is told. No file is left in this folder.
#
# Without Python 3.9 or the library the run fails, but for CI_SKIP_BINDINGS=1, by which nothing is
# run. Without pip, a C compiler or Python's headers, the package is not tested as it is installed, or
# not with its extension: this is told, and fails the run with CI_ALL_BINDINGS=1.
#
# usage: run-tests.sh [PYTHON]
set -u
cd "$(dirname "$0")" || exit 1

if [[ ${CI_SKIP_BINDINGS:-} == 1 ]]; then
    echo 'bindings/python: skipped (CI_SKIP_BINDINGS=1)'
    exit 0
fi

python=${1:-python3}
package=$PWD
log=$(mktemp) || exit 1
scratch=$(mktemp -d) || exit 1
trap 'rm -rf -- "$log" "$scratch"' EXIT

# Says why the run fails, and ends it.
stop() {
    echo "bindings/python: FAILED: $1 (CI_SKIP_BINDINGS=1 leaves the bindings out)"
    exit 1
}

# What could not be tested.
leave_out() {
    [[ ${CI_ALL_BINDINGS:-} != 1 ]] || stop "$1"
    echo "bindings/python: $1"
}

# suite NAME FOLDER: the tests over the package of a folder, which has the tests beside it.
suite() {
    if ! (cd "$2" && "$python" -m unittest discover -v -t . -s tests) >"$log" 2>&1; then
        tail -n 60 "$log"
        stop "$1: a test failed"
    fi
    grep -o 'rows that ran.*' "$log" || stop "$1: no rows ran"
    sed -n "s/.*\\.\\.\\. skipped ['\"]\\(.*\\)['\"]$/bindings\\/python: skipped: \\1/p" "$log" | sort -u
    echo "bindings/python: $1: passed, $(sed -n 's/^Ran \([0-9]* tests\) .*/\1/p' "$log")"
}

# install TARGET: the package of this folder by pip, and nothing of a network.
install() {
    PIP_NO_INDEX=1 PIP_DISABLE_PIP_VERSION_CHECK=1 PIP_NO_CACHE_DIR=1 \
        "$python" -m pip install --verbose --no-deps --target "$1" "$package" >"$log" 2>&1
}

export PYTHONDONTWRITEBYTECODE=1
command -v "$python" >/dev/null || stop "$python is missing"
"$python" -c 'import sys; sys.exit(sys.version_info < (3, 9))' || stop "$python is older than 3.9"
why=$("$python" -c 'import interpolator' 2>&1) || stop "${why##*$'\n'}"
before=$(find . | sort)

INTERPOLATOR_CTYPES=1 suite 'by ctypes' .

if "$python" -m pip --version >/dev/null 2>&1; then
    install "$scratch/installed" || { tail -n 30 "$log"; stop 'pip install'; }
    ln -s "$package/tests" "$scratch/installed/tests"
    grep -q '^Tag: .*-linux_' "$scratch"/installed/interpolator-*/WHEEL || stop 'the wheel is of no platform'
    if [[ -n $(find "$scratch/installed" -name '_speed.*so') ]]; then
        suite 'as it is installed' "$scratch/installed"
    else
        leave_out "left out: the extension module: $(grep -om 1 'without its extension module.*' "$log")"
    fi
    if INTERPOLATOR_LIBRARY=/nowhere/libinterpolator.so install "$scratch/none"; then
        stop 'pip installs a package without its library'
    fi
    grep -q 'interpolator cannot be installed without its library' "$log" || stop 'pip does not say what is missing'
else
    leave_out 'left out: pip'
fi

if command -v mypy >/dev/null; then
    mypy --cache-dir "$scratch/mypy" >"$log" 2>&1 || { tail -n 30 "$log"; stop 'mypy'; }
    echo "bindings/python: types: $(tail -n 1 "$log")"
else
    leave_out 'left out: the types, since mypy is not installed'
fi

[[ $before == $(find . | sort) ]] || stop 'a test leaves a file in this folder'
echo 'bindings/python: passed'
