"""How a script of the tests ends: with its faults, one to a line, and how many tests passed and failed; or, where it misses something, with
one line on standard error."""

import pathlib
import shutil
import sys

from paths import root


def close(passed, faults):
    for text in faults:
        print(text)
    print(f"{passed} passed, {len(faults)} failed")
    sys.exit(1 if faults else 0)


def compare(tests):
    """Closes with the tests whose value is not the one expected. A test: what is looked at, what is there, and what must be."""
    tests = list(tests)
    faults = [f"{name}: {got!r} is not {expected!r}" for name, got, expected in tests if got != expected]
    close(len(tests) - len(faults), faults)


def shown(path):
    """A path as seen from the repository, where it is in there."""
    path = pathlib.Path(path).resolve()
    return path.relative_to(root) if path.is_relative_to(root) else path


def need_built(path, command):
    """Ends the script if a file is not there that a command builds."""
    if not path.is_file():
        sys.exit(f"{shown(sys.argv[0])}: {shown(path)} is not built; run '{command}' first")


def need_commands(*names):
    """Ends the script if a command is not installed."""
    for name in names:
        if shutil.which(name) is None:
            sys.exit(f"{shown(sys.argv[0])}: {name} is not installed")
