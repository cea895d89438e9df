"""Where the modules of the tests stand. A script of the tests imports this first."""

import pathlib
import sys

root = pathlib.Path(__file__).resolve().parent.parent
sys.path[1:1] = [str(root / room) for room in ("tools", "tests/second", "tests/helpers", "tests/generators")]
sys.dont_write_bytecode = True
