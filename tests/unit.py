#!/usr/bin/env python3
"""The cases of the second implementation, the paper's own and one or more for each refusal; and those of tools/cards.py.

    unit.py [NAME...]

A name is that of a module, a class or a case, as test_net or test_cards.Fields.
"""

import sys
import unittest

import paths

loader = unittest.defaultTestLoader
tests = loader.loadTestsFromNames(sys.argv[1:]) if sys.argv[1:] else loader.discover(str(paths.root / "tests" / "second"))
result = unittest.TextTestRunner(stream=sys.stdout, verbosity=0).run(tests)
failed = len(result.failures) + len(result.errors)
print(f"{result.testsRun - failed} passed, {failed} failed")
sys.exit(1 if failed else 0)
