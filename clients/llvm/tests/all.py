"""Runs all tests of the client. The last line is 'N passed, M failed'."""
from __future__ import annotations

import os
import sys
import unittest

import common  # (it says where the others are)


def main() -> int:
    """Runs the tests."""
    suite = unittest.defaultTestLoader.discover(os.path.dirname(os.path.realpath(__file__)))
    result = unittest.TextTestRunner(stream=sys.stdout, verbosity=0).run(suite)
    failed = len(result.failures) + len(result.errors)
    for test, _ in [*result.failures, *result.errors]:
        print(f"llvm: FAILED: {test}")
    if not common.HAS_LIBRARY:
        print("llvm: plain Python solved the problems, since ./x library has not made out/libmodsched.so")
    print(f"{max(0, result.testsRun - len(result.skipped) - failed)} passed, {failed} failed")
    return 1 if failed else 0


if __name__ == "__main__":
    sys.exit(main())
