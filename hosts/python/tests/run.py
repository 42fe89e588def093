"""Runs all tests of the package; the last line is 'N passed, M failed', and the status is 0 if none failed."""
import os
import sys
import unittest

HERE = os.path.dirname(os.path.abspath(__file__))


def main() -> int:
    """Runs them."""
    suite = unittest.defaultTestLoader.discover(HERE, top_level_dir=HERE)
    result = unittest.TextTestRunner(stream=sys.stdout, verbosity=1).run(suite)
    bad = {getattr(test, "test_case", test).id() for test, _ in result.failures + result.errors} | {test.id() for test in result.unexpectedSuccesses}
    try:
        from numpy import __version__ as numpy
        print("arrays were tested with numpy %s and without" % numpy)
    except ImportError:
        print("arrays were tested without numpy alone: it is not installed")
    for test, why in result.skipped:
        print("left out: %s: %s" % (test.id() if hasattr(test, "id") else test, why))
    print("%d passed, %d failed" % (max(0, result.testsRun - len(result.skipped) - len(bad)), len(bad)))
    return 1 if bad else 0


if __name__ == "__main__":
    sys.exit(main())
