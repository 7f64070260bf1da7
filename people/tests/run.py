#!/usr/bin/env python3
"""Tries vug and bring against the program.

usage: python3 people/tests/run.py [PROGRAM [TEST..]]

PROGRAM is the built tracker, crates/tracker/out/tracker by default. Where it isn't there that is said, and the status is 0: nothing was tried.
Ports 8780 to 8785 of 127.0.0.1 are used; VUG_TEST_PORT names another first one. A TEST is a module, class or method, as test_import.
"""
import os
import pathlib
import sys
import unittest

HERE = pathlib.Path(__file__).resolve().parent


def main():
    words = sys.argv[1:]
    if words[:1] in (['-h'], ['--help']):
        print(__doc__)
        return 0
    program = os.path.abspath(words[0]) if words else str(HERE.parent.parent / 'crates/tracker/out/tracker')
    if not os.access(program, os.X_OK):
        print(f'{program} is not there: vug and bring are not tried')
        return 0
    os.environ['VUG_TEST_PROGRAM'] = program
    sys.path.insert(0, str(HERE))
    loader = unittest.TestLoader()
    tests = loader.loadTestsFromNames(words[1:]) if words[1:] else loader.discover(str(HERE))
    result = unittest.TextTestRunner(verbosity=2 if words[1:] else 1).run(tests)
    return 0 if result.wasSuccessful() else 1


if __name__ == '__main__':
    sys.exit(main())
