#!/usr/bin/env python3
"""Prints the classes of the tests here, which `./test` runs side by side.

Those with many tests come first, since they take long. The status is 1 if a module can't be loaded.
"""
import collections
import os
import sys
import unittest


def tests_of(suite):
    """Yields the tests of a suite and of those in it."""
    for it in suite:
        if isinstance(it, unittest.TestSuite):
            yield from tests_of(it)
        else:
            yield it


def main():
    loader = unittest.TestLoader()
    found = tests_of(loader.discover(os.path.dirname(os.path.realpath(__file__))))
    counted = collections.Counter(it.id().rpartition(".")[0] for it in found)
    if loader.errors:
        sys.exit("\n".join(loader.errors))
    for case, _ in counted.most_common():
        print(case)


if __name__ == "__main__":
    main()
