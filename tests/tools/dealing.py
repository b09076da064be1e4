"""Loads the tests of sokotool: all, those of some names, or a share of their classes."""
import unittest
from typing import Iterator, List, Sequence

from tests.runner import TOP, is_share, share_of


def tests_of(names: Sequence[str]) -> unittest.TestSuite:
    """The tests of these names, such as test_find or test_find.Search, or all if there are none; of
    a share such as 2/3, each third class from the second on, without what has to run alone; or, as
    'timed', that."""
    loader = unittest.defaultTestLoader
    is_timed = list(names) == ["timed"]
    if names and not is_timed and not is_share(names):
        return loader.loadTestsFromNames([f"tests.tools.{it}" for it in names])
    found = classes(loader.discover(f"{TOP}/tests/tools", top_level_dir=TOP))
    if names:
        found = [it for it in found
                 if any(getattr(test, "is_timed", False) for test in it) == is_timed]
    return unittest.TestSuite(share_of(found, names[0]) if is_share(names) else found)


def classes(tests: unittest.TestSuite) -> List[unittest.TestSuite]:
    """The suites of single classes."""
    inner = [it for it in tests if isinstance(it, unittest.TestSuite)]
    return [it for suite in inner for it in classes(suite)] if inner else [tests]


def names_of(tests: unittest.TestSuite) -> Iterator[str]:
    """The names of the single tests, with their modules and classes."""
    for it in tests:
        if isinstance(it, unittest.TestSuite):
            yield from names_of(it)
        else:
            yield it.id()
