"""Where the levels of a collection come from, and what was left out of the exports."""
import re
from bisect import bisect_right
from typing import Dict, List, NamedTuple, Optional, Sequence, Tuple

from . import texts

# Levels by their numbers in the exports, where problems name them. Files may have such names too.
_LEVELS = re.compile(r"(?:\A|(?<=solution of ))level(?: \d+|s \d+(?:, \d+)*)")
_NUMBER = re.compile(r"\d+")


class Place(NamedTuple):
    """A line of an export: the file's name as it was given, and as it is published, and the line,
    or 0 if a message names its file."""

    file: str
    published: str
    line: int

    def __str__(self) -> str:
        return f"{texts.shown(self.file)} line {self.line}" if self.line else ""

    def said(self, why: str) -> str:
        """Returns why something is reported, after the place."""
        return f"{self}: {why}" if self.line else why


# what was left out or is wrong, with the numbers that levels have in the exports
Problem = Tuple[Place, str]
# where a level comes from, and what was left out of it
Source = Tuple[Place, List[str]]


class Origins(NamedTuple):
    """The place of each level of the exports in order, and all problems."""

    levels: List[Place]
    problems: List[Problem]

    def messages(self, numbers: Dict[int, int]) -> List[str]:
        """Returns the problems with their places and these numbers of levels."""
        return [place.said(_numbered(why, numbers)) for place, why in self.problems]

    def sources(self, indices: Sequence[Optional[int]]) -> Dict[int, Source]:
        """Returns the sources of levels by their numbers. `indices` has the index of each level in
        the exports, or None."""
        numbers = numbers_of(indices)
        found: Dict[int, Source] = {number: (self.levels[at], [])
                                    for at, number in numbers.items()}
        lines = texts.grouped((place.published, (place.line, at))
                              for at, place in enumerate(self.levels))
        for problem in self.problems:
            place, why = problem
            if number := numbers.get(_level_of(problem, lines.get(place.published, [])), 0):
                found[number][1].append(f"line {place.line}: {_numbered(why, numbers)}")
        return found


def _numbered(why: str, numbers: Dict[int, int]) -> str:
    """Returns a problem with these numbers of levels, by their indices in the exports."""
    return _LEVELS.sub(lambda levels: _NUMBER.sub(
        lambda it: str(numbers.get(int(it[0]) - 1, it[0])), levels[0]), why)


def _level_of(problem: Problem, lines: Sequence[Tuple[int, int]]) -> int:
    """Returns the index of the one level that a problem names, or of the last level of its file
    that begins above it, or -1. `lines` has the lines of the levels in the file with their
    indices."""
    place, why = problem
    numbers = _NUMBER.findall("".join(_LEVELS.findall(why)))
    if len(numbers) == 1:
        return int(numbers[0]) - 1
    above = bisect_right(lines, (place.line + 1, -1))
    return lines[above - 1][1] if above else -1


def numbers_of(indices: Sequence[Optional[int]]) -> Dict[int, int]:
    """Returns the numbers of levels by their indices in the exports."""
    return {at: number for number, at in enumerate(indices, 1) if at is not None}
