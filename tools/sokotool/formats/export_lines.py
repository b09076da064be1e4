"""An export as lines, with the rows and levels that were found in them."""
from typing import Iterator, List, NamedTuple, Sequence, Set

from .. import levels
from . import level_rows


class Level(NamedTuple):
    """A level of an export, and the title that its line has."""

    export: int
    level: levels.Level
    title: str


class Export:
    """An export as lines: their numbers, and the rows and levels in them. `used` has the lines that
    are letters of solutions or their headings; of a line with a row, what is beside it is -1 - at.
    """

    def __init__(self, file: str, is_found: bool, lines: Sequence[str], numbers: Sequence[int],
                 found: level_rows.Found) -> None:
        self.file, self.is_found, self.lines, self.numbers = file, is_found, lines, numbers
        self.rows, self.spans, self.comments = found
        self.used: Set[int] = set()
        self.faults = 0
        # the levels of each span
        self.levels: List[List[int]] = []

    def text(self, at: int) -> str:
        """Returns a line, or what is beside the row of one."""
        if at >= 0:
            return self.lines[at]
        row = self.rows[-1 - at]
        return row.rest if row else ""

    def gaps(self) -> Iterator[List[int]]:
        """Yields the places of the text above the first level, between two, and below the last."""
        ends = [0, *(end for _, end in self.spans)]
        beside: List[int] = []
        for at, end in enumerate(ends):
            first = self.spans[at][0] if at < len(self.spans) else len(self.lines)
            yield beside + [*range(end, first)]
            if at < len(self.spans):
                beside = [-1 - it for it in range(*self.spans[at])
                          if self.rows[it] and self.rows[it].rest]  # type: ignore[union-attr]
