"""Reads reports."""
import re
from typing import Any, Dict, List, NamedTuple, Optional, Tuple

from . import texts

# A number in a line. None is longer, and Python reads none of thousands of digits.
_NUMBER = r"(\d{1,9})"
_TOTAL = re.compile("total N solved N unsolvable N refused N missing N".replace("N", _NUMBER), re.A)
_LEVEL = re.compile(r"level ([1-9]\d{0,5}) (.+)", re.A)
# What a line says of its level, with N for numbers, and the names of the words and numbers in it.
_FORMS = [(re.compile(form.replace("N", _NUMBER), re.A), names.split()) for form, names in (
    ("solved moves N pushes N changes N", "moves pushes changes"),
    ("unsolvable patterns N", "patterns"),
    ("unsolvable zone N", "zone"),
    ("missing", ""),
    ("refused (board) ([a-z]+)", "refused why"),
    ("refused (line) N (push|leak) N,N ([lurd])",
     "refused answers_line why column row direction"),
    ("refused (line) N ([a-z]+)", "refused answers_line why"),
    ("refused (move) N ([a-z]+)", "refused move why"),
    ("refused (unsolved) N", "refused boxes"),
    ("refused (start)", "refused"))]


class Line(NamedTuple):
    """A line of a level: the level's number, its status, the words after it, and the whole line."""

    level: int
    status: str
    words: List[str]
    text: str

    @property
    def said(self) -> str:
        """What the line says about its level."""
        return " ".join([self.status] + self.words)

    @property
    def is_answered(self) -> bool:
        """Whether the level is solved or unsolvable."""
        return self.status in ("solved", "unsolvable")

    @property
    def counts(self) -> Tuple[int, ...]:
        """The moves, pushes and changes of a solved level."""
        return tuple(int(word) for word in self.words[1::2]) if self.status == "solved" else ()

    def fields(self) -> Dict[str, Any]:
        """Returns the words and numbers of the line by their names."""
        found: Dict[str, Any] = {"level": self.level, "status": self.status}
        for form, names in _FORMS:
            if match := form.fullmatch(self.said):
                found.update((name, int(word) if word.isdigit() else word)
                             for name, word in zip(names, match.groups()))
                break
        return found


class Report(NamedTuple):
    """The lines of levels in order, the five numbers of the total line, or None, and the numbers of
    lines that belong to no report."""

    lines: List[Line]
    total: Optional[Tuple[int, ...]]
    strays: List[int]

    def fault(self, levels: int) -> Optional[str]:
        """Returns why this isn't a whole report on a collection of this many levels, or None."""
        if self.total is None and not self.lines:
            return "it isn't a report"
        if self.strays:
            return f"line {self.strays[0]} isn't a line of a report"
        if self.total is None:
            return f"it is cut: it has {texts.count(len(self.lines), 'level')} and no total line"
        if self.total[0] != levels:
            return (f"it has {texts.count(self.total[0], 'level')}, and the collection has "
                    f"{levels}")
        if [line.level for line in self.lines] != [*range(1, levels + 1)]:
            return f"its level numbers aren't 1 to {levels}"
        return None


def demanded(data: bytes, name: str, levels: str, count: int, status: int = 2) -> Report:
    """Reads a report of this name. Ends the command, unless it is one on these levels, so many."""
    found = read(data)
    if fault := found.fault(count):
        raise texts.Stop(f"{texts.shown(name)} isn't a report on {texts.shown(levels)}: {fault}",
                         status)
    return found


def line_of(text: str) -> Optional[Line]:
    """Reads one line of a level, or returns None."""
    match = _LEVEL.fullmatch(text)
    if not match or not any(form.fullmatch(match[2]) for form, _ in _FORMS):
        return None
    status, *words = match[2].split()
    return Line(int(match[1]), status, words, text)


def read(data: bytes) -> Report:
    """Reads a report. `strays` gets the numbers of lines that are neither report lines nor
    comments, which begin with ';'."""
    lines: List[Line] = []
    total: Optional[Tuple[int, ...]] = None
    strays: List[int] = []
    for number, raw in enumerate(texts.lines(data), 1):
        text = raw.decode("ascii", "replace")
        line, last = line_of(text), _TOTAL.fullmatch(text)
        if line and total is None:
            lines.append(line)
        elif last and total is None:
            total = tuple(map(int, last.groups()))
        elif not text.startswith(";"):
            strays.append(number)
    return Report(lines, total, strays)
