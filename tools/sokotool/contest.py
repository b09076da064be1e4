"""The results of a contest: who is best at which level, the standings, and why answers are refused.
"""
from collections import Counter
from typing import Callable, Dict, Iterator, List, NamedTuple, Sequence, Tuple

from . import answers, messages, mistakes, report, texts
from .entrants import Entrant
from .levels import Level

STATUSES = "solved", "unsolvable", "refused", "missing"
HEAD = ("level", "entrant", "status", "moves", "pushes", "changes", "best by moves",
        "best by pushes")
STANDINGS_HEAD = ("place", "entrant", *STATUSES, "moves", "pushes", "best by moves",
                  "best by pushes", "fault")
# who is best at a level, by the number of the level and the entrant, and how
Marks = Dict[Tuple[int, str], str]
Row = Tuple[str, ...]


class Refusal(NamedTuple):
    """A refused answer: whose, to which level, what the report says, and the record."""

    entrant: Entrant
    level: Level
    line: report.Line
    record: answers.Record

    def why(self) -> str:
        """Returns the reason in sentences, and what to do."""
        mistake = mistakes.of_report(self.record, self.level, self.line)
        return messages.advice(self.level, self.line, mistake)


class Contest:
    """The levels of a contest and its entrants. `best` has the marks by moves and by pushes."""

    def __init__(self, found: Sequence[Level], entrants: Sequence[Entrant]) -> None:
        self.levels, self.entrants = found, entrants
        self.best = [_marks(entrants, lambda counts: counts[:2]),
                     _marks(entrants, lambda counts: counts[1::-1])]

    @property
    def audited(self) -> List[Entrant]:
        """The entrants whose files could be audited."""
        return [it for it in self.entrants if not it.fault]

    def refusals(self) -> Iterator[Refusal]:
        """Yields the refused answers, level by level."""
        for level in self.levels:
            for entrant in self.audited:
                line, record = entrant.lines[level.number - 1], entrant.records.get(level.number)
                if line.status == "refused" and record:
                    yield Refusal(entrant, level, line, record)

    def marks(self, level: int, entrant: str) -> List[str]:
        """Returns whether an answer is the best or tied, by moves and by pushes."""
        return [marked.get((level, entrant), "") for marked in self.best]

    def rows(self) -> Iterator[Row]:
        """Yields the rows of the table: files that couldn't be audited, then level by level."""
        yield from (("", entrant.name, entrant.fault, *[""] * 5)
                    for entrant in self.entrants if entrant.fault)
        for level in self.levels:
            for entrant in self.audited:
                line = entrant.lines[level.number - 1]
                counts = [str(number) for number in line.counts] or [""] * 3
                yield (str(level.number), entrant.name, line.status if line.counts else line.said,
                       *counts, *self.marks(level.number, entrant.name))

    def standings(self) -> List[Row]:
        """Returns the rows of the standings, in order of answers, then of best solutions by moves,
        then by pushes. Equal entrants share a place."""
        ranked = []
        for entrant in self.entrants:
            count = Counter(line.status for line in entrant.lines)
            sums = [sum(it) for it in zip((0, 0), *(line.counts[:2] for line in entrant.lines
                                                    if line.counts))]
            first = [sum(name == entrant.name for _, name in marked) for marked in self.best]
            score = (-count["solved"] - count["unsolvable"], -first[0], -first[1])
            numbers = [*(count[status] for status in STATUSES), *sums, *first]
            cells = [""] * len(numbers) if entrant.fault else [str(number) for number in numbers]
            ranked.append((bool(entrant.fault), score, (entrant.name, *cells, entrant.fault)))
        ranked.sort(key=lambda one: one[:2])
        scores = [score for _, score, _ in ranked]
        return [("" if fault else str(scores.index(score) + 1), *row)
                for fault, score, row in ranked]


def title_of(entrant: Entrant, level: Level) -> str:
    """Returns the name of an answer."""
    return f"{entrant.name}, level {level.number}, {level.title}".rstrip(" ,")


def _marks(entrants: Sequence[Entrant],
           order: Callable[[Tuple[int, ...]], Tuple[int, ...]]) -> Marks:
    """Returns who is best at a level, or tied with others."""
    best = texts.grouped((line.level, (order(line.counts), entrant.name)) for entrant in entrants
                         for line in entrant.lines if line.counts)
    found = {}
    for level, several in best.items():
        first = [name for counts, name in several if counts == min(several)[0]]
        found.update({(level, name): "best" if len(first) == 1 else "tied" for name in first})
    return found
