"""The outcomes of searches, and what is remembered of them from run to run: how each board was
searched, for how many seconds at most, and with which outcome."""
from typing import Dict, List, NamedTuple, Sequence, Tuple

from .forms import Form
from .levels import Level

# the outcomes of a search; the search reached a limit of its own: FULL, MEMORY
FOUND, SOLVABLE, LONG, ILLEGAL = "found", "solvable", "long", "illegal"
LATE, FULL, MEMORY = "late", "full", "memory"
# those of a solver, beside LATE and LONG
SOLVED, REFUTED, NOTHING, FAILED = "solved", "refuted", "nothing", "failed"
# More time doesn't change these outcomes.
FINAL = (FULL, ILLEGAL)
# These gave an answer: if there is none now, it was lost.
_ANSWERED = (FOUND, SOLVABLE, SOLVED, REFUTED)


class Result(NamedTuple):
    """The outcome of the work on a level, the record of the answer if one was found, the seconds
    that the work could have, the outcome in words, and lines that tell more."""

    level: Level
    what: str
    record: bytes
    seconds: float
    words: str
    said: Sequence[str] = ()


class Outcomes(Dict[str, Dict[str, Tuple[str, float]]]):
    """The outcomes of searches. A way is the name of a kind of search, such as `find`.

    They are a dictionary of the ways by the digest of a board, and for each the outcome and the
    seconds.
    """

    def due(self, forms: Sequence[Form], way: str, seconds: float) -> List[Form]:
        """Returns the boards without an answer that were never searched in this way for so many
        seconds, those with the fewest seconds first."""
        known = [(form, *self.get(form.digest, {}).get(way, ("", 0.0))) for form in forms]
        return [form for form, what, spent in sorted(known, key=lambda it: it[2])
                if what in _ANSWERED or spent < seconds and what not in FINAL]

    def keep(self, digest: str, way: str, what: str, seconds: float) -> None:
        """Remembers an outcome of a board and the seconds that the search had. That a solver can't
        be run is none."""
        if what != FAILED:
            ways = self.setdefault(digest, {})
            ways[way] = what, max(seconds, ways.get(way, ("", 0))[1])

    def join(self, others: "Outcomes") -> None:
        """Remembers other outcomes too."""
        for digest, ways in others.items():
            for way, outcome in ways.items():
                self.keep(digest, way, *outcome)
