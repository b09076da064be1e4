"""Searches for answers in rounds: all levels for a short time each, then those that are left for a
longer one, easy levels first. So most answers come early. First the search of sokotool goes through
its rounds, and then the user's solver."""
import argparse
import math
import time
from collections import Counter
from functools import partial
from typing import Callable, Dict, Iterator, List, Sequence, Tuple

from . import auditor, texts
from .forms import Form
from .jobs import Jobs
from .levels import Level
from .outcomes import FINAL, Outcomes, Result
from .progress import Progress
from .search.budget import Budget, Limits
from .searches import Searches
from .solvers import Solver, Solvers

# the seconds of a level in the first rounds
FIRST = 0.1, 1, 10
# after how many seconds results are handed on
EVERY = 8

WAY = "find"

HandOn = Callable[[Sequence[Tuple[Form, Result]]], None]
Take = Callable[[str, Sequence[Tuple[Form, Result]]], None]
Begin = Callable[[Sequence[Level], Limits, Budget], Jobs]


def of(seconds: float) -> List[float]:
    """Returns the seconds for a level in each round, up to these seconds."""
    return [*(one for one in FIRST if one < seconds), seconds]


def size(form: Form) -> int:
    """Returns a number that tends to be small for easy levels: the boxes times the cells."""
    boxes = form.cells.count(b"$") + form.cells.count(b"*")
    return boxes * (len(form.cells) - form.cells.count(0))


class Rounds:
    """The rounds of a way to look for answers: its name in the memory, its limits, and a function
    that begins to look at levels within limits and a budget for all. `seconds` has those for a
    level in each round, and `left` the levels that have no answer and may still get one."""

    def __init__(self, shown: Progress, known: Outcomes, name: str, limits: Limits, begin: Begin
                 ) -> None:
        self.shown, self.known, self.name, self.limits, self.begin = (
            shown, known, name, limits, begin)
        self.seconds = of(limits.seconds) if name == WAY else [limits.seconds]
        self.left: Dict[int, Form] = {}
        self.count = 0
        self._done: Dict[bool, int] = Counter()  # how many levels have an answer, and have none
        self._results: List[Tuple[Form, Result]] = []
        self._handed = 0.0

    def due(self, forms: Sequence[Form]) -> List[Form]:
        return self.known.due(forms, self.name, self.limits.seconds)

    def run(self, forms: Sequence[Form], hand_on: HandOn) -> bool:
        """Goes through the rounds, and hands on their results every few seconds. Returns false
        after an interrupt."""
        self.left = {form.level.number: form for form in self.due(forms)}
        self.count, self._handed = len(self.left), time.monotonic()
        budget = Budget(self.limits.total)
        goes_on = True
        for seconds in self.seconds:
            if not (due := self.known.due(list(self.left.values()), self.name, seconds)):
                continue
            search = self.begin([form.level for form in sorted(due, key=size)],
                                self.limits._replace(seconds=seconds), budget)
            try:
                for result in search.results(partial(self._watch, search, budget, hand_on)):
                    self._add(result)
            except KeyboardInterrupt:
                self.shown.keep("interrupted: writing what was found; a second interrupt ends "
                                "without that")
                for result in search.rest():
                    self._add(result)
                goes_on = False
            if not goes_on or budget.is_late():
                break
        self._hand_on(hand_on)
        if not goes_on:
            hand_on([])  # The interrupt may have come while results were handed on.
        if self.left:
            self.shown.keep(f"{texts.count(len(self.left), 'level')} left: the next run goes on "
                            "with them")
        return goes_on

    def _add(self, result: Result) -> None:
        """Adds a result. No later round has its level if that is done."""
        self._results.append((self.left[result.level.number], result))
        if self._is_done(result):
            del self.left[result.level.number]

    def _is_done(self, result: Result) -> bool:
        return (bool(result.record) or result.what in FINAL
                or result.seconds >= self.limits.seconds)

    def _watch(self, search: Jobs, budget: Budget, hand_on: HandOn) -> None:
        if time.monotonic() - self._handed > EVERY and self._results:
            self._hand_on(hand_on)
        left = budget.seconds_left()
        ends = "" if math.isinf(left) else f", {max(left, 0):.0f} s left"
        self.shown.show(f"{self._words()}{ends}: {search.at_work()}")

    def _hand_on(self, hand_on: HandOn) -> None:
        """Prints a line for each level that is done, in the order of the levels, and hands on all
        results."""
        results, self._results = self._results, []
        try:
            for _, result in sorted(results, key=lambda it: it[1].level.number):
                for line in result.said:
                    self.shown.keep(f"level {result.level.number}: | {line}")
                if self._is_done(result):
                    self._done[bool(result.record)] += 1
                    self.shown.keep(f"level {result.level.number}: {result.words} "
                                    f"({self._words()})")
        finally:  # also if an interrupt comes while lines are printed
            if results:
                hand_on(results)
        self._handed = time.monotonic()

    def _words(self) -> str:
        """Returns how many levels are done, with the results that weren't handed on yet."""
        done = Counter(self._done)
        done.update(bool(it.record) for _, it in self._results if self._is_done(it))
        return f"{sum(done.values())} of {self.count} done, {done[True]} found"


# ---- all ways

def ways(options: argparse.Namespace, program: auditor.Auditor, shown: Progress, known: Outcomes
         ) -> Iterator[Rounds]:
    """Yields the ways to search that the options ask for."""
    if options.search > 0 and options.seconds > 0:
        limits = Limits(options.seconds, options.search, options.jobs)
        yield Rounds(shown, known, WAY, limits, Searches)
    if options.solver:
        solver = Solver(options.solver, partial(auditor.refusal, program), options.verbose)
        limits = Limits(options.solver_seconds, options.solver_search, options.jobs)
        yield Rounds(shown, known, f"solver {options.solver}", limits, partial(Solvers, solver))


def search(several: Sequence[Rounds], unanswered: Callable[[], Sequence[Form]], take: Take) -> None:
    """Searches the levels without an answer in each way, one after the other, and says first what
    each may take. `take` gets results by the name of their way. An interrupt ends all."""
    said = [f"{texts.count(count, 'level')} "
            f"{'to search' if way.name == WAY else 'for the solver'}, {way.limits.words}"
            for way in several for count in [len(way.due(unanswered()))] if count]
    if said:
        several[0].shown.keep("; ".join(said))
    for way in several:
        if not way.run(unanswered(), partial(take, way.name)):
            break
