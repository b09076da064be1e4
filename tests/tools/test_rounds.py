"""The rounds of a search: their order, what is left for the next run, and when results come."""
import os
import subprocess
import sys
import time
import unittest.mock
from typing import Any, Callable, Dict, Iterator, List, Sequence, Tuple

from sokotool import forms, levels, rounds
from sokotool.jobs import Jobs
from sokotool.outcomes import Outcomes, Result
from sokotool.progress import Progress
from sokotool.search.budget import Budget, Limits
from tests.tools.helping import TOP, Case
from tests.tools.test_find import CORNER, SOLVABLE, TWO_ON_A_WALL, hall

FORMS = forms.forms_of(levels.read("\n".join([
    hall(20, 20), TWO_ON_A_WALL, CORNER, SOLVABLE]).encode()))
SLOW = """
import sys
from sokotool import main, rounds
rounds.EVERY = .2
sys.exit(main.main(["check", "mine", "a.txt", "--search", "100", "--jobs", "2"]))
"""


class Found(Jobs):
    """Searches that note which levels they get, and for how many seconds. Levels have outcomes by
    their numbers, and one takes some seconds of a clock of its own."""

    def __init__(self, outcomes: Dict[int, str], takes: float = 0.0) -> None:
        self.outcomes, self.takes = outcomes, takes
        self.seen: List[Tuple[float, List[int]]] = []
        self.now = 0.0

    def __call__(self, some: Sequence[levels.Level], limits: Limits, budget: Budget) -> "Found":
        self.seen.append((limits.seconds, [level.number for level in some]))
        self.levels, self.limits, self.budget = some, limits, budget
        return self

    def results(self, watch: Callable[[], None] = lambda: None) -> Iterator[Result]:
        """Yields the results."""
        for level in self.levels:
            if self.budget.is_late():
                return
            watch()
            seconds = min(self.limits.seconds, self.budget.seconds_left())
            self.now += self.takes
            what = self.outcomes.get(level.number, "late")
            yield Result(level, what, b"found" * (what == "found"), seconds, what)

    def rest(self) -> List[Any]:
        """Returns no results."""
        return []

    def at_work(self) -> str:
        """Returns no level."""
        return ""


class Rounds(Case):
    def run_rounds(self, found: Found, known: Outcomes, seconds: float = 10, total: float = 60
                   ) -> List[Any]:
        """Runs the rounds, remembers the outcomes, and returns what was handed on each time."""
        handed: List[Any] = []

        def hand_on(results: Sequence[Any]) -> None:
            handed.append([result.level.number for _, result in results])
            for form, result in results:
                known.keep(form.digest, "find", result.what, result.seconds)
        with unittest.mock.patch.object(Progress, "keep"), unittest.mock.patch(
                "time.monotonic", lambda: found.now):
            rounds.Rounds(Progress("check"), known, "find", Limits(seconds, total, 1), found).run(
                FORMS, hand_on)
        return handed

    def test_seconds(self) -> None:
        for seconds, expected in ((10, [.1, 1, 10]), (600, [.1, 1, 10, 600]), (.5, [.1, .5]),
                                  (.05, [.05]), (1, [.1, 1])):
            self.assertEqual(rounds.of(seconds), expected)

    def test_easy_levels_first_and_levels_that_are_done_no_more(self) -> None:
        found, known = Found({3: "found", 4: "full"}), Outcomes({})
        self.run_rounds(found, known)
        self.assertEqual(found.seen, [(.1, [3, 4, 2, 1]), (1, [2, 1]), (10, [2, 1])])
        found.seen.clear()
        self.run_rounds(found, known, 20)
        self.assertEqual([seconds for seconds, some in found.seen if some == [2, 1]], [20])

    def test_a_level_that_was_cut_off_is_tried_again(self) -> None:
        """It was searched for less time than its round has: the next run has it in that round."""
        found, known = Found({}, takes=.3), Outcomes({})
        for form in FORMS:
            known.keep(form.digest, "find", "late", 1)
        self.assertEqual(self.run_rounds(found, known, total=.5), [[3, 4]])
        found = Found({})
        self.run_rounds(found, known)
        self.assertEqual(found.seen, [(10, [3, 4, 2, 1])])

    def test_no_round_begins_after_the_time(self) -> None:
        found = Found({}, takes=.3)
        self.assertEqual(self.run_rounds(found, Outcomes({}), total=.5), [[3, 4]])
        self.assertEqual([seconds for seconds, _ in found.seen], [.1])

    def test_the_line_of_the_search(self) -> None:
        """It begins with what is done, found and left, also before results are handed on, so that
        80 columns show that of any number of levels."""
        shown: List[str] = []
        found = Found({3: "found", 2: "full"}, takes=.1)
        with unittest.mock.patch.object(Progress, "show", lambda _, line: shown.append(line)), \
                unittest.mock.patch.object(Found, "at_work", lambda _: "level 1 for 0 s"):
            self.run_rounds(found, Outcomes({}), seconds=.1, total=9.7)
        self.assertEqual(shown, [f"{done} of 4 done, {count} found, {left} s left: level 1 for 0 s"
                                 for done, count, left in ((0, 0, 10), (1, 1, 10), (2, 1, 10),
                                                           (3, 1, 9))])

    def test_an_interrupt_is_told_at_once(self) -> None:
        """Before what was found is written, which takes long for many levels."""
        told: List[str] = []

        def hand_on(_: Sequence[Any]) -> None:
            told.append("handed on")
        found = Found({})
        with unittest.mock.patch.object(Progress, "keep", lambda _, line: told.append(line)), \
                unittest.mock.patch.object(Found, "results", side_effect=KeyboardInterrupt):
            it = rounds.Rounds(Progress("check"), Outcomes({}), "find", Limits(9, 60, 1), found)
            self.assertFalse(it.run(FORMS, hand_on))
        self.assertEqual(told, ["interrupted: writing what was found; a second interrupt ends "
                                "without that", "handed on",
                                "4 levels left: the next run goes on with them"])

    def test_an_interrupt_while_lines_are_printed_loses_no_result(self) -> None:
        told: List[str] = []
        handed: List[Any] = []

        def keep(_: Progress, line: str) -> None:
            told.append(line)
            if len(told) == 1:
                raise KeyboardInterrupt

        found = Found({2: "found", 3: "found"}, takes=.1)
        with unittest.mock.patch.object(Progress, "keep", keep), \
                unittest.mock.patch("sokotool.rounds.EVERY", .25), \
                unittest.mock.patch("time.monotonic", lambda: found.now):
            it = rounds.Rounds(Progress("check"), Outcomes({}), "find", Limits(.1, 60, 1), found)
            self.assertFalse(it.run(FORMS, handed.extend))
        self.assertEqual([result.level.number for _, result in handed], [3, 4, 2])
        self.assertEqual(told[-1], "1 level left: the next run goes on with them")

    def test_results_are_handed_on_while_others_are_searched(self) -> None:
        with unittest.mock.patch("sokotool.rounds.EVERY", .25):
            handed = self.run_rounds(Found({}, takes=.1), Outcomes({}), seconds=.1)
        self.assertEqual(handed, [[3, 4, 2], [1]])


class Killed(Case):
    def test_a_run_that_is_killed_keeps_what_it_found(self) -> None:
        """Answers and outcomes are in the files while the search goes on."""
        self.write("a.txt", "\n".join([hall(60, 60), SOLVABLE]))
        with subprocess.Popen([sys.executable, "-c", SLOW], stderr=subprocess.DEVNULL,
                              stdout=subprocess.DEVNULL, start_new_session=True,
                              env={**os.environ, "PYTHONPATH": os.path.join(TOP, "tools")}) as run:
            for _ in range(600):
                time.sleep(.1)
                if (os.path.exists("mine.memory")
                        and self.read("mine.memory").count(b'"find"') == 2):
                    break
            self.assertIsNone(run.poll())
            run.kill()
        self.assertIn(b"level 2 solved", self.read("mine.report"))
        self.assertIn(b"level 2\nsolution\n", self.read("mine.answers"))
