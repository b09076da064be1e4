"""Looks for certificates of levels that have no solution, and prints them as an answers file.

For each level it plays a few boxes in every way, with the other boxes taken away, until it finds
some that can never all reach goals. If it comes to a play that solves the level, it prints that.
Run 'sokoaudit make' first: it takes no time, and finds some certificates that this search doesn't.

Standard error gets a line for each level, and the totals as the last line. An interrupt ends the
search, and what was printed is a whole answers file. The status is 1 if a level was searched and
has no answer."""
import argparse
import math
from collections import Counter
from typing import Dict, List

from .. import answers, levels, output, report, system, texts
from ..outcomes import FOUND, FULL, ILLEGAL, LATE, LONG, MEMORY, SOLVABLE, Result
from ..progress import Progress
from ..search.budget import Budget, Limits
from ..searches import WORDS, Searches
from . import SECONDS, above_zero

# The names under which the last line counts levels, each with its outcomes.
NAMES = {"found": (FOUND,), "solvable": (SOLVABLE,), "stopped": (LATE,),
         "gave-up": (FULL, MEMORY), "long": (LONG,), "illegal": (ILLEGAL,)}


def arguments(parser: argparse.ArgumentParser) -> None:
    parser.add_argument("levels", metavar="LEVELS", help="the levels file; - is standard input")
    parser.add_argument("report", metavar="REPORT", nargs="?",
                        help="a report on them: look only at the levels that are missing there")
    parser.add_argument("--seconds", metavar="S", type=above_zero(float), default=SECONDS,
                        help=f"end the search of a level after S seconds (default {SECONDS})")
    parser.add_argument("--jobs", metavar="N", type=above_zero(int), default=1,
                        help="search N levels at once (default 1)")


def run(options: argparse.Namespace) -> int:
    """Prints the header, then each record when it is found. Standard error gets a line for each
    level and the totals."""
    found = chosen(levels.read_file(options.levels), options)
    shown = Progress("find")
    counts: Dict[str, int] = Counter()

    def answered() -> int:
        return counts[FOUND] + counts[SOLVABLE]

    def done() -> str:
        return f"{sum(counts.values())} of {len(found)} done, {answered()} found"

    def add(result: Result) -> None:
        output.put(result.record)
        counts[result.what] += 1
        shown.keep(f"level {result.level.number}: {result.words} ({done()})")

    search = Searches(found, Limits(options.seconds, math.inf, options.jobs), Budget(math.inf),
                      is_ordered=True)
    head, status = answers.text([]), 130
    output.put(head)
    printed = len(head)
    try:
        for result in search.results(lambda: shown.show(f"{done()}: {search.at_work()}")):
            if printed + len(result.record) > texts.MOST_BYTES:
                result = result._replace(what=LONG, record=b"", words=WORDS[LONG])
            with system.uninterrupted():
                add(result)
            printed += len(result.record)
        status = int(answered() < len(found))
    except KeyboardInterrupt:
        for result in search.rest():
            add(result)
    parts = [f"{name} {sum(counts[what] for what in kinds)}" for name, kinds in NAMES.items()]
    left = len(found) - sum(counts.values())
    shown.keep(" ".join([f"total {len(found)}", *parts, f"left {left}"]))
    return status


def chosen(every: List[levels.Level], options: argparse.Namespace) -> List[levels.Level]:
    if not every:
        raise texts.Stop(f"{texts.shown(options.levels)} has no level")
    if not options.report:
        return every
    read = report.demanded(texts.read(options.report), options.report, options.levels, len(every))
    return [level for level, line in zip(every, read.lines) if line.status == "missing"]
