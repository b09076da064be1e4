"""Compares a program with the reference on random levels and answers.

tests/run reference.fuzz [options] PROGRAM

It compares standard output, standard error and the exit status of 'audit', of 'make', of 'audit' on
what 'make' wrote, and of 'dead'. One collection has the levels of a hundred cases, so that few
processes are started. After each such collection come texts of a few levels, each changed a little;
those that are no error are changed again later. With --library each call is also made through the
library for C, in one process, and 'dead' draws every level; with --page through the page's module.
The first difference ends the run: its case is made smaller while it still fails, and kept as two
files.
"""
import argparse
import contextlib
import os
import random
import shutil
import sys
import time
from collections import Counter
from typing import Counter as Counts, Iterator, List, Optional, Sequence, Tuple

from tests.reference import mutating, noise
from tests.reference.cases import Case, draw_case
from tests.reference.comparing import Auditor, Comparison, Library, Module, Program
from tests.reference.noise import Pair
from tests.reference.reducing import keep, reduced

Found = Optional[Tuple[List[Case], Pair, str]]  # cases that differ, their texts, the difference
BATCH = 100  # cases in a collection
TORN = 10  # torn texts of a few of these cases
MUTANTS = 40  # texts after each collection, changed a little
POOL = 200  # texts that may be changed
INTERRUPT = "interrupt"


def batches(rng: random.Random, count: int) -> Iterator[Tuple[List[Case], Pair, str]]:
    """Collections of random cases, each with its texts."""
    left = count
    while left > 0:
        cases = [draw_case(rng) for _ in range(min(BATCH, left))]
        left -= len(cases)
        yield cases, noise.noisy(rng, cases), "whole"
        for _ in range(TORN if len(cases) == BATCH else 1):
            few = rng.sample(cases, min(len(cases), rng.randint(1, 4)))
            yield few, noise.tear(rng, noise.noisy(rng, few)), "torn"


def mutants(rng: random.Random, comparison: Comparison, count: int
            ) -> Iterator[Tuple[List[Case], Pair, str]]:
    """Collections like those of `batches`, and after each some texts that are changed a little,
    first those of its cases."""
    pool: List[Pair] = []
    for cases, pair, form in batches(rng, count):
        yield cases, pair, form
        if form == "whole":
            pool += [noise.plain(rng.sample(cases, min(len(cases), 3))) for _ in range(9)]
            for _ in range(MUTANTS):
                changed = mutating.mutated(rng, rng.choice(pool))
                yield [], changed, "mutant"
                if comparison.reference.audit(*changed).status != 2:
                    pool.append(changed)
            del pool[:-POOL]


def run(arguments: argparse.Namespace, comparison: Comparison) -> Tuple[Counts[str], Found]:
    """Compares until the cases or the minutes are used up, or an interrupt. The kinds of cases, and
    the first difference or None."""
    rng, end = random.Random(arguments.seed), time.monotonic() + 60 * arguments.minutes
    kinds: Counts[str] = Counter()
    try:
        for cases, pair, form in mutants(rng, comparison, arguments.cases):
            kinds.update([case.kind for case in cases] if form == "whole" else [form])
            difference = comparison.of(pair, maps=3 if form == "whole" else 1)
            if difference:
                return kinds, (cases, pair, difference)
            if time.monotonic() > end:
                break
    except KeyboardInterrupt:
        kinds[INTERRUPT] += 1
    return kinds, None


def options(words: Sequence[str]) -> argparse.Namespace:
    """The options of the command line."""
    parser = argparse.ArgumentParser(description=__doc__.split("\n")[0])
    parser.add_argument("--seed", type=int, default=int(time.time()),
                        help="seed of the random numbers (default the time)")
    parser.add_argument("--cases", type=int, default=10 ** 9,
                        help="number of levels with their answers (default no limit)")
    parser.add_argument("--minutes", type=float, default=10 ** 6,
                        help="length of the run (default no limit, or 1 without --cases)")
    parser.add_argument("--library", help="libsokoaudit.so, to compare it too")
    parser.add_argument("--page", help="sokoaudit.html, to compare its module too")
    parser.add_argument("--keep", default="out/fuzz", help="folder for a case that differs")
    parser.add_argument("program", metavar="PROGRAM")
    arguments = parser.parse_args(words)
    if arguments.cases == 10 ** 9 and arguments.minutes == 10 ** 6:
        arguments.minutes = 1
    return arguments


def main(words: Sequence[str]) -> int:
    """Prints what was compared, and the first difference. The status is 1 if there is one, and 2 if
    nothing was compared or an interrupt ended the run."""
    arguments = options(words)
    began = time.monotonic()
    print("seed %d" % arguments.seed, flush=True)
    if arguments.page and not shutil.which("node"):
        print("there is no node, so the page's module is left out")
        arguments.page = None
    with contextlib.ExitStack() as stack:
        others: List[Auditor] = [stack.enter_context(Program(arguments.program))]
        others += [Library(arguments.library)] if arguments.library else []
        others += [stack.enter_context(Module(arguments.page))] if arguments.page else []
        comparison = Comparison(others)
        kinds, found = run(arguments, comparison)
        for kind, count in sorted(kinds.items()):
            print("%8d %s" % (count, kind))
        results = sum(comparison.counts.values())
        counts = sorted(comparison.counts.items())
        said = ", ".join("%d %s" % (count, name) for name, count in counts)
        if found:
            cases, pair, difference = found
            print("found after %d cases: %s" % (sum(kinds.values()), difference))
            print(keep(arguments, reduced(cases, pair, comparison), comparison))
    # after the others have ended, since the time of a process counts from there
    print("seed %d: %d results compared in %.0f s, %.0f s of processor time: %s" % (
        arguments.seed, results, time.monotonic() - began, sum(os.times()[:4]), said))
    return 1 if found else 0 if comparison.counts and not kinds[INTERRUPT] else 2


if __name__ == "__main__":
    sys.exit(main(sys.argv[1:]))
