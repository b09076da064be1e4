"""Runs the program, and public calls by name, with each of their allocations refused in turn."""
import os
import re
from collections import Counter
from math import inf
from typing import Callable, Dict, Iterator, List, Sequence, Tuple

from tests.calls.naming import CALLED, calls_in, words
from tests.inputs import AUDITS, LEVELS, WHOLE_ANSWERS, WHOLE_LEVELS
from tests.runner import TOP, Cases, call, decode, read, run_apart, write
from tests.tables.rows import text

Came = Tuple[str, str]  # what a run printed, and what it printed on standard error
Counts = Dict[str, int]  # how many runs ended in which way
# the types of sets of the calls, and the module of the crate `calls` that makes these
SETS = {"whole": "whole", "list": "layers", "bits": "layers"}


def library(cases: Cases) -> str:
    """Builds refuse.c, which refuses allocations, as a library in this folder."""
    command = "${CC:-cc} -O2 -shared -fPIC -o refuse.so $0/tests/refusals/refuse.c"
    if not cases.succeeds("refuse.c is built", "bash", "-c", command, TOP):
        cases.finish()
    return os.path.abspath("refuse.so")


class Refusals:
    """Runs of a program with refuse.c. 'ending' compares a run with the one with ample memory: it
    names how the run ended out of memory, and returns "" if it didn't."""

    def __init__(self, cases: Cases, program: str, refuse: str,
                 ending: Callable[[Came, Came], str]):
        self.cases, self.program, self.ending = cases, program, ending
        self.counts: Counts = Counter()
        self.variables = {**os.environ, "LD_PRELOAD": refuse, "REFUSE_COUNT": "refused"}

    def row(self, name: str, given: Sequence[str], ample: Came, before: float = inf,
            first: int = 1) -> None:
        """Runs with each allocation from the first one on refused in turn, alone and with all after
        it, until nothing is refused. Each run has to print what is wanted with ample memory, or run
        out of memory; the last one, and the one with ample memory, may not run out. After the first
        allocations, as many as are made `before` a call, a run may pass over no refusal: then a
        call that never runs out of memory allocates nothing."""
        self.cases.holds(f"{name}: ample memory", not self.ending(ample, ample), *ample)
        lasts = []
        for number, last, came, met in self.each(given, first):
            ending = self.ending(came, ample) if met else ""
            if came == ample and (not met or number <= before):
                ending = "ample"
            self.counts[ending] += 1
            self.cases.holds(f"{name}: REFUSE='{number} {last}'", ending, *came)
            lasts += [] if met else [last > number]
        self.cases.holds(f"{name}: all allocations are refused", lasts == [False, True])

    def each(self, given: Sequence[str], first: int) -> Iterator[Tuple[int, int, Came, int]]:
        """The runs with each allocation from the first one on refused, and then with all after it
        too: the first and the last refused one, what came, and how many were refused."""
        left = call([self.program, *given], env={**self.variables, "REFUSE_EACH": str(first)})
        said, at = left.output, 0
        while at < len(said):
            end = said.index(b"\n", at) + 1
            number, last, status, met, *sizes = map(int, said[at:end].split())
            texts = []
            for size in sizes:
                texts.append(decode(said[end:end + size]))
                end += size
            status = os.WEXITSTATUS(status) if os.WIFEXITED(status) else -os.WTERMSIG(status)
            yield number, last, (f"{texts[0]}status {status}\n", texts[1]), met
            at = end

    def run(self, given: Sequence[str], **variables: str) -> Tuple[Came, List[int]]:
        """What a run prints, how many allocations were refused and made, and a number that tells
        their order."""
        came = run_apart([self.program, *given], env={**self.variables, **variables})
        return came, [*map(int, read("refused").split())]

    def say_endings(self) -> Counts:
        """Says how many runs ended in which way, and returns it."""
        memory, unmade, ample = (self.counts[it] for it in ("memory", "unmade", "ample"))
        self.cases.say(f"{memory} runs ran out of memory, {unmade} couldn't make their values, "
                       f"{ample} printed what is wanted")
        return self.counts


def program_ending(came: Came, _: Came) -> str:
    """Whether the program ran out of memory: then it says so, prints nothing, and ends with status
    2."""
    return "memory" if came == ("status 2\n", "out of memory\n") else ""


def of_program(cases: Cases, program: str, refuse: str, like: str, *more: str) -> Counts:
    """The program on each row, and on more words. It runs out of memory, or prints what the program
    'like' prints with ample memory."""
    runs = Refusals(cases, program, refuse, program_ending)
    for name, levels, answers, *commands in (
        *((name, level, "", "make levels", "dead levels 1") for name, level in LEVELS.items()),
        *((*row, "audit levels answers") for row in AUDITS),
        ("a whole run", WHOLE_LEVELS, WHOLE_ANSWERS,
         "make levels", "dead levels 2", "dead levels 4", *more),
        ("no file", WHOLE_LEVELS, WHOLE_ANSWERS, "audit none answers", "audit levels none"),
    ):
        write("levels", text(levels))
        write("answers", text(answers))
        for command in commands:
            given = command.split()
            runs.row(f"{command} on {name}", given, run_apart([like, *given]))
    return runs.say_endings()


# a result that says that a call ran out of memory; a call over whole texts has then written nothing
# into its sink
MEMORY = re.compile(r"(Memory|AllocError|Err\(Memory\)|Err\(Audit\(Memory\)\))\n"
                    r"(the sink holds\n\n)?")


def call_ending(came: Came, ample: Came) -> str:
    """Whether the values of a call couldn't be made, or it ran out of memory and left everything
    that it borrowed unchanged."""
    (said, *borrowed), (_, *lent) = (it[0].partition("borrowed ") for it in (came, ample))
    if came[0] == "not made\nstatus 3\n":
        return "unmade"
    return "memory" if MEMORY.fullmatch(said) and borrowed == lent else ""


def of_call(cases: Cases, program: str, refuse: str, sets: str, call: str) -> Counts:
    """A call that the crate `calls` makes on these sets, on each row for which its values can be
    made, once for each order of allocations and frees. It runs out of memory if an allocation is
    refused."""
    runs, done = Refusals(cases, program, refuse, call_ending), set()
    for name, *texts in CALLED:
        given = words(sets, call, *texts)
        ample, (_, _, order) = runs.run(given)
        if call_ending(ample, ample) != "unmade" and order not in done:
            done.add(order)
            # the program reads its words, and makes no call of this name
            _, (_, words_alone, _) = runs.run(["fuses", "none", *given[2:]])
            # how it reads them is tried once
            first = 1 if len(done) == 1 else words_alone + 1
            runs.row(f"{call}, {name}", given, ample, words_alone, first)
    cases.holds(f"{call} is made", done)
    is_frugal = calls_in(SETS[sets])[call]
    cases.holds(f"{call} runs out of memory exactly if it allocates",
                (runs.counts["memory"] == 0) == is_frugal, f"{runs.counts['memory']} times")
    return runs.say_endings()
