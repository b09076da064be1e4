"""Runs a solver on levels, several at once. Each run has a group of processes, which is ended whole
where the system can, a limit of time, and a limit of output.

A solver gets the level in XSB on standard input, and as a file where its command has `{}`. What it
prints, and files that it leaves in the folder of the level's file, may have the answer: the first
letters of a solution that a replay accepts, or the first certificate that an audit accepts.
"""
import contextlib
import os
import shutil
import subprocess
import tempfile
import time
from typing import Callable, Iterator, List, NamedTuple, Optional, Sequence, Tuple

from . import answers, solver_output, system, texts
from .formats import exporting
from .jobs import Job, Jobs
from .levels import Level
from .outcomes import FAILED, LATE, LONG, NOTHING, REFUTED, SOLVED, Result
from .search.budget import Budget, Limits

PLACE = "{}"
# the bytes of the beginning and of the end of an output that may have letters, and those of its
# beginning that may have a certificate
KEPT, MOST_CERTIFIED = 1 << 20, 1 << 24
# the lines of an output that are shown
MOST_SAID = 100
# the bytes after which a solver is ended
MOST_PRINTED = 250_000_000
# the outcomes in words, with the seconds
_WORDS = {SOLVED: "found a solution", REFUTED: "found a certificate", NOTHING: "found nothing",
          LATE: "was stopped after {:.3g} s", FAILED: "cannot be run",
          LONG: f"was stopped after {MOST_PRINTED // 1_000_000} megabytes of output"}
# the seconds from SIGTERM to SIGKILL
GRACE = 1.0
_BEAT = 0.02
_MOST_FILES = 10


class Solver(NamedTuple):
    """A solver: its command, a function that tells why an audit refuses lines as a certificate of a
    level, or returns "", and whether the results tell what was printed."""

    command: str
    refusal: Callable[[Level, Sequence[bytes]], str]
    is_told: bool = False


def words_of(command: str) -> List[str]:
    """Returns the words of a command, or refuses it."""
    try:
        words = system.words_of(command)
    except ValueError as error:
        raise texts.Stop(f"--solver {texts.shown(command)}: {error}") from None
    if not words:
        raise texts.Stop("--solver: no command")
    # Windows finds a program by a part of its name, but starts it only by the whole.
    if (found := shutil.which(words[0])) is None:
        raise texts.Stop(f"--solver: there is no program {texts.shown(words[0])}")
    return [found, *words[1:]]


class Run(Job):
    """A run of a solver on a level. What it prints goes to a file."""

    def __init__(self, solver: Solver, words: Sequence[str], level: Level, seconds: float) -> None:
        self.solver, self.level, self.seconds = solver, level, seconds
        self.fault, self.what = "", NOTHING
        self.refused = ""  # why the first certificate was refused
        self.ended: Optional[float] = None  # when it was asked to end
        self.output = tempfile.TemporaryFile()
        self.folder = tempfile.TemporaryDirectory(prefix="sokotool-")
        self.file = os.path.join(self.folder.name, "level.xsb")
        with open(self.file, "wb") as file:
            file.write("".join(exporting.plain(row) + "\n" for row in level.rows).encode())
        self.began = time.monotonic()
        self.group: Optional[system.Group] = None
        try:
            with open(self.file, "rb") as given:
                self.group = system.Group([word.replace(PLACE, self.file) for word in words],
                                          stdin=given, stdout=self.output, stderr=subprocess.STDOUT)
        except (OSError, ValueError) as error:
            self.what, self.fault = FAILED, f"cannot be run: {error}"

    def is_over(self) -> bool:
        if self.group is None or self.group.has_ended():
            return True
        now = time.monotonic()
        if self.ended is None:
            is_late = now - self.began > self.seconds
            if is_late or os.fstat(self.output.fileno()).st_size > MOST_PRINTED:
                self.what, self.ended = LATE if is_late else LONG, now
                self.group.terminate()
        return self.ended is not None and now - self.ended > GRACE

    def cut(self) -> Result:
        self.what, self.seconds = LATE, min(self.seconds, time.monotonic() - self.began)
        return self.result()

    def result(self) -> Result:
        """Ends what is left of the run, removes its files, and returns the outcome."""
        if self.group:
            self.group.kill()
        self.output.seek(0)
        heads = [self.output.read(MOST_CERTIFIED), *self._written()]
        parts = [head[:2 * KEPT] for head in heads]
        if len(heads[0]) > 2 * KEPT:  # the beginning and the end of what was printed
            self.output.seek(-KEPT, os.SEEK_END)
            parts[:1] = [heads[0][:KEPT], self.output.read()]
        self.output.close()
        with contextlib.suppress(OSError, RecursionError):
            self.folder.cleanup()
        what, record, said = self._answer(parts, heads)
        if not self.group:
            said.append(self.fault)
        elif (code := self.group.process.returncode) and self.ended is None:
            said.append(f"ended by signal {-code}" if code < 0 else f"ended with status {code}")
        words = "the solver " + _WORDS[what].format(self.seconds)
        if not record and self.refused:
            words += f"; a certificate was refused: {self.refused}"
        return Result(self.level, what, record, self.seconds, words,
                      said if self.solver.is_told else [])

    def _answer(self, parts: Sequence[bytes], heads: Sequence[bytes]
                ) -> Tuple[str, bytes, List[str]]:
        """Returns the outcome, a record, and lines that tell what was printed and refused."""
        said = _shown(parts)
        found, refused = solver_output.solution_in(self.level, parts)
        said += refused
        if found is not None:
            return SOLVED, answers.solution(self.level.number, found), said
        for lines in solver_output.certificates_in(heads):
            if not (why := self.solver.refusal(self.level, lines)):
                return REFUTED, answers.certificate(self.level.number, lines), said
            said.append(f"refused: {why}")
            self.refused = self.refused or why
        return self.what, b"", said

    def _written(self) -> Iterator[bytes]:
        """Yields the beginnings of the files that the solver left beside the level."""
        with contextlib.suppress(OSError):
            for name in sorted(os.listdir(self.folder.name))[:_MOST_FILES]:
                path = os.path.join(self.folder.name, name)
                if path != self.file and os.path.isfile(path) and not os.path.islink(path):
                    with open(path, "rb") as file:
                        yield file.read(MOST_CERTIFIED)


def _shown(parts: Sequence[bytes]) -> List[str]:
    """Returns the first lines of some texts, and how many more there are."""
    lines = [line for part in parts for line in part.splitlines() if line.strip()]
    more = len(lines) - MOST_SAID
    return [texts.shown(line).rstrip() for line in lines[:MOST_SAID]] + (
        [f"and {texts.count(more, 'more line')}"] if more > 0 else [])


# ---- all runs

class Solvers(Jobs):
    """The runs of a solver on some levels."""

    def __init__(self, solver: Solver, levels: Sequence[Level], limits: Limits, budget: Budget
                 ) -> None:
        super().__init__(levels, limits, budget)
        self._solver, self._words = solver, words_of(solver.command)

    def _begin(self, level: Level, seconds: float) -> Job:
        return Run(self._solver, self._words, level, seconds)

    def _wait(self) -> None:
        time.sleep(_BEAT)
