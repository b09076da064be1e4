"""Runs searches for certificates in processes of their own: several at once, within a time limit. A
search that dies loses only its own level."""
import contextlib
import gc
import multiprocessing.connection
import signal
import time
from typing import Any, Optional, Sequence, Tuple

from . import system, texts
from .jobs import Job, Jobs
from .levels import Level
from .outcomes import FOUND, FULL, ILLEGAL, LATE, LONG, MEMORY, SOLVABLE, Result
from .search.refute import outcome

# the seconds after its time limit in which a search may still shorten and write its list
GRACE = 0.5
_BEAT = 0.2
# the outcomes in words, with the seconds
WORDS = {FOUND: "found a certificate", SOLVABLE: "found a solution", LONG: "list too long",
         ILLEGAL: "not legal", FULL: "gave up: its tables are full",
         MEMORY: "gave up: out of memory", LATE: "stopped after {:.3g} s"}


class _Worker(Job):
    """A process that searches one level after another. It gets the first one when it has started,
    so that no search pays for the start."""

    def __init__(self) -> None:
        self.pipe, theirs = system.PROCESSES.Pipe()
        self.process = system.PROCESSES.Process(target=_work, args=(theirs,), daemon=True)
        self.process.start()
        theirs.close()
        self.is_ready = self.has_ended = False
        self.seconds = 0.0
        self._found: Optional[Tuple[str, bytes]] = None

    def search(self, level: Level, seconds: float) -> None:
        self.level, self.began, self.seconds = level, time.monotonic(), seconds
        self.is_ready, self._found = False, None
        with contextlib.suppress(OSError):  # It has died: its pipe says so.
            self.pipe.send((level, seconds))

    def take(self) -> None:
        """Takes what the process sent. One that died before it sent anything ran out of memory. If
        that was before its first level, the next one would die too."""
        try:
            self._found = self.pipe.recv()
            self.is_ready = True
        except (EOFError, OSError):
            self._found = MEMORY, b""
            self.stop()
            if not self.seconds:
                raise texts.Stop("a search ended when it was started") from None

    def is_over(self) -> bool:
        if self._found is None and time.monotonic() - self.began > self.seconds + GRACE:
            self._found = LATE, b""
            self.stop()
        return self._found is not None

    def result(self) -> Result:
        assert self._found
        what, record = self._found
        return Result(self.level, what, record, self.seconds, WORDS[what].format(self.seconds))

    def stop(self) -> None:
        self.has_ended, self.is_ready = True, False
        self.process.kill()
        self.process.join()
        self.pipe.close()


class Searches(Jobs):
    """The searches of some levels, in processes that are there for all of them."""

    _workers: Sequence[_Worker] = ()

    def _begin(self, level: Level, seconds: float) -> Optional[Job]:
        there = [it for it in self._workers if not it.has_ended]
        if worker := next((it for it in there if it.is_ready), None):
            worker.search(level, seconds)
            return worker
        most = min(self.limits.jobs, len(self.levels), system.MOST_PROCESSES)
        try:
            self._workers = there + [_Worker() for _ in range(len(there), most)]
        except OSError as error:
            raise texts.Stop(f"a search cannot be started: {error.strerror}") from None
        return None

    def _wait(self) -> None:
        workers = {it.pipe: it for it in self._workers if not it.has_ended}
        for pipe in multiprocessing.connection.wait([*workers], _BEAT):
            workers[pipe].take()

    def _close(self) -> None:
        for worker in self._workers:
            worker.stop()


def _work(pipe: Any) -> None:
    """Says that the process is ready, searches each level that comes, and sends the outcome."""
    signal.signal(signal.SIGINT, signal.SIG_IGN)
    system.end_with_parent()
    gc.freeze()
    gc.disable()  # A search makes many tuples, and no cycles.
    with contextlib.suppress(EOFError, OSError):
        pipe.send(("", b""))
        while True:
            try:
                found = outcome(*pipe.recv())
            except MemoryError:
                found = MEMORY, b""
            pipe.send(found)
            gc.collect()
