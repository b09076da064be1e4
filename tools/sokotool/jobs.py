"""Works on levels, several at once, within limits of time: searches and the runs of a solver."""
import time
from typing import Callable, Dict, Iterator, List, Optional, Sequence

from .levels import Level
from .outcomes import Result
from .search.budget import Budget, Limits


class Job:
    """Work on a level for up to some seconds."""

    level: Level
    began: float

    def is_over(self) -> bool:
        """Returns whether the work is over, after it has been ended if it is too long."""
        raise NotImplementedError

    def result(self) -> Result:
        """Returns the outcome of work that is over."""
        raise NotImplementedError

    def cut(self) -> Optional[Result]:
        """Ends work that isn't over, and returns its outcome if it has one."""
        return None


class Jobs:
    """The work on some levels within limits. Once the time of the budget is over, none begins.
    Results come as work ends, or in the order of the levels."""

    def __init__(self, levels: Sequence[Level], limits: Limits, budget: Budget,
                 is_ordered: bool = False) -> None:
        self.levels, self.limits, self.budget = levels, limits, budget
        self.is_ordered = is_ordered
        self._running: Dict[int, Job] = {}
        self._done: Dict[int, Result] = {}
        self._started = self._yielded = 0

    def results(self, watch: Callable[[], None] = lambda: None) -> Iterator[Result]:
        """Yields the results. While it waits, it calls `watch` several times a second."""
        try:
            while self._goes_on():
                watch()
                self._wait()
                for at, job in list(self._running.items()):
                    if job.is_over():
                        self._done[at] = self._running.pop(at).result()
                for at in sorted(self._done):
                    if at == self._yielded or not self.is_ordered:
                        self._yielded += 1
                        yield self._done.pop(at)
        finally:
            for at, job in self._running.items():
                if result := job.cut():
                    self._done[at] = result
            self._close()

    def rest(self) -> List[Result]:
        """Returns the results that were not yielded before an interrupt."""
        return [result for _, result in sorted(self._done.items())]

    def at_work(self) -> str:
        """Returns the levels at work, with their seconds."""
        now = time.monotonic()
        return ", ".join(f"level {job.level.number} for {now - job.began:.0f} s"
                         for _, job in sorted(self._running.items()))

    def _goes_on(self) -> bool:
        """Begins to work on levels as long as there is room. Returns whether there is anything to
        wait for."""
        while (self._started < len(self.levels) and len(self._running) < self.limits.jobs
               and not self.budget.is_late()):
            job = self._begin(self.levels[self._started],
                              min(self.limits.seconds, self.budget.seconds_left()))
            if job is None:
                return True
            self._running[self._started] = job
            self._started += 1
        return bool(self._running)

    def _begin(self, level: Level, seconds: float) -> Optional[Job]:
        """Begins to work on a level, or returns None if that has to wait."""
        raise NotImplementedError

    def _wait(self) -> None:
        """Waits for a part of a second, or until some work is over."""
        raise NotImplementedError

    def _close(self) -> None:
        """Ends what is left."""
