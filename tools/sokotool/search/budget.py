"""The time of a search."""
import math
import time
from typing import NamedTuple


class Budget:
    """When the time of a search ends."""

    def __init__(self, seconds: float):
        self.end = time.monotonic() + seconds

    def seconds_left(self) -> float:
        """Returns the seconds that are left, below 0 if the time is over."""
        return self.end - time.monotonic()

    def is_late(self) -> bool:
        return time.monotonic() > self.end


class Limits(NamedTuple):
    """The seconds for a level, those for all levels, and how many levels are searched at once."""

    seconds: float
    total: float
    jobs: int

    @property
    def words(self) -> str:
        """The limits of time in words."""
        total = "" if math.isinf(self.total) else f", {self.total:g} s in all"
        return f"at most {self.seconds:g} s each{total}"
