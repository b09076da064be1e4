"""Does something at a chosen moment of a run of sokotool in this process, or ends the run there."""
import os
import unittest.mock
from typing import Any, Callable, Dict, Tuple

from sokotool import auditor, progress, searches, system

# the functions at whose calls something can be done
MOMENTS: Dict[str, Tuple[Any, str]] = {
    "progress": (progress.Progress, "show"), "audit": (auditor.Auditor, "run"),
    "search": (searches.Searches, "results"), "write": (system, "copy_rights"),
    "os.replace": (os, "replace")}


class Killed(BaseException):
    """Ends a run as a signal does that can't be caught."""


class Meanwhile:
    """Does something at a call of a function, before the function does anything. If there is no
    such call in a run that ends, the test fails. With 0 calls nothing is done, and `left` counts
    the calls down."""

    def __init__(self, name: str, calls: int, act: Callable[[], Any] = lambda: None) -> None:
        self.name, self.left, self.act = name, calls, act
        self.patches = [self.patch(*MOMENTS[name])]

    def patch(self, target: Any, name: str) -> Any:
        real = getattr(target, name)

        def called(*words: Any, **named: Any) -> Any:
            self.left -= 1
            self.called()
            return real(*words, **named)
        return unittest.mock.patch.object(target, name, called)

    def called(self) -> None:
        """Is told of each call."""
        if self.left == 0:
            self.act()

    def __enter__(self) -> "Meanwhile":
        for patch in self.patches:
            patch.start()
        return self

    def __exit__(self, kind: object, *_: object) -> None:
        for patch in self.patches:
            patch.stop()
        if kind is None and self.left > 0:
            raise AssertionError(f"{self.name} was called {self.left} times too few")


class EndsEarly(Meanwhile):
    """Raises an error at a call of a function. After a kill nothing more is done."""

    def __init__(self, error: BaseException, name: str, calls: int) -> None:
        def act() -> None:
            raise error
        is_full = name == "progress" and isinstance(error, OSError)
        super().__init__("write" if is_full else name, calls, act)
        self.is_killed = isinstance(error, Killed)
        unlink = os.unlink

        def unlinked(*words: Any, **named: Any) -> None:
            is_written = os.path.basename(words[0]).startswith(".sokotool")
            if not is_written or not self.is_killed or self.left > 0:
                unlink(*words, **named)
        self.patches.append(unittest.mock.patch.object(os, "unlink", unlinked))

    def called(self) -> None:
        """Raises the error at the call, and after a kill at all later ones."""
        if self.left == 0 or self.left < 0 and self.is_killed:
            self.act()
