"""A disk that forgets at a power cut what wasn't kept."""
import contextlib
import itertools
import os
import random
import stat
import unittest.mock
from typing import Any, Dict, Iterator, List, Optional, Set, Tuple

CALLS = "replace", "rename", "link", "unlink"
MOST = 120  # states that are tried of more than that
# what a power cut left: the bytes of each file, and its names
Left = Tuple[Tuple[bytes, Tuple[str, ...]], ...]
Names = Dict[str, int]
Change = Dict[str, Optional[int]]  # the files of some names afterwards; None is no file


class Disk:
    """Follows the files of this folder, and collects what a power cut would leave at any moment. A
    file that wasn't kept is empty then, or cut off. Of the changes of names since the folder was
    kept some are lost: those of one file in the order in which they were made, the last ones first,
    and those of different files in any order."""

    def __init__(self) -> None:
        self.handles: List[int] = []  # open, so that no later file gets the same number
        self.bytes: Dict[int, bytes] = {}  # what was kept of each file
        self.names: List[Names] = [{}]  # since the folder was kept
        self.cuts: Set[Left] = set()
        self.note()
        for name, number in self.names[-1].items():
            with open(name, "rb") as file:
                self.bytes[number] = file.read()
        self.begin()

    def begin(self) -> None:
        """The names that are there now are on the disk."""
        del self.names[:-1]
        self.leave(self.names[0])

    def note(self) -> None:
        """Notes the names that are there now, and what a power cut would leave."""
        now = {it: os.stat(it, follow_symlinks=False).st_ino for it in sorted(os.listdir())}
        if now != self.names[-1]:
            self.names.append(now)
            self.handles += [os.open(it, os.O_RDONLY) for it in now]
        if self.bytes:
            self.leave(now)

    def leave(self, names: Names) -> None:
        """Notes that a power cut may leave these names."""
        for is_begun in (False, True):
            self.cuts.add(tuple(sorted(
                (self.after(number, is_begun), tuple(it for it in names if names[it] == number))
                for number in {*names.values()})))

    def after(self, number: int, is_begun: bool) -> bytes:
        """The bytes that a file has after a power cut."""
        if number in self.bytes or not is_begun:
            return self.bytes.get(number, b"")
        handle = next(it for it in self.handles if os.fstat(it).st_ino == number)
        os.lseek(handle, 0, os.SEEK_SET)
        return os.read(handle, os.fstat(handle).st_size // 2)

    def mix(self) -> None:
        """Notes what a power cut would leave of changes in another order."""
        files: List[Tuple[Set[object], List[Tuple[int, Change]]]] = []
        for at, (old, new) in enumerate(zip(self.names, self.names[1:])):
            change: Change = {it: new.get(it) for it in {*old, *new} if old.get(it) != new.get(it)}
            numbers = [it.get(name) for it in (old, new) for name in change]
            touched: Set[object] = {*change, *filter(None, numbers)}
            same = [it for it in files if it[0] & touched]
            files = [it for it in files if it not in same]
            files.append((touched.union(*(it[0] for it in same)),
                          [*itertools.chain(*(it[1] for it in same)), (at, change)]))
        counts = [range(len(changes) + 1) for _, changes in files]
        chance, every = random.Random(len(files)), list(itertools.islice(
            itertools.product(*counts), MOST + 1))
        if len(every) > MOST:
            every = [tuple(map(chance.choice, counts)) for _ in range(MOST)]
        for chosen in every:
            names: Change = {**self.names[0]}
            for (_, changes), count in zip(files, chosen):
                for _, change in sorted(changes, key=lambda it: it[0])[:count]:
                    names.update(change)
            self.leave({name: it for name, it in names.items() if it is not None})

    def keep(self, handle: int) -> None:
        """Stands for os.fsync."""
        known = os.fstat(handle)
        self.note()
        if stat.S_ISDIR(known.st_mode):
            self.mix()
            self.begin()
        else:
            with open(f"/dev/fd/{handle}", "rb") as file:
                self.bytes[known.st_ino] = file.read()
        self.note()


def put(left: Left) -> None:
    """Makes the files of this folder those that a power cut left."""
    for name in os.listdir():
        os.unlink(name)
    for data, (first, *more) in left:
        with open(first, "wb") as file:
            file.write(data)
        for name in more:
            os.link(first, name)


@contextlib.contextmanager
def followed() -> Iterator[Set[Left]]:
    """Yields what power cuts leave while the files of this folder change."""
    disk = Disk()

    def patched(name: str) -> Any:
        real = getattr(os, name)

        def called(*words: Any, **named: Any) -> Any:
            disk.note()
            try:
                return real(*words, **named)
            finally:
                disk.note()
        return unittest.mock.patch.object(os, name, called)
    try:
        with contextlib.ExitStack() as stack:
            stack.enter_context(unittest.mock.patch.object(os, "fsync", disk.keep))
            for name in CALLS:
                stack.enter_context(patched(name))
            yield disk.cuts
        disk.note()
        disk.mix()
    finally:
        for handle in disk.handles:
            os.close(handle)
