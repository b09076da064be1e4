"""Replaces several files at once: all of them or none, and none that somebody else has changed.

Each former file is moved aside, whatever it is then, and compared there. The new one comes to its
place only if no file is there. So whatever somebody saves at any moment is found, and stays. A
journal has the moves while they are made, so that `finish` can go on with them or take them back.

Lines may move from one file to another, and an editor may save over a new file before the write
ends. It has read the former file or the new one, and nothing tells which. If it has read the former
one, its save lacks the lines that moved into the file, so the other files have to be put back. If
it has read the new one, its save lacks the lines that moved out, which the others don't have then.
So the others are put back, and the former file stays beside the saved one, under a name that no
write replaces. `finish` does the same: the save may have come before the write was cut off.

The new files and the journal are on the disk before the first move, the moves are before the
journal goes, and its name is gone there before a former file goes. So `finish` also ends what a
power cut left, if the disk has some of these changes, in whatever order.
"""
import contextlib
import glob
import json
import os
from typing import NamedTuple, Optional, Sequence, Tuple

from . import output, system, texts


class Changed(texts.Stop):
    """A file isn't any more what it was when it was read."""

    def __init__(self, name: str) -> None:
        super().__init__(f"{texts.shown(name)} was changed by somebody else")


class Move(NamedTuple):
    """A file that is replaced: its path, the new file or "" for none, the path to which the former
    one goes, and digests of both, "" for none."""

    path: str
    made: str
    aside: str
    before: str
    after: str

    def is_left(self) -> bool:
        """Returns whether the new file isn't in its place yet, or the former one still is."""
        if not self.made:
            return not os.path.exists(self.aside)
        with contextlib.suppress(FileNotFoundError):
            return not os.path.samefile(self.made, self.path)
        return os.path.exists(self.made)

    def make(self) -> bool:
        """Makes the move, or what is left of it. Returns false if another file is there."""
        return not self.is_left() or _swap(self.path, self.made, self.aside, self.before)

    def is_lost(self) -> bool:
        """Returns whether somebody has changed the new file since the move."""
        return not self.is_left() and _digest(self.path) != self.after

    def take_back(self) -> None:
        """Puts the former file back, or beside another one that somebody has put there."""
        if not self.made or os.path.exists(self.aside) and not os.path.exists(self.path):
            _put(self.aside, self.path)
        elif not self.is_left() and _digest(self.path) == self.after:
            output.remove(self.made)
            _swap(self.path, self.aside if self.before else "", self.made, self.after)
        for left in self.aside, self.made:
            if _digest(left) not in ("", self.after, _digest(self.path)):
                _put_beside(left, self.path)


def commit(files: Sequence[Tuple[str, Optional[bytes], Optional[bytes]]], journal: str) -> None:
    """Replaces files, given by name with their bytes before and after; None is no file. Raises
    `Changed` if somebody has changed one of them, and replaces none then."""
    mark = _mark(journal)
    with output.made([(name, after) for name, _, after in files], mark) as made:
        names = {os.path.realpath(name): (_name_of(before), _name_of(after))
                 for name, before, after in files}
        moves = [Move(path, new, output.name_beside(path, mark), *names[path])
                 for new, path in made]
        with system.uninterrupted():
            _begin(journal, moves)
            made.clear()
            changed = _end(moves, journal)
    if changed:
        raise Changed(next(name for name, *_ in files if os.path.realpath(name) == changed))


def finish(journal: str) -> str:
    """Ends a write that was cut off: goes on with it, or takes it back if somebody has changed a
    file. Returns the path of such a file, or "". New files of a write that had no journal yet are
    removed, and former ones of a write whose journal is gone."""
    try:
        with open(journal, "rb") as file:
            moves = [Move(*words) for words in json.load(file)]
    except (FileNotFoundError, ValueError):
        moves = []  # There is no journal, or it was cut off itself.
    with system.uninterrupted():  # or former files keep their hidden names
        changed = _end(moves, journal)
    folder = glob.escape(os.path.dirname(journal))
    for left in glob.glob(os.path.join(folder, f"{output.TEMPORARY}{_mark(journal)}*")):
        output.remove(left)
    return changed


def _mark(journal: str) -> str:
    """Returns a mark of the new and former files of all writes with this journal, of which there is
    one at a time."""
    return texts.digest(os.fsencode(os.path.basename(journal)))[:8] + "-"


def _end(moves: Sequence[Move], journal: str) -> str:
    """Makes the moves, or takes all back if somebody has changed a former file or a new one."""
    try:
        changed = next((it.path for it in moves if not it.make()), "") or next(
            (it.path for it in moves if _digest(it.aside) not in ("", it.before)
             or it.is_lost()), "")
        for it in moves if changed else ():
            it.take_back()
        _keep_names(journal, moves)
        output.remove(journal)
        _keep_names(journal, ())
        for it in moves:
            output.remove(it.made)
            output.remove(it.aside)
        return changed
    except OSError as error:
        raise _refused(journal, error) from None


def _begin(journal: str, moves: Sequence[Move]) -> None:
    """Writes a journal, which no other process may have. What it names is on the disk before."""
    _keep_names(journal, moves)
    try:
        with open(journal, "x", encoding="utf-8") as file:
            try:
                json.dump(moves, file)
                system.keep(file)
            except OSError:
                output.remove(journal)
                raise
    except OSError as error:
        raise _refused(journal, error) from None
    _keep_names(journal, moves)


def _keep_names(journal: str, moves: Sequence[Move]) -> None:
    """Writes the names of all files to the disk."""
    for folder in {os.path.dirname(os.path.realpath(it)) for it in [journal, *(
            move.path for move in moves)]}:
        system.keep_names(folder)


def _swap(path: str, new: str, aside: str, contents: str) -> bool:
    """Moves the file at a path aside and a new one there, or none. Returns false if the former one
    has other contents than these, or if somebody has put a file there: that stays."""
    if not os.path.exists(aside):
        with contextlib.suppress(FileNotFoundError):
            system.patiently(os.replace, path, aside)
    if _digest(aside) != contents:
        _put(aside, path)
        return False
    return _put(new, path)


def _put(made: str, path: str) -> bool:
    """Moves a file, if there is one, to a path. Returns false if a file is there."""
    with contextlib.suppress(FileExistsError):
        if made and os.path.exists(made):
            system.rename_new(made, path)
        return True
    return False


def _put_beside(made: str, path: str) -> None:
    """Moves a file beside a path, to a name such as programs that synchronize folders give."""
    stem, end = os.path.splitext(path)
    number = 1
    while not _put(made, f"{stem}.conflict-{number}{end}"):
        number += 1


def _refused(journal: str, error: OSError) -> texts.Stop:
    return texts.Stop(f"cannot write {texts.shown(error.filename or journal)}: {error.strerror}")


def _digest(path: str) -> str:
    """Returns a name for the contents of a file: "" if there is none."""
    with contextlib.suppress(FileNotFoundError), open(path, "rb") as file:
        return _name_of(file.read())
    return ""


def _name_of(data: Optional[bytes]) -> str:
    return "" if data is None else texts.digest(data)
