"""The files that convert and check write: NAME.xsb and so on. Which files those are, how they were,
and how they become."""
import contextlib
import glob
import os
import re
import time
from itertools import zip_longest
from typing import IO, Callable, Dict, Iterator, List, Optional, Sequence

from . import answers, auditor, memory, report, sheet, system, texts, transaction
from .progress import Progress

# The page of a collection within the limits is shorter.
MOST_BYTES = 1_000_000_000
XSB, ANSWERS, REPORT, PAGE = ".xsb", ".answers", ".report", ".html"
OTHER, KEPT_XSB, KEPT_ANSWERS, MEMORY = ".other.answers", ".kept.xsb", ".kept.answers", ".memory"
# the files that are kept as NAME.xsb~ and so on when one of them changes
ENDS = (XSB, ANSWERS, OTHER, REPORT, PAGE, KEPT_XSB, KEPT_ANSWERS)
JOURNAL = ".unfinished"
# the table, which is written if it is asked for, or if it is as the last check wrote it
SHEET = ".csv"
EVERY = (*ENDS, SHEET, MEMORY, JOURNAL)
# the files in the order in which a keeper wants to open them
LISTED = (PAGE, *(end for end in (*ENDS, SHEET) if end != PAGE), MEMORY)
_PAGE = b"<title>sokoaudit report</title>"
_BEAT = 0.1
# what programs that synchronize folders, and `transaction`, put between the name of a file and the
# end of another version
_VERSION = re.compile(r"(?:\.kept|\.other)?[ ._-]?"
                      r"(?:\(.+\)|(?:sync-)?conflict.*|[^.]*conflicted copy.*)", re.I)
_NOTE = f"; {auditor.REFERENCE_NOTE}".encode()


class Files:
    """The contents of the files by the ends of their names: `before` the check, and `now`. The ends
    of those that were written are in `written`."""

    def __init__(self, name: str, has_backups: bool) -> None:
        self.name, self.has_backups = name, has_backups
        self.written: List[str] = []
        self._journal = name + JOURNAL
        transaction.finish(self._journal)
        self.before: Dict[str, bytes] = self._read()
        self.now: Dict[str, Optional[bytes]] = dict(self.before)

    def _read(self) -> Dict[str, bytes]:
        found = {end: bytes_of(self.name + end) for end in (*ENDS, SHEET, MEMORY)}
        return {end: data for end, data in found.items() if data is not None}

    def levels(self) -> Optional[bytes]:
        """Returns NAME.xsb without the note of the reference, or None if there is none. An editor
        may have saved it in UTF-16."""
        data = self.before.get(XSB)
        data = texts.in_utf8(data) if data and data[:2] in (b"\xff\xfe", b"\xfe\xff") else data
        return b"\n".join(unnoted(data.split(b"\n"))) if data and _NOTE in data else data

    def answers(self, end: str, most: int) -> answers.Answers:
        """Returns the records of an answers file for so many levels, in any order. Of a merge that
        git left to the keeper it returns those of both sides."""
        data = self.before.get(end, answers.text([]))
        one, *others = texts.sides(data)
        found = answers.read_text(self.name + end, one, most, rising=False)
        for other in others:
            more = answers.read_text(self.name + end, other, most, rising=False)
            known = {(it.level, it.answer) for it in found.records}
            said = {line for it in found.records for line in it.apart if line}
            theirs = [it._replace(apart=[line for line in it.apart if line not in said])
                      for it in more.records]
            found.records.extend(it for it in theirs
                                 if any(it.apart) or (it.level, it.answer) not in known)
            found.rest.extend(it for it in more.rest if it not in found.rest)
        # A record may be typed below the note, and another one below that.
        for at, record in enumerate(found.records if _NOTE in data else ()):
            above = tuple(unnoted(record.answer.above))
            found.records[at] = record._replace(apart=unnoted(record.apart),
                                                answer=record.answer._replace(above=above))
        return found._replace(rest=unnoted(found.rest))

    def memory(self) -> memory.Memory:
        return memory.read(self.before.get(MEMORY), self.name + MEMORY)

    def write(self, files: Dict[str, Optional[bytes]]) -> None:
        """Writes the files that changed, and first the former ones as backups. If a file isn't as
        this run read or wrote it, nothing is written and `Changed` is raised."""
        there = self._read()
        for end in files:
            if there.get(end) != self.now.get(end):
                raise transaction.Changed(self.name + end)
        changed = {end: data for end, data in files.items() if data != self.now.get(end)}
        listed = [(self.name + end, self.now.get(end), data) for end, data in changed.items()]
        if not self.has_backups and any(end != MEMORY for end in changed):
            listed[:0] = [(self.name + end + "~", bytes_of(self.name + end + "~"), data)
                          for end, data in self.before.items() if end in files and end != MEMORY]
        if listed:
            transaction.commit(listed, self._journal)
            self.now.update(changed)
            self.written += [end for end, data in changed.items() if data is not None]
            self.has_backups = self.has_backups or len(listed) > len(changed)

    def changed(self, files: Dict[str, Optional[bytes]]) -> List[str]:
        """Returns lines that tell where files are other than these, but for notes."""
        said = []
        for end, data in files.items():
            now, wanted = (it and it.replace(_NOTE + b"\n", b"").replace(b"," + _NOTE[1:], b"")
                           for it in (self.now.get(end), data))
            if now is not None and wanted is not None:
                both = zip_longest(now.split(b"\n"), wanted.split(b"\n"))
                said += [f"{end} line {at} would change"
                         for at, (old, new) in enumerate(both, 1) if old != new][:1]
            elif now != wanted:
                said.append(f"{end} would be " + ("written" if now is None else "removed"))
        return [texts.shown(self.name) + it for it in said]

    def remember(self, data: bytes) -> None:
        """Writes NAME.memory alone, whatever the other files are now."""
        transaction.commit([(self.name + MEMORY, self.now.get(MEMORY), data)], self._journal)
        self.now[MEMORY] = data


def unnoted(lines: Sequence[bytes]) -> List[bytes]:
    """Returns lines without the note of the reference."""
    return [line for line in lines if line.rstrip(b"\r") != _NOTE]


def bytes_of(name: str) -> Optional[bytes]:
    """Returns the contents of a file, or None if there is none."""
    return texts.read(name, MOST_BYTES) if os.path.exists(name) else None


def versions(name: str) -> List[str]:
    """Returns the files that seem to be other versions of NAME.xsb, NAME.answers or what was kept.
    They aren't read."""
    return [file for end in (XSB, ANSWERS)
            for file in sorted(glob.glob(f"{glob.escape(name)}*{end}"))
            if _VERSION.fullmatch(file[len(name):-len(end)])]


def own(name: str, has_parts: bool = False) -> Callable[[str], bool]:
    """Returns a function that tells the files that check writes or keeps for NAME, and perhaps the
    numbered parts that convert writes."""
    written = [name + end + more for end in EVERY for more in ("", "~")]
    for end in EVERY if has_parts else ():
        written += glob.glob(f"{glob.escape(name)}-[0-9]*{end}*")
    known = {it for file in written for it in texts.identities(file)}
    return lambda file: not known.isdisjoint(texts.identities(file))


def is_made(name: str, data: bytes) -> bool:
    """Returns whether a file is one that check made for some NAME, but not its levels or answers:
    a backup, what was kept, a report, a page, a table, a memory, or a journal."""
    return (name.endswith(("~", KEPT_XSB, KEPT_ANSWERS, JOURNAL))
            or name.endswith(REPORT) and report.read(data).total is not None
            or name.endswith(PAGE) and _PAGE in data
            or name.endswith(SHEET) and sheet.is_begun(data)
            or name.endswith(MEMORY) and data.startswith(b"{"))


def check_name(name: str) -> None:
    """Refuses a NAME that names no file."""
    if not os.path.basename(name).strip("."):
        raise texts.Stop(f"the name {texts.shown(name)!r} has nothing before .xsb")
    end = os.path.splitext(name)[1]
    is_file = bool(end) and os.path.isfile(name) and not os.path.exists(name + XSB)
    if is_file or end in ENDS:
        why = "is a file that is there" if is_file else f"has an end: type it without {end}"
        raise texts.Stop("the first word is the NAME of a collection, and "
                         f"{texts.shown(name)} {why}")
    if system.is_device(os.path.basename(name)):
        raise texts.Stop(f"{texts.shown(name)} is the name of a device")


@contextlib.contextmanager
def alone(name: str, shown: Progress) -> Iterator[None]:
    """Keeps other runs of check out of the files of NAME: they wait. The lock ends with this
    process, however that ends."""
    path = os.path.join(os.path.dirname(name), f".sokotool-{os.path.basename(name)}.lock")
    file, is_told = None, False
    try:
        while not file:
            with system.uninterrupted():  # the file isn't lost between its making and here
                file = _locked(path)
            if not file:
                if not is_told:
                    shown.keep(f"another check of {texts.shown(name)} is running: waiting for its "
                               "end")
                is_told = True
                time.sleep(_BEAT)
        yield
    finally:
        with system.uninterrupted():
            # Windows removes no open file. Elsewhere the file goes while the lock is held.
            if file:
                is_removed = _is_removed(path)
                file.close()
                if not is_removed:
                    _is_removed(path)


def _locked(path: str) -> Optional[IO[bytes]]:
    """Returns the file at this path, open and locked, or None if another process has it."""
    try:
        file = open(path, "ab")
    except OSError as error:
        raise texts.Stop(f"cannot write {texts.shown(path)}: {error.strerror}") from None
    with contextlib.suppress(OSError):
        # Whoever had the lock may have removed the file since it was opened here.
        if system.lock(file.fileno()) and os.path.samestat(os.fstat(file.fileno()), os.stat(path)):
            return file
    file.close()
    return None


def _is_removed(path: str) -> bool:
    with contextlib.suppress(OSError):
        os.unlink(path)
    return not os.path.exists(path)


def noted(program: auditor.Auditor, text: bytes) -> bytes:
    """Returns a text with a note at its end if the reference has checked it."""
    return text + _NOTE + b"\n" if program.is_reference else text
