"""The exports that a command reads: files, and the files in folders, in zip archives and in those
within them, and what gzip packed. A file .sokoignore in a folder has names and wildcards of files
and folders there that aren't read."""
import contextlib
import fnmatch
import functools
import gzip
import io
import os
import re
import stat
import unicodedata
import zipfile
from collections import Counter
from typing import (IO, Callable, ContextManager, Dict, Iterator, List, NamedTuple, Optional,
                    Sequence, Set, Tuple, Union, cast)

from . import texts

MOST_IN_ARCHIVE = 10_000
MOST_UNPACKED = 8 * texts.MOST_BYTES
# how deep archives are opened in others
MOST_NESTED = 3
_ZIP, _GZIP = b"PK\3\4", b"\x1f\x8b"
# the flag of a name in UTF-8; without it Python takes a name for code page 437
_UTF8 = 0x800
IGNORE = ".sokoignore"
_NUMBER = re.compile("([0-9]+)")
# Longer numbers in names have any order.
_MOST_DIGITS = 99
IsOut = Callable[[str], bool]
Opened = Callable[[], ContextManager[IO[bytes]]]
# a file on the disk by its name, or the bytes of one in an archive
Source = Union[str, bytes]


class Export(NamedTuple):
    """An export: its name, a function that reads it or raises `Stop`, and whether it was found in a
    folder or an archive, and not named itself."""

    name: str
    read: Callable[[], bytes]
    is_found: bool = True

    @property
    def end(self) -> str:
        """The end of its name in small letters: .sol for solutions, .answers for answers, and .xsb
        for levels as sokotool writes them."""
        return os.path.splitext(self.name)[1].lower()

    @property
    def stem(self) -> str:
        """Its name without the end."""
        return os.path.splitext(self.name)[0]


def listed(names: Sequence[str], is_own: IsOut = lambda _: False) -> List[Export]:
    """Returns the exports to read: a folder stands for its regular files in order, without hidden
    ones and those that the command itself writes, and an archive for the files in it. Each folder
    is read once, and a file that was read isn't read again with a folder. A file NAME.sol comes
    directly after the file NAME.* of its level."""
    seen: Set[Tuple[int, int]] = set()
    found = [export for name in names for export in _of(name, seen, is_own)]
    stems = Counter(it.stem for it in found if it.end != ".answers")
    solutions = {it.stem: it for it in found if it.end == ".sol" and stems[it.stem] == 2}
    ordered: List[Export] = []
    for export in found:
        solution = solutions.get(export.stem)
        if solution is None or export.end == ".answers":
            ordered.append(export)
        elif export is not solution:
            ordered += [export, solution]
    return ordered


def levels_of(export: Export, every: Sequence[Export]) -> Optional[Export]:
    """Returns the levels that a file of answers is for: those of its name, or the only ones that
    lie beside it."""
    is_other = export.stem.lower().endswith(".other")
    name = (export.stem[:-6] if is_other else export.stem) + ".xsb" + "~" * (export.end[-1:] == "~")
    found = [it for it in every if it.name == name]
    if not found:
        beside = [it for it in every if it.end == ".xsb"
                  and os.path.dirname(it.name) == os.path.dirname(export.name)]
        found = [it for it in beside if it.name.lower() == name.lower()]
        if not found and os.path.isfile(name):
            return Export(name, lambda: texts.read(name))
        found = found or beside
    return found[0] if len(found) == 1 else None


def published(names: Sequence[str]) -> Dict[str, str]:
    """Returns the names of files from their common folder on, so that they don't tell where they
    are on this machine. On several drives each has a common folder, and its letter comes first."""
    paths = {name: os.path.abspath(name) for name in names if name != "-"}
    drives = texts.grouped((_drive(path), os.path.dirname(path)) for path in paths.values())
    common = {drive: os.path.commonpath(folders) for drive, folders in drives.items()}
    found = {"-": "-"}
    for name, path in paths.items():
        drive = _drive(path)
        inner = _plain(os.path.relpath(path, common[drive]))
        found[name] = inner if len(drives) == 1 else f"{drive}/{inner}"
    return found


def _plain(path: str) -> str:
    """Returns a path with / and composed letters, as git keeps it. macOS may decompose them."""
    return unicodedata.normalize("NFC", path.replace(os.sep, "/"))


def _order(path: str) -> Tuple[List[str], str]:
    """Returns what orders names as people count: level2 comes before level10."""
    parts = _NUMBER.split(_plain(path))
    return [part.lstrip("0").rjust(_MOST_DIGITS) if at % 2 else part
            for at, part in enumerate(parts)], path


def _drive(path: str) -> str:
    """Returns the drive of a path as a part of a name: "" where there are no drives."""
    return os.path.splitdrive(path)[0].lower().replace(os.sep, "/").strip(":/")


def _of(name: str, seen: Set[Tuple[int, int]], is_own: IsOut) -> Iterator[Export]:
    """Yields the exports that a name on the command line stands for. `seen` gets the folders and
    files."""
    is_ignored = _ignored(os.path.dirname(name))
    if os.path.isdir(name):
        yield from _in_folder(name, seen, is_own, is_ignored)
    elif name == "-" or not os.path.isfile(name):
        yield Export(name, lambda: texts.read(name), False)
    else:
        _is_new(os.stat(name), seen)
        for export in _in_file(name):
            if not is_ignored(export.name):
                yield export._replace(is_found=export.name != name)


def _ignored(folder: str) -> IsOut:
    """Returns a function that tells what the keeper leaves out of a folder. A pattern with a slash
    is for paths from this folder on, and any other one for names in it and below."""
    path = os.path.join(folder, IGNORE)
    text = texts.text_of(texts.read(path))[0] if os.path.isfile(path) else ""
    patterns = [_plain(line.strip().rstrip("/")) for line in (text or "").split("\n")
                if not line.startswith("#")]

    if not any(patterns):
        return lambda _: False

    def is_ignored(file: str) -> bool:
        inner = _plain(os.path.relpath(file, folder or "."))
        return any(fnmatch.fnmatchcase(inner if "/" in pattern else inner.rpartition("/")[2],
                                       pattern.lstrip("/")) for pattern in patterns)
    return is_ignored


def _is_new(known: os.stat_result, seen: Set[Tuple[int, int]]) -> bool:
    """Returns whether a folder or file is seen for the first time."""
    key = known.st_dev, known.st_ino
    is_new = key not in seen
    seen.add(key)
    return is_new


def _in_folder(folder: str, seen: Set[Tuple[int, int]], is_own: IsOut, is_ignored: IsOut
               ) -> Iterator[Export]:
    """Yields the exports in a folder and in those below, however deep."""
    rules = [is_ignored]
    # of each folder around the next path, the paths that are left
    left: List[Iterator[str]] = []

    def enter(path: str) -> Iterator[Export]:
        try:
            if not _is_new(os.stat(path), seen):
                return
            names = sorted(os.listdir(path), key=_order)
            rules.append(_ignored(path))
        except OSError as error:
            yield _unreadable(path, error.strerror)
            return
        left.append(os.path.join(path, name) for name in names if not name.startswith("."))

    def is_left(file: str) -> bool:
        return any(rule(file) for rule in rules)

    yield from enter(folder)
    while left:
        path = next(left[-1], None)
        if path is None:
            left.pop()
            rules.pop()
        elif not is_left(path):
            try:
                known = os.stat(path)
            except OSError as error:
                yield _unreadable(path, error.strerror)
                continue
            if stat.S_ISDIR(known.st_mode):
                yield from enter(path)
            # deep in folders `is_own` takes long, so it is asked of files alone
            elif stat.S_ISREG(known.st_mode) and not is_own(path) and _is_new(known, seen):
                yield from (export for export in _in_file(path) if not is_left(export.name))


class _Room:
    """What may still be unpacked of a file on the disk: files, and bytes of archives in others."""

    def __init__(self) -> None:
        self.files, self.bytes = MOST_IN_ARCHIVE, MOST_UNPACKED

    def take(self, sizes: Sequence[int]) -> bool:
        """Takes files of these sizes, and returns whether there was room for them."""
        self.files -= len(sizes)
        self.bytes -= sum(sizes)
        return self.files >= 0 and self.bytes >= 0


def _in_file(path: str) -> Iterator[Export]:
    """Yields a file, or the files in it if it is an archive."""
    close()
    yield from _unpacked(Export(path, lambda: texts.read(path)), path, 0, _Room())


@functools.lru_cache(maxsize=MOST_NESTED)
def _archive(source: Source) -> zipfile.ZipFile:
    """Returns a zip archive. It stays open, so that its list of files is read once for them all."""
    return zipfile.ZipFile(source if isinstance(source, str) else io.BytesIO(source))


def close() -> None:
    """Closes the archives that were read last."""
    _archive.cache_clear()


def _opened(source: Source) -> IO[bytes]:
    return open(source, "rb") if isinstance(source, str) else io.BytesIO(source)


def _unpacked(export: Export, source: Source, depth: int, room: _Room) -> Iterator[Export]:
    """Yields an export, or the files in it if it is an archive, around which are `depth` others."""
    members: List[zipfile.ZipInfo] = []
    try:
        with _opened(source) as file:
            head = file.read(len(_ZIP)) if depth < MOST_NESTED else b""
            is_archive = head == _ZIP and zipfile.is_zipfile(file)
        if is_archive:
            members = [it for it in map(_named, _archive(source).infolist())
                       if not it.is_dir() and not _is_hidden(it.filename)]
    except MemoryError:
        raise
    except Exception as error:  # Each form of a damaged archive has errors of its own.
        yield _unreadable(export.name, getattr(error, "strerror", None) or str(error))
        return
    if not room.take([it.file_size for it in members]):
        yield _unreadable(export.name,
                          f"more than {MOST_IN_ARCHIVE} files or {MOST_UNPACKED} bytes in it")
    elif is_archive:
        for member in sorted(members, key=lambda it: _order(it.filename)):
            name = f"{export.name}/{member.filename}"
            yield from _inner(name, _member(source, member), depth, room)
    elif head.startswith(_GZIP):
        name = re.sub(r"(?i)\.gz\Z", "", os.path.basename(export.name))
        yield from _inner(f"{export.name}/{name}", _gunzipped(source), depth, room)
    else:
        yield export


def _is_hidden(name: str) -> bool:
    return any(part.startswith((".", "__MACOSX")) and part.strip(".") for part in name.split("/"))


def _named(member: zipfile.ZipInfo) -> zipfile.ZipInfo:
    """Gives a file of an archive its name in UTF-8 if it can be that: macOS doesn't say that it is.
    """
    if not member.flag_bits & _UTF8:
        with contextlib.suppress(UnicodeError):
            member.filename = member.filename.encode("cp437").decode("utf-8")
    return member


def _member(source: Source, member: zipfile.ZipInfo) -> Opened:
    return lambda: _archive(source).open(member)


def _gunzipped(source: Source) -> Opened:
    @contextlib.contextmanager
    def unpacked() -> Iterator[IO[bytes]]:
        with _opened(source) as file, gzip.GzipFile(fileobj=file) as inner:
            yield cast(IO[bytes], inner)
    return unpacked


def _inner(name: str, opened: Opened, depth: int, room: _Room) -> Iterator[Export]:
    """Yields a file of an archive, or the files in that if it is an archive too. Such a one is kept
    in memory, because its list of files is at its end."""
    def read() -> bytes:
        try:
            with opened() as file:
                data = texts.read_up_to(file, texts.MOST_BYTES + 1)
        except MemoryError:
            raise
        except Exception as error:
            raise texts.Stop(f"cannot read {texts.shown(name)}: {error}") from None
        if len(data) > texts.MOST_BYTES:
            raise texts.Stop(f"{texts.shown(name)} is longer than {texts.MOST_BYTES} bytes")
        return data

    is_packed = False
    with contextlib.suppress(Exception):  # which `read` reports
        with opened() as file:
            is_packed = file.read(len(_ZIP)).startswith((_ZIP, _GZIP))
    if not is_packed:
        yield Export(name, read)
        return
    try:
        data = read()
    except texts.Stop as stop:
        yield _stopped(name, str(stop))
        return
    export = Export(name, lambda: data)
    yield from _unpacked(export, data, depth + 1, room)


def _unreadable(name: str, why: str) -> Export:
    return _stopped(name, f"cannot read {texts.shown(name)}: {why}")


def _stopped(name: str, why: str) -> Export:
    def read() -> bytes:
        raise texts.Stop(why)
    return Export(name, read)
