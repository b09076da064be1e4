"""Reads files within the auditor's limits, decodes them, and splits them into lines."""
import contextlib
import glob
import hashlib
import os
import re
import sys
from functools import lru_cache
from itertools import islice
from typing import (IO, Any, AnyStr, Dict, Iterable, List, Match, Optional, Sequence, Set, Tuple,
                    TypeVar, Union)

from . import encodings

Name = TypeVar("Name")
Item = TypeVar("Item")
MOST_BYTES = 33_554_432
READ_AT_ONCE = 1 << 20
MARK = b"\xef\xbb\xbf"
# the most lines that a cache keeps
MOST_KEPT = 1 << 18
# what makes a function keep what it makes of a line
cached = lru_cache(MOST_KEPT)
# whole lines of about 65,536 characters, so that not all lines of a text are in memory
_BLOCK = r"(?s:.{1,65536})[^\n]*\n?"
_BLOCKS, _TEXTS = re.compile(_BLOCK.encode()), re.compile(_BLOCK)
# From the first CR on: a search from each of a million takes hours.
_RETURNS = re.compile("(?<!\r)\r\r+\n")
_INNER_MARK = re.compile("(?<!\n)\ufeff")
# what git leaves of a merge: marks before its own version, before what both had, before the other
# version and after it, each with the sides that the next lines are of
_MARKED = re.compile(rb"(?m)^<<<<<<< ")
_MARKS: Dict[bytes, Set[int]] = {
    b"<<<<<<<": {0}, b"|||||||": set(), b"=======": {1}, b">>>>>>>": {0, 1}}


class Stop(Exception):
    """Ends the command with a line on standard error and an exit status."""

    def __init__(self, why: str, status: int = 2) -> None:
        super().__init__(why)
        self.status = status


def read(name: str, most: int = MOST_BYTES) -> bytes:
    """Returns the bytes of a file, or of standard input for `-`."""
    try:
        if name != "-":
            with open(name, "rb") as file:
                data = read_up_to(file, most + 1)
        elif sys.stdin is None:
            raise Stop("cannot read -: standard input is closed")
        else:
            data = read_up_to(sys.stdin.buffer, most + 1)
    except (OSError, ValueError) as error:
        why = getattr(error, "strerror", error)
        raise Stop(f"cannot read {shown(name)}: {why}") from None
    if len(data) > most:
        raise Stop(f"{shown(name)} is longer than {most} bytes")
    return data


def read_up_to(file: IO[bytes], most: int) -> bytes:
    """Returns the bytes of a stream, or its first ones. They are read in parts, because a read
    takes memory for all that it may return."""
    parts = [file.read(min(READ_AT_ONCE, most))]
    while len(parts[-1]) == READ_AT_ONCE and len(parts) * READ_AT_ONCE < most:
        parts.append(file.read(min(READ_AT_ONCE, most - len(parts) * READ_AT_ONCE)))
    return b"".join(parts)


def expanded(names: Sequence[str]) -> List[str]:
    """Returns names of files, with those that a wildcard stands for in its place, in order. On
    Windows no shell does that."""
    found = ([] if os.path.lexists(name) else sorted(glob.glob(name)) for name in names)
    return [it for name, some in zip(names, found) for it in some or [name]]


def unmarked(data: bytes) -> bytes:
    """Returns a text without the byte order mark at its start."""
    return data[len(MARK):] if data.startswith(MARK) else data


def lines(data: bytes) -> List[bytes]:
    """Returns the lines of a text. LF ends a line, and a CR before it belongs to the end. Equal
    short lines are one object, so that a text of many short lines takes little memory."""
    return _split(_BLOCKS.finditer(data.replace(b"\r\n", b"\n")), b"\n")


def _split(blocks: Iterable[Match[AnyStr]], end: AnyStr) -> List[AnyStr]:
    """Returns the lines of a text in blocks, with these ends. Equal lines are one object, up to the
    limit of the cache."""
    found: List[AnyStr] = []
    seen: Dict[AnyStr, AnyStr] = {}
    for block in blocks:
        share = seen.setdefault if len(seen) < MOST_KEPT else seen.get
        found += [share(line, line) for line in block[0].split(end)]
        if not found[-1]:  # after the end of the last line
            found.pop()
    return found


def conflict(data: bytes) -> int:
    """Returns the first line with a mark of a merge in git, from 1, or 0."""
    first = _MARKED.search(data)
    if not first or data.find(b"\n>>>>>>> ", first.end()) < 0:
        return 0
    return data.count(b"\n", 0, first.start()) + 1


def sides(data: bytes) -> List[bytes]:
    """Returns a text, or both sides of one that git left with marks of a merge."""
    if not conflict(data):
        return [data]
    found: List[List[bytes]] = [[], []]
    its = both = {0, 1}
    for line in data.split(b"\n"):
        mark = _MARKS.get(line[:7]) if its != both or line.startswith(b"<<<<<<<") else None
        its = its if mark is None else mark
        for at in its if mark is None else ():
            found[at].append(line)
    return [b"\n".join(lines) for lines in found]


def shown(text: Union[str, bytes]) -> str:
    """Returns text that is safe to print: bytes decoded, control characters replaced by blanks."""
    if isinstance(text, bytes):
        text = decoded(text)
    else:
        text = text.encode("utf-8", "surrogateescape").decode("utf-8", "replace")
    return "".join(c if c.isprintable() else " " for c in text)


def decoded(data: bytes) -> str:
    """Returns bytes as text: UTF-8 where they are, otherwise Windows-1252 or Latin-1."""
    return encodings.decoded(data, "utf-8")


def text_of(data: bytes, encoding: str = "") -> Tuple[Optional[str], str]:
    """Returns the text of a file, with LF at the end of each line, or None if it isn't a text, and
    what it was read as if it isn't all UTF-8 or UTF-16: this encoding, or one that is guessed for
    the other lines. Byte order marks are dropped, except at the start of a later line."""
    if data.startswith((b"\xff\xfe", b"\xfe\xff")):
        coding = "utf-16"
    elif b"\0" in data[:1000]:
        coding = "utf-16-le" if data[1:2] == b"\0" else "utf-16-be"
    else:
        coding = "utf-8"
    try:
        if coding != "utf-8" or _is_utf8(data):
            text, other = data.decode(coding), ""
        else:
            text, other = (data.decode(encoding), "") if encoding else _mixed(data)
    except UnicodeDecodeError:
        return None, ""
    if "\0" in text:
        return None, ""
    if "\r" in text:
        text = _RETURNS.sub("\n", text).replace("\r\n", "\n").replace("\r", "\n")
    # A mark within the text shows where two files were joined.
    text = _INNER_MARK.sub("", text[1:] if text.startswith("\ufeff") else text)
    return text, other


def in_utf8(data: bytes) -> bytes:
    """Returns a text that begins with a byte order mark in UTF-8 and without it, as Windows may
    have written it, and other bytes as they are."""
    is_marked = data.startswith((MARK, b"\xff\xfe", b"\xfe\xff"))
    text = text_of(data)[0] if is_marked else None
    return data if text is None else text.encode()


def _mixed(data: bytes) -> Tuple[str, str]:
    """Returns the text of bytes that are UTF-8 in part, decoded line by line, and the encoding of
    the other lines."""
    blocks = [(block, _is_utf8(block)) for block in _BLOCKS.findall(data)]
    others = (line + b"\n" for block, is_plain in blocks if not is_plain
              for line in block.split(b"\n") if not _is_utf8(line))
    name = encodings.guessed(b"".join(islice(others, encodings.MOST)))
    return "".join(
        block.decode("utf-8") if is_plain else
        "\n".join(_decoded_line(line, name) for line in block.split(b"\n"))
        for block, is_plain in blocks), name


def _is_utf8(line: bytes) -> bool:
    try:
        line.decode("utf-8")
    except UnicodeDecodeError:
        return False
    return True


def _decoded_line(line: bytes, name: str) -> str:
    try:
        return line.decode("utf-8")
    except UnicodeDecodeError:
        return "\ufeff" * line.startswith(MARK) + encodings.decoded(unmarked(line), name)


def lines_of(text: str) -> List[str]:
    """Returns the lines of a text that `text_of` returned. Equal short lines are one object."""
    return _split(_TEXTS.finditer(text), "\n")


def same_file(first: str, second: str) -> bool:
    """Returns whether two names are of one file, also through links; `-` is standard input."""
    return not identities(first).isdisjoint(identities(second))


def identities(name: str) -> Set[Any]:
    """Returns what all names of a file have in common, and no other file has: the path without
    links, and the number of the file if it is there."""
    found: Set[Any] = set() if name == "-" else {os.path.realpath(name)}
    with contextlib.suppress(OSError, ValueError, AttributeError):
        known = os.fstat(sys.stdin.fileno()) if name == "-" else os.stat(name)
        found.add((known.st_dev, known.st_ino))
    return found


def grouped(pairs: Iterable[Tuple[Name, Item]]) -> Dict[Name, List[Item]]:
    """Returns items by their names, in order."""
    found: Dict[Name, List[Item]] = {}
    for name, item in pairs:
        found.setdefault(name, []).append(item)
    return found


def digest(data: bytes) -> str:
    """Returns a short name for bytes."""
    return hashlib.sha256(data).hexdigest()[:16]


def count(number: int, noun: str) -> str:
    """Returns a number with its noun: `1 level`, `2 levels`, `3 boxes`."""
    return f"{number} {noun}" + ("" if number == 1 else "es" if noun.endswith(("x", "sh")) else "s")
