"""Answers files: their records read as the auditor reads them, and written in its canonical
form."""
import re
from typing import Callable, Iterable, List, NamedTuple, Optional, Sequence, Tuple

from . import texts

MOST_PATTERNS = 65_536
_BLANKS = b" \t\r"
Cell = Tuple[int, int]
_HEADER = re.compile(rb"sokoban-answers ([12])")
_LEVEL = re.compile(rb"level ([1-9][0-9]*)")
# with any number, such as 007, or 0, which no level has
_ANY_LEVEL = re.compile(rb"level ([-+]?[0-9][0-9.,/]*)")
_ABOVE_ALL = 10 ** 10


class Fault(Exception):
    """A fault of a whole answers file, with its line and the auditor's word."""

    def __init__(self, line: int, why: str) -> None:
        super().__init__(f"line {line}: {why}")
        self.line, self.why = line, why


class Answer(NamedTuple):
    """An answer to a board, whatever the number of its level is: its kind, the comments above it,
    and its lines after that number, skipped ones and `end` too."""

    kind: str
    above: Tuple[bytes, ...]
    lines: Tuple[bytes, ...]

    @property
    def body(self) -> List[Tuple[int, bytes]]:
        """The lines of letters or cells, each with its place after the number from 1."""
        listed = [(at, line) for at, line in enumerate(self.lines, 1) if not _is_skipped(line)]
        return listed[1:-1]

    @property
    def letters(self) -> bytes:
        """The letters of a solution, its lines joined."""
        return b"".join(line for _, line in self.body)

    @property
    def comments(self) -> List[bytes]:
        """The comments above it and in it."""
        return [line for line in self.above + self.lines if line.startswith(b";")]

    def covers(self, other: "Answer") -> bool:
        """Returns whether this has the answer and the comments of another one."""
        return self == other or self._said() == other._said() and (
            {*other.comments} <= {*self.comments})

    def _said(self) -> Tuple[str, object]:
        is_solution = self.kind == "solution"
        return self.kind, self.letters if is_solution else [line for _, line in self.body]

    def changed(self, change: Callable[[bytes], Sequence[bytes]]) -> "Answer":
        """Returns the answer with other lines in place of each line of letters or cells."""
        body = {at for at, _ in self.body}
        return self._replace(lines=tuple(
            it for at, line in enumerate(self.lines, 1)
            for it in (change(line) if at in body else [line])))

    def cased(self, letters: bytes) -> "Answer":
        """Returns the solution with other letters, as many as its own, in the same lines."""
        left = iter(letters)
        return self.changed(lambda line: [bytes(byte if byte in _BLANKS else next(left)
                                                for byte in line)])

    def record(self, level: int) -> bytes:
        """Returns the answer as the record of a level, with the comments above it."""
        return spelled([*self.above, b"level %d" % level, *self.lines])


class Record(NamedTuple):
    """A record: its level's number, the answer, the number of its level line, and the lines before
    the comments above it, which end with an empty one."""

    level: int
    answer: Answer
    line: int
    apart: List[bytes]

    @property
    def kind(self) -> str:
        return self.answer.kind

    @property
    def body(self) -> List[Tuple[int, bytes]]:
        """The lines of letters or cells, each with its number in the file."""
        return [(self.line + at, line) for at, line in self.answer.body]

    @property
    def letters(self) -> bytes:
        """The letters of a solution."""
        return self.answer.letters

    @property
    def text(self) -> bytes:
        """The record with the comments above it."""
        return self.answer.record(self.level)


class Answers(NamedTuple):
    """The version of an answers file, its records in order, and the lines after the last one."""

    version: int
    records: List[Record]
    rest: List[bytes]


def read(data: bytes, levels: Optional[int] = None, rising: bool = True) -> Answers:
    """Reads an answers text, or raises its first `Fault`. `levels` is the number of levels, where
    it is known. Where `rising` is false, the levels may come in any order, and a number that no
    level can have is above every level."""
    lines = texts.lines(data)
    header = _HEADER.fullmatch(lines[0]) if lines else None
    if not header:
        raise Fault(1, "header")
    records: List[Record] = []
    above: List[bytes] = []
    apart: List[bytes] = []
    last = 0
    numbered = enumerate(lines[1:], 2)
    for first, line in numbered:
        if _is_skipped(line):
            above.append(line)
            if not line:
                apart, above = apart + above, []
            continue
        if not (match := (_LEVEL if rising else _ANY_LEVEL).fullmatch(line)):
            raise Fault(first, "level")
        number = match[1].lstrip(b"+0")
        # Past nine digits a number is above every level, and is not converted.
        level = int(number) if number.isdigit() and len(number) < 10 else _ABOVE_ALL
        if rising and level <= last:
            raise Fault(first, "order")
        if levels is not None and level > levels:
            raise Fault(first, "unknown")
        kind, body = "", []
        for number, line in numbered:
            body.append(line)
            if not kind and not _is_skipped(line):
                if line not in (b"solution", b"unsolvable"):
                    raise Fault(number, "kind")
                kind = line.decode()
            elif line == b"end":
                break
        else:
            raise Fault(len(lines) + 1, "unclosed")
        records.append(Record(level, Answer(kind, tuple(above), tuple(body)), first, apart))
        above, apart, last = [], [], level
    return Answers(int(header.group(1)), records, apart + above)


def answer_of(record: bytes) -> Answer:
    return read(text([record])).records[0].answer


def _is_skipped(line: bytes) -> bool:
    return not line or line.startswith(b";")


def is_begun(data: bytes) -> bool:
    """Returns whether a file begins as an answers file does, perhaps after a byte order mark."""
    return texts.in_utf8(data).startswith(b"sokoban-answers ")


def read_whole(data: bytes, levels: Optional[int] = None, rising: bool = True) -> Answers:
    """Reads an answers text, or raises its first fault. That may be a record that seems to go on in
    the next one: the auditor reads both as one, and refuses that."""
    found = read(data, levels, rising)
    for number, line in (it for record in found.records for it in record.body):
        if _ANY_LEVEL.fullmatch(line):
            raise Fault(number, "end")
    return found


def read_text(name: str, data: bytes, levels: Optional[int] = None, rising: bool = True
              ) -> Answers:
    """Reads an answers text of this name; its first fault ends the command."""
    data = texts.in_utf8(data)
    try:
        return read_whole(data, levels, rising)
    except Fault as fault:
        place = "" if fault.why == "header" else f"line {fault.line}: "
        raise texts.Stop(f"{texts.shown(name)} {place}{advice(data, fault, levels)}") from None


def advice(data: bytes, fault: Fault, levels: Optional[int]) -> str:
    """Returns in words what is wrong at a fault, and what to type."""
    if fault.why == "header":
        return "is no answers file: line 1 isn't 'sokoban-answers 1'"
    typed = texts.shown(b"".join(texts.lines(data)[fault.line - 1:fault.line])[:40])
    return {"level": f"'{typed}' is neither a line 'level N' nor a comment, which begins with ';'",
            "order": f"'{typed}' has to come before the records of higher levels",
            "unknown": f"'{typed}': there is no such level, the highest is {levels}",
            "kind": f"'{typed}' is neither 'solution' nor 'unsolvable', one of which has to follow "
                    "the line 'level N'",
            "end": f"'{typed}': the record above it lacks its last line, 'end'",
            "unclosed": "the last record lacks its last line, 'end'"}[fault.why]


def read_file(name: str, levels: Optional[int] = None, rising: bool = True) -> Answers:
    """Reads an answers file; its first fault ends the command."""
    return read_text(name, texts.read(name), levels, rising)


def solution(level: int, letters: bytes) -> bytes:
    """Returns the record of a solution, its letters (bytes) in lines of 70."""
    lines = [letters[i:i + 70] for i in range(0, len(letters), 70)]
    return spelled([b"level %d" % level, b"solution", *lines, b"end"])


def patterns(level: int, listed: Iterable[Tuple[Iterable[Cell], Optional[Iterable[Cell]]]]
             ) -> bytes:
    """Returns the record of a list of patterns, given as pairs of boxes and seeds; seeds None are
    the whole room. Cells are (column, row)."""
    lines = [b"pattern %b @ %b" % (cells(boxes), b"*" if seeds is None else cells(seeds)) for boxes,
             seeds in listed]
    return certificate(level, lines)


def certificate(level: int, lines: Sequence[bytes]) -> bytes:
    """Returns the record of a certificate with these lines."""
    return spelled([b"level %d" % level, b"unsolvable", *lines, b"end"])


def cells(listed: Iterable[Cell]) -> bytes:
    """Returns cells as they are written, in reading order."""
    return b" ".join(b"%d,%d" % cell
                     for cell in sorted(listed, key=lambda cell: (cell[1], cell[0])))


def spelled(lines: Iterable[bytes]) -> bytes:
    """Returns lines as a text."""
    return b"".join(line + b"\n" for line in lines)


def text(records: Sequence[bytes], version: Optional[int] = None) -> bytes:
    """Returns the text of an answers file with these records, whose levels rise. Its version is 2
    where a record is a zone."""
    if version is None:
        version = 2 if any(b"\nzone " in record for record in records) else 1
    return b"sokoban-answers %d\n" % version + b"".join(records)
