"""The answers text of docs/formats.md, read by its grammar and written in its canonical form.

Each description begins with the heading of docs/formats.md that it states.
"""
import re
from typing import Dict, Iterable, Iterator, List, Mapping, NamedTuple, Optional, Tuple, Union

from rules import Cell, Pattern, Zone, lines_in, spell_cell

MOST_PATTERNS = 65536
LARGEST_NUMBER = 65535
HEADERS = {b"sokoban-answers 1": 1, b"sokoban-answers 2": 2}
NUMBER = rb"[1-9][0-9]*"
CELL = NUMBER + rb"," + NUMBER
CELLS = CELL + rb"(?: " + CELL + rb")*"
LEVEL_LINE = re.compile(rb"level (" + NUMBER + rb")")
PATTERN_LINE = re.compile(rb"pattern (" + CELLS + rb") @ (\*|" + CELLS + rb")")
ZONE_LINE = re.compile(rb"zone (" + CELLS + rb")")


class BadLine(NamedTuple):
    """Bad lines: a line, and the report's word for it."""
    line: int
    why: str


Certificate = Union[List[Pattern], Zone]
Answer = Union[bytes, BadLine, Certificate]
Lines = Iterator[Tuple[int, bytes]]


class Fault(Exception):
    """Standard error and the exit status: what standard error says if the status is 2."""


def size_of(digits: bytes) -> Tuple[int, bytes]:
    """The answers text: a key by which numbers of any length compare, first by their count of
    digits."""
    return len(digits), digits


def read_cells(text: bytes) -> Optional[List[Cell]]:
    """The answers text: the cells of a list; None if they aren't strictly in reading order, or a
    number is too large."""
    cells = []
    for word in text.split(b" "):
        column, row = word.split(b",")
        if max(size_of(column), size_of(row)) > size_of(b"%d" % LARGEST_NUMBER):
            return None
        cells.append((int(row), int(column)))
    return cells if all(one < other for one, other in zip(cells, cells[1:])) else None


def read_pattern(number: int, line: bytes) -> Optional[Pattern]:
    """The answers text: the pattern of a line, or None."""
    parts = PATTERN_LINE.fullmatch(line)
    if not parts:
        return None
    boxes = read_cells(parts[1])
    seeds = None if parts[2] == b"*" else read_cells(parts[2])
    if boxes is None or (seeds is None and parts[2] != b"*"):
        return None
    return Pattern(number, boxes, seeds)


def read_zone(number: int, line: bytes) -> Optional[Zone]:
    """The answers text: the zone of a line, or None."""
    parts = ZONE_LINE.fullmatch(line)
    cells = read_cells(parts[1]) if parts else None
    return Zone(number, cells) if cells else None


def read_certificate(version: int, body: List[Tuple[int, bytes]]) -> Union[BadLine, Certificate]:
    """The answers text, and Bad lines: the patterns of a body, which is numbered lines, or its
    zone, or its first bad line."""
    zone = read_zone(*body[0]) if version == 2 and body else None
    if zone:
        return BadLine(body[1][0], "syntax") if len(body) > 1 else zone
    patterns: List[Pattern] = []
    for number, line in body:
        pattern = read_pattern(number, line)
        if pattern is None:
            return BadLine(number, "syntax")
        if len(patterns) == MOST_PATTERNS:
            return BadLine(number, "count")
        patterns.append(pattern)
    return patterns


def read_answers(text: bytes, levels: int) -> Dict[int, Answer]:
    """The answers text, and Faults of the text: the answer to each level that has one. `levels` is
    the number of levels."""
    lines = lines_in(text)
    if not lines or lines[0] not in HEADERS:
        raise Fault("answers line 1 header")
    version, last = HEADERS[lines[0]], 0
    answers: Dict[int, Answer] = {}
    kept = ((number, line) for number, line in enumerate(lines, 1)
            if number > 1 and line and not line.startswith(b";"))
    for number, line in kept:
        parts = LEVEL_LINE.fullmatch(line)
        if not parts:
            raise Fault("answers line %d level" % number)
        if size_of(parts[1]) <= size_of(b"%d" % last):
            raise Fault("answers line %d order" % number)
        if size_of(parts[1]) > size_of(b"%d" % levels):
            raise Fault("answers line %d unknown" % number)
        last = int(parts[1])
        answers[last] = read_record(version, kept, len(lines))
    return answers


def read_record(version: int, kept: Lines, lines: int) -> Answer:
    """The answers text: what is between a level line and its 'end', a solution as bytes."""
    number, kind = next(kept, (0, b""))
    if not number:
        raise Fault("answers line %d unclosed" % (lines + 1))
    if kind not in (b"solution", b"unsolvable"):
        raise Fault("answers line %d kind" % number)
    body: List[Tuple[int, bytes]] = []
    for number, line in kept:
        if line == b"end":
            if kind == b"solution":
                return b"".join(it for _, it in body)
            return read_certificate(version, body)
        body.append((number, line))
    raise Fault("answers line %d unclosed" % (lines + 1))


def spell_cells(cells: Iterable[Cell]) -> str:
    """The answers text: cells with a space between them."""
    return " ".join(map(spell_cell, cells))


def spell_body(answer: Certificate) -> List[str]:
    """The canonical form: the kind line and the body lines of a list of patterns or of a zone."""
    if isinstance(answer, Zone):
        return ["unsolvable", "zone " + spell_cells(answer.cells)]
    parts = [(spell_cells(it.boxes), "*" if it.seeds is None else spell_cells(it.seeds))
             for it in answer]
    return ["unsolvable", *("pattern %s @ %s" % it for it in parts)]


def write_answers(answers: Mapping[int, Certificate]) -> bytes:
    """The canonical form: the text of the certificates of some levels."""
    version = 2 if any(isinstance(answer, Zone) for answer in answers.values()) else 1
    lines = ["sokoban-answers %d" % version]
    for level in sorted(answers):
        lines += ["level %d" % level, *spell_body(answers[level]), "end"]
    return "".join(line + "\n" for line in lines).encode()
