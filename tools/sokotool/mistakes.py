"""The usual mistakes in the lines of certificates, in words. A report has one word for all lines
that aren't of the grammar; the board shows what was meant by many of them."""
import re
from typing import Callable, Dict, Iterable, List, Optional, Sequence, Set, Tuple

from . import report
from .answers import Cell, Record
from .levels import WALL, Level

SWAPPED = "rows seem to come before columns: a cell is column,row"
ORDER = "the cells aren't in reading order: row by row, and from left to right"
EITHER = ORDER + "; or rows come before columns"
TWICE = "a cell is there twice"
SPACES = "there has to be a blank on each side of @"
COMMA = "a comma has no blank beside it"
BLANKS = "there has to be one blank between parts, and none at the end"
FROM_ZERO = "cells seem to be counted from 0: columns and rows begin with 1, walls included"
ZERO = "a number begins with 0"
PLAYER = "a pattern ends with ' @ ' and a cell of the player, or with ' @ *'"
OLD = "a zone needs the first line 'sokoban-answers 2'"
ALONE = "a zone has no other line beside it"
JOINED = "the record lacks its last line, 'end', so the next one is read as letters"
OTHER = "this is no pattern and no zone"

_CELL = re.compile(rb"([0-9]{1,6}),([0-9]{1,6})")
_CELLS = rb"[0-9]{1,6},[0-9]{1,6}(?: [0-9]{1,6},[0-9]{1,6})*"
_PATTERN, _ZONE = (re.compile(it % ((_CELLS,) * it.count(b"%b"))) for it in (
    rb"pattern %b @ (?:\*|%b)", rb"zone %b"))
# what is mended in a line, one after another, and the mistake
_MENDS: Sequence[Tuple[str, Callable[[bytes], bytes]]] = (
    (COMMA, lambda line: re.sub(rb"(?<![ \t])[ \t]+,[ \t]*|,[ \t]+", b",", line)),
    (SPACES, lambda line: re.sub(rb"(?<=[^ \t])(?=@)|(?<=@)(?=[^ \t])", b" ", line)),
    (BLANKS, lambda line: b" ".join(line.split())),
    (ZERO, lambda line: re.sub(rb"(?<![0-9])0+(?=[0-9])", b"", line)))


def of_lines(lines: Sequence[bytes], level: Optional[Level] = None, version: int = 2
             ) -> Dict[int, str]:
    """Returns the mistakes in the lines of a certificate by their indices. The level is known if
    cells are to be compared with its board."""
    mended = [_mended(line) for line in lines]
    cells = [[(int(x), int(y)) for x, y in _CELL.findall(line)] for line, _ in mended]
    meant, may_swap = _meant({cell for listed in cells for cell in listed}, level)
    has_zone = any(line.startswith(b"zone ") for line, _ in mended)
    found: Dict[int, str] = {}
    for at, (line, said) in enumerate(mended):
        said = said + _of_grammar(line) + _of_order(line, meant or (EITHER if may_swap else ORDER))
        if meant and meant not in said:
            said.append(meant)
        if line.startswith(b"zone ") and version < 2:
            said.append(OLD)
        elif has_zone and at and len(lines) > 1:
            said.append(ALONE)
        if level and not meant:
            said += [f"{x},{y} is {why}" for x, y in cells[at] for why in [_off(level, (x, y))]
                     if why][:1]
        if said:
            found[at] = "; ".join(said)
    return found


def of_report(record: Record, level: Level, said: report.Line) -> str:
    """Returns the mistake in the line of a record that a report names, or ""."""
    if said.words[0::2] == ["move", "letter"]:
        return JOINED if any(re.fullmatch(rb"level \d+", line) for _, line in record.body) else ""
    numbers = [number for number, _ in record.body]
    if said.words[:1] != ["line"] or int(said.words[1]) not in numbers:
        return ""
    found = of_lines([line for _, line in record.body], level)
    return found.get(numbers.index(int(said.words[1])), "")


def of_reports(found: Sequence[Level], records: Iterable[Record], lines: Sequence[report.Line]
               ) -> Dict[int, str]:
    """Returns the mistakes in the lines of records that report lines name, by the numbers of the
    levels."""
    refused = {it.level: it for it in lines if it.words[:1] in (["line"], ["move"])}
    said = {it.level: of_report(it, found[it.level - 1], refused[it.level])
            for it in records if it.level in refused}
    return {number: mistake for number, mistake in said.items() if mistake}


def _mended(line: bytes) -> Tuple[bytes, List[str]]:
    """Returns a line with all of its blanks and numbers as they have to be, and the mistakes."""
    said = []
    for why, mend in _MENDS:
        if (mended := mend(line)) != line:
            said.append(why)
            line = mended
    return line, said


def _of_grammar(line: bytes) -> List[str]:
    """Returns what else a mended line has that no grammar has."""
    if _PATTERN.fullmatch(line) or _ZONE.fullmatch(line):
        return []
    return [PLAYER if re.fullmatch(rb"pattern %b(?: @.*)?" % _CELLS, line) else OTHER]


def _of_order(line: bytes, meant: str) -> List[str]:
    """Returns what is wrong with the order of the cells in a mended line, and what was meant."""
    lists = [[(int(y), int(x)) for x, y in _CELL.findall(part)] for part in line.split(b"@")]
    if all(map(_rises, lists)):
        return []
    if any(len({*listed}) < len(listed) for listed in lists):
        return [TWICE]
    is_swapped = all(_rises([(x, y) for y, x in listed]) for listed in lists)
    return [ORDER if meant == EITHER and not is_swapped else meant]


def _rises(listed: Sequence[Cell]) -> bool:
    return all(one < other for one, other in zip(listed, listed[1:]))


def _meant(cells: Set[Cell], level: Optional[Level]) -> Tuple[str, bool]:
    """Returns which mistake explains that cells are off the board or on walls, or "", and whether
    rows may come before columns."""
    def fits(some: Iterable[Cell]) -> bool:
        return not any(level and _off(level, cell) for cell in some)

    if any(0 in cell for cell in cells):
        return FROM_ZERO, False
    may_swap = fits((y, x) for x, y in cells)
    if fits(cells):
        return "", may_swap
    if may_swap:
        return SWAPPED, True
    return FROM_ZERO if fits((x + 1, y + 1) for x, y in cells) else "", False


def _off(level: Level, cell: Cell) -> str:
    """Returns why no box is on a cell, or ""."""
    x, y = cell
    if not (1 <= y <= len(level.rows) and 1 <= x <= max(map(len, level.rows))):
        return "off the board"
    return "a wall" if level.rows[y - 1][x - 1:x] == WALL.encode() else ""
