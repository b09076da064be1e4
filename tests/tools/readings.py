"""The cases of readings.table: exports, and what a careful person gets from each."""
import codecs
import re
from itertools import groupby
from typing import Dict, Iterator, List, NamedTuple, Tuple

from tests.runner import TOP, read

_BOARD = re.compile(
    r"([A-D]|[-#@+$*. ;]*#[-#@+$*. ;]*)(?: \"([^\"]*)\")?(?: ([lurdLURD]+))?(?:, |$)")
# a level: its rows, its title, and the letters of its solution, or ""
Wanted = Tuple[str, str, str]


class Reading(NamedTuple):
    """A case: its name, the text of the export, its levels, and the lines of which something has to
    be said."""

    name: str
    text: str
    levels: List[Wanted]
    told: List[int]


def coded(rows: str) -> str:
    """The rows of a board in one line, run-length coded."""
    runs = [[(cell, len([*run])) for cell, run in groupby(row.replace(" ", "-"))]
            for row in rows.split("\n")]
    return "|".join("".join(f"{count if count > 1 else ''}{cell}" for cell, count in row)
                    for row in runs)


def _spelled(text: str, boards: Dict[str, str]) -> str:
    """A text in one line of the table, written out."""
    text = re.sub(r"\\(?:x..|u....|[tn\\])", lambda it: {"\\\\": "\0", "\\n": "\0n"}.get(
        it[0], codecs.decode(it[0], "unicode_escape")), text.replace("/", "\n"))
    text = re.sub(r"\{([^A-Z\n{}\"]*)([A-D])\}", lambda it: boards[it[2]].replace(
        "\n", "\n" + _lead(it[1])), text)
    return re.sub(r"\[([A-D])\]", lambda it: coded(boards[it[1]]), text).replace("\0", "\\") + "\n"


def _lead(marks: str) -> str:
    """What is in front of each row of a quoted board."""
    return "".join(f"{mark} " for mark in marks)


def readings() -> Iterator[Reading]:
    """The cases of the table."""
    boards: Dict[str, str] = {}
    for line in read(f"{TOP}/tests/tools/readings.table").splitlines():
        if re.match("[A-D] = ", line):
            boards[line[0]] = line[4:].replace("/", "\n")
        elif line and line[0] != ";" and not line.startswith("name |"):
            name, text, wanted, *told = line.split(" | ")
            levels = [(boards.get(board, board.replace(";", "\n")), title, letters)
                      for board, title, letters in _BOARD.findall(wanted) if board]
            assert ", ".join(it[0] for it in _BOARD.finditer(wanted)).replace(", , ", ", ").rstrip(
                ", ") == wanted.rstrip(", "), line
            yield Reading(name, _spelled(text, boards), levels,
                          [int(it) for it in (told[0].split() if told else [])])
