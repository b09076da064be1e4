"""The levels of a collection, each with the text that belongs to it above and below."""
import re
from typing import Any, Callable, FrozenSet, List, NamedTuple, Sequence, Tuple

from . import levels, texts

Lines = Tuple[bytes, ...]
# what of a block was typed by the keeper
ABOVE, BELOW, LEVEL = "above", "below", "level"
_KEY = re.compile(rb"[A-Za-z\x80-\xff][\w\x80-\xff -]*:")
# equal characters of rows, and how they are written; no row has a digit
_RUN, _CODED = re.compile(r"(.)\1{2,}"), re.compile(r"([0-9]{1,8})(.)")


class Block(NamedTuple):
    """The rows of a level, and its text. `typed` says what of it the keeper typed."""

    above: Lines
    rows: Lines
    below: Lines
    typed: FrozenSet[str] = frozenset()


def cut(gap: Sequence[bytes]) -> int:
    """Returns how many lines between two levels belong to the upper one: those up to the last line
    such as `Title: ..` before a comment, with the lines that follow it."""
    comment = next((at for at, line in enumerate(gap) if line.startswith(b";")), len(gap))
    end = max((at + 1 for at in range(comment) if _KEY.match(gap[at])), default=0)
    while 0 < end < comment and gap[end].strip():
        end += 1
    return end


def read(data: bytes, cut_of: Callable[[Sequence[bytes]], int] = cut) -> List[Block]:
    """Returns the levels of a text with all of its lines."""
    lines, found = texts.lines(texts.unmarked(data)), levels.read(data)
    firsts = [level.line - 1 for level in found]
    ends = [first + len(level.rows) for first, level in zip(firsts, found)]
    gaps = [tuple(lines[end:first])
            for end, first in zip([0, *ends], [*firsts, len(lines)])]
    cuts = [0, *map(cut_of, gaps[1:-1]), len(gaps[-1])]
    return [Block(above[at:], tuple(level.rows), below[:end])
            for level, above, at, below, end in zip(found, gaps, cuts, gaps[1:], cuts[1:])]


def separated(blocks: Sequence[Block]) -> List[Block]:
    """Returns blocks with an empty line between levels that have no text between them."""
    found: List[Block] = []
    for block in blocks:
        if found and not found[-1].below and not block.above:
            block = block._replace(above=(b"",))
        found.append(block)
    return found


def text(blocks: Sequence[Block]) -> bytes:
    """Returns the text of separated blocks."""
    return b"".join(line + b"\n" for block in blocks for part in block[:3] for line in part)


# ---- in a JSON file

def packed(block: Block) -> List[Any]:
    """Returns a block for a JSON file. Its rows are in one line, run-length coded."""
    return [_spelled(block.above), packed_rows(block.rows), _spelled(block.below),
            sorted(block.typed)]


def unpacked(data: Any) -> Block:
    """Returns a block that was packed. Former versions wrote each part as a list of lines."""
    above, rows, below, typed = data
    return Block(_lines(above), unpacked_rows(rows), _lines(below), frozenset(typed))


def packed_rows(rows: Sequence[bytes]) -> str:
    return _RUN.sub(lambda run: f"{len(run[0])}{run[1]}", b"|".join(rows).decode())


def unpacked_rows(data: Any) -> Lines:
    if isinstance(data, list):
        return _lines(data)
    return tuple(_CODED.sub(lambda run: int(run[1]) * run[2], data).encode().split(b"|"))


def _spelled(part: Sequence[bytes]) -> str:
    return b"".join(line + b"\n" for line in part).decode("utf-8", "surrogateescape")


def _lines(part: Any) -> Lines:
    text = part if isinstance(part, str) else "".join(f"{line}\n" for line in part)
    return tuple(text.encode("utf-8", "surrogateescape").split(b"\n")[:-1])
