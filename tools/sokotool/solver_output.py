"""What a solver printed, read as the letters of a solution or as certificates."""
import re
from itertools import groupby
from typing import Iterator, List, Optional, Sequence, Set, Tuple

from .board import Board
from .formats import coding, letters
from .levels import Level

# how many texts of letters are replayed, and how many letters in all
MOST_TRIED, MOST_LETTERS = 10_000, 4_000_000
_COLOURS = re.compile(rb"\x1b\[[0-9;]*[A-Za-z]")
# a line of a certificate, or one that begins or ends its body
_CERTIFIES = re.compile(
    rb"(?m)^[ \t]*((?:pattern|zone)[ \t]+\d+[ \t]*,[ \t]*\d[^\r\n]*(?![^\r\n])|unsolvable|end)"
    rb"[ \t\r]*$")


def solution_in(level: Level, parts: Sequence[bytes]) -> Tuple[Optional[bytes], List[str]]:
    """Returns the first letters in some texts that solve a level, each in its case, or None; and
    what of the others was refused."""
    board = Board(level)
    refused: List[str] = []
    tried: Set[str] = set()
    left = MOST_LETTERS
    for text in (text for part in parts for text in _texts(part)):
        if text in tried or len(tried) == MOST_TRIED or left <= 0 or board.player is None:
            continue
        tried.add(text)
        try:
            spelled = coding.expand(text, left)
        except coding.Wrong:
            continue
        left -= len(spelled)
        replay = board.replay(spelled.encode(), any_case=True)
        if replay.fault is None:
            return replay.letters, refused
        refused.append(f"refused: {spelled[:20]}{'..' * (len(spelled) > 20)}: {replay.fault}")
    return None, refused


def _texts(part: bytes) -> Iterator[str]:
    """Yields the texts of letters in an output: lines of letters joined, then each of them, and
    letters among words."""
    lines = _COLOURS.sub(b"", part).decode("latin-1").splitlines()
    for are_letters, several in groupby(lines, letters.are_alone):
        if are_letters:
            block = [letters.packed(line) for line in several]
            yield "".join(block)
            yield from block
        else:
            for line in several:
                yield from letters.among_words(line)


def certificates_in(parts: Sequence[bytes]) -> Iterator[List[bytes]]:
    """Yields the lines of each certificate in some texts. A line that ends or begins a body ends
    one; other lines between its lines don't count."""
    for part in parts:
        lines = (found[1].rstrip() for found in _CERTIFIES.finditer(_COLOURS.sub(b"", part)))
        for ends, body in groupby(lines, lambda line: line in (b"unsolvable", b"end")):
            if not ends:
                yield [*body]
