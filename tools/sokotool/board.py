"""The game: a level's board, whether it is legal, and how letters play on it.

A place is a number: row * stride + column, both from 1. The board has a rim of walls, so a step
adds a number to a place and never leaves the board.
"""
import re
from functools import cached_property
from typing import AbstractSet, FrozenSet, List, Optional, Tuple

from . import levels, texts
from .forms import OPEN, form_of
from .levels import LARGEST_SIDE, Level, of_rows

_BLANKS = b" \t\r\n"
_LETTERS = b"lurdLURD"


class Board:
    """The board of a level. `walls[place]` is 1 for walls, with the rim; `goals`, `boxes` and
    `room` are sets of places. `fault` is None for a legal level, and otherwise the auditor's word.
    A board with a side that is too long is left empty."""

    def __init__(self, level: Level):
        self.width = max(map(len, level.rows))
        is_large = max(self.width, len(level.rows)) > LARGEST_SIDE
        rows = [] if is_large else level.rows
        self.stride = self.width + 2 if rows else 2
        self.steps = {"l": -1, "u": -self.stride, "r": 1, "d": self.stride}
        rim = b"#" * self.stride
        drawn = b"".join([rim, *(b"#%b#" % row.ljust(self.width) for row in rows), rim])
        self.walls = bytearray(drawn.translate(_WALLS))
        self.goals, self.boxes, self.players = (
            frozenset(match.start() for match in kind.finditer(drawn)) for kind in _KINDS)
        self.player = next(iter(self.players)) if len(self.players) == 1 else None
        self._solved: Optional["Replay"] = None
        self.fault = "size" if is_large else self._first_fault(level)

    def _first_fault(self, level: Level) -> Optional[str]:
        if self.player is None:
            return "player"
        if not self.boxes:
            return "box"
        if len(self.boxes) > len(self.goals):
            return "goals"
        return "open" if form_of(level).kind == OPEN else None

    @property
    def doubt(self) -> Optional[str]:
        """Why rows of the level may be missing, in words, or None."""
        if self.fault == "size":
            return f"has more than {LARGEST_SIDE} columns or rows"
        if self.player is None:
            found = len(self.players)
            return f"has {texts.count(found, 'player')}: are these " + (
                "several levels?" if found else "all of its rows?")
        if self.fault == "open":
            return "isn't closed by walls: are these all of its rows?"
        if self.fault == "box":
            return "has no box: are these all of its rows?"
        return None

    @cached_property
    def room(self) -> FrozenSet[int]:
        """The places that the player could reach if there were no boxes; none without exactly one
        player."""
        walls, steps = self.walls, tuple(self.steps.values())
        work = [] if self.player is None else [self.player]
        found = set(work)
        while work:
            place = work.pop()
            for step in steps:
                near = place + step
                if near not in found and not walls[near]:
                    found.add(near)
                    work.append(near)
        return frozenset(found)

    def cell(self, place: int) -> Tuple[int, int]:
        """Returns the column and the row of a place, both from 1."""
        return place % self.stride, place // self.stride

    def drawn(self, boxes: AbstractSet[int], player: int) -> List[str]:
        """Returns the rows of the board with the boxes and the player in these places."""
        marks = " .$*@+"
        places = [range(first + 1, first + self.width + 1)
                  for first in range(self.stride, len(self.walls) - self.stride, self.stride)]
        return ["".join("#" if self.walls[at] else marks[
            (at in self.goals) + 2 * (at in boxes) + 4 * (at == player)] for at in row).rstrip()
                for row in places]

    def replay(self, letters: bytes, any_case: bool = False) -> "Replay":
        """Plays letters (bytes) from the start. With `any_case`, a letter in the wrong case is
        changed, not refused. The last replay that solved the level is kept."""
        if self._solved and self._solved.letters == letters:
            return self._solved
        replay = Replay(self, letters, any_case)
        if replay.fault is None:
            self._solved = replay
        return replay


board_of = of_rows(Board)


class Replay:
    """Letters played from the start: counts, the letters in their case, the boxes and the player at
    the end, and the first fault. `fault` is None if the level is solved, and otherwise what the
    report says: `move 3 wall`, `unsolved 2`. `solved` has pairs of numbers of moves: from the first
    to the second, all boxes are on goals."""

    letters: bytes
    fault: Optional[str]

    def __init__(self, board: Board, letters: bytes, any_case: bool = False):
        letters = letters.translate(None, _BLANKS)
        self._play(board, letters)
        if not any_case and not letters.startswith(self.letters):
            wrong = next(at for at, both in enumerate(zip(letters, self.letters))
                         if both[0] != both[1])
            self._play(board, letters[:wrong])
            self.fault = f"move {wrong + 1} case"

    def _play(self, board: Board, letters: bytes) -> None:
        """Plays letters in any case up to the first that is no legal step."""
        walls, goals, boxes, player = board.walls, board.goals, {*board.boxes}, board.player or 0
        steps = {ord(name): step for name, step in board.steps.items()}
        known = letters[:len(letters) - len(letters.lstrip(_LETTERS))].lower()
        played = bytearray(known)
        off, since, last = len(boxes - goals), 0, 0
        self.solved: List[Tuple[int, int]] = []
        self.pushes = self.changes = 0
        for at, step in enumerate(map(steps.__getitem__, known)):
            near = player + step
            if near in boxes:
                far = near + step
                if walls[far] or far in boxes:
                    self.moves, why = at, "blocked"
                    break
                boxes.remove(near)
                boxes.add(far)
                self.pushes += 1
                self.changes += near != last
                last = far
                if (near in goals) != (far in goals):
                    if not off:
                        self.solved.append((since, at))
                    off += 1 if near in goals else -1
                    since = at + 1
                played[at] ^= 32
            elif walls[near]:
                self.moves, why = at, "wall"
                break
            player = near
        else:
            self.moves, why = len(known), "letter" * (len(known) < len(letters))
        self.player, self.boxes, self.letters = player, boxes, bytes(played[:self.moves])
        if not off:
            self.solved.append((since, self.moves))
        self.fault = f"move {self.moves + 1} {why}" if why else f"unsolved {off}" if off else None


_WALLS = bytes(cell == ord(levels.WALL) for cell in range(256))
_KINDS = [re.compile(b"[%b]" % kind.encode())
          for kind in (levels.GOALS, levels.BOXES, levels.PLAYERS)]
