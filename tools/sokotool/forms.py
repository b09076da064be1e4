"""Canonical forms of boards: two levels have the same form if one is the other turned, mirrored,
moved or framed.

The form has the room (the cells that the player could reach if there were no boxes) with its goals,
boxes and player. Cells outside the room don't count, unless boxes or goals are there: then the
floor that is connected to them counts too. Of the turns and mirrors of these cells that are not
wider than high, moved to the corner, the form is the least in the order of its bytes.
"""
import hashlib
from typing import Dict, Iterable, List, NamedTuple, Sequence, Tuple

from .levels import BOXES, GOALS, LARGEST_SIDE, PLAYERS, WALL, Level, of_rows

Cell = Tuple[int, int]
Key = Tuple[str, int, bytes]


def _digits(marks: str) -> bytes:
    """Returns a table that writes 1 for these characters and 0 for all others."""
    return bytes(ord("1" if chr(byte) in marks else "0") for byte in range(256))


_WALLS, _PLAYERS, _BOXES_AND_GOALS = _digits(WALL), _digits(PLAYERS), _digits(BOXES + GOALS)
_FULL = bytes(255 * (byte == ord("1")) for byte in range(256))
_PLAIN = bytes(byte if chr(byte) in PLAYERS + BOXES + GOALS else ord("-") for byte in range(256))
# The kinds of forms: the room is closed or open, or the level is known by its rows as they are,
# because it is too large or has walls alone.
CLOSED, OPEN, LARGE, WALLS = "closed", "open", "large", "walls"
_STEPS = {"l": (-1, 0), "u": (0, -1), "r": (1, 0), "d": (0, 1)}
_WORDS = {
    (1, 0, 0, 1): "as it is",
    (0, -1, 1, 0): "turned right",
    (-1, 0, 0, -1): "turned by half",
    (0, 1, -1, 0): "turned left",
    (-1, 0, 0, 1): "mirrored left to right",
    (1, 0, 0, -1): "mirrored top to bottom",
    (0, 1, 1, 0): "turned right, then mirrored left to right",
    (0, -1, -1, 0): "turned left, then mirrored left to right",
}


class Turn(NamedTuple):
    """A turn or mirror, and a move. The cell (x, y) goes to
    (xx*x + xy*y + left, yx*x + yy*y + top)."""

    xx: int
    xy: int
    yx: int
    yy: int
    left: int = 0
    top: int = 0

    def cell(self, cell: Cell) -> Cell:
        """Returns where a cell goes."""
        x, y = cell
        return self.xx * x + self.xy * y + self.left, self.yx * x + self.yy * y + self.top

    def after(self, first: "Turn") -> "Turn":
        """Returns the turn that is another one followed by this one."""
        left, top = self.cell((first.left, first.top))
        return Turn(self.xx * first.xx + self.xy * first.yx,
                    self.xx * first.xy + self.xy * first.yy,
                    self.yx * first.xx + self.yy * first.yx,
                    self.yx * first.xy + self.yy * first.yy, left, top)

    def inverse(self) -> "Turn":
        """Returns the turn that leads back."""
        back = Turn(self.xx, self.yx, self.xy, self.yy)
        left, top = back.cell((self.left, self.top))
        return back._replace(left=-left, top=-top)

    def letters(self, text: bytes) -> bytes:
        """Returns the letters of a solution as they play on the turned board."""
        names = {step: name for name, step in _STEPS.items()}
        turned = "".join(names[self.xx * x + self.xy * y, self.yx * x + self.yy * y]
                         for x, y in _STEPS.values())
        spelled = "".join(_STEPS)
        return text.translate(bytes.maketrans((spelled + spelled.upper()).encode(),
                                              (turned + turned.upper()).encode()))

    @property
    def words(self) -> str:
        return _WORDS[self[:4]]

    @property
    def is_upright(self) -> bool:
        """Whether it only moves a board."""
        return self[:4] == (1, 0, 0, 1)


_AS_IT_IS = Turn(1, 0, 0, 1)


class Form(NamedTuple):
    """The canonical form of a level's board. `cells` has its rows of `width`, with 0 for cells that
    don't count. `turn` takes a cell of the level to its cell in the form, whose corner is (0, 0).
    """

    kind: str
    width: int
    cells: bytes
    turn: Turn
    level: Level

    @property
    def key(self) -> Key:
        """A key that two levels share exactly if they have the same board."""
        return self[:3]

    @property
    def digest(self) -> str:
        """A short name that two levels share exactly if they have the same board, but for the
        chance of a hash of 80 bits."""
        spelled = f"{self.kind} {self.width} ".encode() + self.cells
        return hashlib.sha256(spelled).hexdigest()[:20]

    def has(self, cell: Cell) -> bool:
        """Returns whether a cell of the level counts."""
        x, y = self.turn.cell(cell)
        return (0 <= x < self.width and 0 <= y * self.width < len(self.cells)
                and self.cells[y * self.width + x] > 0)

    def is_outside(self, cell: Cell) -> bool:
        """Returns whether a cell is floor that doesn't count."""
        x, y = cell
        rows = self.level.rows
        return (1 <= x <= max(map(len, rows)) and 1 <= y <= len(rows)
                and rows[y - 1][x - 1:x] != WALL.encode() and not self.has(cell))

    def turn_to(self, other: "Form") -> Turn:
        """Returns how a level of this form is turned into a level with the same form."""
        if self.turn == other.turn:
            return _AS_IT_IS
        return other.turn.inverse().after(self.turn)


def form_of(level: Level) -> Form:
    """Returns the canonical form of a level. A level that is too large, or has neither player nor
    box nor goal, is known by its rows as they are."""
    return _form_like(level)._replace(level=level)


@of_rows
def _form_like(level: Level) -> Form:
    stride = max(map(len, level.rows)) + 1
    if max(stride - 1, len(level.rows)) > LARGEST_SIDE:
        return _form_of_rows(LARGE, level)
    text = b"".join(row.ljust(stride - 1) + b"#" for row in level.rows)
    size = len(text)
    walls, players, others = (int(text.translate(table), 2)
                              for table in (_WALLS, _PLAYERS, _BOXES_AND_GOALS))
    floor = walls ^ (1 << size) - 1
    room = _flood(players, floor, stride)
    kept = _flood(room | others, floor, stride) if others & ~room else room
    if not kept:
        return _form_of_rows(WALLS, level)
    kind = OPEN if room & _edge(stride, len(level.rows)) else CLOSED
    mask = int.from_bytes(format(kept, f"0{size}b").encode().translate(_FULL), "big")
    codes = int.from_bytes(text.translate(_PLAIN), "big")
    width, best, turn = _turned((mask & codes).to_bytes(size, "big"), stride)
    return Form(kind, width, best, turn, level)


def forms_of(levels: Iterable[Level]) -> List[Form]:
    return [form_of(level) for level in levels]


def duplicates_of(forms: Sequence[Form]) -> List[Tuple[int, int, Turn]]:
    """Returns the index of each form that equals an earlier one, that of the first one, and how the
    first is turned into it. Walls alone don't count."""
    first: Dict[Key, int] = {}
    found = []
    for later, form in enumerate(forms):
        earlier = first.setdefault(form.key, later)
        if earlier != later and form.kind != WALLS:
            found.append((later, earlier, forms[earlier].turn_to(form)))
    return found


def _form_of_rows(kind: str, level: Level) -> Form:
    return Form(kind, 0, b"\n".join(level.rows), Turn(1, 0, 0, 1), level)


def _flood(start: int, floor: int, stride: int) -> int:
    """Returns the floor that is connected to the start."""
    before = 0
    while start != before:
        before = start
        start |= (start << 1 | start >> 1) & floor
        start |= (start << stride | start >> stride) & floor
    return start


def _edge(stride: int, height: int) -> int:
    """Returns the cells at the edge of a picture, and the column of walls at its right."""
    row = (1 << stride) - 1
    sides = int(("1" + "0" * (stride - 3) + "11" if stride > 2 else "1" * stride) * height, 2)
    return sides | row | row << stride * (height - 1)


def _turned(cells: bytes, stride: int) -> Tuple[int, bytes, Turn]:
    """Returns the width and cells of the form of these cells, which have rows of the stride, and
    the turn that leads to it."""
    cells, top = _without_empty_rows(cells, stride)
    across, left = _without_empty_rows(_transposed(cells, stride), len(cells) // stride)
    height = len(cells) // stride
    width = len(across) // height
    shapes: List[Tuple[bytes, int]] = []
    if height >= width:
        shapes += zip(_mirrors(_transposed(across, height), width), range(4))
    if width >= height:
        shapes += zip(_mirrors(across, height), range(4, 8))
    best, which = min(shapes)
    moved = Turn(1, 0, 0, 1, -left, -top) if which < 4 else Turn(0, 1, 1, 0, -top, -left)
    right, bottom = min(width, height) - 1, max(width, height) - 1
    mirror = (Turn(1, 0, 0, 1), Turn(-1, 0, 0, -1, right, bottom),
              Turn(1, 0, 0, -1, 0, bottom), Turn(-1, 0, 0, 1, right, 0))[which % 4]
    return right + 1, best, mirror.after(moved)


def _without_empty_rows(cells: bytes, width: int) -> Tuple[bytes, int]:
    """Returns cells without the empty rows above and below, and their first row, from 1."""
    above = (len(cells) - len(cells.lstrip(b"\0"))) // width
    below = (len(cells) - len(cells.rstrip(b"\0"))) // width
    return cells[above * width:len(cells) - below * width], above + 1


def _transposed(cells: bytes, width: int) -> bytes:
    return b"".join(cells[column::width] for column in range(width))


def _mirrors(cells: bytes, width: int) -> Tuple[bytes, bytes, bytes, bytes]:
    """Returns cells as they are, turned by half, and mirrored top to bottom and left to right."""
    flipped = b"".join(cells[at:at + width] for at in range(len(cells) - width, -1, -width))
    return cells, cells[::-1], flipped, flipped[::-1]
