"""Solves a small level by breadth-first search over its full states. It shares no code with
rules.py."""
from collections import deque
from typing import Dict, FrozenSet, List, Optional, Sequence, Set, Tuple

Cell = Tuple[int, int]  # a row and a column, both from 1
Position = Tuple[int, FrozenSet[int]]  # the places of the player and of the boxes in one long row
Came = Dict[Position, Optional[Tuple[Position, str]]]  # from which position, by which letter


class Unknown(Exception):
    """There are more states than the limit."""


def read(rows: Sequence[bytes]) -> Tuple[int, Set[int], Set[int], Position]:
    """The width of a row, the walls, the goals, and the start position, as places of one long row.
    The rows of a level may have different lengths."""
    width = max(map(len, rows)) + 1  # one column of wall separates the rows
    inside = b"".join(row.ljust(width - 1, b" ") + b"#" for row in rows)
    text = b"#" * width + inside + b"#" * width
    places = {mark: {at for at, byte in enumerate(text) if byte == ord(mark)} for mark in "#@+$*."}
    goals, boxes = places["."] | places["*"] | places["+"], places["$"] | places["*"]
    return width, places["#"], goals, ((places["@"] | places["+"]).pop(), frozenset(boxes))


def search(rows: Sequence[bytes], most: int = 100000) -> Tuple[Optional[str], Came]:
    """The letters of a shortest solution, or None, and each position that was reached."""
    width, walls, goals, first = read(rows)
    came: Came = {first: None}
    waiting = deque(came)
    while waiting:
        player, boxes = state = waiting.popleft()
        if boxes <= goals:
            return spell(came, state), came
        for letter, way in (("l", -1), ("u", -width), ("r", 1), ("d", width)):
            ahead, after = player + way, boxes
            if ahead in walls:
                continue
            if ahead in boxes:
                if ahead + way in walls or ahead + way in boxes:
                    continue
                after, letter = boxes - {ahead} | {ahead + way}, letter.upper()
            if (ahead, after) not in came:
                came[ahead, after] = state, letter
                waiting.append((ahead, after))
        if len(came) > most:
            raise Unknown(len(came))
    return None, came


def spell(came: Came, state: Position) -> str:
    """The letters that lead to a position."""
    letters = []
    step = came[state]
    while step:
        state, letter = step
        letters.append(letter)
        step = came[state]
    return "".join(reversed(letters))


def states_of(rows: Sequence[bytes], came: Came) -> List[Tuple[Cell, List[Cell]]]:
    """The positions of a search as cells: the player's, and the boxes' in order."""
    width = max(map(len, rows)) + 1
    cell = [(at // width, at % width + 1) for at in range(width * (len(rows) + 2))]
    return [(cell[player], sorted(cell[box] for box in boxes)) for player, boxes in came]
