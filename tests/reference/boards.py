"""Random boards for the fuzzer: random walls, templates of rooms, rings, halls with doors, damaged
examples, and sides up to the limit.

Each function returns the rows of a level. Most levels are legal.
"""
from random import Random
from typing import AbstractSet, Callable, Collection, List, Optional, Set, Tuple

from rules import Cell

from tests.drawing import drawn

Rows = List[bytes]
Things = Tuple[Set[Cell], Set[Cell], Cell]  # goals, boxes and the player's cell

TEMPLATES = [
    "         ", "#        ", "##       ", "###      ", "#  #     ", "#     #  ", "# #      ",
    "    #    ", "## ##    ", "##  #   #", "# #   # #", " #  #    ", "#   #   #", "### ###  "]
TURNS = [(1, 3, 0), (3, 1, 0), (-1, -3, 8), (-3, -1, 8)]
EXAMPLES = [
    "#####|#@$.#|#####",
    "#####|#@ .#|# $ #|#####",
    "#######|#  $@.#|#######",
    "#######|#.$@$.#|#######",
    "######|#@   #|# $$ #|# $$ #|#  ..#|#  ..#|######",
    "#######|#@ .  #|#     #|# $ $.#|#######",
    "######|#@   #|# ** #|# ** #|#    #|######",
    "########|# #    #|# $$   #|#  $   #|#      #|#@ ... #|#      #|########",
    "#######|#@    #|#  .  #|#    $#|#  $ .#|#######",
    "####|#  ####|# $ $.#|#@.   #|#######",
    "  ####|###  #|#@$. #|# $.##|#####",
    "#####|#.$ ##|# $@ #|#.   #|######"]
SIDES = [62, 63, 64, 65, 66, 126, 127, 128, 129, 130, 190, 191, 192, 193, 194,
         252, 253, 254, 255, 255, 255, 256]


def draw(width: int, height: int, floor: Collection[Cell], things: Things) -> Rows:
    """The rows of a board. `things` are the goals, the boxes and the player's cell."""
    goals, boxes, player = things

    def character(column: int, row: int) -> str:
        cell = row, column
        if cell == player:
            plain, on_goal = "@", "+"
        elif cell in boxes:
            plain, on_goal = "$", "*"
        else:
            plain, on_goal = (" ", ".") if cell in floor else ("#", "#")
        return on_goal if cell in goals else plain

    return [row.encode() for row in drawn(width, height, character)]


def example(number: int) -> Rows:
    """The rows of an example."""
    return EXAMPLES[number].encode().split(b"|")


def grid(width: int, height: int) -> List[Cell]:
    """The cells inside the outer walls."""
    return [(row, column) for row in range(2, height) for column in range(2, width)]


def furnish(rng: Random, floor: Collection[Cell], boxes: int) -> Optional[Things]:
    """Goals, boxes and a player on cells of the floor, or None if there are too few cells."""
    cells = sorted(floor)
    if len(cells) < boxes + 1:
        return None
    rng.shuffle(cells)
    player, boxed = cells[0], cells[1:boxes + 1]
    wanted = min(boxes + rng.choice([0, 0, 0, 1, 2]), len(cells))
    if rng.random() < 0.6:
        goals = rng.sample(cells[boxes + 1:], min(wanted, len(cells) - boxes - 1))
    else:
        goals = rng.sample(cells, wanted)
    missing = [cell for cell in cells if cell not in goals][:max(0, wanted - len(goals))]
    return set(goals + missing), set(boxed), player


def count_of_boxes(rng: Random) -> int:
    """A random number of boxes, mostly small."""
    return rng.choice([1, 1, 1, 2, 2, 2, 3, 3, 4, 5])


def rooms(rng: Random, width: int, height: int, floor: AbstractSet[Cell],
          boxes: Optional[int] = None) -> Rows:
    """The rows of a floor with goals, boxes and player, in outer walls."""
    things = furnish(rng, floor, boxes or count_of_boxes(rng))
    return draw(width, height, floor, things) if things else example(0)


def random_walls(rng: Random) -> Rows:
    """A rectangle with random walls."""
    width, height, share = rng.randint(4, 9), rng.randint(4, 8), rng.choice([0, 0.1, 0.2, 0.3, 0.4])
    floor = {cell for cell in grid(width, height) if rng.random() >= share}
    return rooms(rng, width, height, floor)


def templates(rng: Random) -> Rows:
    """Blocks of three by three cells, turned and set side by side."""
    across, down = rng.randint(1, 3), rng.randint(1, 3)
    floor = set()
    for left in range(across):
        for top in range(down):
            block, (across_by, down_by, first) = rng.choice(TEMPLATES), rng.choice(TURNS)
            floor |= {(2 + 3 * top + row, 2 + 3 * left + column)
                      for row in range(3) for column in range(3)
                      if block[first + across_by * column + down_by * row] == " "}
    return rooms(rng, 3 * across + 2, 3 * down + 2, floor)


def rings(rng: Random) -> Rows:
    """Corridors around pillars, some of them blocked: the way around a box is long."""
    width, height = rng.choice([5, 7, 9]), rng.choice([5, 7, 9])
    floor = {(row, column) for row, column in grid(width, height)
             if row % 2 == 0 or column % 2 == 0}
    floor = {cell for cell in floor if rng.random() > rng.choice([0, 0.05, 0.15])}
    return rooms(rng, width, height, floor, rng.randint(1, 3))


def with_doors(rng: Random) -> Rows:
    """Two or three rooms side by side with doors of one cell, often with a box in a door."""
    width, height = rng.randint(7, 11), rng.randint(4, 8)
    floor, doors = set(grid(width, height)), []
    for column in rng.sample(range(3, width - 1), rng.randint(1, 2)):
        door = rng.randint(2, height - 1)
        floor -= {(row, column) for row in range(1, height) if row != door}
        doors.append((door, column))
    things = furnish(rng, floor - set(doors), rng.randint(1, 3))
    if not things:
        return example(2)
    goals, boxes, player = things
    boxes |= {door for door in doors if rng.random() < 0.7}
    goals |= set(sorted(floor - goals)[:max(0, len(boxes) - len(goals))])
    return draw(width, height, floor, (goals, boxes, player))


def along_walls(rng: Random) -> Rows:
    """Boxes along one or two walls, with few goals there: if no box is dead or frozen, a zone may
    be crowded."""
    width, height = rng.randint(6, 10), rng.randint(5, 8)
    floor = {cell for cell in grid(width, height)
             if rng.random() > 0.05 or height - 1 in cell or cell[1] == width - 1}
    low = [(height - 1, column) for column in range(2, width)]
    right = [(row, width - 1) for row in range(2, height)]
    if rng.random() < 0.4:  # both boxes need the corner
        boxes, goals = {rng.choice(low[1:-1]), rng.choice(right[1:-1])}, {right[-1]}
    else:
        boxes = set(rng.sample(low[1:-1:2], min(len(low[1:-1:2]), rng.randint(2, 4))))
        goals = set(rng.sample(low, rng.randint(1, len(boxes))))
    others = [cell for cell in sorted(floor) if cell[0] < height - 1 and cell[1] < width - 1]
    if len(others) < len(boxes) + 1:
        return example(5)
    rng.shuffle(others)
    goals |= set(others[1:1 + max(0, len(boxes) - len(goals)) + rng.randint(0, 1)])
    boxes |= set(others[-1:]) if len(goals) > len(boxes) else set()
    return draw(width, height, floor, (goals, boxes, others[0]))


def crowded_hall(rng: Random) -> Rows:
    """A hall with nine to twelve boxes."""
    width, height = rng.randint(7, 10), rng.randint(7, 9)
    floor = {cell for cell in grid(width, height) if rng.random() > 0.08}
    return rooms(rng, width, height, floor, rng.randint(9, 12))


def long_side(rng: Random) -> Rows:
    """A board with a side near a multiple of 64 or near the limit, and things near the ends of
    words."""
    long, short, walls = rng.choice(SIDES), rng.randint(3, 6), rng.choice([0, 0.02, 0.1])
    floor = {cell for cell in grid(long, short) if rng.random() >= walls}
    if rng.random() < 0.3:  # one long ring
        floor = {(row, column) for row, column in floor
                 if row in (2, short - 1) or column in (2, long - 1)}
    edges = [(row, column) for row, column in floor
             if (column + 1) % 64 < 4 or column > long - 4 or column < 5]
    near = edges if rng.random() < 0.7 and len(edges) > 9 else floor
    things = furnish(rng, near, rng.randint(1, 3))
    if not things:
        return example(0)
    if rng.random() < 0.7:
        return draw(long, short, floor, things)
    goals, boxes, player = things
    turned = [{(column, row) for row, column in cells} for cells in (floor, goals, boxes)]
    return draw(short, long, turned[0], (turned[1], turned[2], (player[1], player[0])))


def damaged(rng: Random) -> Rows:
    """An example with some characters changed, a row left out, or other characters for floor."""
    rows = [bytearray(row) for row in rng.choice(EXAMPLES).encode().split(b"|")]
    for _ in range(rng.choice([0, 1, 1, 2, 4])):
        row = rng.choice(rows)
        row[rng.randrange(len(row))] = rng.choice(b"#@+$*. -_ ####  ")
    if rng.random() < 0.1:
        del rows[rng.randrange(len(rows))]
    if rng.random() < 0.2:
        rows = [row.rstrip(b"#") + b"#" * rng.randint(0, 2) if rng.random() < 0.3 else row
                for row in rows]
    made = [bytes(row).replace(b" ", rng.choice([b" ", b" ", b"-", b"_"])) for row in rows]
    return [row if b"#" in row else row + b"#" for row in made] or [b"#"]


Kind = Callable[[Random], Rows]
SMALL: List[Kind] = [random_walls, random_walls, templates, rings, with_doors, along_walls, damaged]
ALL: List[Kind] = SMALL + [crowded_hall, long_side]
