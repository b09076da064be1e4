"""The cases that are measured: long solutions, long lists, large collections, and lists that are
slow for a simple check. Each case is a name, a command in a folder with the program, and the levels
and the answers in one line, as in a table of tests; None keeps the text of the case before."""
import random
from itertools import combinations
from typing import Dict, Iterable, Iterator, List, NamedTuple, Optional, Tuple

from tests.drawing import answered, listed, walled
from tests.inputs import LEVELS
from tests.runner import TOP, run

Cell = Tuple[int, int]  # a column and a row
NOOK, STRAIGHT = LEVELS["nook"], LEVELS["straight"]
AUDIT, MAKE = "./sokoaudit audit levels answers", "./sokoaudit make levels"
# a program that runs examples/check.c 10,000 times
CALLS = """$0/packaging/library lib && ${CC:-cc} -O2 -I lib -Dmain=check -c $0/examples/check.c &&
    { echo 'int check(void);'
      echo 'int main(void) { for (int i = 0; i < 10000; i++) check(); return 0; }'; } |
    ${CC:-cc} -O2 -o calls check.o -x c - -x none lib/libsokoaudit.a"""


class Case(NamedTuple):
    """A case. The target is in seconds of one processor."""
    name: str
    target: float
    command: str
    levels: Optional[str] = None
    answers: Optional[str] = None


class Size:
    """Picks the full number, for the benchmark; a tenth of it or the named number, for about a
    tenth of its size; or the small one, for about a hundredth or less if the reference takes long.
    """

    def __init__(self, is_small: bool = False, is_tenth: bool = False):
        self.is_small, self.is_tenth = is_small, is_tenth

    def __call__(self, full: int, small: int, tenth: int = 0) -> int:
        return small if self.is_small else (tenth or full // 10) if self.is_tenth else full


def cases(size: Size) -> Iterator[Case]:
    """All cases but `through_library`."""
    yield from collections(size)
    yield from lists(size)
    yield from rooms(size)
    yield from Halls(size).cases()


def through_library() -> Case:
    """Calls of the library for C, which is made first and may take long to prove."""
    run(["bash", "-c", CALLS, TOP])
    return Case("10,000 audits of a level of 5 by 4 in one process, through the library for C", 1,
                "./calls")


def crowded(levels: int, side: int, boxes: int, has_pillars: bool) -> str:
    """Equal levels with boxes in the upper part, no two of them side by side, and as many goals
    close together below; perhaps with pillars."""
    def wall(x: int, y: int) -> str:
        return "#" if has_pillars and y % 4 == 1 and x % 8 == 5 else " "

    places = [(x, y) for y in range(4, side - 2, 2) for x in range(4, side - 2, 2)][:boxes]
    cells = {(2, 2): "@", **dict.fromkeys(places, "$")}
    free = [(x, y) for y in range(side - 2, 3, -1) for x in range(3, side - 2)
            if (x, y) not in cells and wall(x, y) == " "]
    cells.update(dict.fromkeys(free[:boxes], "."))
    return f"{walled(side, side, cells, wall)}//" * levels


def one_box(side: int) -> str:
    """A level with one box, next to its goal."""
    return walled(side, side, {(63, 64): "@", (64, 64): "$", (65, 64): "."})


def collections(size: Size) -> Iterator[Case]:
    """Long solutions, and large collections."""
    yield Case("2,000,002 letters on a board of 5 by 3", 0.5, AUDIT, STRAIGHT,
               answered("solution", f"Rl{'rl' * size(1000000, 10000)}"))
    letters = f"Rl{'rl' * size(5000000, 50000)}"
    yield Case("10,000,002 letters on a board of 127 by 127", 2, AUDIT, one_box(127),
               answered("solution", letters))
    fives = " ".join(letters[i:i + 5] for i in range(0, len(letters), 5))
    yield Case("the same letters with a blank after every fifth", 2, AUDIT, None,
               answered("solution", fives))
    count = size(10000, 100)
    records = "/".join(f"level {i}/solution/Rl{'rl' * 99}/end" for i in range(1, count + 1))
    yield Case("10,000 solutions of 200 letters", 1, AUDIT, f"{STRAIGHT}//" * count,
               f"sokoban-answers 1/{records}")
    yield Case("answers made for 10,000 levels of 5 by 4", 1, MAKE, f"{NOOK}//" * count)
    run(["bash", "-c", f"{MAKE} >answers"])
    yield Case("the audit of these answers", 1, AUDIT)
    yield Case("the map of a board of 255 by 255", 1, "./sokoaudit dead levels 1",
               one_box(size(255, 70, 255)))
    # none of these boxes is dead or frozen, and a matching gives each a goal, so no zone is made
    yield Case("zones looked for in 10,000 levels of 30 by 30 with 60 boxes", 2, MAKE,
               crowded(count, size(30, 12, 30), size(60, 6, 60), True))
    yield Case("zones looked for in 200 levels of 255 by 255 with 400 boxes", 2, MAKE,
               crowded(size(200, 2), size(255, 41, 255), size(400, 20, 400), True))
    yield Case("a zone looked for in an open level of 255 by 255 with 10,000 boxes", 2, MAKE,
               crowded(1, size(255, 41, 255), size(10000, 50, 10000), False))


def lists(size: Size) -> Iterator[Case]:
    """Long lists on a board of 255 by 255."""
    # a corridor along the upper edge, open at both ends, with two boxes in it, and a box in each of
    # two corners
    side, one, other = size(255, 31, 85), size(100, 12, 33), size(150, 18, 50)
    boxes = [(2, 2), (one, 2), (other, 2), (side - 1, side - 1)]
    goals = [(x, size(120, 15, 40)) for x in (3, 5, 7, 9)]
    edge = {(one, one): "@", **dict.fromkeys(boxes, "$"), **dict.fromkeys(goals, ".")}
    level = walled(side, side, edge, lambda x, y: "#" if y == 3 and 2 < x < side - 1 else " ")
    # all pairs of boxes in the corridor, with the player outside, and with the player between them
    outside = f"{size(50, 6, 17)},{size(50, 6, 17)}"
    pairs = [f"{x},2 {y},2 @ {outside}" for x, y in combinations(range(3, side - 1), 2)]
    pairs += [f"{x},2 {y},2 @ {x + 1},2" for x, y in combinations(range(2, side), 2) if y > x + 1]
    yield Case("65,536 patterns on a board of 5 by 4", 2, AUDIT, NOOK,
               listed(["2,3 @ *", "4,3 @ *", *["3,3 @ *"] * size(65534, 653)]))
    yield Case("63,001 patterns with seeds on a board of 255 by 255", 3, AUDIT, level,
               listed(pairs))
    fault = f"{size(50, 6, 17)},{one} @ {size(60, 8, 20)},{one}"
    yield Case("these with their only fault in the last line", 3, AUDIT, None,
               listed([*pairs, fault]))
    yield Case("65,536 equal patterns with seeds", 3, AUDIT, None,
               listed([f"{one},2 {other},2 @ {outside}"] * size(65536, 655)))
    yield Case("65,535 patterns under one first box, whose pushes fewer boxes cover", 3, AUDIT,
               None, listed(under_one_box(side, size(65535, 655), size(120, 10, 36))))


def under_one_box(side: int, count: int, width: int) -> Iterator[str]:
    """The boxes in the corners, and these with two more. The line with only the corners covers
    every push out of the others."""
    last = f"{side - 1},{side - 1}"
    yield f"2,2 {last} @ *"
    for i in range(count):
        x, x_below = 10 + 2 * (i % width), 10 + 2 * (i // width % width)
        yield f"2,2 {x},5 {x_below},{7 + 2 * (i // width ** 2)} {last} @ *"


def rooms(size: Size) -> Iterator[Case]:
    """A list of all pairs in a room, and long texts that say nothing."""
    # two goals after a bend, where no box comes; and all pairs of boxes in the room or before the
    # bend
    side, bend, left = size(18, 6, 10), size(10, 5, 6), size(5, 3, 4)
    wall = side + 2
    room = {(left, left): "$", (left + 1, left): "@", (left + 2, left): "$",
            (wall, bend): " ", (wall + 1, bend): " ",
            (wall + 1, bend + 1): ".", (wall + 1, bend + 2): "."}
    level = walled(side + 4, side + 2, room, lambda x, y: " " if x < wall else "#")
    places = (f"{x},{y}" for y in range(2, wall)
              for x in range(2, wall + 2 if y == bend else wall))
    pairs = listed(f"{one} {other} @ *" for one, other in combinations(places, 2))
    yield Case("52,975 pairs of boxes in a room of 18 by 18", 1, AUDIT, level, pairs)
    words = " a line that says nothing, so that whoever looks for one that does has to go on "

    def junk(begin: str) -> str:
        return "/".join(f"{begin}{words}{i % 10}" for i in range(size(365000, 3650)))

    yield Case("33 MB of lines that are no boards", 1, MAKE, junk("no board:"))
    yield Case("33 MB of comments before the first record", 1, AUDIT, NOOK,
               f"sokoban-answers 1/{junk('; remark:')}")


class Halls:
    """Lists that are slow for a check that compares each push with all lines, or floods for it.

    Their level is a hall and a side room, which a box in the bend between them separates. This box
    and the one in a corner can't be pushed."""

    def __init__(self, size: Size):
        self.size, self.side = size, size(255, 51, 255)
        self.right = right = self.side * 4 // 5
        self.most = size(65535, 165)
        self.bend, self.corner = (right - 2, 10), (2, self.side - 1)
        self.start = size(60, 21, 60)
        self.places = [(x, y) for y in range(10, self.side - 11, 3)
                       for x in range(10, right - 14, 3)]

    def level(self) -> str:
        """The level."""
        right, low = self.right, self.side - 5
        cells: Dict[Cell, str] = {
            (self.start, self.start): "@", self.bend: "$", self.corner: "$",
            (right - 3, 10): " ", (right - 2, 11): " ", (right - 1, 11): " ",
            (right + 6, low): ".", (right + 7, low): "."}
        return walled(self.side, self.side, cells,
                      lambda x, y: "#" if right - 4 < x < right else " ")

    def line(self, boxes: Iterable[Cell], seeds: str = "") -> str:
        """A pattern of these boxes, with the player in the hall if no seeds are named."""
        cells = sorted(boxes, key=lambda it: it[::-1])
        spelled = " ".join(f"{x},{y}" for x, y in cells)
        return f"{spelled} @ {seeds or f'{self.start},{self.start}'}"

    def draws(self, count: int, boxes: int, fixed: List[Cell]) -> List[str]:
        """Lines of a number of boxes: these, and others in the hall that are drawn at random, no
        line twice."""
        found: Dict[str, bool] = {}
        rng = random.Random(1)
        while len(found) < count:
            found[self.line(rng.sample(self.places, boxes - len(fixed)) + fixed)] = True
        return [*found]

    def into_one(self, count: int) -> Iterator[str]:
        """Lines of the same boxes with seeds in the side room, and lines whose pushes might lead to
        each of them, and lead to the last line."""
        width, height = self.side - self.right - 6, self.side - 15
        both = [self.bend, self.corner]
        for i in range(count):
            seed = f"{self.right + 1 + i % width},{12 + i // width % height}"
            yield self.line(both, seed)
        yield from self.draws(min(count, self.most - count), 4, both)
        yield self.line([self.corner], "*")

    def subsets(self, count: int) -> Iterator[str]:
        """The subsets of a row of boxes, each with the one in the bend and the player in the side
        room; then lines of them all and one more, with the player in the hall."""
        y, step = self.size(120, 30, 120), self.size(6, 3, 6)
        row = [(12 + step * i, y) for i in range(count)]
        beside = f"{self.right + 6},{self.size(100, 30, 100)}"
        for chosen in range(1 << count):
            some = [it for i, it in enumerate(row) if chosen >> i & 1]
            yield self.line([self.bend, *some], beside)
        for it in self.places:
            if it[1] not in (y - 2, y + 1):
                yield self.line([self.bend, self.corner, *row, it])
        yield self.line([self.corner], "*")

    def cases(self) -> Iterator[Case]:
        """The cases."""
        few, many, bend, corner = self.size(1000, 10), self.size(60000, 150), self.bend, self.corner
        yield Case("1,000 lines of the same boxes, and 1,000 that are pushed into them", 0.1,
                   AUDIT, self.level(), listed(self.into_one(few)))
        yield Case("60,000 lines of the same boxes, and 5,535 that are pushed into them", 1,
                   AUDIT, None, listed(self.into_one(many)))
        covered = self.draws(self.most, 12, [corner])
        split = self.draws(self.most, 12, [bend, corner])
        one_line = self.line([corner], "*")
        yield Case("65,535 lines of 12 boxes, which one line of one box covers", 15, AUDIT, None,
                   listed([*covered, one_line]))
        fault = f"{self.size(100, 30, 100)},{self.size(100, 30, 100)} @ *"
        yield Case("the same with its only fault in the last line", 30, AUDIT, None,
                   listed([one_line, *covered[1:], fault]))
        yield Case("65,535 lines of 12 boxes that split the room, which one such line covers", 15,
                   AUDIT, None, listed([*split, self.line([bend, corner])]))
        yield Case("32,768 subsets of a set of 15 boxes, and 4,500 lines of all of them", 30, AUDIT,
                   None, listed(self.subsets(self.size(15, 8, 12))))
