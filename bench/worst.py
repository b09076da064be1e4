"""The slowest inputs that are known."""
import random
from itertools import combinations, islice
from typing import Dict, Iterable, Iterator, List, NamedTuple, Tuple

from tests.drawing import listed, walled

Cell = Tuple[int, int]  # a column and a row
AUDIT, MAKE = "./sokoaudit audit levels answers", "./sokoaudit make levels"


class Timed(NamedTuple):
    """A run on levels and answers."""
    name: str
    command: str
    levels: str
    answers: str = ""


def plain() -> Timed:
    """A run that is no search and looks up nothing: it reads 100 boards, and maps the last one."""
    board = walled(255, 255, {(63, 64): "@", (64, 64): "$", (65, 64): "."})
    return Timed("the map of the last of 100 boards", "./sokoaudit dead levels 100",
                 f"{board}//" * 100)


def worst() -> Iterator[Timed]:
    """A plain run, and the known kinds of slow inputs: lists, then levels for `make`."""
    yield plain()
    yield corridor(side=255, lines=1000)
    yield corridor(side=255, lines=1000, has_trap=True)
    yield decoys(side=120, boxes=60, big=60, lines=1500)
    yield decoys(side=120, boxes=60, big=60, lines=1500, ahead=True)
    yield decoys(side=255, boxes=20, big=3000, lines=3000, last=True)
    yield halves(side=120, boxes=40, big=150, lines=3000)
    yield one_for_all(side=255, lines=12000)
    yield last_fails(side=60, lines=300, decoys=1000)
    yield many_fail(side=120, sets=60, lines=3000)
    yield many_fail(side=120, sets=60, lines=3000, shut=True)
    yield in_turn(side=120, boxes=18, big=1000, lines=3000)
    yield in_turn(side=120, boxes=60, big=1000, lines=6000, ahead=True)
    yield passage(side=255, big=100, lines=3000, boxes=150)
    yield pairs(side=255, lines=2)
    yield colliding(side=255, lines=60, boxes=1500)
    yield chambers(side=255, big=60, lines=4000, rooms=60)
    yield nested(side=255, lines=2, boxes=12000)
    yield many_ahead(side=255, lines=12, decoys=4000, boxes=3000)
    yield cell_by_cell(side=255, lines=20, decoys=6000, boxes=3000)
    yield parted(side=255, lines=50, decoys=10, boxes=200)
    yield parted(side=255, lines=12, decoys=12, boxes=400, beyond=True)
    yield held(side=255, low=125)
    yield one_way(side=255, levels=10)
    yield squares(side=255, levels=100)
    yield combs(side=255)
    yield winding(side=255)
    yield pockets(side=255)
    yield lanes(side=255, count=2)
    yield lanes(side=181, count=4)
    yield corridors(side=255, count=120)


def spelled(cells: Iterable[Cell]) -> str:
    """Cells as an answers file has them."""
    return " ".join("%d,%d" % cell for cell in sorted(cells, key=lambda cell: cell[::-1]))


def line(boxes: Iterable[Cell], *seeds: Cell) -> str:
    """A pattern, with every cell as a seed if none is named."""
    return f"{spelled(boxes)} @ {spelled(seeds) or '*'}"


def less_one(cells: List[Cell]) -> List[List[Cell]]:
    """The cells without each of them in turn."""
    return [[it for it in cells if it != out] for out in cells]


def grid(columns: range, rows: range) -> List[Cell]:
    """The cells in these columns and rows."""
    return [(x, y) for y in rows for x in columns]


class Hall:
    """A hall with a box that can't be pushed, the plug, in a corner before a pocket of one cell.
    Lines of the plug and other boxes with a seed in the pocket match many states, and cover none of
    a player in the hall: decoys."""
    plug, pocket = (2, 2), (3, 2)

    def __init__(self, side: int):
        self.side = side
        self.walls = {(4, 2), (3, 3)}

    def level(self, boxes: Iterable[Cell], at: int = 4) -> str:
        """The hall with these boxes, the player so far above the lowest row, and goals above."""
        things = {(self.side - 1, self.side - at): "@", **dict.fromkeys(boxes, "$")}
        free = (it for it in grid(range(3, self.side - 2), range(self.side - 6, 1, -1))
                if it not in things and it not in self.walls)
        goals = dict.fromkeys(islice(free, len(things) - 1), ".")
        return walled(self.side, self.side, {**things, **goals, **dict.fromkeys(self.walls, "#")})

    def decoys(self, boxes: List[Cell], lines: int, ahead: bool = False) -> List[str]:
        """Decoys of eight of these boxes, no line twice. With `ahead` each has a cell beside one
        of the boxes too."""
        rng = random.Random(1)
        beside = [it for x, y in boxes for it in ((x, y - 1), (x - 1, y), (x + 1, y), (x, y + 1))]
        found: Dict[str, bool] = {}
        while len(found) < lines:
            some = [*rng.sample(boxes, 8), *(rng.choice(beside) for _ in range(ahead)), self.plug]
            found[line(some, self.pocket)] = True
        return [*found]


def snake(side: int, step: int) -> List[Cell]:
    """The cells of a corridor that winds through the whole board, in its order."""
    path: List[Cell] = []
    for place, column in enumerate(range(2, side, step)):
        down = [(column, row) for row in range(2, side)]
        path += down[::-1] if place % 2 else down
        path += [(column + it, path[-1][1]) for it in range(1, step)]
    return path[:1 - step]


def corridor(side: int, lines: int, has_trap: bool = False) -> Timed:
    """One seed a line at the end of a corridor that winds through the whole board. The trap is the
    other end, where a line covers all states with a box there: each line has one."""
    path = snake(side, 2)
    half, last = len(path) // 2, path[-1]
    things = {**dict.fromkeys(path, " "), path[0]: "@", path[half]: "$", last: "$",
              **dict.fromkeys(path[1:3], ".")}
    rest = [last] * has_trap
    name = "one seed a line at the end of a winding corridor" + ", and a trap" * has_trap
    return Timed(name, AUDIT, walled(side, side, things, lambda *cell: "#"), listed(
        [*(line([path[half + it], *rest], path[0]) for it in range(lines)),
         *(line([it]) for it in rest)]))


def decoys(side: int, boxes: int, big: int, lines: int, ahead: bool = False,
           last: bool = False) -> Timed:
    """Patterns of many boxes, each of whose pushes a pattern of all boxes but the pushed one
    covers, among decoys. With `ahead` the pattern that covers a push has the box where it goes.
    With `last` the one that covers the others comes last."""
    hall, every = Hall(side), grid(range(9, side - 4, 4), range(9, side - 4, 4))
    some, rest = every[:boxes], every[boxes:]
    kept = less_one(some)
    if ahead:
        kept = [[*it, to] for it, (x, y) in zip(kept, some)
                for to in ((x, y - 1), (x - 1, y), (x + 1, y), (x, y + 1))]
    heads = [some, *([*some, it] for it in rest[:big]), *kept]
    name = ("lines that the last line covers" if last else
            "lines that match every state and cover none" + ", with the box ahead" * ahead)
    texts = [line([*it, hall.plug]) for it in heads]
    return Timed(name, AUDIT, hall.level([*some, hall.plug]), listed(
        [*texts[last:], *hall.decoys(some, lines), *texts[:last]]))


def halves(side: int, boxes: int, big: int, lines: int) -> Timed:
    """Patterns that two halves of their own cover in turn, push by push, among decoys."""
    hall, every = Hall(side), grid(range(9, side - 4, 4), range(9, side - 4, 4))
    some, rest = every[:boxes], every[boxes:]
    heads = [*([*part, it] for part in (some, some[::2], some[1::2]) for it in rest[:big]), some]
    return Timed("lines that two others cover in turn", AUDIT, hall.level([*some, hall.plug]),
                 listed([*(line([*it, hall.plug]) for it in heads),
                         *hall.decoys(some, lines)]))


def one_for_all(side: int, lines: int) -> Timed:
    """Lines of 12 boxes, all of which one line of two boxes in the last row covers."""
    hall, every = Hall(side), grid(range(9, side - 9, 12), range(9, side - 9, 12))
    both = [(2, side - 1), (side - 1, side - 1)]
    rng = random.Random(1)
    texts = [line([*rng.sample(every, 10), *both], (5, 5)) for _ in range(lines)]
    return Timed("lines of 12 boxes that one line covers", AUDIT, hall.level(both),
                 listed([*texts, line(both)]))


def last_fails(side: int, lines: int, decoys: int) -> Timed:
    """Lines of the same 43 boxes with seeds in a hall, and one with its seed in a side room, where
    a push isn't covered, among decoys."""
    hall = Hall(side)
    some = grid(range(6, side - 8, 4), range(6, side - 10, 4))[:40]
    hall.walls |= {(side - 9, side - 1), *((x, side - 2) for x in range(side - 9, side - 1))}
    fixed = [hall.plug, (side - 1, side - 1), (side - 5, side - 1)]
    texts = [line(some + fixed, (4 + it % 3, side - 4)) for it in range(lines)]
    texts.append(line(some + fixed, (side - 3, side - 1)))
    texts += [line(it + fixed) for it in less_one(some)]
    return Timed("lines of the same boxes, of which the last isn't covered", AUDIT,
                 hall.level(some + fixed), listed(texts + hall.decoys(some, decoys)))


def many_fail(side: int, sets: int, lines: int, shut: bool = False) -> Timed:
    """Sets of 20 boxes, and each without one of them in turn, which cover the pushes of the set and
    whose own pushes nothing covers, among decoys of the 18 boxes of all sets. With `shut` a line of
    each comes first whose player can't push, so that no fault ends the check before the others."""
    hall, every = Hall(side), grid(range(9, side - 4, 4), range(9, side - 4, 4))
    some, rest = every[:18], every[18:]
    wholes = [[*some, *rest[2 * it:2 * it + 2]] for it in range(sets)]
    each = [[*it, hall.plug] for whole in wholes for it in (whole, *less_one(whole))]
    texts = [line(it, hall.pocket) for it in each] * shut + [line(it) for it in each]
    level = hall.level([*wholes[0], hall.plug])
    name = "many lines of which the pushes aren't covered" + ", after some that are" * shut
    return Timed(name, AUDIT, level, listed(texts + hall.decoys(some, lines)))


def in_turn(side: int, boxes: int, big: int, lines: int, ahead: bool = False) -> Timed:
    """Lines of some boxes and four others, which two lines of two boxes in the last row cover in
    turn, among decoys that come before these. With `ahead` the decoys have a box ahead."""
    hall, every = Hall(side), grid(range(9, side - 9, 4), range(9, side - 9, 4))
    some, rest = every[:boxes], every[boxes:]
    ends = [[(2, side - 1), (3, side - 1)], [(side - 2, side - 1), (side - 1, side - 1)]]
    texts = [line([*some, *two, hall.plug, *ends[place % 2]], (5, 5))
             for place, two in enumerate(islice(combinations(rest, 2), big))]
    name = "lines that one of two lines in the last row covers" + ", with decoys ahead" * ahead
    return Timed(name, AUDIT, hall.level([*some, hall.plug, *ends[0], *ends[1]]),
                 listed([*texts, *map(line, ends), *hall.decoys(some, lines, ahead)]))


def passage(side: int, big: int, lines: int, boxes: int) -> Timed:
    """Decoys, and patterns with many boxes in a passage between the player and the first cell."""
    hall, low = Hall(side), side - 1
    hall.walls |= {(x, low - 1) for x in range(4, side)}
    some = [(x, side - 20) for x in range(8, side - 12, 4)][:40]
    full = [*some, hall.plug, *((x, low) for x in range(side - 2 - boxes, side - 2))]
    free = grid(range(4, side - 4, 2), range(6, side - 40))
    texts = [line([*some, hall.plug]),
             *(line([*full, it], (4, side - 30)) for it in free[:big]),
             *(line([*it, hall.plug]) for it in less_one(some))]
    level = hall.level(full, 1)
    return Timed("many boxes in a passage", AUDIT, level,
                 listed(texts + hall.decoys(some, lines)))


def pairs(side: int, lines: int) -> Timed:
    """Patterns of 42,000 boxes that hold each other in pairs."""
    boxes = [(x, y) for x, y in grid(range(3, side - 2), range(3, side - 2)) if x % 3 < 2]
    things = {**dict.fromkeys(boxes, "*"), (2, 2): "$", (side - 1, side - 1): ".", (4, 2): "@"}
    return Timed("patterns of 42,000 boxes", AUDIT, walled(side, side, things), listed(
        [line([(2, 2)], (2, 3))] + [line([(2, 2), *boxes], (2, 3))] * lines))


def mixed(cell: Cell) -> int:
    """What a box adds to the hash of a line (`closure`, `hints`)."""
    number = (cell[1] << 16 | cell[0]) * 0x9E3779B97F4A7C15 % 2 ** 64
    return (number ^ number >> 29) * 0xBF58476D1CE4E5B9 % 2 ** 64


def alike(base: int, wanted: int, slots: int, rows: List[List[Cell]]) -> Iterator[List[Cell]]:
    """Five cells of two rows that add to a hash what gives it the slot and the mark of another."""
    def place(hashed: int) -> int:
        return (hashed >> 32) * slots >> 32

    adds = {it: mixed(it) for row in rows for it in row}
    two: Dict[int, List[Tuple[Cell, Cell]]] = {}
    for left, right in combinations(rows[0], 2):
        two.setdefault(adds[left] + adds[right] & 0xFFFE, []).append((left, right))
    for three in combinations(rows[1], 3):
        value = base + sum(adds[it] for it in three)
        for it in two.get(wanted - value & 0xFFFE, ()):
            found = (value + adds[it[0]] + adds[it[1]]) % 2 ** 64
            if (found ^ wanted) & 0xFFFE == 0 and place(found) == place(wanted):
                yield [*it, *three]


def colliding(side: int, lines: int, boxes: int) -> Timed:
    """Lines whose first push has the hash of other lines. All of them agree in most boxes."""
    pushed, to = (4, 2), (3, 2)
    some = [it for it in grid(range(3, side - 2), range(4, side - 8)) if it[0] % 3 < 2][:boxes]
    rows = [grid(range(3, side - 1), range(y, y + 1)) for y in (side - 5, side - 3)]
    base = sum(map(mixed, some)) % 2 ** 64
    others = alike(base, base, 4 * lines, rows)
    after = alike((base + mixed(to)) % 2 ** 64, base, 4 * lines, rows)
    heads = [[pushed, *some, *it] for it in islice(after, lines)]
    things = {**dict.fromkeys(heads[0], "$"), (2, 2): "@"}
    free = (it for it in grid(range(2, side), range(side - 1, 1, -1)) if it not in things)
    level = walled(side, side, {**things, **dict.fromkeys(islice(free, len(heads[0])), ".")})
    return Timed("lines whose first push has the hash of others", AUDIT, level, listed(
        [*(line(some + it) for it in islice(others, lines)), *map(line, heads)]))


def chambers(side: int, big: int, lines: int, rooms: int) -> Timed:
    """Decoys, and patterns with boxes in the doors of many rooms."""
    hall, corners = Hall(side), grid(range(11, side - 20, 12), range(11, side - 20, 10))[:rooms]
    doors, inner = [(x + 3, y) for x, y in corners], [(x + 3, y + 3) for x, y in corners]
    for x, y in corners:
        hall.walls |= {*grid(range(x, x + 7), range(y, y + 7)), (x + 2, y - 1), (x + 4, y - 1)}
        hall.walls -= {(x + 3, y), *grid(range(x + 1, x + 6), range(y + 1, y + 6))}
    seeds = [(x, y + 1) for x, y in doors] + [(side - 2, side - 3)]
    heads = [doors + inner, *(doors + inner + [it] for it in
                              grid(range(4, side - 3), range(180, side - 12))[:big]),
             *(doors + it for it in less_one(inner)), *(it + inner for it in less_one(doors))]
    return Timed("boxes in the doors of many rooms", AUDIT, hall.level([*doors, *inner, hall.plug]),
                 listed([*(line([*it, hall.plug], *seeds) for it in heads),
                         *hall.decoys(doors + inner, lines)]))


def crowd(side: int, boxes: int) -> Tuple[List[Cell], List[Cell], str]:
    """Boxes in a hall that can be pushed in four ways, two more in its lowest row, which a line
    of one box covers whenever they are there, and the level of all of them."""
    some = grid(range(4, side - 2, 2), range(4, side - 11, 2))[:boxes]
    ends = [(side - 20, side - 4), (side - 10, side - 4)]
    things = {**dict.fromkeys([*some, *ends], "$"), (3, side - 2): "@"}
    free = [it for it in grid(range(3, side - 2), range(side - 1, 1, -1)) if it not in things]
    things.update(dict.fromkeys(free[:len(some) + 2], "."))
    for it in [*some, *ends][:max(0, len(some) + 2 - len(free))]:
        things[it] = "*"
    return some, ends, walled(side, side, things)


def nested(side: int, lines: int, boxes: int) -> Timed:
    """Lines of many boxes. Each line has the boxes of the next one, and one more."""
    some, ends, level = crowd(side, boxes)
    return Timed("lines of many boxes inside each other", AUDIT, level, listed(
        [*(line(some[it:] + ends) for it in range(lines)), *(line([it]) for it in ends)]))


def many_ahead(side: int, lines: int, decoys: int, boxes: int) -> Timed:
    """Lines of many boxes, and decoys of two of these and a third one that is nowhere, so that each
    decoy may cover the pushes to one cell."""
    some, ends, level = crowd(side, boxes)
    nowhere, rng = (side - 30, side - 4), random.Random(1)
    texts = [line(some[:it] + some[it + 1:] + ends) for it in range(lines)]
    found: Dict[str, bool] = {}
    while len(found) < decoys:
        found[line([*rng.sample(some, 2), nowhere])] = True
    return Timed("lines of many boxes, and decoys of three", AUDIT, level,
                 listed([*texts, *(line([it]) for it in ends), *found]))


def cell_by_cell(side: int, lines: int, decoys: int, boxes: int) -> Timed:
    """Lines of many boxes, and decoys of the cell ahead of a push and of a box that is there, each
    of which covers what leads to that cell."""
    some, ends, level = crowd(side, boxes)
    texts = [line(some[:it] + some[it + 1:] + ends) for it in range(lines)]
    ahead = [(x + dx, y + dy) for x, y in some for dx, dy in ((-1, 0), (0, -1), (1, 0), (0, 1))]
    random.Random(1).shuffle(ahead)
    found = dict.fromkeys(line([it, ends[1]]) for it in ahead)
    return Timed("lines of many boxes, and decoys that cover what leads to one cell", AUDIT, level,
                 listed([*texts, *islice(found, decoys)]))


def parted(side: int, lines: int, decoys: int, boxes: int, beyond: bool = False) -> Timed:
    """Lines whose boxes part a winding corridor into as many components, and decoys that have a
    region in the last one alone: two boxes, or with `beyond` most of the boxes of the farther
    half."""
    path = snake(side, 2)
    straight = [at for at in range(8, len(path) - 12)
                if all(it[0] == path[at][0] for it in path[at - 4:at + 5])]
    some = [path[at] for at in straight[::max(4, len(straight) // boxes)]][:boxes]
    ends = [path[-3], path[-5]]
    things = {**dict.fromkeys(path, " "), **dict.fromkeys([*some, *ends], "$"), path[0]: "@"}
    free = [it for it in path[::-1] if things[it] == " "]
    things.update(dict.fromkeys(free[:len(some) + 2], "."))
    half = boxes // 2
    if beyond:
        near = [[*some[half:half + it], *some[half + it + 1:]] for it in range(decoys)]
    else:
        near = [list(it) for it in islice(combinations(some, 2), decoys)]
    name = "boxes in a winding corridor" + ", and decoys of those beyond" * beyond
    return Timed(name, AUDIT, walled(side, side, things, lambda *cell: "#"), listed(
        [*(line(some[:it] + some[it + 1:] + ends) for it in range(lines)),
         *(line([it]) for it in ends), *(line([*it, ends[0]], path[-1]) for it in near)]))


def held(side: int, low: int) -> Timed:
    """A line of boxes that hold each other in pairs, between columns that each have a seed."""
    boxes = [(x, y) for x, y in grid(range(4, side - 3), range(2, low)) if x % 3]
    seeds = [(x, 2) for x in range(2, side) if (x, 2) not in boxes]
    free = grid(range(2, side), range(side - 1, low, -1))
    things = {**dict.fromkeys(boxes, "$"), **dict.fromkeys(free[:len(boxes)], "."), (2, 2): "@",
              **dict.fromkeys(grid(range(3, side), range(low, low + 1)), "#")}
    return Timed("pairs of boxes between columns with seeds", AUDIT, walled(side, side, things),
                 listed([line(boxes, *seeds)]))


def one_way(side: int, levels: int) -> Timed:
    """Boxes between two walls that can leave their cells in one way."""
    starts = grid(range(4, side - 3, 4), range(5, side * 45 // 100, 4))
    goals = grid(range(2, side - 1), range(side - 2, side // 2, -1))
    things = {(2, 2): "@", **dict.fromkeys(starts, "$"), **dict.fromkeys(goals[:len(starts)], ".")}
    walls = {cell for x, y in starts for cell in ((x, y - 1), (x, y + 1), (x + 2, y), (x - 2, y))}
    level = walled(side, side, things, lambda *cell: "#" if cell in walls else " ")
    return Timed("boxes that can leave their cells in one way", MAKE, f"{level}//" * levels)


def squares(side: int, levels: int) -> Timed:
    """Levels with four boxes that hold each other."""
    middle, goals = side // 2, {(it, side - 2): "." for it in (5, 7, 9, 11)}
    boxes = grid(range(middle, middle + 2), range(middle, middle + 2))
    level = walled(side, side, {(2, 2): "@", **goals, **dict.fromkeys(boxes, "$")})
    return Timed("four boxes that hold each other", MAKE, f"{level}//" * levels)


def combs(side: int) -> Timed:
    """Two halls in the form of combs, whose teeth alternate in the upper part, with boxes between
    the teeth. Boxes that fit both halls come first, and take the goals of those that don't."""
    ys = range(3, side - 2, 2)
    alternate = int(len(ys) * 0.56) // 2 * 2
    at_right = [place < alternate and place % 2 == 1 for place in range(len(ys))]
    things = dict.fromkeys(grid(range(2, 4), range(2, ys[-1] + 2)), " ")
    things.update(dict.fromkeys(grid(range(side - 2, side), range(4, ys[alternate])), " "))
    places: List[List[Cell]] = [[], []]
    boxes: List[List[Cell]] = [[], []]
    for place, y in enumerate(ys):
        teeth = range(5, side) if at_right[place] else range(2, side - 3)
        things.update(dict.fromkeys(((x, y) for x in teeth), " "))
        places[at_right[place]] += [(x, y) for x in range(7, side - 5)]
        if y < ys[-1]:
            fit_both = at_right[place] != at_right[place + 1]
            boxes[fit_both] += [(x, y + 1) for x in range(6 + place % 2, side - 5, 2)]
    goals = places[0][:len(boxes[1])] + places[1][-len(boxes[0]):]
    things.update({**dict.fromkeys(boxes[0] + boxes[1], "$"), **dict.fromkeys(goals, "."),
                   (2, 2): "@"})
    return Timed("boxes between two combs", MAKE,
                 walled(side, side, things, lambda *cell: "#"))


def corridors(side: int, count: int) -> Timed:
    """Corridors side by side, with boxes between them that can enter the one on either side and
    never leave it. The goals of the first corridor come last. So the boxes take the others first,
    and then have to give their goals on along a chain of corridors."""
    top, low = 4, side - 3
    each = (low - top + 1) // 2
    halls = [grid(range(x, x + 1), range(3, side - 1)) for x in range(3, 3 + 2 * count, 2)]
    boxes = [(4 + 2 * place, y)
             for place in range(count - 1) for y in range(top + place % 2, low, 2)]
    goals = [it for it in reversed(halls[0]) if low - each < it[1] <= low]
    goals += [it for hall in halls[1:] for it in hall if top <= it[1] < top + each]
    things = {**dict.fromkeys((it for hall in halls for it in hall), " "),
              **dict.fromkeys(boxes, "$"), **dict.fromkeys(goals[:len(boxes) + each], "."),
              (3, 3): "@"}
    return Timed("boxes between corridors side by side", MAKE,
                 walled(side, side, things, lambda *cell: "#"))


def niches(side: int, step: int, places: range) -> Tuple[List[Tuple[int, int]], Dict[Cell, str]]:
    """A winding corridor with pockets at its corners, and beside it boxes in niches."""
    columns = range(3 if step == 4 else 4, side - step + 1, step)
    things: Dict[Cell, str] = {}
    for place, x in enumerate(columns):
        things.update(dict.fromkeys(((x, y) for y in range(2, side)), " "))
        if x + step in columns:
            y = 3 if place % 2 else side - 2
            things.update(dict.fromkeys(((it, y) for it in range(x - 1, x + step + 2)), " "))
        for y in places:
            things.update({(x + 1, y): "$", (x + 2, y): " "})
    things[columns[0], 2] = "@"
    return [(x, y) for x in columns for y in places], things


def winding(side: int) -> Timed:
    """Boxes that enter a winding corridor, with the goals at its end."""
    found, things = niches(side, 4, range(6, side - 4, 2))
    columns = sorted({x for x, _ in found}, reverse=True)
    goals = [(x, y) for x in columns for y in range(side - 5, 6, -1)]
    things.update(dict.fromkeys(goals[:len(found)], "."))
    return Timed("boxes that enter a winding corridor", MAKE,
                 walled(side, side, things, lambda *cell: "#"))


def pockets(side: int) -> Timed:
    """Boxes that enter a winding corridor, with each goal in a pocket beside it."""
    found, things = niches(side, 5, range(6, side - 5, 3))
    for x, y in found:
        things.update({(x - 1, y + 1): ".", (x + 1, y + 1): " "})
    return Timed("boxes that enter a corridor with goals beside it", MAKE,
                 walled(side, side, things, lambda *cell: "#"))


def lanes(side: int, count: int) -> Timed:
    """Winding corridors beside each other, with boxes in niches that enter them, so that along each
    row the boxes of the corridors take turns. The goals are at their ends. Only the player fits
    through the openings between them."""
    high, low, passes = 3 * count + 2, side - 1 - 3 * count, (side - 4) // (4 * count)
    places = range(high + 3, low - 2, 2)
    things: Dict[Cell, str] = {}
    for lane in range(count):
        # the columns of the corridor, and where each of its passes begins and ends
        columns = [3 + 4 * (count * it + (count - 1 - lane if it % 2 else lane))
                   for it in range(passes)]
        ends = [high, *(high - 3 * lane if it % 2 else low + 3 * (count - 1 - lane)
                        for it in range(passes - 1)), low if passes % 2 else high]
        path: List[Cell] = []
        for it, x in enumerate(columns):
            first, last = sorted(ends[it:it + 2])
            path += grid(range(x, x + 1), range(first, last + 1))[::-1 if it % 2 else 1]
        for it, (x, to) in enumerate(zip(columns, columns[1:])):
            # a turn, with the cells from which the player pushes a box around its corners
            y, beyond = ends[it + 1], ends[it + 1] + (-1 if it % 2 else 1)
            turn = [(x, beyond), (to, beyond), *grid(range(x - 1, to + 2), range(y, y + 1))]
            things.update(dict.fromkeys(turn, " "))
        boxes = [(x + 1, y) for x in columns for y in places]
        goals = [it for it in path[::-1] if high + 2 < it[1] < low - 2][:len(boxes)]
        things.update({**dict.fromkeys(path, " "), **dict.fromkeys(goals, "."),
                       **dict.fromkeys(boxes, "$"), **{(x + 1, y): " " for x, y in boxes}})
        if lane:
            y = high + 2 + 2 * lane  # a row without a niche, and without another opening
            things.update(dict.fromkeys(grid(range(4 * lane, 4 * lane + 3), range(y, y + 1)), " "))
    things[3, high] = "@"
    return Timed(f"boxes of {count} winding corridors in turn", MAKE,
                 walled(side, side, things, lambda *cell: "#"))
