"""Random cases for the fuzzer: levels, each with an answer of some kind."""
from itertools import combinations
from random import Random
from typing import AbstractSet, Callable, Iterable, List, NamedTuple, Optional, Set, Tuple

from formats import spell_body, spell_cells
from rules import (DIRECTIONS, Board, Cell, Pattern, State, Zone, joined, make, pushes_out, reach,
                   read_board, region_of, start, step)
from solve import Unknown, search, states_of

from tests.reference import boards
from tests.reference.boards import Rows


class Case(NamedTuple):
    """A level's rows, and the lines of its record from the kind line on, or None for no record."""
    kind: str
    rows: Rows
    body: Optional[List[str]]


class Line(NamedTuple):
    """A pattern that has no line yet."""
    boxes: List[Cell]
    seeds: Optional[List[Cell]]
    boxes_set: AbstractSet[Cell]

    @property
    def pattern(self) -> Pattern:
        """The pattern."""
        return Pattern(0, self.boxes, self.seeds)


FEW_STATES = 1500


def pick(rng: Random, cells: Iterable[Cell], most: int) -> List[Cell]:
    """From one to `most` of the cells, in reading order."""
    ordered = sorted(cells)
    return sorted(rng.sample(ordered, min(len(ordered), rng.randint(1, most))))


def legal(rows: Rows) -> Board:
    """The board of a legal level."""
    board = read_board(rows)
    assert isinstance(board, Board)
    return board


# Letters

def played(rng: Random, rows: Rows) -> Tuple[Rows, str]:
    """Takes random steps from the start, and moves the goals to where the boxes end: a level of any
    size with a solution."""
    board = legal(rows)
    state, letters = start(board), ""
    for _ in range(rng.choice([5, 20, 60, 150])):
        tried = [(way, step(board, state, way)) for way in DIRECTIONS]
        steps = [(way, after) for way, after in tried if isinstance(after, State)]
        pushes = [(way, after) for way, after in steps if after.boxes != state.boxes]
        if not steps:
            break
        way, state = rng.choice(pushes if pushes and rng.random() < 0.6 else steps)
        letters += way
    things = set(state.boxes), board.boxes, board.player
    return boards.draw(board.width, board.height, board.floor, things), mark_pushes(board, letters)


def mark_pushes(board: Board, letters: str) -> str:
    """The same steps with capitals where they push."""
    state, marked = start(board), ""
    for letter in letters.lower():
        after = step(board, state, letter)
        if isinstance(after, str):
            break
        marked += letter.upper() if after.boxes != state.boxes else letter
        state = after
    return marked


def change_letters(rng: Random, letters: str) -> str:
    """Cuts or repeats letters, changes one or its case, or inserts blanks and other bytes."""
    for _ in range(rng.choice([0, 0, 1, 1, 2])):
        at = rng.randrange(len(letters) + 1)
        change = rng.randrange(7)
        if change == 0:
            letters = letters[:at]
        elif change == 1:
            letters = letters[:at] + letters[at:at + 1].swapcase() + letters[at + 1:]
        elif change == 2:
            letters = letters[:at] + rng.choice("lurdLURD") + letters[at + 1:]
        elif change == 3:
            letters = letters[:at] + rng.choice("lurdLURDx5(\x00\x0b\x0c~") + letters[at:]
        elif change == 4:
            letters += rng.choice(["lr", "ud", "Rl", "l", "U", letters])
        else:
            letters = letters[:at] + rng.choice(" \t\r ") * rng.randint(1, 3) + letters[at:]
    return letters


def bump(rng: Random, board: Board, letters: str) -> str:
    """Inserts a letter where its step is not possible, most often because a box would be pushed
    into a box."""
    spots: List[Tuple[int, str]] = []
    state = start(board)
    for at in range(len(letters) + 1):
        for way in DIRECTIONS:
            why = step(board, state, way)
            if isinstance(why, str) and (why == "blocked" or rng.random() < 0.1):
                spots.append((at, way.upper() if rng.random() < 0.8 else way))
        if at < len(letters):
            after = step(board, state, letters[at].lower())
            assert isinstance(after, State)
            state = after
    at, letter = rng.choice(spots or [(0, "L")])
    return letters[:at] + letter + letters[at:]


def letter_lines(rng: Random, letters: str) -> List[str]:
    """The letters on one line or several."""
    if rng.random() < 0.5 or not letters:
        return [letters] if letters or rng.random() < 0.5 else []
    cuts = sorted(rng.randrange(len(letters) + 1) for _ in range(rng.randint(1, 4)))
    return [letters[at:to] for at, to in zip([0, *cuts], [*cuts, len(letters)])]


def solution(rng: Random) -> Case:
    """A shortest solution, or a game played at random, changed or not."""
    rows = rng.choice(boards.ALL)(rng)
    board = read_board(rows)
    letters = "".join(rng.choice("lurdLURD") for _ in range(rng.randint(0, 6)))
    if not isinstance(board, str):
        if len(board.boxes) < 4 and board.width * board.height < 80 and rng.random() < 0.6:
            try:
                letters = search(rows, FEW_STATES)[0] or letters
            except Unknown:
                pass
        else:
            rows, letters = played(rng, rows)
        if rng.random() < 0.25 and letters == mark_pushes(legal(rows), letters):
            bumped = bump(rng, legal(rows), letters)
            return Case("letters", rows, ["solution", *letter_lines(rng, bumped)])
    return Case("letters", rows, ["solution", *letter_lines(rng, change_letters(rng, letters))])


# Lists of patterns

class Closing:
    """A list to which lines are added for the results of its pushes."""

    def __init__(self, rng: Random, board: Board, most: int) -> None:
        self.rng, self.board, self.most = rng, board, most
        self.lines: List[Line] = []
        self.regions: List[Set[Cell]] = []

    def covers(self, player: Cell, boxes: AbstractSet[Cell]) -> bool:
        """Whether some line has these boxes or some of them, and the player."""
        return any(player in region and line.boxes_set <= boxes
                   for line, region in zip(self.lines, self.regions))

    def is_sound(self, line: Line, region: Set[Cell]) -> bool:
        """Whether each push out of a line is covered."""
        return all(self.covers(push.box, line.boxes_set - {push.box} | {push.beyond})
                   for push in pushes_out(self.board, line.boxes_set, region))

    def add(self, boxes: AbstractSet[Cell], seeds: Optional[List[Cell]]) -> None:
        """Adds a line."""
        line = Line(sorted(boxes), seeds, frozenset(boxes))
        self.lines.append(line)
        self.regions.append(region_of(self.board, line.pattern))

    def thinned(self, boxes: AbstractSet[Cell], keep: Cell) -> AbstractSet[Cell]:
        """Some of the boxes, with one off the goals, or all."""
        some = {box for box in boxes if box == keep or self.rng.random() < 0.7}
        return some if some - self.board.goals and self.rng.random() < 0.5 else boxes

    def seeds_for(self, player: Cell, boxes: AbstractSet[Cell]) -> Optional[List[Cell]]:
        """The player's cell, sometimes with a few others, or the whole room."""
        if self.rng.random() < 0.12:
            return None
        free = sorted(self.board.room - boxes)
        others = self.rng.sample(free, min(len(free), self.rng.choice([0, 0, 0, 1, 2])))
        return sorted({player, *others})

    def close(self, boxes: AbstractSet[Cell]) -> None:
        """Follows every push, up to `most` lines. A push that brings all boxes to goals is left
        uncovered."""
        board = self.board
        self.add(boxes, None if self.rng.random() < 0.2 else [board.player])
        at = 0
        while at < len(self.lines) < self.most:
            line, region = self.lines[at], self.regions[at]
            at += 1
            for push in pushes_out(board, line.boxes_set, region):
                after = line.boxes_set - {push.box} | {push.beyond}
                if after - board.goals and not self.covers(push.box, after):
                    some = frozenset(self.thinned(after, push.beyond))
                    self.add(some, self.seeds_for(push.box, some))


def extra_lines(rng: Random, board: Board, found: Closing) -> List[Line]:
    """The lines of a list, with more lines: the same boxes with other seeds, supersets, and
    repeated lines."""
    lines = list(found.lines)
    for line, region in zip(found.lines, found.regions):
        free = sorted(board.room - line.boxes_set)
        if region and rng.random() < 0.3:
            lines.append(line._replace(seeds=pick(rng, region, 2)))
        if free and rng.random() < 0.15:
            lines.append(line._replace(seeds=pick(rng, free, 3)))
        if region and rng.random() < 0.2:
            more = line.boxes_set | set(pick(rng, board.room, 2))
            if region - more:
                lines.append(Line(sorted(more), pick(rng, region - more, 3), more))
        if region and rng.random() < 0.1:
            lines.append(line._replace(seeds=sorted(region)))
        if rng.random() < 0.05:
            lines.append(line)
    return lines


def faults_last(rng: Random, board: Board, found: Closing) -> List[Line]:
    """The list without one of its lines, with the lines at the end that then have an uncovered
    push."""
    lines, regions = list(found.lines), list(found.regions)
    at = rng.randrange(len(lines))
    del lines[at], regions[at]
    left = Closing(rng, board, 0)
    left.lines, left.regions = lines, regions
    sound = [left.is_sound(line, region) for line, region in zip(lines, regions)]
    return [line for is_sound in (True, False) for line, ok in zip(lines, sound) if ok == is_sound]


def change_lines(rng: Random, board: Board, lines: List[Line]) -> List[Line]:
    """Drops a line, changes a seed, a box or the order, or adds a fault at the end."""
    change = rng.randrange(12)
    cell = rng.choice(sorted(board.floor))
    at = rng.randrange(len(lines))
    if change == 0:
        del lines[at]
    elif change == 1:
        del lines[-1]
    elif change == 2:
        lines[at] = lines[at]._replace(seeds=[cell])
    elif change == 3:
        lines[at] = lines[at]._replace(seeds=None)
    elif change == 4:
        lines[at] = lines[at]._replace(boxes=sorted({*lines[at].boxes[1:], cell}))
    elif change == 5:
        lines.append(single(cell))
    elif change == 6:
        boxes = sorted({*lines[at].boxes, cell})
        lines.append(lines[at]._replace(boxes=boxes, seeds=pick(rng, board.floor, 3)))
    elif change == 7:
        rng.shuffle(lines)
    elif change == 8:
        lines.append(lines.pop(at))
    return lines


def single(cell: Cell) -> Line:
    """A line of one box."""
    return Line([cell], None, {cell})


def made_lines(patterns: Iterable[Pattern]) -> List[Line]:
    """The lines of made patterns."""
    return [Line(it.boxes, it.seeds, set(it.boxes)) for it in patterns]


def spell_lines(lines: Iterable[Line]) -> List[str]:
    """The kind line and the pattern lines."""
    return spell_body([line.pattern for line in lines])


def searched(rng: Random, rows: Rows, most: int) -> Case:
    """A list from a search of some boxes of the level, perhaps with more lines or a change."""
    board = read_board(rows)
    if isinstance(board, str):
        return Case("list", rows, ["unsolvable", "pattern 2,2 @ *"])
    boxes = frozenset(pick(rng, board.boxes, len(board.boxes)))
    off_goals = boxes - board.goals or board.boxes - board.goals or boxes
    found = Closing(rng, board, most)
    found.close(frozenset(boxes | off_goals))
    if rng.random() < 0.2:
        return Case("list with its faults last", rows, spell_lines(faults_last(rng, board, found)))
    lines = extra_lines(rng, board, found) if rng.random() < 0.6 else found.lines
    return Case("list", rows, spell_lines(change_lines(rng, board, lines)))


def small_list(rng: Random) -> Case:
    """A list of a small board."""
    return searched(rng, rng.choice(boards.SMALL)(rng), rng.choice([4, 12, 40, 40]))


def many_boxes(rng: Random) -> Case:
    """A list with most of nine to twelve boxes in each line, and the made patterns, which cover the
    lines with a dead or frozen box."""
    rows = boards.crowded_hall(rng)
    board = read_board(rows)
    patterns = None if isinstance(board, str) else make(board)
    if isinstance(board, str) or not isinstance(patterns, list):
        return searched(rng, rows, 40)._replace(kind="list of many boxes")
    found = Closing(rng, board, rng.choice([10, 40]))
    found.close(frozenset(board.boxes))
    lines = extra_lines(rng, board, found) + made_lines(patterns)
    return Case("list of many boxes", rows, spell_lines(change_lines(rng, board, lines)))


def long_list(rng: Random) -> Case:
    """A list of some hundred lines, or one with nine to twelve boxes."""
    if rng.random() < 0.5:
        return many_boxes(rng)
    found = searched(rng, rng.choice(boards.SMALL)(rng), rng.choice([100, 200, 400]))
    return found._replace(kind="long list")


def table(rng: Random) -> Case:
    """All states of a search as a list, which is closed if the level has no solution. Sometimes one
    line is dropped."""
    rows = rng.choice(boards.SMALL)(rng)
    board = read_board(rows)
    if not isinstance(board, str) and len(board.boxes) < 4:
        try:
            letters, came = search(rows, 300)
        except Unknown:
            return searched(rng, rows, 30)
        if letters is None:
            states = {spell_table_line(board, *state) for state in states_of(rows, came)}
            lines = sorted(sorted(states), key=lambda _: rng.random())
            if rng.random() < 0.4:
                del lines[rng.randrange(len(lines))]
            return Case("table", rows, ["unsolvable", *lines])
    return searched(rng, rows, 30)


def spell_table_line(board: Board, player: Cell, boxes: Iterable[Cell]) -> str:
    """A state as a pattern line, whose seed is the first cell of the player's region."""
    seed = min(joined([player], board.floor - set(boxes)))
    return "pattern %s @ %s" % (spell_cells(boxes), spell_cells([seed]))


def frozen_rooms(rng: Random) -> Case:
    """A frozen box, a box in a door, and lines of all subsets of some others, with seeds on either
    side: equal boxes, and regions that the door separates. The line of the frozen box alone, which
    covers all, comes last or first."""
    width, height, door = rng.randint(8, 12), rng.randint(6, 10), rng.randint(4, 5)
    row = rng.randint(2, height - 1)
    floor = {cell for cell in boards.grid(width, height) if cell[1] != door or cell[0] == row}
    corner = (height - 1, width - 1)
    inside = sorted(cell for cell in floor if cell[1] < door)
    outside = sorted(cell for cell in floor if cell[1] > door and cell != corner)
    some = pick(rng, outside + inside[1:], 5)
    rest = [cell for cell in outside if cell not in some]
    player, goals = rest[0], set(rest[1:len(some) + 3])
    rows = boards.draw(width, height, floor, (goals, {corner, (row, door), *some}, player))
    lines, share = [], rng.choice([0.6, 0.97, 1, 1])
    for subset in (subset for size in range(len(some) + 1) for subset in combinations(some, size)):
        boxes = {(row, door), *subset} | ({corner} if rng.random() < share else set())
        free = [cell for cell in (inside if rng.random() < 0.5 else rest) if cell not in boxes]
        lines.append(Line(sorted(boxes), pick(rng, free, 2), boxes))
    rng.shuffle(lines)
    lines = lines[:rng.choice([4, 12, 32])]
    lines.insert(rng.choice([0, len(lines), len(lines)]), single(corner))
    board = read_board(rows)
    changed = lines if isinstance(board, str) else change_lines(rng, board, lines)
    return Case("equal boxes", rows, spell_lines(changed))


def wide_list(rng: Random) -> Case:
    """Patterns on boards with long sides, also made patterns of one box."""
    rows = boards.long_side(rng)
    board = read_board(rows)
    if isinstance(board, str):
        return Case("wide list", rows, None)
    patterns = make(board)
    if isinstance(patterns, list) and len(patterns) < 300 and rng.random() < 0.6:
        lines = change_lines(rng, board, made_lines(patterns))
        return Case("wide list", rows, spell_lines(lines))
    return searched(rng, rows, 8)._replace(kind="wide list")


def made(rng: Random) -> Case:
    """The certificate that is made for the level, perhaps changed."""
    rows = rng.choice(boards.SMALL)(rng)
    board = read_board(rows)
    answer = None if isinstance(board, str) else make(board)
    if isinstance(board, Board) and isinstance(answer, list):
        lines = change_lines(rng, board, made_lines(answer))
        return Case("made", rows, spell_lines(lines))
    return Case("made", rows, spell_body(answer) if answer else None)


def zone(rng: Random) -> Case:
    """The union of some reaches, sometimes with a cell more or less."""
    rows = rng.choice(boards.ALL)(rng)
    board = read_board(rows)
    if isinstance(board, str):
        return Case("zone", rows, ["unsolvable", "zone 2,2"])
    cells = set().union(*(reach(board, box) for box in pick(rng, board.boxes, 4)))
    if rng.random() < 0.25:
        cells ^= {rng.choice(sorted(board.floor))}
    if rng.random() < 0.1:
        cells ^= {(rng.randint(1, board.height + 1), rng.randint(1, board.width + 1))}
    return Case("zone", rows, spell_body(Zone(0, sorted(cells or board.room))))


# Bodies that break the grammar, or a law

def broken(rng: Random) -> Case:
    """A body with a line that is not of the grammar or not lawful."""
    case = rng.choice([small_list, made, zone, frozen_rooms])(rng)
    body = list(case.body or ["unsolvable", "pattern 2,2 @ *"])
    body = body if len(body) > 1 else body + ["pattern 2,2 @ *"]
    at = rng.randrange(1, len(body))
    number = rng.choice(["0", "01", "1", "2", "9", "64", "255", "256", "65535", "65536", "9" * 30,
                         "-1", "+2", ""])
    line = body[at]
    spot = rng.randrange(len(line) + 1)
    body[at] = rng.choice([
        line[:spot] + rng.choice(" ,@*;0x\t\r\x00") + line[spot:],
        line[:spot] + line[spot + 1:],
        line + " ",
        line.replace(",", number + ",", 1),
        line.replace(" @", " %s,%s @" % (number, number), 1),
        line + " 7,65535",
        line + " " + number + ",3",
        line.replace("@ *", "@ 2,2", 1),
        line.replace("2", number, 1),
        line.replace(",", ",0", 1),
        line.replace(" ", " 0", 1),
        "zone 2,2 3,2", line.title(), "", ";" + line, "end ", " end"])
    if rng.random() < 0.2:
        more = ["zone 2,2", "pattern 2,2 @ *", "pattern 65535,65535 @ *", "solution", "level 1"]
        body.insert(rng.randint(1, len(body)), rng.choice(more))
    return Case("broken body", case.rows, body)


def bare(rng: Random) -> Case:
    """A level that may be refused, with no record or an empty one."""
    rows = rng.choice(boards.ALL)(rng)
    return Case("bare level", rows, rng.choice([None, ["solution"], ["unsolvable"]]))


def torn(rng: Random) -> Case:
    """A level with bytes changed at random."""
    rows = [bytearray(row) for row in rng.choice(boards.SMALL)(rng)]
    for _ in range(rng.randint(1, 3)):
        row = rng.choice(rows)
        row[rng.randrange(len(row))] = rng.choice(b"#@+$*. -_\t\rx\xff")
    body = rng.choice([None, ["solution", "rRdD"], ["unsolvable", "pattern 2,2 @ *"]])
    ended = [bytes(row) + (b"#" if row.endswith(b"\r") else b"") for row in rows]
    return Case("torn level", ended, body)


KINDS: List[Callable[[Random], Case]] = [
    solution, solution, small_list, small_list, table, frozen_rooms, made, zone, broken, bare, torn]
SLOW_KINDS: List[Callable[[Random], Case]] = [long_list, wide_list]


def draw_case(rng: Random) -> Case:
    """A case of any kind, seldom a slow one."""
    return rng.choice(SLOW_KINDS if rng.random() < 0.05 else KINDS)(rng)
