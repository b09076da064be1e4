"""The rules of docs/rules.md in Python, as directly as possible: sets of cells, searches, and
faults found by trying everything in order.

Each description begins with the heading of docs/rules.md that it states. A cell is a pair (row,
column), so cells sort in reading order.
"""
from typing import (AbstractSet, Collection, Dict, FrozenSet, Iterable, Iterator, List, NamedTuple,
                    Optional, Sequence, Set, Tuple, Union)

LARGEST_SIDE = 255
MOST_LEVELS = 10000
DIRECTIONS = {"l": (0, -1), "u": (-1, 0), "r": (0, 1), "d": (1, 0)}
BOARD_BYTES = frozenset(b"#@+$*. -_")
BYTE_ORDER_MARK = b"\xef\xbb\xbf"

Cell = Tuple[int, int]


class Board(NamedTuple):
    """Levels: a board."""
    width: int
    height: int
    walls: Set[Cell]
    floor: Set[Cell]
    goals: Set[Cell]
    boxes: Set[Cell]
    player: Cell
    room: Set[Cell]


class State(NamedTuple):
    """The game: a state."""
    player: Cell
    boxes: FrozenSet[Cell]


class Push(NamedTuple):
    """Patterns: a push of the box, from the player's cell, to the cell beyond."""
    player: Cell
    direction: str
    box: Cell
    beyond: Cell


class Pattern(NamedTuple):
    """Patterns: a pattern and its line; seeds None mean '*'."""
    line: int
    boxes: List[Cell]
    seeds: Optional[List[Cell]]


class Zone(NamedTuple):
    """Zones: a zone and its line."""
    line: int
    cells: List[Cell]


def neighbour(cell: Cell, direction: str) -> Cell:
    """Cells and regions: the cell one step away. Off the board, no set of the board has it."""
    down, right = DIRECTIONS[direction]
    return cell[0] + down, cell[1] + right


def opposite(cell: Cell, direction: str) -> Cell:
    """Cells and regions: the cell from which a step in the direction leads to this cell."""
    down, right = DIRECTIONS[direction]
    return cell[0] - down, cell[1] - right


def joined(seeds: Iterable[Cell], free: Collection[Cell]) -> Set[Cell]:
    """Cells and regions: the cells that a path of free cells connects to some seed."""
    found = {seed for seed in seeds if seed in free}
    waiting = list(found)
    while waiting:
        cell = waiting.pop()
        for direction in DIRECTIONS:
            beside = neighbour(cell, direction)
            if beside in free and beside not in found:
                found.add(beside)
                waiting.append(beside)
    return found


def pushes_out(board: Board, boxes: Collection[Cell], region: Set[Cell]) -> Iterator[Push]:
    """Patterns: each push of one of the boxes by a player of the region, in order of the player's
    cell, then l, u, r, d."""
    beside = {opposite(box, direction) for box in boxes for direction in DIRECTIONS}
    for player in sorted(beside & region):
        for direction in DIRECTIONS:
            box = neighbour(player, direction)
            beyond = neighbour(box, direction)
            if box in boxes and beyond in board.floor and beyond not in boxes:
                yield Push(player, direction, box, beyond)


# Levels

def lines_in(text: bytes) -> List[bytes]:
    """formats.md, Lines: a line ends with LF or CR LF; bytes after the last LF are a line."""
    *lines, last = text.split(b"\n")
    lines = [line[:-1] if line.endswith(b"\r") else line for line in lines]
    return lines + [last] if last else lines


def is_board_line(line: bytes) -> bool:
    """formats.md, The level text: a line with at least one wall and only bytes of the table."""
    return b"#" in line and BOARD_BYTES.issuperset(line)


def levels_in(text: bytes) -> List[Tuple[bytes, ...]]:
    """Levels: the longest runs of board lines after the byte order mark, each as a tuple of rows.
    """
    text = text[3:] if text.startswith(BYTE_ORDER_MARK) else text
    levels: List[Tuple[bytes, ...]] = []
    run: List[bytes] = []
    for line in lines_in(text):
        if is_board_line(line):
            run.append(line)
        elif run:
            levels.append(tuple(run))
            run = []
    return levels + [tuple(run)] if run else levels


def cells_of_bytes(rows: Sequence[bytes], characters: bytes) -> Set[Cell]:
    """Levels: the cells whose byte is one of these characters."""
    return {(row, column) for row, line in enumerate(rows, 1)
            for column, byte in enumerate(line, 1) if byte in characters}


def read_board(rows: Sequence[bytes]) -> Union[Board, str]:
    """Levels, and Legal levels: the board that the rows draw, or the word for the first fault."""
    width, height = max(map(len, rows)), len(rows)
    if width > LARGEST_SIDE or height > LARGEST_SIDE:
        return "size"
    walls = cells_of_bytes(rows, b"#")
    cells = {(row, column) for row in range(1, height + 1) for column in range(1, width + 1)}
    floor = cells - walls
    goals, boxes = cells_of_bytes(rows, b".*+"), cells_of_bytes(rows, b"$*")
    players = cells_of_bytes(rows, b"@+")
    if len(players) != 1:
        return "player"
    if not boxes:
        return "box"
    if len(goals) < len(boxes):
        return "goals"
    room = joined(players, floor)
    if any(row in (1, height) or column in (1, width) for row, column in room):
        return "open"
    (player,) = players
    return Board(width, height, walls, floor, goals, boxes, player, room)


# The game, and its solutions

def start(board: Board) -> State:
    """The game: the state of the level's text."""
    return State(board.player, frozenset(board.boxes))


def step(board: Board, state: State, direction: str) -> Union[State, str]:
    """The game, and Faults of solutions: the state after the step, or 'wall' or 'blocked'."""
    ahead = neighbour(state.player, direction)
    if ahead not in board.floor:
        return "wall"
    if ahead not in state.boxes:
        return State(ahead, state.boxes)
    beyond = neighbour(ahead, direction)
    if beyond not in board.floor or beyond in state.boxes:
        return "blocked"
    return State(ahead, state.boxes - {ahead} | {beyond})


def replay(board: Board, text: bytes) -> str:
    """Solutions, Counts, and Faults of solutions: the report's words on the letters."""
    state = start(board)
    pushed: List[int] = []
    number_of = {box: number for number, box in enumerate(sorted(board.boxes))}
    letters = [chr(byte) for byte in text if byte not in b" \t\n\r"]
    for place, letter in enumerate(letters, 1):
        if letter not in "lurdLURD":
            return "refused move %d letter" % place
        after = step(board, state, letter.lower())
        if isinstance(after, str):
            return "refused move %d %s" % (place, after)
        if letter.isupper() != (after.boxes != state.boxes):
            return "refused move %d case" % place
        if letter.isupper():
            number = number_of.pop(after.player)
            number_of[neighbour(after.player, letter.lower())] = number
            pushed.append(number)
        state = after
    off_goals = len(state.boxes - board.goals)
    if off_goals:
        return "refused unsolved %d" % off_goals
    changes = sum(number != before for number, before in zip(pushed, [-1, *pushed]))
    return "solved moves %d pushes %d changes %d" % (len(letters), len(pushed), changes)


# Lists of patterns

def region_of(board: Board, pattern: Pattern) -> Set[Cell]:
    """Patterns: the cells where the player of the pattern may be."""
    if pattern.seeds is None:
        return board.room - set(pattern.boxes)
    return joined(pattern.seeds, board.floor - set(pattern.boxes))


def why_unlawful(board: Board, pattern: Pattern) -> Optional[str]:
    """Closed lists, and First faults of certificates: the first reason why the pattern is not
    lawful, or None."""
    seeds = pattern.seeds or []
    on_board = board.floor | board.walls
    if not all(cell in on_board for cell in pattern.boxes + seeds):
        return "board"
    if any(box in board.walls for box in pattern.boxes):
        return "wall"
    if any(seed not in board.room or seed in pattern.boxes for seed in seeds):
        return "seed"
    if all(box in board.goals for box in pattern.boxes):
        return "goals"
    return None


def covers(places: Dict[FrozenSet[Cell], Set[Cell]], player: Cell,
           boxes: AbstractSet[Cell]) -> bool:
    """Patterns: some pattern has all of its boxes among these, and the player in its region.
    `places` has the region for each set of boxes."""
    return any(player in region and some <= boxes for some, region in places.items())


def check(board: Board, patterns: Sequence[Pattern]) -> str:
    """Closed lists, and First faults of certificates: the report's words on a list of patterns."""
    for pattern in patterns:
        why = why_unlawful(board, pattern)
        if why:
            return "refused line %d %s" % (pattern.line, why)
    regions = [region_of(board, pattern) for pattern in patterns]
    places: Dict[FrozenSet[Cell], Set[Cell]] = {}
    for pattern, region in zip(patterns, regions):
        places.setdefault(frozenset(pattern.boxes), set()).update(region)
    if not covers(places, board.player, board.boxes):
        return "refused start"
    for pattern, region in zip(patterns, regions):
        boxes = frozenset(pattern.boxes)
        for push in pushes_out(board, boxes, region):
            if not covers(places, push.box, boxes - {push.box} | {push.beyond}):
                parts = pattern.line, spell_cell(push.player), push.direction
                return "refused line %d push %s %s" % parts
    return "unsolvable patterns %d" % len(patterns)


def spell_cell(cell: Cell) -> str:
    """Cells and regions: a cell as texts have it: the column, a comma, the row."""
    return "%d,%d" % (cell[1], cell[0])


# Zones

def relaxed_pushes(board: Board, cell: Cell) -> Iterator[Tuple[str, Cell]]:
    """Dead squares: the direction and the next cell of each push of a box that is alone on the
    cell."""
    for direction in DIRECTIONS:
        ahead = neighbour(cell, direction)
        if opposite(cell, direction) in board.room and ahead in board.floor:
            yield direction, ahead


def check_zone(board: Board, zone: Zone) -> str:
    """Zones, and First faults of certificates: the report's words on a zone."""
    cells = set(zone.cells)
    if not cells <= board.floor | board.walls:
        return "refused line %d board" % zone.line
    if cells & board.walls:
        return "refused line %d wall" % zone.line
    for cell in sorted(cells):
        for direction, ahead in relaxed_pushes(board, cell):
            if ahead not in cells:
                parts = zone.line, spell_cell(cell), direction
                return "refused line %d leak %s %s" % parts
    if len(cells & board.boxes) <= len(cells & board.goals):
        return "refused line %d fits" % zone.line
    return "unsolvable zone %d" % len(cells)


# What is made

def live_cells(board: Board) -> Set[Cell]:
    """Dead squares: the goals, and each cell from which a relaxed push leads to a live one."""
    live, waiting = set(board.goals), list(board.goals)
    while waiting:
        cell = waiting.pop()
        for direction in DIRECTIONS:
            before = opposite(cell, direction)
            is_new = before in board.floor and before not in live
            if is_new and (direction, cell) in relaxed_pushes(board, before):
                live.add(before)
                waiting.append(before)
    return live


def dead_cells(board: Board) -> Set[Cell]:
    """Dead squares: the cells of the room and of the boxes that are not live."""
    return (board.room | board.boxes) - live_cells(board)


def is_held(board: Board, dead: Set[Cell], boxes: Set[Cell], box: Cell, direction: str) -> bool:
    """Frozen boxes: within these boxes, the box can't be pushed that way, or only onto a dead
    cell."""
    before, ahead = opposite(box, direction), neighbour(box, direction)
    return (before not in board.room or before in boxes
            or ahead not in board.floor or ahead in boxes or ahead in dead)


def largest_frozen(board: Board, dead: Set[Cell]) -> Set[Cell]:
    """Frozen boxes: the largest frozen set. A box that isn't held is in no frozen set of the boxes
    that are left, so it is taken away."""
    boxes = set(board.boxes)
    while True:
        free = {box for box in boxes
                if not all(is_held(board, dead, boxes, box, way) for way in DIRECTIONS)}
        if not free:
            return boxes
        boxes -= free


def reach(board: Board, box: Cell) -> FrozenSet[Cell]:
    """The least zone: the least closed set that holds the box."""
    found, waiting = {box}, [box]
    while waiting:
        for _, ahead in relaxed_pushes(board, waiting.pop()):
            if ahead not in found:
                found.add(ahead)
                waiting.append(ahead)
    return frozenset(found)


def least_zone(board: Board) -> Optional[FrozenSet[Cell]]:
    """The least zone: the one within all sets that are crowded by the first k boxes, for the least
    such k; or None.

    The union of the reaches of a crowded set's boxes is crowded too, so only unions of reaches are
    tried."""
    unions: Set[FrozenSet[Cell]] = {frozenset()}
    first: Set[Cell] = set()
    for box in sorted(board.boxes):
        first.add(box)
        unions |= {union | reach(board, box) for union in unions}
        crowded = [it for it in unions if len(it & first) > len(it & board.goals)]
        if crowded:
            return frozenset.intersection(*crowded)
    return None


def make(board: Board) -> Union[List[Pattern], Zone, None]:
    """What make makes: a list of patterns without seeds, or a zone, or None."""
    dead = dead_cells(board)
    singles = [Pattern(0, [cell], None) for cell in sorted(dead)]
    if board.boxes & dead:
        return singles
    frozen = largest_frozen(board, dead)
    if not frozen <= board.goals:
        return singles + [Pattern(0, sorted(frozen), None)]
    zone = least_zone(board)
    return Zone(0, sorted(zone)) if zone else None
