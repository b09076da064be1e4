"""Compares a program's claims about small levels with a search of all their states.

tests/run reference.claims [options] PROGRAM

The levels are all legal ones, up to symmetry, whose floor is one room within 3 by 3 cells, with one
or two boxes, and samples within 3 by 4 and 4 by 4 cells with up to three boxes. For each level:

- If the search finds a solution, it is reported as solved with its moves and pushes, and no
  certificate is made for the level.
- If the search finds none, the list of all states that it reached is reported as unsolvable.
- A certificate that is made is reported as unsolvable.
- A box on a dead square of the map, alone in the level, can reach no goal, wherever the player is.

The reference has to print the same. The last line is 'N passed, M failed' and counts the sets of
levels.
"""
import argparse
import random
import sys
from collections import Counter
from itertools import combinations
from typing import Dict, FrozenSet, Iterable, Iterator, List, Optional, Sequence, Tuple

from rules import Cell, joined, read_board
from solve import search, states_of

from tests.reference.boards import Rows, Things, draw, furnish
from tests.reference.cases import Case, legal, spell_table_line
from tests.reference.comparing import Auditor, Comparison, Library, Program
from tests.reference.noise import plain
from tests.runner import Cases

Floor = Tuple[Cell, ...]
BATCH = 2000  # levels in a collection
# docs/proofs.md: the levels within 3 by 3 cells, with one or two boxes and as many goals, those of
# them that have no solution, and those of these for which a certificate is made
WITHIN_3_BY_3 = 25597, 22872, 21574


# The levels

def turned(cells: Iterable[Cell], turn: int) -> List[Cell]:
    """Cells turned or mirrored by one of the eight symmetries."""
    for _ in range(turn % 4):
        cells = [(column, -row) for row, column in cells]
    return [(row, -column) for row, column in cells] if turn >= 4 else list(cells)


def moved(cells: Iterable[Cell], first: Sequence[Cell]) -> Floor:
    """Cells moved so that the least row and column of 'first' become 2."""
    down, right = 2 - min(row for row, _ in first), 2 - min(column for _, column in first)
    return tuple(sorted((row + down, column + right) for row, column in cells))


def symmetries(floor: Floor) -> Optional[List[int]]:
    """The turns that leave a floor unchanged; None if some turn makes it less."""
    same = []
    for turn in range(8):
        image = moved(turned(floor, turn), turned(floor, turn))
        if image < floor:
            return None
        if image == floor:
            same.append(turn)
    return same


def cells_within(height: int, width: int) -> List[Cell]:
    """The cells of an area, inside a wall."""
    return [(row, column) for row in range(2, height + 2) for column in range(2, width + 2)]


def floors(height: int, width: int) -> Iterator[Tuple[Floor, List[int]]]:
    """Each connected floor within an area, once up to symmetry, with the turns that leave it
    unchanged."""
    cells = cells_within(height, width)
    for size in range(2, len(cells) + 1):
        for floor in combinations(cells, size):
            if moved(floor, floor) == floor and len(joined([floor[0]], set(floor))) == size:
                turns = symmetries(floor)
                if turns:
                    yield floor, turns


def is_least(floor: Floor, turns: Iterable[int], things: Tuple[Floor, ...]) -> bool:
    """Whether no symmetry of the floor makes the goals, boxes and player less."""
    for turn in turns:
        if tuple(moved_along(floor, turn, cells) for cells in things) < things:
            return False
    return True


def moved_along(floor: Floor, turn: int, cells: Floor) -> Floor:
    """The image of cells by a turn of the floor."""
    images = turned(floor, turn)
    down, right = 2 - min(row for row, _ in images), 2 - min(column for _, column in images)
    return tuple(sorted((row + down, column + right) for row, column in turned(cells, turn)))


def every_level(height: int, width: int, boxes: int, spare: int) -> Iterator[Rows]:
    """The rows of each legal level on the floors within an area, with this number of boxes and up
    to `spare` goals more than boxes."""
    for floor, turns in floors(height, width):
        for things in furnishings(floor, boxes, spare):
            if is_least(floor, turns, things):
                goals, boxed, (player,) = things
                yield draw_within(floor, (set(goals), set(boxed), player))


def furnishings(floor: Floor, boxes: int, spare: int) -> Iterator[Tuple[Floor, Floor, Floor]]:
    """The goals, boxes and player of each legal level on a floor."""
    for more in range(spare + 1):
        for goals in combinations(floor, boxes + more):
            for boxed in combinations(floor, boxes):
                for player in floor:
                    if player not in boxed:
                        yield goals, boxed, (player,)


def draw_within(floor: Floor, things: Things) -> Rows:
    """The rows of a floor in its outer walls."""
    width, height = max(column for _, column in floor) + 1, max(row for row, _ in floor) + 1
    return draw(width, height, set(floor), things)


def sampled(rng: random.Random, height: int, width: int, count: int) -> Iterator[Rows]:
    """The rows of `count` random legal levels within an area, with up to three boxes."""
    while count:
        floor = {cell for cell in cells_within(height, width) if rng.random() > 0.12}
        things = furnish(rng, floor, rng.randint(1, 3))
        if things:
            rows = draw(width + 2, height + 2, floor, things)
            if not isinstance(read_board(rows), str):
                count -= 1
                yield rows


# The claims about them

def answered(rows: Rows) -> Case:
    """The case of a level with the answer of a search: a solution, or all states as a list."""
    letters, came = search(rows)
    if letters is not None:
        return Case("solvable", rows, ["solution", letters])
    board = legal(rows)
    lines = {spell_table_line(board, *state) for state in states_of(rows, came)}
    return Case("unsolvable", rows, ["unsolvable", *sorted(lines)])


def due(case: Case) -> str:
    """The beginning of the report line that is due for the case."""
    assert case.body
    if case.kind == "solvable":
        letters = case.body[1]
        pushes = sum(map(str.isupper, letters))
        return "solved moves %d pushes %d changes " % (len(letters), pushes)
    return "unsolvable patterns %d" % (len(case.body) - 1)


class Claims:
    """Checks a program's claims about levels."""

    def __init__(self, others: Sequence[Auditor]) -> None:
        self.program, self.comparison = others[0], Comparison(others)
        self.counts: Dict[str, int] = Counter()
        self.alone: Dict[Tuple[FrozenSet[Cell], FrozenSet[Cell], Cell], bool] = {}

    def wrong(self, cases: Sequence[Case]) -> Optional[str]:
        """The first claim that is wrong, or None."""
        pair = plain(cases)
        report = self.program.audit(*pair).output.decode().split("\n")
        for number, case in enumerate(cases, 1):
            line = report[number - 1]
            if not line.startswith("level %d %s" % (number, due(case))):
                return "%s, where a search finds %s: %r" % (line, case.kind, case.rows)
        return (self.wrong_of_made(pair[0], cases) or self.wrong_of_maps(pair[0], cases)
                or self.comparison.of(pair, maps=1))

    def wrong_of_made(self, levels: bytes, cases: Sequence[Case]) -> Optional[str]:
        """The first level for which a certificate is made although it has a solution, or whose
        certificate is refused."""
        made = self.program.make(levels).output
        numbers = {int(line.split()[1]) for line in made.decode().split("\n")
                   if line.startswith("level ")}
        report = self.program.audit(levels, made).output.decode().split("\n")
        for number, case in enumerate(cases, 1):
            line, is_made = report[number - 1], number in numbers
            self.counts[case.kind] += 1
            self.counts["made"] += is_made
            if is_made and (case.kind == "solvable" or " unsolvable " not in line):
                parts = line, case.kind, case.rows
                return "%s by a made certificate, where a search finds %s: %r" % parts
        return None

    def wrong_of_maps(self, levels: bytes, cases: Sequence[Case]) -> Optional[str]:
        """The first map with a dead square from which a box alone can reach a goal. Looks at all
        maps with the library, and at three with the program."""
        last = self.comparison.others[-1]
        for number, case in enumerate(cases if last.name == "library" else cases[:3], 1):
            rows = last.dead(levels, number).output.split(b"\n")
            for cell in ((at, to) for at, row in enumerate(rows, 1)
                         for to, byte in enumerate(row, 1) if byte == ord("x")):
                self.counts["dead"] += 1
                if self.reaches_a_goal(case.rows, cell):
                    parts = cell, number, case.rows
                    return "dead square %r of level %d, whose box reaches a goal: %r" % parts
        return None

    def reaches_a_goal(self, rows: Rows, cell: Cell) -> bool:
        """Whether a box that is alone on the cell can reach a goal, with the player on some cell of
        the room."""
        board = legal(rows)
        key = frozenset(board.room), frozenset(board.goals & board.room), cell
        if key not in self.alone:
            levels = (draw(board.width, board.height, board.floor, (board.goals, {cell}, player))
                      for player in board.room - {cell})
            self.alone[key] = any(search(it)[0] is not None for it in levels)
        return self.alone[key]


def judge(claims: Claims, name: str, levels: Iterable[Rows]) -> bool:
    """Checks the claims about a set of levels. Prints how many levels there are, and the first
    wrong claim. A set without a level is wrong."""
    claims.counts.clear()
    batch: List[Case] = []
    wrong: Optional[str] = None
    for rows in levels:
        batch.append(answered(rows))
        if len(batch) == BATCH:
            wrong, batch = wrong or claims.wrong(batch), []
    wrong = wrong or (claims.wrong(batch) if batch else None)
    counts = claims.counts
    share = 100 * counts["made"] / max(1, counts["unsolvable"])
    print("%s: %d solvable, %d unsolvable, %d of them with a certificate made (%.1f %%), "
          "%d dead squares" % (name, counts["solvable"], counts["unsolvable"], counts["made"],
                               share, counts["dead"]))
    if wrong:
        print("  wrong: " + wrong)
    sys.stdout.flush()
    return not wrong and counts["solvable"] + counts["unsolvable"] > 0


def sets(arguments: argparse.Namespace) -> Iterator[Tuple[str, Iterator[Rows]]]:
    """The names of the sets and their levels."""
    rng = random.Random(arguments.seed)
    goals = "as many goals" if arguments.spare == 0 else "up to %d more goals" % arguments.spare
    for boxes in (1, 2):
        levels = every_level(3, 3, boxes, arguments.spare)
        yield "3 by 3, boxes %d, %s" % (boxes, goals), levels
    for height, width in ((3, 4), (4, 4)):
        levels = sampled(rng, height, width, arguments.samples)
        yield "sample of %d by %d" % (height, width), levels


def judge_sets(cases: Cases, *words: str) -> None:
    """A case for each set of levels."""
    parser = argparse.ArgumentParser(description=__doc__.split("\n")[0])
    parser.add_argument("--seed", type=int, default=1, help="seed of the samples")
    parser.add_argument("--samples", type=int, default=300, help="number of levels in a sample")
    parser.add_argument("--spare", type=int, default=0,
                        help="most goals more than boxes within 3 by 3; 8 allows all")
    parser.add_argument("--library", help="libsokoaudit.so, to compare it too")
    parser.add_argument("program", metavar="PROGRAM")
    arguments = parser.parse_args(words)
    with Program(arguments.program) as program:
        others: List[Auditor] = [program]
        others += [Library(arguments.library)] if arguments.library else []
        claims = Claims(others)
        within: Dict[str, int] = Counter()
        for name, levels in sets(arguments):
            cases.holds(name, judge(claims, name, levels))
            within.update(claims.counts if name.startswith("3 by 3") else {})
        solvable, unsolvable, made = (within[it] for it in ("solvable", "unsolvable", "made"))
        if arguments.spare == 0:
            found = solvable + unsolvable, unsolvable, made
            cases.same("the numbers of levels within 3 by 3", str(WITHIN_3_BY_3), str(found))
        print("%d results compared with the reference" % sum(claims.comparison.counts.values()))


if __name__ == "__main__":
    all_sets = Cases("claims")
    judge_sets(all_sets, *sys.argv[1:])
    all_sets.finish()
