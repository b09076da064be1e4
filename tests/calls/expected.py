"""The expected output of the crate `calls` for public calls on a board, a solution or a list, by
the rules of the reference."""
from typing import Dict, Iterable, Iterator, Mapping, Tuple

from formats import Fault, read_answers, write_answers
from rules import (DIRECTIONS, MOST_LEVELS, Board, Cell, Push, Zone, check, dead_cells, joined,
                   largest_frozen, levels_in, neighbour, pushes_out, read_board, replay, start,
                   step)

from tests.drawing import drawn

LEVELS = 3  # the number of levels for which answers are read
# a row of text is read by blocks of 32 or 64 bytes; a row of bits takes one word up to 63 columns,
# and four up to 255
WIDTHS = 31, 32, 33, 34, 62, 63, 64, 65, 127, 128, 192, 255
# the worklist of a flood takes one word up to 63 rows, and four up to 255
HEIGHTS = 62, 63, 64, 65, 127, 255
# in a row of 255 cells, the columns of two walls with a goal between them; columns 0 and 256 are
# off the row
SPANS = ((0, 1, 255), (1, 255, 256), (1, 64, 128), (63, 64, 65), (63, 127, 129), (64, 65, 192),
         (127, 191, 192), (191, 200, 255))
# levels with text next to them
BESIDE_TEXT = ("####\n#@*#\n####\ny", "\n\n -####\n -#@*#\n -####",
               ",####\r\n####\r\n#@*#\n####")
SPIRAL = """\
#########
#       #
# ##### #
# #  .# #
# # ### #
# #     #
# ######
#@  $   #
#########"""


def wide_levels() -> Iterator[Tuple[str, str]]:
    """Levels that test rows of bits and floods, with their names."""
    for width in WIDTHS:
        yield "ends of rows, %d" % width, ends_of_rows(width)
    for height in HEIGHTS:
        yield "down and up, %d" % height, down_and_up(height)
    yield "runs through words", runs_through_words()
    yield "a winding corridor", winding_corridor({(254, 2): "$"})
    yield "two winding corridors", winding_corridor({(128, 9): "$", (254, 2): "."})
    yield "a spiral", SPIRAL


def ends_of_rows(width: int) -> str:
    """Below the room, a goal at the end of a row, and the next row free at its start; then two rows
    that are connected only at their ends."""
    walls, free = "#" * (width - 1), " " * (width - 2)
    return "\n".join([walls + "#", "#@$." + walls[3:], walls + "#", walls + ".", " " + walls,
                      walls + "#", "#." + free, walls + " ", "#"])


def down_and_up(height: int) -> str:
    """Two columns that are connected only in the last row of the room."""
    things = {(2, 2): "@", (4, 2): ".", (4, height - 2): "$", (3, height - 1): " "}

    def character(column: int, row: int) -> str:
        is_open = column in (2, 4) and 1 < row < height
        return things.get((column, row), " " if is_open else "#")

    return "\n".join(drawn(5, height, character))


def runs_through_words() -> str:
    """Rows with two walls and a goal, and nothing else."""
    rows = ["#" * 255, "#@$." + "#" * 251]
    for left, goal, right in SPANS:
        here = {left: "#", goal: ".", right: "#"}
        rows += ["#" * 255, "".join(here.get(column, " ") for column in range(1, 256))]
    return "\n".join(rows)


def winding_corridor(things: Mapping[Tuple[int, int], str]) -> str:
    """A corridor that winds up and down through 255 by 255 cells, with things by column and row."""
    things = {(2, 2): ".", (2, 3): "@", **things}

    def character(column: int, row: int) -> str:
        is_inside = 1 < column < 255 and 1 < row < 255
        is_open = column % 2 == 0 or row == (254 if column % 4 == 3 else 2)
        return things.get((column, row), " " if is_inside and is_open else "#")

    return "\n".join(drawn(255, 255, character))


def levels_after_letters() -> Iterator[str]:
    """Levels after a line of letters, at each offset in the blocks by which texts are searched."""
    for count in range(1, 200):
        for level in BESIDE_TEXT:
            yield "\n%s\n%s" % ("x" * count, level)


# What is printed


def called(levels: bytes, answers: bytes) -> Dict[str, str]:
    """What each call prints for the first level and the first record, by the call's name; nothing
    if the level is illegal or there are too many."""
    found = levels_in(levels)
    board = read_board(found[0]) if 0 < len(found) <= MOST_LEVELS else ""
    if isinstance(board, str):
        return {}
    free = board.floor - board.boxes
    region, dead = spell_set("region", joined(board.goals, free)), dead_cells(board)
    pushes = pushes_out(board, board.boxes, joined([board.player], free))
    return {
        "read_board": spell_board(board),
        "read_next_board": spell_board(board),
        "new": "new\n",
        "renew": "new\n",
        "flood": region,
        "flooder": region,
        "start": spell_set("state", board.boxes),
        "steps": spell_steps(board),
        "cells": spell_cells_beside(board),
        "pushes": "".join(map(spell_push, pushes)),
        "dead_squares": spell_set("dead", dead),
        "frozen": spell_set("frozen", largest_frozen(board, dead)),
        "sets": spell_calls_on_a_set(board),
        **of_record(board, answers),
    }


def of_record(board: Board, answers: bytes) -> Dict[str, str]:
    """What the calls on a solution, a list or a zone print, if the first record is one."""
    try:
        level, record = next(iter(read_answers(answers, LEVELS).items()), (0, None))
    except Fault:
        return {}
    if isinstance(record, bytes):
        return dict.fromkeys(("replay", "replay_lines", "replayer"),
                             spell_outcome(*replay(board, record).split()))
    if not isinstance(record, (list, Zone)):
        return {}
    found = {"write": "Ok(())\n%s\nstatus 0\n" % write_answers({level: record}).decode()}
    if not isinstance(record, Zone):
        found["check"] = spell_verdict(*check(board, record).split())
    return found


def spell_outcome(said: str, *rest: str) -> str:
    """The result of a replay, from the words of its report line."""
    if said == "solved":
        return "Ok(Tally { moves: %s, pushes: %s, changes: %s })\n" % rest[1::2]
    if rest[0] == "unsolved":
        return "Err(Unsolved { boxes: %s })\n" % rest[1]
    return "Err(Move { number: %s, why: %s })\n" % (rest[1], rest[2].title())


def spell_verdict(said: str, *rest: str) -> str:
    """The result of a check, from the words of its report line."""
    if said == "unsolvable":
        return "Ok(Accepted { patterns: %s })\n" % rest[1]
    if rest[0] == "start":
        return "Err(Start)\n"
    if rest[2] != "push":
        return "Err(Line { line: %s, why: %s })\n" % (rest[1], rest[2].title())
    column, row = map(int, rest[3].split(","))
    parts = rest[1], spell_cell((row, column)), rest[4].upper()
    return "Err(Push { line: %s, player: %s, dir: %s })\n" % parts


def spell_set(name: str, cells: Iterable[Cell]) -> str:
    """A set: its name, and the columns and rows of its cells in reading order."""
    return "".join([name, *(" %d,%d" % (column, row) for row, column in sorted(cells))]) + "\n"


def spell_cell(cell: Cell) -> str:
    """A cell."""
    return "Cell { row: %d, column: %d }" % cell


def spell_push(push: Push) -> str:
    """A push."""
    player, box, beyond = map(spell_cell, (push.player, push.box, push.beyond))
    parts = player, push.direction.upper(), box, beyond
    return "Push { player: %s, dir: %s, from: %s, to: %s }\n" % parts


def spell_board(board: Board) -> str:
    """A board with its sets."""
    row, column = board.player
    names = "walls", "goals", "boxes", "room"
    parts = "".join(spell_set(name, getattr(board, name)) for name in names)
    return "board %d by %d, player %d,%d\n%s" % (board.width, board.height, column, row, parts)


def spell_steps(board: Board) -> str:
    """Four steps from the start, one after the other: l, u, r and d."""
    state, said = start(board), []
    for direction in DIRECTIONS:
        after = step(board, state, direction)
        if isinstance(after, str):
            said.append("Err(%s)" % after.title())
            continue
        cells = spell_cell(after.player), spell_cell(neighbour(after.player, direction))
        pushes = after.boxes != state.boxes
        said.append("Ok(Push { from: %s, to: %s })" % cells if pushes else "Ok(Walk)")
        state = after
    parts = " ".join(said), spell_cell(state.player), spell_set("boxes", state.boxes)
    return "%s\n%s\n%s" % parts


def spell_cells_beside(board: Board) -> str:
    """The neighbours of the player's cell, and the next cell in reading order. No player of a legal
    level is at an edge."""
    row, column = board.player
    beside = [neighbour(board.player, direction) for direction in DIRECTIONS]
    return " ".join("Some(%s)" % spell_cell(cell) for cell in [*beside, (row, column + 1)]) + "\n"


def spell_calls_on_a_set(board: Board) -> str:
    """Calls on a set of the board's boxes and goals, to which the player's cell was added and then
    removed."""
    both, row = board.boxes | board.goals, board.player[0]
    after = [cell for cell in sorted(both) if cell >= board.player]
    first = "Some(%s)" % spell_cell(after[0]) if after else "None"
    near = {cell for cell in both if cell[0] == row and cell[1] < 64}
    parts = len(both), first, spell_set("boxes and goals", both), \
        spell_set("those on the player's row", near)
    return "true false true true\n%d true %s\n%snone\n%s" % parts
