"""Looks for a closed list of a level."""
from typing import Iterator, List, Optional, Tuple

from .. import answers
from ..board import Board
from ..levels import Level
from ..outcomes import FOUND, FULL, ILLEGAL, LATE, LONG, SOLVABLE
from .budget import Budget
from .closed import MOST_PATTERNS, Lost, Patterns, list_of
from .cores import Cores
from .deadlocks import Known
from .plays import letters_of
from .rooms import Room, bits
from .shorten import shorten

Cell = Tuple[int, int]
SHARE_TO_SHORTEN = 0.2
OVERTIME = 0.3  # the seconds after the time limit in which a list may still be shortened


def outcome(level: Level, seconds: float) -> Tuple[str, bytes]:
    """Searches a level within some seconds. Returns the outcome, and the record of the list that
    shows that the level has no solution, or of the letters that solve it."""
    budget, board, number = Budget(seconds), Board(level), level.number
    if board.fault:
        return ILLEGAL, b""
    if unreachable := board.boxes - board.goals - board.room:
        return FOUND, answers.patterns(number, [([board.cell(min(unreachable))], None)])
    room = Room(board)
    if not room.boxes & ~room.goals:
        return SOLVABLE, answers.solution(number, b"")
    known = Known(room)
    lost, boxes = Lost(known), room.boxes
    if not lost.at_start(boxes):
        known.find_pairs(budget)
    if not lost.at_start(boxes):
        cores = Cores(known, budget)
        play = cores.search()
        if cores.solution:
            return SOLVABLE, answers.solution(number, letters_of(room, cores.solution))
        if not play:
            return LATE if budget.is_late() else FULL, b""
        lost, boxes = Lost(known, play.seen.items()), play.chosen
    if patterns := list_of(lost, boxes):
        more = min(seconds * SHARE_TO_SHORTEN, budget.seconds_left() + OVERTIME)
        patterns = shorten(room, patterns, boxes, Budget(more))
    if not patterns or len(patterns) > MOST_PATTERNS:
        return LONG, b""
    return FOUND, answers.patterns(number, spelled(room, patterns))


def spelled(room: Room, patterns: Patterns) -> Iterator[Tuple[List[Cell], Optional[List[Cell]]]]:
    """Yields the boxes and seeds of patterns, one seed for each part of the room in which the
    player may be. Seeds None mean the whole room."""
    for boxes, region in patterns.items():
        seeds = None
        if region != room.cells & ~boxes:
            seeds = [room.cell(part & -part) for part in room.parts(region)]
        yield [room.cell(box) for box in bits(boxes)], seeds
