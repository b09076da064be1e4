#!/usr/bin/env python3
"""A solver of small levels: solver.py <LEVEL

It reads a level from standard input, and tries pushes, first those that bring boxes close to goals.
It prints the letters of the first solution that it finds, or says that there is none. To let it
solve the levels of a collection that have no answer:
    sokotool check my inbox/* --solver 'python3 examples/solver.py'"""
import heapq
import sys

STEPS = {"l": (-1, 0), "u": (0, -1), "r": (1, 0), "d": (0, 1)}
CELLS = {(x, y): mark for y, row in enumerate(sys.stdin.read().splitlines())
         for x, mark in enumerate(row)}
FLOOR = {cell for cell, mark in CELLS.items() if mark != "#"}
GOALS = {cell for cell, mark in CELLS.items() if mark in ".+*"}


def beside(cell, step, times=1):
    """The cell that some steps lead to."""
    return cell[0] + times * STEPS[step][0], cell[1] + times * STEPS[step][1]


def distances():
    """The fewest pushes from each cell to a goal if there is no other box. A box on any other cell
    is lost."""
    found = {goal: 0 for goal in GOALS}
    work = list(GOALS)
    for cell in work:
        for step in STEPS:
            before = beside(cell, step, -1)
            if before in FLOOR and beside(cell, step, -2) in FLOOR and before not in found:
                found[before] = found[cell] + 1
                work.append(before)
    return found


def walks(player, boxes):
    """The letters of a shortest walk to each cell that the player reaches."""
    found = {player: ""}
    work = [player]
    for cell in work:
        for step in STEPS:
            near = beside(cell, step)
            if near in FLOOR and near not in boxes and near not in found:
                found[near] = found[cell] + step
                work.append(near)
    return found


def solution():
    """The letters of a solution, or None."""
    far = distances()
    players = [cell for cell, mark in CELLS.items() if mark in "@+"]
    if len(players) != 1:
        sys.exit("give it one level, with one player")
    boxes = frozenset(cell for cell, mark in CELLS.items() if mark in "$*")
    if not boxes <= far.keys():
        return None
    heap, seen = [(sum(far[box] for box in boxes), 0, players[0], boxes, "")], set()
    while heap:
        _, pushes, player, boxes, letters = heapq.heappop(heap)
        if boxes <= GOALS:
            return letters
        reached = walks(player, boxes)
        if (min(reached), boxes) in seen:
            continue
        seen.add((min(reached), boxes))
        for box in boxes:
            for step in STEPS:
                to = beside(box, step)
                if beside(box, step, -1) in reached and to in far and to not in boxes:
                    moved = boxes - {box} | {to}
                    cost = pushes + 1 + 3 * sum(far[it] for it in moved)
                    heapq.heappush(heap, (cost, pushes + 1, box, moved,
                                          letters + reached[beside(box, step, -1)] + step.upper()))
    return None


solved = solution()
print("no solution" if solved is None else solved)
