#!/usr/bin/env python3
"""search.py LEVELS N [C,R..]: searches the boxes on these columns and rows of level N, or all of
its boxes, with the others taken away. If they can't all reach goals, it prints its table as an
answers file: for each position its boxes, and one cell for all that the player reaches in it.

A plain search, to show how to print a table. It doesn't try to print few lines."""
import re
import sys

MOST = 65536  # lines of a certificate
ROWS = re.compile(r"(?m)(?:^(?=.*#)[-#@+$*. _]+(?:\n|\Z))+")


def level_of(name, number):
    """The characters of a level by their cells, which are rows and columns from 1."""
    try:
        with open(name, encoding="latin-1") as file:
            levels = ROWS.findall(file.read())
    except OSError as error:
        sys.exit(f"{name}: {error.strerror}")
    if not 1 <= number <= len(levels):
        sys.exit(f"{name} has no level {number}")
    return {(row, column): character for row, line in enumerate(levels[number - 1].split("\n"), 1)
            for column, character in enumerate(line, 1)}


def beside(cell):
    """The four cells beside one: left, up, right, down."""
    row, column = cell
    return (row, column - 1), (row - 1, column), (row, column + 1), (row + 1, column)


def reach(level, player, boxes):
    """The cells that the player reaches without a push."""
    found, work = {player}, [player]
    for cell in work:
        new = {it for it in beside(cell) if level.get(it, "#") != "#"} - boxes - found
        found |= new
        work += new
    return found


def search(level, player, boxes):
    """The positions that are reached, each as its boxes and the first cell that the player reaches,
    or None if these boxes can all reach goals."""
    work = [(boxes, min(reach(level, player, boxes)))]
    table = set(work)
    for boxes, player in work:
        if all(level[box] in ".+*" for box in boxes):
            return None
        region = reach(level, player, boxes)
        for box in sorted(boxes):
            for to, behind in zip(beside(box), beside(box)[2:] + beside(box)[:2]):
                if behind in region and level.get(to, "#") != "#" and to not in boxes:
                    pushed = boxes - {box} | {to}
                    position = pushed, min(reach(level, box, pushed))
                    if position not in table:
                        table.add(position)
                        work.append(position)
        if len(work) > MOST:
            sys.exit(f"more than {MOST} positions")
    return work


def cells(listed):
    """Cells as an answers file has them."""
    return " ".join(f"{column},{row}" for row, column in sorted(listed))


def main(name, number, *named):
    """Prints the record of the search."""
    level = level_of(name, int(number))
    boxes = {cell for cell, character in level.items() if character in "$*"}
    for word in named:
        if word not in map(cells, ([box] for box in boxes)):
            sys.exit(f"no box on {word}")
    chosen = frozenset(box for box in boxes if not named or cells([box]) in named)
    (player,) = (cell for cell, character in level.items() if character in "@+")
    table = search(level, player, chosen)
    if table is None:
        sys.exit("these boxes can all reach goals")
    print(f"sokoban-answers 1\nlevel {number}\nunsolvable")
    for boxes, player in table:
        print(f"pattern {cells(boxes)} @ {cells([player])}")
    print("end")


if __name__ == "__main__":
    if len(sys.argv) < 3 or not sys.argv[2].isdecimal():
        sys.exit(__doc__)
    main(*sys.argv[1:])
