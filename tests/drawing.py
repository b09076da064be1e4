"""Draws levels and writes answers for tests."""
from typing import Callable, Iterable, List, Mapping, Tuple

Character = Callable[[int, int], str]


def drawn(width: int, height: int, character: Character) -> List[str]:
    """The rows of a level, by a function from the column and row of a cell, from 1, to its
    character."""
    columns = range(1, width + 1)
    return ["".join(character(column, row) for column in columns) for row in range(1, height + 1)]


def answered(kind: str, body: str, version: int = 1) -> str:
    """An answers text for level 1, in one line as in a table."""
    return f"sokoban-answers {version}/level 1/{kind}/{body + '/' if body else ''}end"


def listed(patterns: Iterable[str]) -> str:
    """An answers text for level 1 with a list, in one line."""
    return answered("unsolvable", "/".join(f"pattern {it}" for it in patterns))


def walled(width: int, height: int, cells: Mapping[Tuple[int, int], str],
           other: Character = lambda column, row: " ") -> str:
    """A level in one line, within walls: these cells, by column and row, and the function's
    characters for the other cells inside."""
    def character(column: int, row: int) -> str:
        if 1 < column < width and 1 < row < height:
            return cells.get((column, row)) or other(column, row)
        return "#"

    return "/".join(drawn(width, height, character))
