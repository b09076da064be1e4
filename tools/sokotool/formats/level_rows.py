"""Which lines of a text are the rows of levels, and what of them isn't read.

Rows that belong together are a level. Beside those that a line has by itself (`embedded_rows`)
there are two kinds that need other lines:

- maze      files of older sites: 'Maze: 1', then rows with X for walls, * for boxes and & for boxes
            on goals
- tagged    <Row> of SokoSolve
"""
import re
from typing import AbstractSet, Callable, List, NamedTuple, Optional, Sequence, Tuple

from .. import levels, texts
from ..board import Board
from ..levels import BOXES, ROW, WALL
from .embedded_rows import FEWEST_ROWS, OUTER, WIDEST, Row, is_plain, row_of

FEWEST_APART = 3
_PLAIN, _ROW_LIKE = (re.compile(f"[{cells}]*") for cells in (
    ROW, f"{ROW}\t0-9|bBpPo(){OUTER}"))
_MARKS = str.maketrans(OUTER, " " * len(OUTER))
_MAZE = re.compile(r"[X *.&@+]*")
_MAZE_CELLS = str.maketrans("X*&", WALL + BOXES)
_TAGGED = re.compile(r"<Row>([~#.OXP$*]+)</Row>")
_SOKOSOLVE = str.maketrans("~.OXP$*", "  .$@*+")
_OTHER_GAMES = re.compile(
    r"(?:type|variant|game)\s*[:=]\s*(\w*(?:(?:hex|tri|octo|multi|num|modo)\w*ban|sokomind|hexagon"
    r"|triang)\w*)", re.I)
_WORDS = re.compile(r"[\w(\"'][\w .,:;'\"!?()&/-]*")
# a square a cell, as in a table
_SQUARES = re.compile(f"(?:[{ROW}][;,\t|])+[{ROW}]")
# forms of levels that aren't read: rows of digits, and base64
FEWEST_DIGITS, FEWEST_CODED = 5, 60
_BASE64 = re.compile("[A-Za-z0-9+/]+={0,2}")
_CODES = re.compile("ddd+|b+")
_CODE_WORDS = {"d": "rows of digits", "b": "looks like base64"}
_NOTHING, _MAZE_HEAD, _GAME, _COMMENT, _COMMENT_END, _TAG, _CONFLICT = range(7)
# takes a line, from 0, why it is reported, and whether something is left out or wrong
Say = Callable[[int, str, bool], None]
Span = Tuple[int, int]


class Found(NamedTuple):
    """The row of each line, or None; the spans of the lines that are levels; and the spans of
    comments, which have no rows."""

    rows: List[Optional[Row]]
    spans: List[Span]
    comments: List[Span]


def find(lines: Sequence[str], say: Say, starts: AbstractSet[int] = frozenset()) -> Found:
    """Returns which lines are rows, and which rows are levels. What isn't read is reported. Rows
    from one of `starts` on are a level, whatever they are."""
    rows: List[Optional[Row]] = [*map(texts.cached(row_of), lines)]
    comments = _apply_marks(lines, rows, say)
    spans: List[Span] = []
    at = 0
    kinds = bytes(map(bool, rows))
    while (first := kinds.find(1, at)) >= 0:
        at = first + 1
        while at < len(lines) and at not in starts and _go_together(rows[at - 1], rows[at]):
            at += 1
        if at == first + 1 and not starts:
            at = _end_of_apart(lines, rows, first)
        if at > first + 1 and not lines[first + 1].strip():
            say(first, "blank lines between rows were left out", False)
        span = (first, at) if first in starts else _without_headings(rows, first, at)
        if first in starts or _is_level(lines, rows, *span, say):
            spans.append(span)
        else:
            rows[span[0]:span[1]] = [None] * (span[1] - span[0])
    in_comment = {at for first, end in comments for at in range(first, end)}
    for at, line in enumerate(lines):
        if rows[at] is None and at not in in_comment and line:
            is_near = 0 < at < len(lines) - 1 and bool(kinds[at - 1] and kinds[at + 1])
            if why := (why_no_row(line, is_near) if is_near or "#" in line else None):
                say(at, why, True)
    _report_codes(lines, rows, say)
    return Found(rows, spans, comments)


def _go_together(one: Optional[Row], other: Optional[Row]) -> bool:
    return one is not None and other is not None and one.goes_with(other)


def _mark_of(line: str) -> int:
    """Returns what a line says of those after it, or all."""
    if line.startswith("<<<<<<< "):
        return _CONFLICT
    core = line[:60].strip(" \t:;").lower()
    if core.startswith("maze:") and core[5:].strip().isdigit():
        return _MAZE_HEAD
    if core == "comment":
        return _COMMENT
    if core.startswith(("comment-end", "comment_end", "comment end")):
        return _COMMENT_END
    if core.startswith("<row>"):
        return _TAG
    return _GAME if other_game(line) else _NOTHING


def other_game(line: str) -> str:
    """Returns the game that a line such as 'Type: Hexoban' names, unless it is Sokoban."""
    match = _OTHER_GAMES.match(re.sub(r"\A\W+", "", line[:200]))
    return match[1] if match else ""


def _apply_marks(lines: Sequence[str], rows: List[Optional[Row]], say: Say) -> List[Span]:
    """Reads the rows of mazes and of SokoSolve, drops those in comments, and reports other games.
    Returns the spans of comments."""
    marks = bytes(map(texts.cached(_mark_of), lines))
    comments: List[Span] = []
    if not any(marks):
        return comments
    has_tags = any(_TAGGED.fullmatch(line.strip()) and re.search("[OXP]", line[5:-5])
                   for line, mark in zip(lines, marks) if mark == _TAG)
    is_maze, comment = False, -1
    for at, (line, mark) in enumerate(zip(lines, marks)):
        is_maze = is_maze or mark == _MAZE_HEAD
        if is_maze and "X" in line and _MAZE.fullmatch(line.rstrip()):
            rows[at] = Row("maze", (line.rstrip().translate(_MAZE_CELLS),), "maze")
        if has_tags and mark == _TAG and (match := _TAGGED.fullmatch(line.strip())):
            rows[at] = Row("tagged", (match[1].translate(_SOKOSOLVE),), "tagged")
        if mark == _GAME:
            say(at, f"names another game, {other_game(line)}: its levels are read as levels of "
                "Sokoban", True)
        elif mark == _CONFLICT:
            say(at, "an unsolved conflict of git", True)
        elif mark == _COMMENT:
            comment = at
        elif mark == _COMMENT_END and comment >= 0:
            first = next((it for it in range(comment, at) if is_plain(lines[it])), -1)
            if first >= 0:
                say(first, "rows in a comment, which stay text", False)
            comments.append((comment, at + 1))
            rows[comment:at + 1] = [None] * (at + 1 - comment)
            comment = -1
    return comments


def _end_of_apart(lines: Sequence[str], rows: Sequence[Optional[Row]], first: int) -> int:
    """Returns the end of a level whose rows are a line apart, each alone, or that of its first row.
    """
    last = first
    while (last + 2 < len(lines) and not lines[last + 1].strip()
           and _go_together(rows[last], rows[last + 2])
           and not (last + 3 < len(lines) and rows[last + 3])):
        last += 2
    return last + 1 if last >= first + 2 * (FEWEST_APART - 1) else first + 1


def _without_headings(rows: List[Optional[Row]], first: int, end: int) -> Span:
    """Drops coded lines with more than walls and floor at both ends of a run."""
    while first < end - 1 and _is_heading(rows[first]):
        rows[first] = None
        first += 1
    while end - 1 > first and _is_heading(rows[end - 1]):
        end -= 1
        rows[end] = None
    return first, end


def _is_heading(row: Optional[Row]) -> bool:
    return row is not None and row.kind == "coded" and not row.are_walls


def _is_level(lines: Sequence[str], rows: List[Optional[Row]], first: int, end: int, say: Say
              ) -> bool:
    """Returns whether a run of rows is a level, and reports what is none."""
    run = [row for row in rows[first:end] if row]
    count = sum(len(row.rows) for row in run)
    if any(row.kind == "marked" for row in run) and not _unmark(rows, first, end, run, say):
        return False
    if count < FEWEST_ROWS and (run[0].kind == "string" or len(run) == 1
                                and run[0].kind != "plain"):
        if run[0].kind == "maze":
            say(first, "a row of a maze without others", True)
        return False
    if all(row.are_walls for row in run) and not any(
            why_no_row(lines[at], "#" not in lines[at]) for at in (first - 1, end)
            if 0 <= at < len(lines)):
        # A rule between empty lines is none of what may be torn, if there are levels.
        is_rule = len(run) == 1 and any(_is_inner(row) for row in rows) and not any(
            0 <= at < len(lines) and lines[at].strip() for at in (first - 1, end))
        say(first, "walls alone, and no level: a banner, or torn off a level by an empty line?",
            not is_rule)
        return False
    if any(row.kind == "beside" and not row.lead for row in run):
        say(first, "what is beside the rows was left out", False)
    return True


def _is_inner(row: Optional[Row]) -> bool:
    return row is not None and not row.are_walls


def _unmark(rows: List[Optional[Row]], first: int, end: int, run: Sequence[Row], say: Say) -> bool:
    """Reads marks of outer floor as floor, if the player can reach none, wherever the boxes are."""
    drawn = [row.rows[0] for row in run]
    bare = [text.translate(_MARKS) for text in drawn]
    inner = any({*text[text.index("#"):text.rindex("#")]} & {*OUTER} for text in drawn)
    if inner:
        board = Board(levels.Level(1, [text.encode() for text in bare[:WIDEST + 1]], 1))
        marked = {y * board.stride + x for y, text in enumerate(drawn, 1)
                  for x, c in enumerate(text, 1) if c in OUTER}
        if board.player is None or board.fault in ("size", "open") or marked & board.room:
            return False
    say(first, "floor outside the walls is marked, and was read as floor", False)
    for at in range(first, end):
        if row := rows[at]:
            rows[at] = row._replace(rows=(row.rows[0].translate(_MARKS),))
    return True


def drawn_in(run: Sequence[Row]) -> Tuple[List[List[str]], str]:
    """Returns the rows of each level in a run, and why they aren't as they were."""
    found: List[List[str]] = [[]]
    for text in (text for row in run for text in row.rows):
        if text:
            found[-1].append(text)
        else:
            found.append([])
    note = ""
    for at, rows in enumerate(found):
        if len(rows) >= FEWEST_ROWS and {row[:2] for row in rows} in ({"* "}, {". "}):
            found[at] = [row[2:] for row in rows]
            note = "each row has a bullet in front, which is left out"
        elif len(rows) >= FEWEST_ROWS and all(row.startswith("+") for row in rows):
            found[at] = [row[1:] for row in rows]
            note = "each row has the + of a patch in front, which is left out"
    return found, note


# ---- what is no row

def why_no_row(line: str, is_near: bool) -> Optional[str]:
    """Returns why a line that may be meant as a row isn't one, or None. `is_near` is true if there
    are rows directly above and below it."""
    core = line.strip(" \t\"',;()|>")
    if "#" not in line:
        is_meant = is_near and len({*core}) > 1 and _PLAIN.fullmatch(core)
        return "a row without a wall, which ends the level" if is_meant else None
    if line.startswith((";", "::")) or not is_near and not _looks_like_row(core):
        return None
    if "\t" in core:
        return "a tab in a row, whose width is not known"
    rest = line.strip(" ")
    strange = rest[_ROW_LIKE.match(rest).end():][:1] or next(  # type: ignore[union-attr]
        (c for c in rest if c in OUTER), "")
    return (f"looks like a row, but {strange!a} is no character of rows" if strange
            else "looks like a coded row, but can't be read as one")


def _looks_like_row(core: str) -> bool:
    core = core.replace("\\n", "|")
    if core.count("#") < 2:
        return False
    if _SQUARES.fullmatch(core):
        return True
    if not (core.lstrip("0123456789").startswith("#") or core.endswith("#") or "##" in core):
        return False
    words = core.strip("#= -*\t")
    if words and "#" not in words and _WORDS.fullmatch(words) and any(c.isalnum() for c in words):
        return False
    usual = sum(len(it) for it in _ROW_LIKE.findall(core))
    return 3 * usual >= 2 * len(core) and bool(core.strip("#"))


def _report_codes(lines: Sequence[str], rows: Sequence[Optional[Row]], say: Say) -> None:
    """Reports lines that may be levels in a form that isn't read."""
    code_in = texts.cached(_code_in)
    kinds = "".join(" " if row else code_in(line) for line, row in zip(lines, rows))
    for match in _CODES.finditer(kinds):
        say(match.start(), _CODE_WORDS[match[0][0]] + ", which is not read", True)
    for at in (match.start() for match in re.finditer("(?<!w)w", kinds)):
        if _is_foreign_board(lines[at:at + WIDEST]):
            say(at, f"a board with {lines[at].strip()[0]!r} for walls, which is not read", True)


def _code_in(line: str) -> str:
    """Returns a letter for a line in a code, or of one character, or a blank."""
    core = line.strip(" \t\"',;")
    if len(core) >= FEWEST_DIGITS and not core.strip("0123456789") and core.strip("2468"):
        return "d"
    if len(core) > 2 and not core.strip(core[0]) and not core.isspace() \
            and core[0] not in "-=_~*. :;#lurdLURD":
        return "w"
    if len(core) >= FEWEST_CODED and _BASE64.fullmatch(core) and core.strip("lurdLURD0123456789"):
        return "b"
    return " "


def _is_foreign_board(lines: Sequence[str]) -> bool:
    """Returns whether lines begin with a board whose walls are one character, but not '#'."""
    wall = lines[0].strip()[0]
    inner = ""
    for at, line in enumerate(lines[1:], 2):
        core = line.strip()
        if len(core) < 3 or core[0] != wall or core[-1] != wall:
            return False
        inner += core.replace(wall, "").replace(" ", "")
        if core.count(wall) == len(core) and at > 2:
            return len(set(inner)) < 9 and (any(c in "@&$+" for c in inner) or wall > "\x7f")
    return False
