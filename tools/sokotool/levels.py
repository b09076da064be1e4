"""The characters that draw a board, and the levels of a text, the same ones as the auditor reads,
with their titles and authors."""
import re
import sys
from functools import lru_cache
from itertools import islice
from typing import Callable, Dict, Iterator, List, NamedTuple, Pattern, Sequence, Tuple, TypeVar

from . import texts

MOST_LEVELS = 10_000
# the most columns or rows of a legal level
LARGEST_SIDE = 255
# the cells of the levels for which something is kept
MOST_CELLS = 1 << 22
# begins a line that names the file whose text follows, as sokotool writes it
FILE = "; File: "
# how many bytes a line with a title may have, so that no search in a long line takes long
MOST_TITLE = 999
WALL = "#"
PLAYERS, BOXES, GOALS = "@+", "$*", ".+*"
FLOOR = "-_ "
# all characters of a row; '-' comes first, so that the text can be used between the brackets of a
# regular expression
ROW = "-#@+$*._ "
# the letters that some collections have for boxes, players and goals, and what they mean
LETTERS = str.maketrans("obBpP", ".$*@+")
CHARACTERS = ROW.encode()
# the colon, and the full-width one
_COLON = rb"[ \t]*(?::|\xef\xbc\x9a)"
_EQUALS = rb"[ \t]*(?:=|:|\xef\xbc\x9a)"
_NAMES = "|".join((
    "titel", "titre", "titolo", "t\u00edtulo", "titulo", "tytu\u0142", "name", "nom", "nome",
    "level", "(?:\u043d|\u041d)\u0430\u0437\u0432\u0430\u043d\u0438\u0435", "\u6807\u9898",
    "\u6a19\u984c", "\u30bf\u30a4\u30c8\u30eb")).encode()
_TITLE, _NAME = (re.compile(rb"[-*>\s]*(?:" + keys + rb")" + _EQUALS + rb"[ \t]*(.*)", re.I | re.S)
                 for keys in (b"title", _NAMES))
_BY = re.compile(rb"[-*>;#\s]*(?:" + "|".join((
    "authors?", "autor", "auteur", "autore", "upphovsman", "\u0430\u0432\u0442\u043e\u0440",
    "\u0410\u0432\u0442\u043e\u0440", "\u4f5c\u8005")).encode() + rb")" + _EQUALS +
    rb"[ \t]*(.*)", re.I | re.S)
_KEY = re.compile(rb"[-*>;#\s]*[A-Za-z\x80-\xff][A-Za-z\x80-\xff-]*" + _COLON)
_TAG = (rb"<(?:[/?]|!(?:--\s*)?)?[A-Za-z][^<>]*>|\[/?(?:b|i|u|s|h|pre|code|quote|spoiler|size|color"
        rb"|center|url|img|list)(?:=[^\]]*)?\]")
_TAGS = re.compile(rb"(?:" + _TAG + rb"|```.*|~~~.*|\\(?:begin|end)\{\w+\*?\}"
                   rb"|[^A-Za-z0-9\x80-\xff])*", re.S | re.I)
# a tag of no web page that gives what it holds a name
_NAMING_TAG = re.compile(
    rb"<(?!(?:meta|input|a|img|link|param|form|button|select|iframe|object|div|span|table|td|p)\b)"
    rb"[A-Za-z][\w:.-]*\s[^<>]*?\b(?:name|title)\s*=\s*[\"']([^<>\"']+)[\"'][^<>]*>", re.I)
# tags, and the mark of a heading or of an entry in a list
_MARKS = re.compile(_TAG + rb"|\A(?:#+|[-*>])[ \t]+", re.I)
# what is around a heading: marks of wikis and chats, or a command
_AROUND = re.compile(rb"(={2,}|\*{2,}|_{2,}|'{2,})\s*([^\s=*_'](?:.*[^\s=*_'])?)\s*\1"
                     rb"|\\[A-Za-z]+\*?\{([^{}]+)\}", re.S)
_QUOTED = re.compile(rb"([\"'])(.*)\1", re.S)
# lines of a chat, with a time or a name; of a table; and marks of a merge
_NO_TITLE = re.compile(
    rb"\[?[0-9]{1,2}:[0-9]{2}(?::[0-9]{2})?\]?\s"
    rb"|(?:[^\[\]]{1,40}, )?\[[^\[\]]{1,20}\s[0-9]{1,2}:[0-9]{2}(?::[0-9]{2})?\]"
    rb"|<(?!(?:[a-z]|h[1-6]|pre|code|center|div|span|font|em|strong|title|tt|td|th|tr|li|small|big"
    rb"|br|hr)\b)[\w.-]+>\s|[<>=]{7}|@@ |\||[^\s,;]*[,;][^\s,;]*[,;][^\s]*\s*\Z"
    rb"|[^\t]+\t[^\t]+\t", re.I)
_ENTRY = re.compile(rb"[-*+][ \t]")
_AUTHOR = re.compile(rb"(?:by|author)\b", re.I)
_LETTERS = re.compile(rb"[lurdLURD0-9() \t]*")
# digits, or a word whose last letter is no push
_DIGITS = re.compile(rb"[0-9 \t]*|[LURD][lurd]{2,}")
_SOLUTION = re.compile(rb"[^\w'\x80-\xff]*(?:[A-Za-z'\x80-\xff]+\s+){0,2}[\x80-\xff]*solution\b"
                       rb"(?:[^:=]*[:=]|\W*[0-9(])", re.I)
_OTHER, _ROW, _BELOW, _ABOVE, _NAMED, _SHORT, _BY_LINE, _FILE = range(8)
_ROWS = re.compile(b"%b+" % bytes([_ROW]))

Made = TypeVar("Made")
Span = Tuple[int, int]


class Level(NamedTuple):
    """A level: its number from 1, its rows as they are written, its first line, its title, and its
    author or that of the whole collection."""

    number: int
    rows: List[bytes]
    line: int
    title: str = ""
    author: str = ""


def of_rows(make: Callable[[Level], Made]) -> Callable[[Level], Made]:
    """Returns a function that makes something of the rows of a level, and keeps it for the next
    level with the same rows, up to MOST_CELLS cells."""
    known: Dict[Tuple[bytes, ...], Made] = {}
    cells = 0

    def made(level: Level) -> Made:
        nonlocal cells
        rows = tuple(level.rows)
        if rows not in known:
            cells += sum(map(len, rows))
            if cells > MOST_CELLS:
                known.clear()
                cells = 0
            known[rows] = make(level)
        return known[rows]
    return made


def is_row(line: bytes) -> bool:
    """Returns whether the auditor reads a line as a row of a level."""
    return b"#" in line and not line.translate(None, CHARACTERS)


def _kind_of(line: bytes) -> int:
    """Returns the kind of a line: a row, the name of a file, a title with its key, a title above a
    level, letters of solutions or digits alone, an author, or neither."""
    return (_ROW if is_row(line) else _FILE if line.startswith(FILE.encode())
            else _OTHER if len(line) > MOST_TITLE
            else _BELOW if _TITLE.match(line) else _NAMED if _NAME.match(line)
            else _ABOVE if title_in(line)
            else _SHORT if line.strip() and _LETTERS.fullmatch(line)
            else _BY_LINE if _BY.match(line) else _OTHER)


@lru_cache(maxsize=4)
def read(data: bytes, most: int = sys.maxsize) -> Sequence[Level]:
    """Returns the levels of a text in order, up to `most`: the longest runs of rows.

    A byte order mark at the start is skipped. A level's title is what a line 'Title: ..' says, or
    otherwise the last line of text above the level. Its author is what a line 'Author: ..' says
    where its title has its place, or otherwise the last such line above all levels. The text of
    each file that was read into this one counts by itself.
    """
    lines = texts.lines(texts.unmarked(data))
    kinds = bytes(map(texts.cached(_kind_of), lines))
    found: List[Level] = []
    for spans, gaps in _files(kinds, [it.span() for it in islice(_ROWS.finditer(kinds), most)]):
        # the last title with its key between two levels; of the keys `Title` comes first
        titles = [_keyed(lines, kinds, gap, (_BELOW, _TITLE))
                  or _keyed(lines, kinds, gap, (_NAMED, _NAME)) for gap in gaps]
        are_above = bool(titles[0]) and not titles[-1] and (len(spans) == 1 or any(titles[1:-1]))
        keyed = titles[:-1] if are_above else titles[1:]
        authors = [_keyed(lines, kinds, gap, (_BY_LINE, _BY)) for gap in gaps]
        of_all, named = authors[0], authors[:-1] if are_above else authors[1:]
        plain = _titles_below(lines, kinds, gaps) if not any(titles) else []
        plain = plain or [_title_above(lines, kinds, above, first) for above, first in gaps[:-1]]
        found += [
            Level(number, lines[first:end], first + 1, title or texts.shown(said), author or of_all)
            for number, ((first, end), title, said, author)
            in enumerate(zip(spans, keyed, plain, named), len(found) + 1)]
    return tuple(found)


def _files(kinds: bytes, spans: Sequence[Span]) -> Iterator[Tuple[Sequence[Span], List[Span]]]:
    """Yields the spans of the levels of each file, and of the text between them."""
    gaps = list(zip([0, *(end for _, end in spans)], [*(first for first, _ in spans), len(kinds)]))
    first = 0
    for last, (top, end) in list(enumerate(gaps))[1:]:
        at = kinds.find(_FILE, top, end)
        if at >= 0 or last == len(spans):
            begin = max(gaps[first][0], kinds.rfind(_FILE, *gaps[first]))
            yield spans[first:last], [(begin, gaps[first][1]), *gaps[first + 1:last],
                                      (top, end if at < 0 else at)]
            first = last


def _titles_below(lines: List[bytes], kinds: bytes, gaps: Sequence[Span]) -> List[bytes]:
    """Returns the titles of several levels if each has one line directly below it and apart from
    the next level, and nothing is above the first; otherwise none."""
    if len(gaps) < 3 or any(kinds[at] == _ABOVE for at in range(*gaps[0])) or any(
            first == end or kinds[first] != _ABOVE for first, end in gaps[1:]):
        return []
    areas = [lines[first + 1:end] for first, end in gaps[1:]]
    if any(line.strip() for area in areas for line in area) or not all(areas[:-1]):
        return []
    return [title_in(lines[first]) for first, _ in gaps[1:]]


def _title_above(lines: List[bytes], kinds: bytes, end: int, first: int) -> bytes:
    """Returns the last line of text between two lines, or of several comment lines the first that
    names no author."""
    short = kinds.rfind(_SHORT, end, first)
    at = last = kinds.rfind(_ABOVE, end, first)
    if short > last and _is_title(lines, kinds, (end, short, first)):
        return lines[short].strip()
    if at > end and _ENTRY.match(lines[at]) and _ENTRY.match(lines[at - 1]):
        return b""
    while at > end and kinds[at - 1] == _ABOVE and (
            lines[at - 1].startswith(b";") and lines[at].startswith(b";")
            or at == last and _AUTHOR.match(title_in(lines[at]))):
        at -= 1
    found = [title_in(line) for line in lines[at:last + 1]] if at >= 0 else [b""]
    return next((title for title in found if not _AUTHOR.match(title)), found[-1])


def _is_title(lines: List[bytes], kinds: bytes, where: Tuple[int, int, int]) -> bool:
    """Returns whether letters or digits alone are where a title is: nearer to the level below than
    to what is above, which is no solution. `where` has the end of the level above, the line, and
    the first row below."""
    end, at, first = where
    top = at
    while top > end and not lines[top - 1].strip():
        top -= 1
    if any(line.strip() and not _TAGS.fullmatch(line) for line in lines[at + 1:first]):
        return False
    above, below = at - top, first - at - 1
    is_number = bool(_DIGITS.fullmatch(lines[at]))
    if top > end:
        is_solution = kinds[top - 1] == _SHORT or b"solution" in lines[top - 1].lower()
        return not is_solution and (is_number or not below or above > below)
    return end == 0 or above > below or is_number and above == below


def _keyed(lines: List[bytes], kinds: bytes, gap: Tuple[int, int],
           key: Tuple[int, Pattern[bytes]]) -> str:
    """Returns what the last line of a kind says after its key between two lines, or ""."""
    at = kinds.rfind(key[0], *gap)
    match = key[1].match(lines[at]) if at >= 0 else None
    if not match:
        return ""
    said = match.group(1).strip()
    is_set = lines[at][:match.start(1)].rstrip().endswith(b"=")
    quoted = _QUOTED.fullmatch(said) if is_set else None
    return texts.shown(quoted[2] if quoted else said).strip()


def title_in(line: bytes) -> bytes:
    """Returns the title that a line of text is, or nothing.

    A line with a key such as `Author: ..`, a solution, the heading of one, tags, a line without a
    letter or digit and a long one are no titles.
    """
    if len(line) > MOST_TITLE:
        return b""
    text = line.lstrip(b"; \t\v\f").rstrip()
    if named := _NAMING_TAG.fullmatch(text):
        return named[1].strip()
    if _KEY.match(line) or _TAGS.fullmatch(text) or _LETTERS.fullmatch(line) or (
            _NO_TITLE.match(text) or text.endswith((b":", b","))):
        return b""
    # A page has its own title before its first heading.
    _, _, rest = text.lower().partition(b"</title>")
    text = text[len(text) - len(rest):] if rest.strip() else text
    while (bare := _MARKS.sub(b"", text).strip()) != text:
        text = bare
    if around := _AROUND.fullmatch(text):
        text = (around[2] or around[3]).strip()
    return b"" if _SOLUTION.match(line) or is_row(text) else text


def read_file(name: str) -> List[Level]:
    """Returns the levels of a file, within the auditor's limits."""
    return read_within(texts.read(name), name)


def read_within(data: bytes, name: str) -> List[Level]:
    """Returns the levels of a text of this name, within the auditor's limits."""
    found = [*read(data, MOST_LEVELS + 1)]
    if len(found) > MOST_LEVELS:
        raise texts.Stop(f"{texts.shown(name)} has more than {MOST_LEVELS} levels")
    return found
