"""Writes a collection in the forms that other programs read.

- sok  boards with `Title: ..`, text and `Solution` below them, as JSoko and YASC write them
- rle  the same, with each board run-length coded in one line
- xsb  boards, and everything else in comments
- slc  XML, in which a level is <Level Id=".."> and each row <L>
"""
import re
from functools import partial
from itertools import groupby, takewhile
from typing import (Callable, Container, Dict, Iterator, List, Mapping, NamedTuple, Sequence,
                    Tuple)

from .. import auditor, levels, texts
from ..levels import FLOOR, WALL
from . import letters

# a line of letters
_LINE = re.compile(".{1,70}")
_TITLE = re.compile(r"[ \t]*title[ \t]*:[ \t]*(.*)", re.I)
_AUTHOR = re.compile(r"[; \t]*(author|copyright)[ \t]*:[ \t]*(.*\S)", re.I)
# lines that sokotool writes
_OWN = {f"; {auditor.REFERENCE_NOTE}"}
_COMMENT = re.compile(r"[ \t:;]*comment[ \t:;]*", re.I)
_BLANKS = str.maketrans(FLOOR, " " * len(FLOOR))
_NO_XML = re.compile("[^\t\x20-\ud7ff\ue000-\ufffd\U00010000-\U0010ffff]")


# the letters of a solution, and the lines of comments on it
Solution = Tuple[str, Sequence[str]]


class Entry(NamedTuple):
    """A level with its title, its rows with spaces for floor, the lines of text below it, and the
    letters of its solution, or none; and those of another one with fewer pushes, or none."""

    title: str
    rows: List[str]
    text: List[str]
    letters: str
    other: str

    def solutions(self) -> List[Tuple[str, str]]:
        heads = ("Solution/Moves", "Solution/Pushes") if self.other else ("Solution", "")
        return [(head, it) for head, it in zip(heads, (self.letters, self.other)) if it]


def content_of(data: bytes, found: Sequence[levels.Level], solutions: Mapping[int, Solution],
               others: Mapping[int, Solution]) -> Tuple[List[str], List[Entry]]:
    """Returns the text above the levels `found` of a text, and the levels, with solutions by the
    numbers of levels, and others with fewer pushes.

    Lines with titles are left out of the texts, since each level has its title, and comments on a
    solution become text of its level.
    """
    lines = texts.lines(texts.unmarked(data))
    titles = {level.title for level in found}
    gaps, at = [], 0
    for level in found:
        gaps.append(_text(lines[at:level.line - 1], titles, level.title))
        at = level.line - 1 + len(level.rows)
    gaps.append(_text(lines[at:], titles, ""))
    entries = []
    for level, text in zip(found, gaps[1:]):
        solved, notes = solutions.get(level.number, ("", ()))
        other, more = others.get(level.number, ("", ()))
        known = {*text}
        entries.append(Entry(level.title, [plain(row) for row in level.rows], [
            note for note in map(_noted, [*notes, *more]) if note not in known] + text, solved,
            other))
    return gaps[0], entries


def _noted(note: str) -> str:
    """Returns a comment with a key, so that it is no title of the next level."""
    text = note.lstrip("; \t").rstrip()
    return f"; {text}" if not levels.title_in(text.encode()) else f"; Note: {text}"


def plain(row: bytes) -> str:
    """Returns a row with spaces for floor, and none at its end."""
    return row.decode("ascii").translate(_BLANKS).rstrip()


def _text(lines: Sequence[bytes], titles: Container[str], next_title: str) -> List[str]:
    """Returns lines of text without titles of levels and without empty lines at both ends. The
    title of the next level may be any line."""
    kept: List[str] = []
    title_at = -1
    for line in map(texts.decoded, lines):
        match = _TITLE.match(line)
        if match and texts.shown(match.group(1)).strip() in titles or line in _OWN:
            continue
        if next_title and next_title in (texts.shown(levels.title_in(line.encode())), line.strip()):
            title_at = len(kept)
        kept.append("Collection: " + match.group(1) if match else line.rstrip())
    if title_at >= 0:
        del kept[title_at]
    text = "\n".join(kept).strip("\n")
    return text.split("\n") if text else []


# ---- forms of lines

def sok(head: Sequence[str], entries: Sequence[Entry],
        drawn: Callable[[Entry], List[str]] = lambda entry: entry.rows) -> Iterator[str]:
    """Yields the lines of a collection as JSoko and YASC write it."""
    yield from head
    for entry in entries:
        yield from ["", *drawn(entry)]
        if entry.title:
            yield "Title: " + entry.title
        # the lines directly below a board that are about it
        keys = next((at for at, line in enumerate(entry.text)
                     if not line or _COMMENT.fullmatch(line)), len(entry.text))
        yield from entry.text[:keys]
        for head, solved in entry.solutions():
            yield from ["", head, *_LINE.findall(solved)]
        if entry.text[keys:]:
            yield from ["", *entry.text[keys:]]


def _coded(entry: Entry) -> List[str]:
    """Returns a board in one line, or as it is if it is none between walls."""
    if not all(row.strip().startswith(WALL) and row.endswith(WALL) for row in entry.rows) or (
            max(map(len, entry.rows)) > levels.LARGEST_SIDE):
        return entry.rows
    return ["|".join("".join(f"{len(run) if len(run) > 1 else ''}{run[0]}" for run in (
        "".join(same) for _, same in groupby(row.replace(" ", "-")))) for row in entry.rows)]


def xsb(head: Sequence[str], entries: Sequence[Entry]) -> Iterator[str]:
    """Yields the lines of a collection with boards alone, and all else in comments."""
    yield from map(_comment, head)
    for entry in entries:
        title = entry.title.encode()
        # Letters in a comment may solve the level above it.
        is_read = levels.title_in(title) == title and not letters.among_words(entry.title)
        yield from ["", *(["; " + entry.title] if entry.title and is_read else []), *entry.rows]
        if entry.title and not is_read:
            yield "Title: " + entry.title
        for head, solved in entry.solutions():
            yield from ["; " + head, *("; " + line for line in _LINE.findall(solved))]
        if entry.text:
            yield from ["", *map(_comment, entry.text)]


def _comment(line: str) -> str:
    return "; " + line if line and not line.startswith(";") else line


# ---- XML

def slc(head: Sequence[str], entries: Sequence[Entry]) -> Iterator[str]:
    """Yields the lines of an SLC file. Authors are in attributes, as this form has it, and other
    texts in comments."""
    # loads a lot, which no other form needs
    from xml.sax.saxutils import escape, quoteattr
    sizes = [(max(map(len, entry.rows)), len(entry.rows)) for entry in entries]
    width, height = (max(numbers, default=0) for numbers in zip(*sizes or [(0, 0)]))
    yield '<?xml version="1.0" encoding="UTF-8"?>'
    yield "<SokobanLevels>"
    yield from map(_remark, filter(None, head))
    yield f'  <LevelCollection MaxWidth="{width}" MaxHeight="{height}">'
    for entry, size in zip(entries, sizes):
        author, text = _author(entry.text)
        by = f" Copyright={quoteattr(_clean(author))}" if author else ""
        yield (f'    <Level Id={quoteattr(_clean(entry.title))} Width="{size[0]}" '
               f'Height="{size[1]}"{by}>')
        yield from (f"      <L>{escape(row)}</L>" for row in entry.rows)
        for _, solved in entry.solutions():
            yield f"      <Solution>{solved}</Solution>"
        yield from map(_remark, filter(None, text))
        yield "    </Level>"
    yield "  </LevelCollection>"
    yield "</SokobanLevels>"


def _author(text: Sequence[str]) -> Tuple[str, List[str]]:
    """Returns the author that a text names before that of another file, and its other lines."""
    own = takewhile(lambda line: not line.startswith(levels.FILE), text)
    for at, match in enumerate(map(_AUTHOR.fullmatch, own)):
        if match:
            return match.group(2), [*text[:at], *text[at + 1:]]
    return "", list(text)


def _clean(text: str) -> str:
    """Returns a text without characters that XML has not."""
    return _NO_XML.sub(" ", text)


def _remark(line: str) -> str:
    """Returns a line as a comment, in which XML has no two hyphens."""
    line = re.sub("-(?=-)", "- ", _clean(line.lstrip("; \t")).rstrip("-"))
    return f"      <!-- {line} -->"


FORMS: Dict[str, Callable[[Sequence[str], Sequence[Entry]], Iterator[str]]] = {
    "slc": slc, "sok": sok, "xsb": xsb, "rle": partial(sok, drawn=_coded)}
