"""Writes what was read into the collection: levels, their text without solutions, and the best
solutions."""
import re
from typing import Dict, List, Sequence

from .. import levels, texts
from ..builder import Try
from . import letters
from .export_lines import Export
from .reading import Reader

# the most bytes of an export without a level or a solution that become a comment
MOST_KEPT = 1 << 20
# how many lines are added to the text at once
MOST_ADDED = 1 << 14
_TITLE = re.compile(r"[ \t]*title[ \t]*:", re.I)
_JSON_TITLE = re.compile(r"""\W*["'](?:title|name)["']\s*:\s*["'](.+)["'],?\s*""", re.I)
# a piece of a row, which other things may be beside
_DRAWN = re.compile("#[-_ #@$.*+]{3,}")
# the end of a line that opens a list of rows
_OPENS = re.compile(r"""[\[{(]["'`]*\Z|=\s*["'`]+\Z""")


def write(reader: Reader) -> None:
    """Writes the levels of all exports, and reports what is to be said of them."""
    collection = reader.collection
    numbers: Dict[int, int] = {}
    for export in reader.exports:
        if export.spans:
            _write_levels(reader, export, numbers)
        elif not export.used:
            _write_text(reader, export)
    for i, at in enumerate(reader.levels):
        _choose(reader, i, numbers[i])
    for file, line, why, i, is_fault in reader.waiting:
        say = collection.fault if is_fault else collection.note
        say(line, why.format(numbers[i]) if i >= 0 else why, file)
    for i, answer in reader.certificates.items():
        collection.kept.setdefault(i, answer)
    tries = texts.grouped((it.file, it) for some in reader.solving for it in some)
    for export in reader.exports:
        if not export.spans and export.used:
            _note_words(reader, export, tries.get(export.file, []))


def _note_words(reader: Reader, export: Export, tries: Sequence[Try]) -> None:
    """Gives the words of an export without levels to its solutions, as notes."""
    placed = sorted({it.at: it for it in tries}.items())
    *above, last = reader.names.notes(export, [at for at, _ in placed])
    for (_, it), notes in zip(placed, above):
        it.notes[:0] = notes
    if placed:
        placed[-1][1].notes.extend(last)


def _choose(reader: Reader, i: int, number: int) -> None:
    """Keeps the best solution of a level: a spare one only if there is no other, and one that
    doesn't solve it only if it can be played and none does."""
    collection = reader.collection
    solving = [it for it in reader.solving[i] if not it.is_spare] or reader.solving[i]
    playing = [it for it in reader.failing[i] if it.attempt.plays]
    if solving:
        kept, other = collection.choose(number, solving)
        collection.kept[i] = kept
        if other:
            collection.others[i] = other
    elif playing:
        collection.kept[i] = playing[0]
        collection.unsolved += 1


def _write_text(reader: Reader, export: Export) -> None:
    """Keeps the text of an export without levels and solutions."""
    collection = reader.collection
    if export.is_found and not export.faults and not any(map(_is_drawn, export.lines)):
        collection.idle.setdefault("", []).append(collection.names[export.file])
        return
    if sum(map(len, export.lines)) <= MOST_KEPT and any(map(str.strip, export.lines)):
        collection.add(collection.source(export.file))
        collection.add_comment([texts.shown(line) for line in export.lines if line.strip()])
    if not export.faults:
        collection.fault(1, "no level in this file", export.file)


def _is_drawn(line: str) -> bool:
    """Returns whether more than walls and floor is between two walls of a line."""
    return "#" in line and any(any(c in piece[1:piece.rindex("#")][:-1] for c in "@$.*+")
                               for piece in _DRAWN.findall(line))


def _write_levels(reader: Reader, export: Export, numbers: Dict[int, int]) -> None:
    """Writes the levels of an export, with the text between them. The title above a level becomes
    text below it."""
    collection = reader.collection
    if export.file != "-":
        collection.add(collection.source(export.file))
    gaps = [*export.gaps()]
    heads = _heads(export, gaps)
    for at, gap in enumerate(gaps):
        _write_lines(reader, export, gap[:heads[at]], at == 0)
        for i in export.levels[at] if at < len(export.spans) else ():
            it = reader.levels[i]
            size = max((len(one.attempt.letters) for one in reader.solving[i]), default=0)
            collection.add_level([row.decode() for row in it.level.rows], it.level.line,
                                 export.file, it.title, size)
            numbers[i] = collection.count
        _write_lines(reader, export, gap[heads[at]:], False)


def _heads(export: Export, gaps: Sequence[Sequence[int]]) -> List[int]:
    """Returns for each text where the part begins that is about the level below it. The titles of a
    file are above the boards if one is above the first board, none is below the last, and one is
    between two boards if there are several."""
    outside = [True] * len(export.lines)
    for first, end in export.comments:
        outside[first:end] = [False] * (end - first)
    last = [max((at for at, it in enumerate(gap) if it >= 0 and outside[it]
                 and _TITLE.match(export.lines[it])), default=-1) for gap in gaps]
    are_above = last[0] >= 0 > last[-1] and (len(gaps) == 2 or max(last[1:-1]) >= 0)
    return [at if are_above and at >= 0 and gap is not gaps[-1] else len(gap)
            for at, gap in zip(last, gaps)]


def _write_lines(reader: Reader, export: Export, gap: Sequence[int], is_first: bool) -> None:
    """Writes lines of text, without letters of solutions and their headings."""
    made: List[str] = []
    for at in gap:
        line = export.text(at)
        if at in export.used and not letters.says_more(line) or at < 0 and not any(
                c.isalpha() for c in line):
            continue
        if at in export.used or at < 0:
            line = _untitled(line)
        elif "\n" in line or line[-1:] in tuple("[{(\"'`") and _OPENS.search(line.rstrip()):
            line = _untitled(line)
        elif line[:1] in "\"' \t{-" and (match := _JSON_TITLE.fullmatch(line)):
            line = f"Title: {match[1]}"
        elif is_first and _TITLE.match(line) and not _is_in_comment(export, at):
            line = "Collection:" + line.partition(":")[2]
        made.append("; " + line if "#" in line and levels.is_row(
            line.encode("utf-8", "replace")) else line)
    for first in range(0, len(made), MOST_ADDED):
        reader.collection.add("\n".join(made[first:first + MOST_ADDED]))


def _is_in_comment(export: Export, at: int) -> bool:
    return any(first <= at < end for first, end in export.comments)


def _untitled(line: str) -> str:
    """Returns a line as it is if it can be no title, and otherwise as a note."""
    text = line.lstrip("; \t").rstrip()
    return f"; Note: {text}" if levels.title_in(line.encode("utf-8", "replace")) else line
