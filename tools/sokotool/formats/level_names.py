"""The levels that words beside letters name, by title or number."""
import os
import re
from typing import Dict, List, Sequence, Set, Tuple

from .. import levels, texts
from . import letters
from .export_lines import Export, Level

# how many lines above letters, and how many words of each, may name their level
MOST_ABOVE, MOST_WORDS = 6, 12
# what stands between words, beside blanks
_BETWEEN = dict.fromkeys(map(ord, ":;,=|\"'[]{}<>()#*./-"), " ")
_NUMBER = re.compile(r"\W*(?:[^\W\d_]+\W+){0,3}([0-9]{1,5})(?![0-9])")
_BARE_NUMBER = re.compile(r"\W*(?:(?:level|puzzle|no|nr|number)\W*)?[0-9]+\W*", re.I)


class Names:
    """The titles of levels, and the numbers that a list counts: those of the export of its name, of
    its own, or of the only one."""

    def __init__(self, exports: Sequence[Export], found: Sequence[Level], said: letters.SaidIn
                 ) -> None:
        self.exports, self._said = exports, said
        self._by_title: Dict[str, List[int]] = {}
        self._by_export = texts.grouped((it.export, i) for i, it in enumerate(found))
        self._by_path, self._by_stem = (
            texts.grouped((name_of(exports[number].file), number) for number in self._by_export)
            for name_of in (_path, _stem))
        for number, its in self._by_export.items():
            for i, title in zip(its, _titles(exports[number], found)):
                self._by_title.setdefault(_key(title), []).append(i)
        self._by_title.pop("", None)

    def is_title(self, place: Tuple[int, int]) -> bool:
        """Returns whether a line is the title of a level."""
        return _key(self.exports[place[0]].text(place[1])) in self._by_title

    def named(self, place: Tuple[int, int]) -> List[int]:
        """Returns the levels that the words beside letters and above them may mean: those with a
        title there and a number, or one of both, or the only one of the list's name."""
        number, at = place
        export = self.exports[number]
        by_title: Set[int] = set()
        by_number: Set[int] = set()
        its = self._counted(number)
        for line in self._words(number, at):
            words = _words_in(line[:1000])
            for first in range(min(len(words), MOST_WORDS)):
                for end in range(first + 1, min(len(words), first + MOST_WORDS) + 1):
                    by_title |= {*self._by_title.get(" ".join(words[first:end]), ())}
            match = _NUMBER.match(line)
            if match and 0 < int(match[1]) <= len(its):
                by_number.add(its[int(match[1]) - 1])
            if by_title or by_number:
                break
        single = {*its} if len(its) == 1 and not export.spans else set()
        return sorted(by_title & by_number or by_title | by_number or single)

    def _words(self, number: int, at: int) -> List[str]:
        """Returns the line of letters, if it has words too, and the lines of words above it."""
        export = self.exports[number]
        said = self._said(export.text(at))
        found = [export.text(at)] if said and (said.is_numbered or not said.alone) else []
        for above in range(at - 1, max(at - MOST_ABOVE, -1) - 1, -1):
            if above < 0 or export.rows[above]:
                break
            line = export.text(above)
            said = self._said(line)
            if said and not self.is_title((number, above)) and (
                    said.alone or said.among and said.ends_in_letters):
                break
            found += [line] if said else []
        return found

    def _counted(self, number: int) -> List[int]:
        """Returns the levels that numbers in an export count."""
        if number in self._by_export:
            return self._by_export[number]
        file = self.exports[number].file
        same = self._by_path.get(_path(file)) or self._by_stem.get(_stem(file), [])
        if not same and len(self._by_export) == 1:
            same = [*self._by_export]
        return self._by_export[same[0]] if same else []

    def notes(self, export: Export, placed: Sequence[int]) -> List[List[str]]:
        """Returns the words of an export without levels that are no names and headings: those above
        each of these lines, and those after the last."""
        found: List[List[str]] = [[] for _ in range(len(placed) + 1)]
        at = 0
        for index, line in enumerate(export.lines):
            while at < len(placed) and placed[at] <= index:
                at += 1
            if line.strip() and index not in export.used and not _BARE_NUMBER.fullmatch(line) and (
                    _key(line) not in self._by_title):
                found[at].append(line)
        return found


def _titles(export: Export, found: Sequence[Level]) -> List[str]:
    """Returns the titles of the levels of an export."""
    made: List[str] = []
    listed: List[List[int]] = [*export.levels, []]
    for gap, its in zip(export.gaps(), listed):
        made += [export.text(at) for at in gap if at not in export.used]
        for i in its:
            made += ["", *(row.decode() for row in found[i].level.rows)]
            made += [f"Title: {found[i].title}"] * bool(found[i].title)
    return [it.title for it in levels.read("\n".join(made).encode("utf-8", "replace"))]


def _words_in(text: str) -> List[str]:
    """Returns the words of a text in lower case."""
    return text.casefold().translate(_BETWEEN).split()


def _key(title: str) -> str:
    """Returns a title as titles are compared."""
    return " ".join(_words_in(title))


def _path(file: str) -> str:
    return os.path.splitext(file)[0]


def _stem(file: str) -> str:
    return os.path.basename(_path(file)).lower()
