"""Gathers the lines of letters between two levels into groups, each of which may be a solution or
several."""
from typing import Dict, List, NamedTuple, Optional, Sequence, Set, Tuple

from . import letters

LONG = 8
MOST_PIECES = 5000
# a line: the export, the place in it, and its text
Line = Tuple[int, int, str]
Place = Tuple[int, int]


class Piece(NamedTuple):
    """The letters of a line, and whether a blank line is above it."""

    place: Place
    letters: str
    is_new: bool = False


class Group:
    """Letters line by line, alone or among words; letters at the end of the words above; the
    heading above; and in which unusual form they are."""

    def __init__(self, place: Place, pieces: List[Piece], odd: str = "", is_words: bool = False,
                 heading: Optional[Place] = None, front: Optional[Piece] = None) -> None:
        self.place, self.pieces, self.odd, self.is_words = place, pieces, odd, is_words
        self.heading, self.front = heading, front
        self.is_headed = self.is_saved = self.is_head_of_front = self.is_name = False


def paragraphs(pieces: Sequence[Piece]) -> List[List[Piece]]:
    """Returns letters cut at the blank lines between them."""
    found: List[List[Piece]] = []
    for piece in pieces:
        if piece.is_new or not found:
            found.append([])
        found[-1].append(piece)
    return found


class _Head(NamedTuple):
    place: Place
    is_saved: bool
    is_plain: bool


class Groups:
    """The groups in the lines that are added. A heading without letters is in `empty`. `said` tells
    what a line says."""

    def __init__(self, said: letters.SaidIn) -> None:
        self.found: List[Group] = []
        self.empty: List[Place] = []
        self._said = said
        self._open: Optional[Group] = None
        self._head: Optional[_Head] = None
        self._is_used = False
        self._front: Optional[Piece] = None
        self._is_front_of_head = False
        self._blanks = self._export = 0
        # letters among words, each of which is tried once
        self._seen: Set[str] = set()

    def add(self, lines: Sequence[Line]) -> None:
        for export, at, text in lines:
            if export != self._export:
                self.end()
                self._export = export
            said = self._said(text)
            if said is None:
                self._blanks += 1
                self._open = self._open if self._blanks < 2 else None
                continue
            place = (export, at)
            is_expected = self._head and not self._is_used or (
                self._open and self._open.odd == said.odd)
            if said.alone and (said.odd in ("", letters.WIDE) or len(said.alone) >= LONG
                               or is_expected):
                self._add_letters(place, said)
            else:
                self._add_words(place, said)
            self._blanks = 0

    def _add_letters(self, place: Place, said: letters.Said) -> None:
        group, head, front = self._open, self._head, self._front
        if group is None or group.odd != said.odd or said.is_numbered or (
                len(group.pieces) >= MOST_PIECES):
            group = Group(place, [], said.odd, False, head.place if head else None, front)
            group.is_saved = bool(head and head.is_saved)
            is_own = front is not None and head is not None and front.place == head.place
            group.is_headed = bool(head and not head.is_saved and (not self._is_used or is_own))
            group.is_head_of_front = self._is_front_of_head
            self.found.append(group)
            self._open, self._front, self._is_used = group, None, True
        group.pieces.append(Piece(place, said.alone, self._blanks > 0 and bool(group.pieces)))

    def _add_words(self, place: Place, said: letters.Said) -> None:
        self._open = None
        if said.is_head or said.is_saved or self._is_used or not (said.is_remark or said.is_key):
            self._end_head()
            is_head = said.is_head or said.is_saved
            self._head = _Head(place, said.is_saved, said.is_plain_head) if is_head else None
            self._is_used = is_head and bool(said.among or said.other[0])
        self._front = Piece(place, said.among[-1]) if said.ends_in_letters else None
        self._is_front_of_head = said.is_head
        some: Dict[str, str] = {**dict.fromkeys(said.among, said.odd),
                                **({said.other[0]: said.other[1]} if said.other[0] else {})}
        for text, odd in some.items():
            is_headed = said.is_head and said.has_colon
            if not is_headed and text in self._seen:
                continue
            self._seen.add(text)
            group = Group(place, [Piece(place, text)], odd, True)
            group.is_headed, group.is_name = is_headed, said.is_name
            group.is_saved = bool(self._head and self._head.is_saved)
            self.found.append(group)

    def _end_head(self) -> None:
        if self._head and self._head.is_plain and not self._is_used and not self._head.is_saved:
            self.empty.append(self._head.place)

    def end(self) -> None:
        """Ends the lines of an export, or all."""
        self._end_head()
        self._open = self._head = self._front = None
        self._is_used = False
        self._blanks = 0
