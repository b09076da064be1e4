"""Reads exports: their levels, and the letters of solutions wherever they are.

In this order: lines out of their dress, rows, levels, letters. Letters belong to a level that they
solve: the one above them, or any other. The replay decides that; names of levels decide only what
the replay leaves open, and headings what is reported.
"""
import re
from bisect import bisect_right
from typing import Dict, List, NamedTuple, Optional, Sequence, Tuple

from .. import answers, carrying, forms, levels, own_files, texts
from ..board import Board, board_of
from ..builder import Attempt, Collection, Try
from . import coding, letters, level_rows
from .export_lines import Export, Level
from .letter_groups import LONG, Group, Groups, Piece, Place, paragraphs
from .level_names import Names

MOST_TRIES, MOST_PARTS, MOST_TRIED = 20, 1000, 2_000_000
# letters among words that may be a word
_WORD = re.compile("[lurdLURD][lurd]*|..?")


class Loose(NamedTuple):
    """Letters that don't solve the level above them, if there is one, and why."""

    group: Group
    pieces: Sequence[Piece]
    above: int
    attempt: Optional[Attempt]


class Reader:
    """Reads exports for a collection, all at once when they are added."""

    def __init__(self, collection: Collection) -> None:
        self.collection = collection
        self.exports: List[Export] = []
        self.levels: List[Level] = []
        # the attempts for each level: those that solve it, and others
        self.solving: List[List[Try]] = []
        self.failing: List[List[Try]] = []
        # files of answers, with the forms of the levels that they count
        self._answers: List[Tuple[str, Sequence[forms.Form], Sequence[answers.Record]]] = []
        self.certificates: Dict[int, answers.Answer] = {}
        # what is reported: the file, the line, why, and the level whose number is known when it is
        # written, or -1; and whether something is left out or wrong
        self.waiting: List[Tuple[str, int, str, int, bool]] = []
        self.names = Names([], [], letters.said_in)
        self._boards: Dict[int, Board] = {}
        # the letters that were taken from lines
        self._taken: Dict[Place, List[str]] = {}
        # how many boards were tried for letters that don't solve the level above them
        self._tries = 0

    # ---- exports

    def add(self, file: str, is_found: bool, lines: Sequence[str],
            numbers: Optional[Sequence[int]] = None, titles: Optional[Dict[int, str]] = None
            ) -> Export:
        """Adds an export as lines, perhaps with other numbers. Levels may be known by their first
        lines, with their titles."""
        counted: Sequence[int] = numbers or range(1, len(lines) + 1)
        known = titles or {}
        faults: List[int] = []

        def say(at: int, why: str, is_fault: bool) -> None:
            faults.extend([at] * is_fault)
            self.waiting.append((file, counted[at], why, -1, is_fault))

        export = Export(file, is_found, lines, counted, level_rows.find(lines, say, known.keys()))
        export.faults = len(faults)
        number = len(self.exports)
        self.exports.append(export)
        for first, end in export.spans:
            run = [row for row in export.rows[first:end] if row]
            found, note = level_rows.drawn_in(run)
            if note:
                say(first, note, False)
            export.levels.append([*range(len(self.levels), len(self.levels) + len(found))])
            named = run[0].titles if len(run[0].titles) == len(found) else ("",) * len(found)
            for drawn, title in zip(found, named):
                kept = [row.encode() for row in drawn]
                self.levels.append(Level(number, levels.Level(
                    len(self.levels) + 1, kept, counted[first]), known.get(first) or title))
        return export

    def add_answers(self, file: str, its_levels: Sequence[levels.Level], found: answers.Answers
                    ) -> None:
        """Adds answers. Comments between records go to the next one, and the rest to the last."""
        rest = own_files.unnoted(found.rest)
        self._answers.append((file, forms.forms_of(its_levels), [
            it._replace(answer=it.answer._replace(above=tuple(filter(None, (
                *it.apart, *it.answer.above, *(rest if it is found.records[-1] else ()))))))
            for it in found.records]))

    def read(self) -> None:
        """Gives the letters to levels."""
        self.solving = [[] for _ in self.levels]
        self.failing = [[] for _ in self.levels]
        said = texts.cached(letters.said_in)
        loose = self._try_below(said)
        if loose:
            self.names = Names(self.exports, self.levels, said)
        for it in loose:
            self._try_elsewhere(it)
        for answered in self._answers:
            self._place_answers(*answered)

    # ---- letters below a level

    def _try_below(self, said: letters.SaidIn) -> List[Loose]:
        """Tries the letters below each level on it. Returns those that solve nothing."""
        loose: List[Loose] = []
        above, groups = -1, Groups(said)
        for number, export in enumerate(self.exports):
            for at, gap in enumerate(export.gaps()):
                groups.add([(number, it, export.text(it)) for it in gap])
                if at < len(export.spans):
                    loose += self._tried(above, groups)
                    above, groups = export.levels[at][-1], Groups(said)
        return loose + self._tried(above, groups)

    def _tried(self, above: int, groups: Groups) -> List[Loose]:
        """Tries groups on the level above them. Returns what doesn't solve it."""
        groups.end()
        left: List[Loose] = []
        for group in groups.found:
            some, is_front_used = self._try_group(above, group)
            if is_front_used and left and group.front and (
                    left[-1].group.place == group.front.place):
                left.pop()
            left += some
        if above >= 0 and not self.solving[above]:
            for number, at in groups.empty:
                if not any(it.group.heading == (number, at) for it in left):
                    self._say((number, at), "a solution heading with no letters")
            if self._try_whole(above, left):
                return []
        return left

    def _try_group(self, above: int, group: Group) -> Tuple[List[Loose], bool]:
        """Tries a group on the level above it: as one solution, or as several one after the other.
        Returns what solves nothing, and whether a solution begins in the words above."""
        if above < 0 or self.levels[above].export != group.place[0]:
            return [Loose(group, group.pieces, -1, None)], False
        board, front, is_front_used = self._board(above), group.front, False
        left: List[Piece] = [*group.pieces]
        if front and (group.is_head_of_front or not self._first_solution(left, board)[1]):
            left.insert(0, front)
        loose: List[Loose] = []
        for _ in range(MOST_TRIES):
            attempt, count = self._first_solution(left, board)
            if count:
                is_front_used = is_front_used or left[0] is front
                self._use(left[:count], group)
                self._take(above, left[0].place, attempt, group)
            elif left[0] is front:
                count = 1
            else:
                count = next((at for at, it in enumerate(left) if at and it.is_new), len(left))
                count = len(left) if attempt.plays else count
                if count < len(left):
                    attempt = self._played(left[:count], board)
                loose.append(Loose(group, left[:count], above, attempt))
            left = left[count:]
            if not left:
                return loose, is_front_used
        return [*loose, Loose(group, left, above,
                              Attempt("were not tried, after too many others"))], is_front_used

    def _take(self, i: int, place: Place, attempt: Attempt, group: Group) -> None:
        """Adds a solution of a level, and says what is odd about it."""
        self.solving[i].append(Try(self.exports[place[0]].file, self._number(place), attempt, [],
                                   group.is_saved or group.is_name, place[1]))
        self.collection.count_letters(attempt)
        if group.odd:
            self._say(place, f"{group.odd} were read as letters", is_fault=False)

    def _use(self, pieces: Sequence[Piece], group: Group) -> None:
        """Marks lines as letters or headings of solutions."""
        headings = [group.heading] if group.heading else []
        for number, at in [it.place for it in pieces] + headings:
            self.exports[number].used.add(at)
        for it in pieces:
            self._taken.setdefault(it.place, []).append(it.letters)

    def _is_taken(self, it: Loose) -> bool:
        """Returns whether letters of one line are those of solutions that were taken from it."""
        left = it.pieces[0].letters if len(it.pieces) == 1 else "none"
        for taken in self._taken.get(it.pieces[0].place, ()):
            left = left.replace(taken, "", 1)
        return not left

    def _first_solution(self, pieces: Sequence[Piece], board: Board) -> Tuple[Attempt, int]:
        """Returns the solution that the first pieces are, and how many: those up to a blank line if
        they solve the board, and otherwise as few as possible, but all if there is no blank line.
        If nothing solves it, their number is 0."""
        whole = self._played(pieces, board)
        if whole.why is None and not any(it.is_new for it in pieces):
            return whole, len(pieces)
        if not whole.solved:
            return whole, 0
        starts, last = [first for first, _ in whole.solved], whole.solved[-1][1]
        found = end = 0
        for count, piece in enumerate(pieces, 1):
            try:
                end += len(coding.expand(piece.letters, texts.MOST_BYTES))
            except coding.Wrong:
                return whole, len(pieces) if whole.why is None else 0
            span = bisect_right(starts, end) - 1
            is_end = count == len(pieces) or pieces[count].is_new
            if span >= 0 and end <= whole.solved[span][1] and (is_end or not found):
                found = count
            if is_end and found or end > last:
                break
        return (self._played(pieces[:found], board) if found else whole), found

    def _played(self, pieces: Sequence[Piece], board: Board) -> Attempt:
        return self.collection.attempt("".join(it.letters for it in pieces), board)

    def _try_whole(self, above: int, left: Sequence[Loose]) -> bool:
        """Tries all letters below a level as one solution, which remarks may part."""
        alone = [it for it in left if not it.group.is_words]
        if len(alone) < 2 or alone[0].above < 0:
            return False
        pieces = [piece for it in alone for piece in it.pieces]
        attempt = self._played(pieces, self._board(above))
        if attempt.why is None:
            self._take(above, pieces[0].place, attempt, alone[0].group)
            for it in alone:
                self._use(it.pieces, it.group)
        return attempt.why is None

    # ---- letters for other levels

    def _try_elsewhere(self, it: Loose) -> None:
        """Tries letters on all other levels: whole, between titles, by paragraphs, and line by
        line. Reports those that solve none. A name is for no other level."""
        if it.group.is_name:
            return
        group, size = it.group, sum(len(piece.letters) for piece in it.pieces)
        named = self.names.named(it.pieces[0].place)
        is_sure = not group.is_saved and (
            group.is_headed or size >= (LONG * 3 // 2 if group.is_words else LONG)
            or bool(named) and not group.is_words)
        placed: List[int] = []
        for part in self._parts_of(it):
            named = self.names.named(part[0].place) if part is not it.pieces else named
            if group.is_words and not (is_sure or named) and _WORD.fullmatch(part[0].letters):
                continue
            found = self._solved_by(part, it.above if part is it.pieces else -1, named,
                                    self._near(it))
            for i, attempt in found:
                self._take(i, part[0].place, attempt, group)
                if self.levels[i].export == group.place[0] and not named:
                    self._say(part[0].place, "letters that solve level {}", i, False)
            if found:
                self._use(part, group)
                placed += [i for i, _ in found]
                if part is it.pieces:
                    break
        # Letters under a heading that can be played are for the level above, unless the next one is
        # solved by them.
        is_meant = group.is_headed and it.attempt is not None and it.attempt.plays and not (
            self.solving[it.above] or it.above + 1 in placed)
        is_title = len(it.pieces) == 1 and self.names.is_title(it.pieces[0].place)
        if (is_sure and not placed and not is_title or is_meant) and not self._is_taken(it):
            self._report(it)
        for some in paragraphs(it.pieces) if is_sure and placed and not group.is_words else ():
            if sum(len(piece.letters) for piece in some) >= LONG and not any(
                    piece.place in self._taken for piece in some):
                self._report(Loose(group, some, it.above, None))

    def _report(self, it: Loose) -> None:
        """Reports letters that solve no level. If there are words about one, or one above, they are
        meant for that."""
        place = it.pieces[0].place
        named = self.names.named(place)
        if it.above < 0 and not named:
            self._say(place, "a solution of no level that is read")
            return
        i = it.above if it.above >= 0 else named[0]
        attempt = it.attempt or self._played(it.pieces, self._board(i))
        self.failing[i].append(Try(self.exports[place[0]].file, self._number(place), attempt, []))
        if it.group.is_headed:
            self._use(it.pieces, it.group)
        words = ("the solution of level {} " if it.group.is_headed or it.above < 0
                 else "letters that are no solution of level {}: ")
        self._say(place, f"{words}{attempt.why}", i)

    def _parts_of(self, it: Loose) -> List[Sequence[Piece]]:
        """Returns letters that may be a solution: all, those between titles, each paragraph, and
        each line."""
        if not 1 < len(it.pieces) <= MOST_PARTS:
            return [it.pieces]
        between: List[List[Piece]] = [[]]
        for piece in it.pieces:
            if self.names.is_title(piece.place):
                between.append([])
            else:
                between[-1].append(piece)
        return [it.pieces, *(some for some in between if some and len(between) > 1),
                *(some for some in paragraphs(it.pieces) if 1 < len(some) < len(it.pieces)),
                *([piece] for piece in it.pieces)]

    def _near(self, it: Loose) -> Sequence[int]:
        """Returns the levels that letters may be for: those of the same export, or of all if that
        has none. Below the heading of a level without a solution only the next one may be meant, if
        there is one."""
        own = [i for its in self.exports[it.group.place[0]].levels for i in its]
        if it.group.is_headed and own and own[0] <= it.above < own[-1] and (
                not self.solving[it.above]):
            return [it.above + 1]
        return own or range(len(self.levels))

    def _solved_by(self, pieces: Sequence[Piece], tried: int, named: Sequence[int],
                   near: Sequence[int]) -> List[Tuple[int, Attempt]]:
        """Returns the levels that letters solve, but for one that was tried already: those that the
        words name if there are any, and otherwise some that are near. Levels without a solution
        come before others."""
        text = "".join(it.letters for it in pieces)
        try:
            spelled = coding.expand(text, texts.MOST_BYTES)
        except coding.Wrong:
            return []
        steps = spelled.lower()
        for some in (named, near):
            found = []
            for i in some if self._tries < MOST_TRIED else ():
                self._tries += 1
                board = self._boards.get(i) or self._boards.setdefault(i, self._board(i))
                if i != tried and _may_play(board, steps):
                    attempt = self.collection.attempt(spelled, board)
                    found += [(i, attempt)] * (attempt.why is None and attempt.pushes > 0)
            if found:
                return [it for it in found if not self.solving[it[0]]] or found
        return []

    # ---- answers

    def _place_answers(self, file: str, its_forms: Sequence[forms.Form],
                       records: Sequence[answers.Record]) -> None:
        """Gives answers to the levels that have the boards of theirs. One that doesn't hold is
        reported once, although several levels may have its board."""
        whys: Dict[int, Tuple[str, int]] = {}
        carried = carrying.carried(records, its_forms,
                                   forms.forms_of(it.level for it in self.levels))
        for number, several in sorted(carried.items()):
            for at, answer in several:
                line = records[at].line
                why = self._place_answer(file, line, number - 1, answer)
                whys.setdefault(line, (why, number - 1))
        for record in records:
            why, i = whys.get(record.line, ("no level has the board of this record", -1))
            if why:
                self.waiting.append((file, record.line, why, i, True))

    def _place_answer(self, file: str, line: int, i: int, answer: answers.Answer) -> str:
        """Gives an answer to a level. Returns in words why it doesn't hold, or ""."""
        if answer.kind != "solution":
            self.certificates.setdefault(i, answer)
            return ""
        attempt = self.collection.attempt(answer.letters.decode("latin-1"), self._board(i))
        if attempt.why:
            return "the solution of level {} " + attempt.why
        notes = [texts.decoded(it) for it in answer.comments]
        self.solving[i].append(Try(file, line, attempt, notes))
        self.collection.count_letters(attempt)
        return ""

    # ---- messages

    def _board(self, i: int) -> Board:
        return board_of(self.levels[i].level)

    def _number(self, place: Place) -> int:
        number, at = place
        return self.exports[number].numbers[at if at >= 0 else -1 - at]

    def _say(self, place: Place, why: str, level: int = -1, is_fault: bool = True) -> None:
        export = self.exports[place[0]]
        export.faults += is_fault
        self.waiting.append((export.file, self._number(place), why, level, is_fault))


def _may_play(board: Board, steps: str) -> bool:
    """Returns whether the player stays off the walls, which most letters of other levels deny
    within a few steps."""
    place, walls, by = board.player, board.walls, board.steps
    if place is None or not board.boxes:
        return False
    for step in steps:
        place += by[step]
        if walls[place]:
            return False
    return True
