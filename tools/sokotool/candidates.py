"""The answers that the levels of a collection may get: the former ones, those of the exports, those
of other files, those that were kept, and those that were computed. Each goes to the levels that
have the board of its own. The best answer to each level that the audit accepts is chosen, or the
best solution by moves and the best one by pushes; then it is known which have no place any more."""
from typing import Callable, Dict, Hashable, List, Mapping, NamedTuple, Optional, Sequence, Tuple

from . import answers, carrying, changes, report, shelf, texts
from .answers import Answer, Record
from .level_texts import Block
from .board import board_of
from .builder import BOTH, PUSHES
from .forms import Form, Key, form_of
from .levels import Level

_SOLVES, _CERTIFICATE, _FAILS = range(3)


class Candidate:
    """An answer that a level may get, by the number of the level. A better one has a lower `rank`,
    once it has one; `counts` has the pushes and moves of a solution. `fault` says why it is
    refused, if that is known. One that `stays` is kept if no other is accepted; one that was
    computed gives way."""

    def __init__(self, number: int, answer: Answer, stays: bool) -> None:
        self.number, self.answer, self.stays, self.is_computed = number, answer, stays, False
        self.rank: Tuple[int, ...] = ()
        self.counts: Tuple[int, ...] = ()
        self.fault: Optional[str] = None


class Kind(NamedTuple):
    """Where records come from, and what follows from that."""

    name: str
    # one is kept for its own level if no other answer is accepted
    stays: bool = False
    # another level that took the place of its own may get it too
    takes_place: bool = True
    # it gives way without a word, since it can be computed again
    is_computed: bool = False


# former answers; those that were kept without a place; those of exports, and of other files; and
# those that were found or made
OWN = Kind("own", stays=True)
STORED = Kind("stored", takes_place=False)
EXPORTED = Kind("exported", stays=True)
FILE = Kind("file")
COMPUTED = Kind("computed", takes_place=False, is_computed=True)


class Given(NamedTuple):
    """A record of some file, the level that it is for, if there is one, and what it is a candidate
    for."""

    file: str
    record: Record
    level: Optional[Level]
    targets: List[Candidate]


class Pool:
    """The candidates for the levels of a state, and the chosen ones by the numbers of the levels.
    If both of the best are kept, `others` has the solutions with fewer pushes than the chosen ones.
    """

    def __init__(self, now: changes.Snapshot, best: str) -> None:
        self.now, self.best = now, best
        self.chosen: Dict[int, Candidate] = {}
        self.others: Dict[int, Candidate] = {}
        self._of: Dict[int, Dict[Answer, Candidate]] = {}
        self._given: Dict[Kind, List[Given]] = {}
        self._places: List[Tuple[changes.Snapshot, Dict[int, changes.Match]]] = []
        # the comments between records, each before the next level that is still there or the end
        self._apart: Dict[int, List[bytes]] = {}

    # ---- candidates

    def add(self, records: Sequence[Record], before: Sequence[changes.Snapshot], kind: Kind,
            file: str = "") -> List[Given]:
        """Adds the records of a file, and returns them with what they are candidates for. A record
        is for the level of its number in the first collection of `before` that has one. It goes to
        each level with the board of that, and with the boards of its number in the others, for
        which it doesn't stay."""
        given = [Given(file, it, next((one.levels[it.level - 1] for one in before
                                       if it.level <= len(one.levels)), None), [])
                 for it in records]
        known = 0
        for at, one in enumerate(before):
            if at and _keys(one.forms) == _keys(before[0].forms):
                continue
            self._give([it for it in given if it.record.level > known], one, kind)
            self._give([it for it in given if it.record.level <= known], one,
                       kind._replace(stays=False))
            known = max(known, len(one.levels))
        for target in (target for it in given for target in it.targets if kind.is_computed):
            target.is_computed = True
        self._given.setdefault(kind, []).extend(given)
        return given

    def add_comments(self, found: answers.Answers, before: changes.Snapshot) -> None:
        """Keeps the comments between the records of NAME.answers, which name levels `before`."""
        nearest, matches = len(self.now.levels) + 1, self._matches(before)
        self._apart[nearest] = found.rest
        for record in reversed(found.records):
            if match := matches.get(record.level):
                nearest = match.new + 1
            self._apart[nearest] = record.apart + self._apart.get(nearest, [])

    def _add(self, number: int, answer: Answer, stays: bool) -> Candidate:
        """Adds an answer to a level, unless that has it."""
        several = self._of.setdefault(number, {})
        return several.setdefault(answer, Candidate(number, answer, stays))

    def _rank(self, it: Candidate, order: int) -> None:
        """Ranks a candidate, and notes why a replay refuses it. Certificates aren't checked."""
        if it.rank:
            return
        if it.answer.kind != "solution":
            it.rank = (_CERTIFICATE, order)
            return
        board = board_of(self.now.levels[it.number - 1])
        it.rank = (_FAILS, order)
        if board.player is None:
            it.fault = f"board {board.fault}"
            return
        replay = board.replay(it.answer.letters)
        it.fault = replay.fault
        if not replay.fault:
            it.counts = replay.pushes, replay.moves
            best = it.counts if self.best == PUSHES else it.counts[::-1]
            it.rank = (_SOLVES, *best, order)

    def _give(self, given: Sequence[Given], before: changes.Snapshot, kind: Kind) -> None:
        """Gives records to the levels that have the boards of theirs, or that took the place of
        theirs. One that stays does so for its own level. Equal ones have the candidates of the
        first one too. Records of higher levels are left out."""
        found = [it for it in given if it.record.level <= len(before.levels)]
        if not found:
            return
        matches = self._matches(before) if kind.takes_place else {}
        # Of equal answers to the same board one goes to all levels that have it.
        by_board: Dict[Hashable, Given] = {}
        same = [by_board.setdefault((form.key, form.turn[:4], it.record.answer), it)
                for it in found for form in [before.forms[it.record.level - 1]]]
        first = [*by_board.values()]
        targets: Dict[int, List[Candidate]] = {id(it): [] for it in found}
        carried = carrying.carried([it.record for it in first], before.forms, self.now.forms)
        for number, several in carried.items():
            for at, answer in several:
                match = matches.get(first[at].record.level)
                is_own = match and match.turn and match.new + 1 == number
                targets[id(first[at])].append(
                    self._add(number, answer, bool(kind.stays and is_own)))
        for one, it in zip(same, found):
            match, answer = matches.get(it.record.level), it.record.answer
            if match and match.turn and it is not one:
                answer = carrying.turned(answer, before.forms[it.record.level - 1],
                                         self.now.forms[match.new])
            if match and not (match.turn and it is one):
                targets[id(it)].append(
                    self._add(match.new + 1, answer, kind.stays and bool(match.turn)))
            it.targets.extend([*targets[id(it)], *(targets[id(one)] if it is not one else ())])

    def _matches(self, before: changes.Snapshot) -> Dict[int, changes.Match]:
        """Returns the levels that are the same now, by their numbers before."""
        for known, matches in self._places:
            if known is before:
                return matches
        matches = {match.old + 1: match for match in changes.matches(before, self.now)}
        self._places.append((before, matches))
        return matches

    # ---- the best

    def audited(self, audit: Callable[[bytes], report.Report], noted: Callable[[bytes], bytes]
                ) -> Tuple[bytes, report.Report]:
        """Returns the answers file with the best answers that an audit accepts, and the report.
        `noted` adds a note to a file. The others are audited too. If the audit refuses an answer,
        the next one is tried. If it refuses all answers to a level, the first one that stays is
        kept."""
        while True:
            self.chosen = {number: it for number in sorted(self._of)
                           for it in [self._choice(number)] if it}
            self.others = {number: it for number, chosen in self.chosen.items()
                           for it in [self._other(chosen)] if it}
            if self.others:
                self._refuse(audit(self.other_answers()), self.others)
            text = noted(self._written())
            read = audit(text)
            self._refuse(read, self.chosen)
            if not any(it.fault for it in self.others.values()) and all(
                    not it.fault or self._choice(number) is it
                    for number, it in self.chosen.items()):
                return text, read

    def _refuse(self, read: report.Report, candidates: Dict[int, Candidate]) -> None:
        """Notes which answers an audit refused, and why."""
        for line in read.lines:
            if line.status == "refused" and line.level in candidates:
                it = candidates[line.level]
                self._rank(it, 0)
                # The line number of a certificate is one in this text, which nobody sees.
                it.fault = it.fault or " ".join(line.words[2 * (line.words[0] == "line"):])

    def _written(self) -> bytes:
        """Returns the answers file with the chosen ones, and the comments between them."""
        apart = self._comments()
        parts = [answers.spelled(apart.get(number, []))
                 + (self.chosen[number].answer.record(number) if number in self.chosen else b"")
                 for number in sorted({*self.chosen, *apart})]
        return answers.text(parts)

    def _comments(self) -> Dict[int, List[bytes]]:
        """Returns the comments between records, each before the next level or the end: the comments
        of NAME.answers, and what else was typed before kept records that have a place now."""
        found = dict(self._apart)
        said = {line for lines in found.values() for line in lines if line}
        for it in self._given.get(STORED, ()):
            new = [line for line in it.record.apart if line not in said]
            place = next((one.number for one in it.targets if self._has_place([one])), 0)
            if place and any(new):
                found[place] = found.get(place, []) + new
                said.update(line for line in new if line)
        return found

    def other_answers(self) -> bytes:
        """Returns the answers file with the others."""
        return answers.text([it.answer.record(number) for number, it in self.others.items()])

    def _choice(self, number: int) -> Optional[Candidate]:
        """Returns the best answer to a level that isn't known to be refused, or one that stays."""
        several = [*self._of[number].values()]
        if len(several) > 1:
            for order, it in enumerate(several):
                self._rank(it, order)
            several = sorted(several, key=lambda it: it.rank)
        return next((it for it in several if not it.fault),
                    next((it for it in several if it.stays), None))

    def _other(self, chosen: Candidate) -> Optional[Candidate]:
        """Returns the best solution by pushes of a level, if it has fewer than the chosen one."""
        several = [it for it in self._of[chosen.number].values() if it.counts and not it.fault]
        if self.best != BOTH or not several or chosen not in several:
            return None
        best = min(several, key=lambda it: (it.counts, it.rank))
        return best if best.counts[0] < chosen.counts[0] else None

    # ---- once the answers were chosen

    def written(self) -> List[Answer]:
        """Returns the chosen answers."""
        return [it.answer for it in [*self.chosen.values(), *self.others.values()]]

    def computed(self) -> List[str]:
        """Returns the digests of the chosen records that were computed."""
        return [texts.digest(it.answer.record(it.number))
                for it in [*self.chosen.values(), *self.others.values()] if it.is_computed]

    def left_out(self) -> List[str]:
        """Returns each record of other files that no level accepts, with the reason."""
        found = []
        for it in sorted(self._given.get(FILE, ()), key=lambda it: (it.file, it.record.line)):
            if all(target.fault for target in it.targets):
                first = min(it.targets, key=lambda one: one.number != it.record.level, default=None)
                why = (f"refused for level {first.number}: {first.fault}" if first
                       else "no level has the board of this record")
                found.append(f"{texts.shown(it.file)} line {it.record.line}: {why}")
        return found

    def left(self, stored: shelf.Kept) -> List[shelf.Entry]:
        """Returns what was stored before and has no place yet, and the own records that have none
        any more."""
        homeless = iter(self._given.get(STORED, ()))
        titles = {level.title.encode() for level in self.now.levels}
        entries = []
        for entry in stored.entries:
            given = next(homeless) if entry.record else None
            if not given or not self._has_place(given.targets):
                entries.append(entry)
            elif entry.stays(titles):
                entries.append(entry._replace(record=None))
        known = {(it.record.answer, it.block.rows) for it in entries if it.record}
        exported = texts.grouped((it.record.level, it.record.answer)
                                 for it in self._given.get(EXPORTED, ()))
        for record, level, targets in ((it.record, it.level, it.targets)
                                       for it in self._given.get(OWN, ()) if it.level):
            block = Block((), tuple(level.rows), ())
            key = record.answer, block.rows
            if not (self._has_place(targets) or self._is_spare(level, targets, exported)
                    or key in known):
                known.add(key)
                head = shelf.head_of(level.number, level.title)
                # The comments before it stay in NAME.answers.
                entries.append(shelf.Entry(head, block, record._replace(apart=[])))
        return entries

    def _has_place(self, targets: Sequence[Candidate]) -> bool:
        """Returns whether an answer was chosen that a record has, with its comments."""
        return any(one.answer.covers(it.answer) for it in targets
                   for one in [self.chosen.get(it.number), self.others.get(it.number)] if one)

    def _is_spare(self, level: Level, targets: Sequence[Candidate],
                  exported: Mapping[int, Sequence[Answer]]) -> bool:
        """Returns whether a record was computed for a level that is still there, or is in the
        exports, by the numbers of levels."""
        key = form_of(level).key
        return any(it.is_computed and self.now.forms[it.number - 1].key == key
                   or any(one.covers(it.answer) for one in exported.get(it.number, ()))
                   for it in targets)


def _keys(forms: Sequence[Form]) -> List[Key]:
    return [form.key for form in forms]


def in_case(record: Record, states: Sequence[changes.Snapshot]) -> Optional[Record]:
    """Returns a solution with each letter in its case, or None if it solves no level of its number.
    One that solves a level as it is stays, and so does a certificate."""
    if record.kind != "solution":
        return record
    found = [state.levels[record.level - 1] for state in states
             if record.level <= len(state.levels)]
    boards = [board for board in map(board_of, found) if board.player is not None]
    for any_case in (False, True):
        for board in boards:
            replay = board.replay(record.letters, any_case)
            if not replay.fault:
                return record._replace(answer=record.answer.cased(replay.letters))
    return None


def elsewhere(record: Record, now: changes.Snapshot) -> Optional[Record]:
    """Returns a solution with the number of the first level that it solves, or None. Where two
    branches were merged, each had numbers of its own."""
    numbered = (in_case(record._replace(level=level.number), [now]) for level in now.levels)
    return next((it for it in numbered if it), None)
