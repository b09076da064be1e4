"""A collection while it is built: the text of its levels, their solutions, and messages."""
from typing import Callable, Dict, List, NamedTuple, Optional, Sequence, Tuple, Union

from . import answers, levels, texts
from .board import Board, Replay, board_of
from .formats import coding
from .origins import Place

MOST_NAMED = 5
# the letters that are played, in files of answers
MOST_PLAYED = 3
MOVES, PUSHES, BOTH = "moves", "pushes", "both"
# takes a place, why it is reported, and whether something is left out or wrong
Report = Callable[[Place, str, bool], None]


class Attempt(NamedTuple):
    """Letters played on a level, each in its case, with counts. `why` is None if they solve it;
    `plays` is false if a letter is no legal step. `solved` has pairs of numbers of moves: from the
    first to the second, all boxes are on goals."""

    why: Optional[str]
    plays: bool = False
    letters: bytes = b""
    moves: int = 0
    pushes: int = 0
    solved: Sequence[Tuple[int, int]] = ()


class Try(NamedTuple):
    """An attempt, where its letters are, and comments on it; whether it counts only if there is no
    other, since it is of a saved game or in a name; and the index of its line."""

    file: str
    line: int
    attempt: Attempt
    notes: List[str]
    is_spare: bool = False
    at: int = 0

    def record(self, level: int) -> bytes:
        """Returns the letters as the record of a level, after the comments."""
        notes = "".join(f"; {texts.shown(note).strip(' ;')}\n" for note in self.notes)
        return notes.encode("utf-8", "replace") + answers.solution(level, self.attempt.letters)


class Collection:
    """Collects levels, text and solutions. `faults` counts what was reported as left out or wrong.
    Of these, `unsolved` counts the solutions that are kept although they leave boxes off the goals,
    and `torn` the levels that seem to lack rows. `kept` has the answers by the places of their
    levels among all, from 0, and `others` the solutions with fewer pushes, if both of the best are
    kept. With `split`, a collection that is too large becomes several, each with its text: `count`
    has the levels of the last one, and `total` all levels. If it doesn't, `advice` follows."""

    def __init__(self, best: str = "", split: bool = False, encoding: str = "",
                 report: Report = lambda *_: None,
                 advice: str = "; --split writes several collections") -> None:
        self.best, self.split, self.encoding, self.advice = best, split, encoding, advice
        self._report = report
        self._said: List[Tuple[Place, str, bool]] = []
        self.texts, self._firsts = [bytearray()], [0]
        self.kept: Dict[int, Union[Try, answers.Answer]] = {}
        self.others: Dict[int, Try] = {}
        self.count = self.total = 0
        self.faults = self.unsolved = self.torn = 0
        # the names of files as they are published, and of those that have nothing to read, by the
        # game that they are for
        self.names: Dict[str, str] = {}
        self.idle: Dict[str, List[str]] = {}
        # where each level is
        self.origins: List[Place] = []
        # the letters of solutions in all, those of the last collection, and those that were played
        self._letters = self._written = self._played = 0
        self._after_row = False

    # ---- messages

    def fault(self, line: int, why: str, file: str) -> None:
        """Reports what is left out or wrong, and where."""
        self._said.append((self._place(line, file), why, True))
        self.faults += 1

    def note(self, line: int, why: str, file: str) -> None:
        """Reports what was read with a change."""
        self._said.append((self._place(line, file), why, False))

    def report(self) -> None:
        """Hands on what is reported, in the order of the files and their lines."""
        order = {file: at for at, file in enumerate(self.names)}
        for said in sorted(self._said, key=lambda it: (order.get(it[0].file, -1), it[0].line)):
            self._report(*said)
        self._said = []
        for other, names in sorted(self.idle.items()):
            named = ", ".join(map(texts.shown, sorted(names)[:MOST_NAMED]))
            more = ", .." if len(names) > MOST_NAMED else ""
            has, is_ = ("has", "is") if len(names) == 1 else ("have", "are")
            why = f"of {other} {is_} not read" if other else f"{has} no level"
            self._report(self._place(0, ""), f"{texts.count(len(names), 'file')} {why}: "
                         f"{named}{more}", False)

    def _place(self, line: int, file: str) -> Place:
        return Place(file, self.names.get(file, file), line)

    def source(self, file: str) -> str:
        """Returns the comment that names a file. With its key it is no title."""
        return levels.FILE + texts.shown(self._place(0, file).published)

    def summary(self) -> str:
        """Returns how much was read and left out."""
        unsolved = f", {self.unsolved} unsolved" if self.unsolved else ""
        files = f" in {len(self.texts)} collections" if len(self.texts) > 1 else ""
        solutions = sum(isinstance(it, Try) for it in self.kept.values())
        return (f"{texts.count(self.total, 'level')}{files}, {texts.count(solutions, 'solution')}, "
                f"{self.faults - self.unsolved - self.torn} left out{unsolved}")

    # ---- levels and text

    def add_comment(self, lines: Sequence[str]) -> None:
        """Adds rows that aren't a level, as comments."""
        self.add("; " + "\n; ".join(lines))

    def add_level(self, rows: Sequence[str], line: int, file: str, title: str = "",
                  letters: int = 0) -> None:
        """Adds a level, after an empty line if the line before is a row. `letters` is the length of
        its solution."""
        drawn = "\n".join(rows)
        if self.split and self._is_full(len(drawn)):
            self._begin_next(file)
        if self.count == levels.MOST_LEVELS:
            raise texts.Stop(f"{texts.shown(file)} line {line}: more than "
                             f"{levels.MOST_LEVELS} levels{self.advice}")
        if self._after_row:
            self.add("")
        self.add(drawn)
        self.count += 1
        self.total += 1
        self._after_row = True
        self._written += letters
        kept = [row.encode() for row in rows[:levels.LARGEST_SIDE + 1]]
        self.origins.append(self._place(line, file))
        if doubt := board_of(levels.Level(self.count, kept, line)).doubt:
            self.fault(line, f"level {self.count} {doubt}", file)
            self.torn += 1
        if title:
            self.add("Title: " + title)

    def _is_full(self, length: int) -> bool:
        """Returns whether a level of this length, with a long solution, may be too much for one
        file."""
        most = texts.MOST_BYTES // 4 * 3
        return (self.count == levels.MOST_LEVELS or self._written > most
                or self.count > 0 and len(self.texts[-1]) + length > most)

    def _begin_next(self, file: str) -> None:
        self.texts.append(bytearray())
        self._firsts.append(self.total)
        self.count = self._written = 0
        self.add(self.source(file))

    def add(self, text: str) -> None:
        """Adds lines as they are."""
        data = text.encode("utf-8", "replace")
        if len(self.texts[-1]) + len(data) >= texts.MOST_BYTES:
            raise texts.Stop(f"the levels are longer than {texts.MOST_BYTES} bytes{self.advice}")
        self.texts[-1] += data + b"\n"
        self._after_row = False

    # ---- solutions

    def attempt(self, letters: str, board: Board) -> Attempt:
        """Plays letters, run-length coded or not, on a board."""
        if board.player is None:
            return Attempt("cannot be played: " + (
                "the level is too large" if board.fault == "size" else "not exactly one player"))
        most = texts.MOST_BYTES - (0 if self.split else self._letters)
        try:
            text = coding.expand(letters, most)
        except coding.Wrong as wrong:
            return Attempt(str(wrong))
        if len(text) > most or not self.may_play(len(text)):
            return Attempt("is longer than an answers file may be, with those before it")
        replay = board.replay(text.encode("ascii", "replace"), any_case=True)
        self._played += replay.moves
        return Attempt(_why(replay, text), not (replay.fault or "").startswith("move"),
                       replay.letters, replay.moves, replay.pushes, replay.solved)

    def may_play(self, length: int) -> bool:
        """Returns whether so many letters may be played, after all that were."""
        return self._played + length <= MOST_PLAYED * texts.MOST_BYTES

    def count_letters(self, attempt: Attempt) -> None:
        """Counts the letters of a solution that may be written."""
        self._letters += len(attempt.letters)

    def choose(self, number: int, solving: Sequence[Try]) -> Tuple[Try, Optional[Try]]:
        """Returns the best solution of a level. If both of the best are kept, that is the one by
        moves, and the other one by pushes is returned too if it has fewer. Where nobody chose which
        is the best, a note says what the others have."""
        by_moves = min(solving, key=lambda it: (it.attempt.moves, it.attempt.pushes))
        by_pushes = min(solving, key=lambda it: (it.attempt.pushes, it.attempt.moves))
        kept = by_pushes if self.best == PUSHES else by_moves
        is_other = self.best == BOTH and by_pushes.attempt.pushes < kept.attempt.pushes
        seen = {kept.attempt.letters}
        for it in solving if not self.best else ():
            if it.attempt.letters not in seen:
                seen.add(it.attempt.letters)
                self.note(it.line, f"another solution of level {number}, {_size(it.attempt)}, is "
                          f"left out: the best has {_size(kept.attempt)}", it.file)
        return kept, by_pushes if is_other else None

    # ---- the files

    def parts(self) -> List[Tuple[bytes, bytes]]:
        """Returns the levels and the answers of each collection."""
        kept = sorted(self.kept.items())
        return [(bytes(text), answers.text([it.record(at - first + 1) for at, it in kept
                                            if first <= at < end]))
                for text, first, end in zip(self.texts, self._firsts,
                                            [*self._firsts[1:], self.total])]

    def other_answers(self) -> bytes:
        """Returns the answers file of `others`."""
        return answers.text([it.record(at + 1) for at, it in sorted(self.others.items())])

    def files(self, name: str) -> List[Tuple[str, bytes]]:
        """Returns the names and bytes of the two files of each collection, with NAME-1.* and so on
        if there may be several."""
        found = []
        for number, (text, written) in enumerate(self.parts(), 1):
            if len(written) > texts.MOST_BYTES:
                raise texts.Stop(f"the answers are longer than {texts.MOST_BYTES} bytes")
            stem = f"{name}-{number}" if self.split else name
            found += [(stem + ".xsb", text), (stem + ".answers", written)]
        return found


def _why(replay: Replay, text: str) -> Optional[str]:
    """Returns why letters don't solve a level, in words, or None."""
    if replay.fault is None:
        return None
    first, *rest = replay.fault.split()
    if first == "move":
        return f"cannot be played: move {rest[0]} ({text[int(rest[0]) - 1].lower()}) {rest[1]}"
    return f"leaves {texts.count(int(rest[0]), 'box')} off the goals"


def _size(attempt: Attempt) -> str:
    return (f"{texts.count(attempt.moves, 'move')} and "
            f"{texts.count(attempt.pushes, 'push')}")
