"""Which of several answers is picked, what is said of the others, and how the files of a collection
become."""
import json
import os
import signal
import unittest.mock
from typing import Any, Dict, List, Sequence

from sokotool import (answers, carrying, changes, forms, memory, own_files, report, shelf, system,
                      texts)
from sokotool.level_texts import Block
from sokotool.builder import BOTH, MOVES, PUSHES
from sokotool.board import board_of
from sokotool.candidates import COMPUTED, EXPORTED, FILE, OWN, STORED, Pool, in_case
from sokotool.levels import Level
from sokotool.progress import Progress
from tests.tools.helping import Case, not_on_windows

# Two steps to the right push the box to the far goal, and walks around it to the near one.
ROWS = [b"########", b"#      #", b"#@.$ . #", b"#      #", b"########"]
SHORT, AROUND, LONGER = b"rRR", b"urrrdL", b"udurrrdL"
SOLVED = report.read(b"level 1 solved moves 3 pushes 2 changes 1\n")


STATE = changes.Snapshot([Level(1, ROWS, 1)], forms.forms_of([Level(1, ROWS, 1)]))


def record(letters: bytes, above: bytes = b"") -> bytes:
    """A record of level 1."""
    return b"%slevel 1\nsolution\n%s\nend\n" % (above, letters)


def read(*records: bytes) -> answers.Answers:
    """An answers file of these records."""
    return answers.read(answers.text(records), rising=False)


def stored(pool: Pool, entries: Sequence[shelf.Entry]) -> None:
    """Adds what was kept without a place."""
    kept = shelf.Kept([*entries], [])
    pool.add(kept.records(), [kept.collection()], STORED)


class Picked(Case):
    def picked(self, best: str, *letters: bytes) -> Pool:
        """A pool with these solutions."""
        found = Pool(STATE, best)
        for it in letters:
            found.add(read(record(it)).records, [STATE], COMPUTED)
        return found

    def test_ties(self) -> None:
        """Of as many pushes the fewest moves are better, in any order."""
        for given in ((LONGER, AROUND, SHORT), (SHORT, AROUND, LONGER)):
            for best, wanted in ((PUSHES, AROUND), (MOVES, SHORT), (BOTH, SHORT)):
                found = self.picked(best, *given)
                found.audited(lambda _: SOLVED, lambda text: text)
                self.assertEqual(found.chosen[1].answer.letters, wanted)
                self.assertEqual([it.answer.letters for it in found.others.values()],
                                 [AROUND] * (best == BOTH))

    def test_reason_of_a_refusal(self) -> None:
        """It names no line of a text that nobody sees."""
        found = Pool(STATE, MOVES)
        found.add(read(b"level 1\nunsolvable\npattern 3,3 @ *\nend\n").records, [STATE], FILE,
                  "a.answers")
        found.audited(lambda text: report.read(
            b"level 1 refused line 4 push 3,3 r\n" if b"pattern" in text else b"level 1 missing\n"),
                      lambda text: text)
        self.assertEqual(found.left_out(),
                         ["a.answers line 2: refused for level 1: push 3,3 r"])

    def test_comments(self) -> None:
        """A record stands for another one if it has its answer and its comments."""
        plain, noted = record(SHORT), record(SHORT, b"; mine\n")
        for chosen, other, wanted in ((noted, plain, True), (plain, noted, False),
                                      (noted, record(AROUND), False)):
            one, two = map(answers.answer_of, (chosen, other))
            self.assertEqual(one.covers(two), wanted)


class Placed(Case):
    """What becomes of the records of the last check."""

    def state(self, *rows: List[bytes]) -> changes.Snapshot:
        found = [Level(number, it, 1) for number, it in enumerate(rows, 1)]
        return changes.Snapshot(found, forms.forms_of(found))

    def chosen(self, found: Pool, refused: bytes = b"") -> Dict[int, bytes]:
        """Chooses by a report, and returns the letters by the numbers of the levels."""
        found.audited(lambda _: report.read(refused), lambda text: text)
        return {number: it.answer.letters for number, it in found.chosen.items()}

    def test_twins_have_one_answer(self) -> None:
        """Each in the direction of its own board, whatever their order is."""
        mirrored = [row[::-1] for row in ROWS]
        found = Pool(self.state(mirrored, ROWS), MOVES)
        found.add(read(record(SHORT)).records, [STATE], OWN)
        self.assertEqual(self.chosen(found), {1: b"lLL", 2: SHORT})
        self.assertEqual(found.left(shelf.Kept([], [])), [])

    def test_what_has_no_place_is_kept(self) -> None:
        """But not what was computed, what the exports have, or what was stored already."""
        for letters, is_left in ((AROUND, True), (SHORT, False)):
            for is_computed in (False, True):
                own = read(record(letters, b"; mine\n"))
                found = Pool(STATE, MOVES)
                for it in found.add(own.records, [STATE], OWN)[0].targets:
                    it.is_computed = is_computed
                found.add(read(record(SHORT, b"; mine\n")).records, [STATE], EXPORTED)
                self.chosen(found)
                left = found.left(shelf.Kept([], []))
                self.assertEqual(bool(left), is_left and not is_computed)
                stored(found, left)
                self.assertEqual(found.left(shelf.Kept(left, [])), left)
        gone = Pool(self.state([b"#####", b"#@$.#", b"#####"]), MOVES)
        gone.add(read(record(SHORT)).records, [STATE], OWN)
        self.assertEqual(self.chosen(gone, b"level 1 refused move 1 case\n"), {})
        self.assertEqual([(it.head, it.block.rows) for it in gone.left(shelf.Kept([], []))],
                         [(b"; kept from level 1", tuple(ROWS))])

    def test_stored_answers_come_back(self) -> None:
        own = read(record(SHORT, b"; mine\n")).records[0]
        entry = shelf.Entry(b"; kept", Block((), tuple(ROWS), ()), own)
        typed = entry._replace(block=entry.block._replace(above=(b"; typed",)))
        found = Pool(STATE, MOVES)
        stored(found, [entry, typed])
        self.assertEqual(self.chosen(found), {1: SHORT})
        self.assertEqual(found.left(shelf.Kept([entry, typed], [])), [typed._replace(record=None)])

    def test_a_stored_answer_is_for_its_board_alone(self) -> None:
        """Another level in its place may have the same solution."""
        entry = shelf.Entry(b"; kept", Block((), tuple(ROWS), ()), read(record(SHORT)).records[0])
        found = Pool(self.state(ROWS[:3] + ROWS[4:]), MOVES)
        found.add(read(record(SHORT)).records, [STATE], EXPORTED)
        stored(found, [entry])
        self.assertEqual(self.chosen(found), {1: SHORT})
        self.assertEqual(found.left(shelf.Kept([entry], [])), [entry])

    def test_a_certificate_is_kept_if_its_level_becomes_an_illegal_one(self) -> None:
        own = read(b"level 1\nunsolvable\npattern 3,3 @ *\nend\n")
        found = Pool(self.state([b"###", b"#.#", b"#$#", b"###"]), MOVES)
        found.add(own.records, [STATE], OWN)
        self.assertEqual(self.chosen(found, b"level 1 refused board player\n"), {})
        self.assertEqual([it.record for it in found.left(shelf.Kept([], []))], own.records)

    def test_what_a_kept_answer_says_more_than_a_title_stays(self) -> None:
        """The title of no level any more, or a note."""
        own = read(record(SHORT)).records[0]
        level = Level(1, ROWS, 1, "Old, too")
        now = changes.Snapshot([level], forms.forms_of([level]))
        for head, stays in ((b"; kept from level 4, Old, too", False), (b"; kept", False),
                            (b"; kept from level 4", False), (b"", False),
                            (b"; kept from level 4, Other", True), (b"; kept for later", True),
                            (b"; kept from level 4, Old, too: a note", True)):
            entry = shelf.Entry(head, Block((), tuple(ROWS), ()), own)
            found = Pool(now, MOVES)
            stored(found, [entry])
            self.assertEqual(self.chosen(found), {1: SHORT})
            self.assertEqual(found.left(shelf.Kept([entry], [])),
                             [entry._replace(record=None)] * stays, head)

    def test_kept_files_are_read_as_they_were_written(self) -> None:
        own = answers.read(b"sokoban-answers 1\n; a\n\n; b\n" + record(SHORT) + b"; rest\n")
        first = Block((b"; above", b"", b"; kept for later"), tuple(ROWS), (b"Title: t",))
        entries = [shelf.Entry(b"; kept from level 3", first, own.records[0]),
                   shelf.Entry(b"; kept from level 4", first._replace(above=())),
                   shelf.Entry(b"; kept from level 5, Five", first),
                   shelf.Entry(b"; kept from level 6", first._replace(
                       above=(b"; kept from level 7", b"; above")))]
        text, records = shelf.Kept(entries, own.rest).files()
        assert text is not None and records is not None
        again = shelf.read(text, answers.read(records))
        self.assertEqual(again.files(), (text, records))
        for one, other in zip(again.entries, entries):
            self.assertEqual(one[:2], other[:2])
            self.assertEqual(one.record and one.record.answer,
                             other.record and other.record.answer)

    def test_letters_that_solve_a_level_stay(self) -> None:
        """Also if in another case they solve the one that had its number before, or has it now."""
        one, two = self.state([b"######", b"#@ $.#", b"######"]), self.state(
            [b"######", b"#@$ .#", b"######"])
        for letters, wanted in ((b"rR", b"rR"), (b"RR", b"RR"), (b"rr", None), (b"Rr", None)):
            given = read(record(letters)).records[0]
            for states, other in (((one, two), b"rR"), ((two, one), b"RR")):
                cased = in_case(given, states)
                self.assertEqual(cased and cased.letters, wanted or other)
        self.assertIsNone(in_case(read(record(b"rl")).records[0], (one, two)))

    def test_there_and_back(self) -> None:
        """An answer that was turned for another board and back is what it was."""
        across = [bytes(column) for column in zip(*(row.ljust(8) for row in ROWS))]
        for rows in (across, [row[::-1] for row in across], ROWS[::-1], [b"", *ROWS]):
            one, two = (forms.form_of(Level(1, it, 1)) for it in (ROWS, rows))
            for body in (b"solution\n; why\n" + AROUND,
                         b"unsolvable\npattern 3,3 4,3 @ 2,3\npattern 5,2 @ *",
                         b"unsolvable\nzone 2,2 3,2"):
                answer = answers.answer_of(b"; a\nlevel 1\n" + body + b"\n\nend\n")
                there = carrying.turned(answer, one, two)
                self.assertEqual(carrying.turned(there, two, one), answer)
                if answer.kind == "solution":
                    self.assertIsNone(board_of(two.level).replay(there.letters).fault)


class Read(Case):
    def test_lines_above_a_record(self) -> None:
        """Those right above it are its own, and what an empty line separates from it is apart."""
        both = answers.read(b"sokoban-answers 1\n; a\n\n; b\n\n; c\n" + record(SHORT))
        (found,) = both.records
        self.assertEqual((found.apart, found.answer.above),
                         ([b"; a", b"", b"; b", b""], (b"; c",)))

    def test_versions(self) -> None:
        for lines, version in ((b"pattern 3,3 @ *", 1), (b"zone 3,3", 2)):
            text = answers.text([b"level 1\nunsolvable\n%s\nend\n" % lines])
            self.assertEqual(text.splitlines()[0], b"sokoban-answers %d" % version)

    def test_damaged_memory(self) -> None:
        empty = {"levels": [], "ordered": True, "searched": {}, "computed": []}
        memory.read(json.dumps(empty).encode(), "mine.memory")
        finds = (["", "level x"], [["###"], ""], [[], "level 1\nsolution\nl\nend\n"])
        damaged: List[Dict[str, Any]] = [{"searched": []}, *({"found": [it]} for it in finds)]
        for data in (b"{", b"{}", b"[]", b"5", b'{"levels": 5}',
                     *(json.dumps({**empty, **it}).encode() for it in damaged)):
            with self.assertRaisesRegex(texts.Stop, "mine.memory is damaged"):
                memory.read(data, "mine.memory")


class Own(Case):
    def test_backups_are_of_the_last_run(self) -> None:
        """They are the files before this run, however often it writes."""
        self.write("mine.xsb", "before")
        files = own_files.Files("mine", False)
        for text in (b"first", b"second"):
            files.write({own_files.XSB: text})
        self.assertEqual((self.read("mine.xsb"), self.read("mine.xsb~")), (b"second", b"before"))

    def test_no_backups_where_there_are_some(self) -> None:
        self.write("mine.xsb", "before")
        own_files.Files("mine", True).write({own_files.XSB: b"after"})
        self.assertFalse(os.path.exists("mine.xsb~"))

    @not_on_windows
    def test_an_interrupt_leaves_no_lock(self) -> None:
        """It comes as the file is locked, or as it is removed."""
        def interrupted(module: object, name: str) -> Any:
            def called(*words: Any) -> Any:
                os.kill(os.getpid(), signal.SIGINT)
                return real(*words)
            real = getattr(module, name)
            return unittest.mock.patch.object(module, name, called)

        for patched in interrupted(system, "lock"), interrupted(os, "unlink"):
            with patched, self.assertRaises(KeyboardInterrupt), own_files.alone(
                    "mine", Progress("check")):
                pass
            self.assertEqual(os.listdir(), [])

    @not_on_windows
    def test_lock_of_a_file_that_is_gone(self) -> None:
        """Whoever had the lock may have removed the file before it was locked here."""
        def lock(number: int) -> bool:
            if not seen:
                os.unlink(".sokotool-mine.lock")
                self.write(".sokotool-mine.lock", "")
            seen.append(number)
            return real(number)

        seen: List[int] = []
        real = system.lock
        with unittest.mock.patch.object(system, "lock", lock), \
                own_files.alone("mine", Progress("check")):
            self.assertEqual(len(seen), 2)
