"""The command check beside others: what is typed while it runs, other runs, older files, slips."""
import contextlib
import itertools
import os
import subprocess
import threading
import unittest.mock
from typing import Any, Callable, Dict, List, Optional

from sokotool import auditor, forms, levels, own_files, system
from tests.tools.ending import Meanwhile
from tests.tools.helping import TOP, needs_program
from tests.tools.checking import CORNER, LONG, LOST, Check


class Beside(Check):
    """What is typed while a check runs, and other checks beside it."""

    def typed(self, name: str, text: str) -> Callable[[], None]:
        """Returns a function that types a text at the end of a file."""
        return lambda: self.write(name, self.read(name) + text.encode())

    def test_typed_during_the_search(self) -> None:
        """A comment and a solution that were typed then, and what the search found."""
        self.write("a.txt", CORNER + "\n" + LONG.replace("Solution", "No solution"))
        record = "; by me\nlevel 1\nsolution\nRurD\nend\n; a note\n"
        with Meanwhile("search", 1, self.typed("mine.answers", record)):
            result = self.tool("check", "mine", "a.txt", "--best", "pushes")
        self.assertEqual(result.err.splitlines()[-1], "check: mine.answers was changed by somebody "
                         "else: reading again")
        self.assertEqual(self.report()[-1], "total 2 solved 2 unsolvable 0 refused 0 missing 0")
        self.assertIn(record[:-9].encode(), self.read("mine.answers"))
        self.assertIn(b"\n; a note\n", self.read("mine.answers"))
        again = self.tool("check", "mine", "a.txt", "--best", "pushes")
        self.assertEqual((again.status, again.err), (0, ""))

    def test_typed_while_it_reads_and_audits(self) -> None:
        self.write("a.txt", CORNER)
        self.check("mine", "a.txt")
        for moment, most in (("audit", 2), ("progress", 3), ("write", 3)):
            for calls in range(1, most + 1):
                self.write("a.txt", self.read("a.txt") + b"\n" + LONG.replace(
                    "@ ", "@" + " " * (calls + 3 * (moment == "audit") + 6 * (
                        moment == "write"))).encode())
                with Meanwhile(moment, calls, self.typed("mine.xsb", f"{moment} {calls}\n")):
                    result = self.check("mine", "a.txt")
                self.assertIn("edited by hand: level", result.out.decode())
                self.assertIn(f"{moment} {calls}\n".encode(), self.read("mine.xsb"))

    def test_saved_right_before_any_move_of_a_file(self) -> None:
        """Whatever is renamed, linked or removed next: what an editor saves is there afterwards."""
        self.write("a.txt", CORNER)
        self.check("mine", "a.txt")
        self.write("a.txt", LONG)
        files = {name: self.read(name) for name in os.listdir()}
        saved = files["mine.xsb"] + b"typed now\n"
        for moment in itertools.count(1):
            for name in os.listdir():
                os.remove(name)
            for name, data in files.items():
                self.write(name, data)
            calls = 0

            def saving(real: Callable[..., None]) -> Callable[..., None]:
                def call(*words: Any, **named: Any) -> None:
                    nonlocal calls
                    calls += 1
                    if calls == moment:
                        self.write("mine.xsb", saved)
                    real(*words, **named)
                return call
            with contextlib.ExitStack() as patches:
                for name in {"replace", "link", "rename", "unlink"} & {*dir(os)}:
                    patches.enter_context(unittest.mock.patch.object(
                        os, name, saving(getattr(os, name))))
                self.check("mine", "a.txt")
            if calls < moment:
                break
            self.assertTrue(any(b"typed now\n" in self.read(name) for name in os.listdir()
                                if name in ("mine.xsb", "mine.kept.xsb")), f"moment {moment}")
        self.assertGreater(moment, 10)

    def test_file_that_changes_again_and_again(self) -> None:
        """After three rounds the run ends, and all files are whole."""
        self.write("a.txt", CORNER)
        self.check("mine", "a.txt")
        self.write("a.txt", LONG)
        files = {name: self.read(name) for name in os.listdir()}
        with unittest.mock.patch.object(auditor.Auditor, "printed", autospec=True,
                                        side_effect=self.type_and_audit(auditor.Auditor.printed)):
            result = self.check("mine", "a.txt")
        said = "mine.xsb was changed by somebody else"
        self.assertEqual((result.status, result.err.splitlines()),
                         (2, [f"check: {said}: reading again"] * 3
                          + [f"check: {said}, again and again: close it there, and run check "
                             "again. The files are as they were"]))
        now = {name: self.read(name) for name in os.listdir()}
        self.assertEqual(now.pop("mine.xsb").replace(b"typed\n", b""), files.pop("mine.xsb"))
        self.assertEqual(now, files)

    def test_file_that_changes_again_and_again_has_no_find_lost(self) -> None:
        """What the search found is in NAME.memory, and the next run has it without a search."""
        self.write("a.txt", CORNER + "\n" + LONG.replace("Solution", "No solution"))
        self.check("mine", "a.txt")
        write, began = own_files.Files.write, threading.Event()

        def typing(files: own_files.Files, written: Dict[str, Optional[bytes]]) -> None:
            if began.is_set():
                self.typed("mine.xsb", "typed\n")()
            write(files, written)
        with unittest.mock.patch.object(own_files.Files, "write", typing), Meanwhile(
                "search", 1, began.set):
            result = self.tool("check", "mine", "a.txt")
        self.assertEqual(result.status, 2)
        self.assertEqual(result.err.splitlines()[-1], "check: mine.xsb was changed by somebody "
                         "else, again and again: close it there, and run check again. The files "
                         "are as they were, and the next run has what was found")
        self.write("a.txt", CORNER)  # nor with a run in between that has no place for it
        self.check("mine", "a.txt")
        self.write("a.txt", CORNER + "\n" + LONG.replace("Solution", "No solution"))
        self.check("mine", "a.txt")
        self.assertEqual(self.report()[-1], "total 2 solved 2 unsolvable 0 refused 0 missing 0")
        self.assertNotIn(b'"found"', self.read("mine.memory"))

    def test_an_empty_file_takes_nothing_away(self) -> None:
        """An editor that saves empties the file first: what was typed comes a moment later."""
        self.write("a.txt", CORNER)
        self.check("mine", "a.txt")
        self.write("mine.xsb", self.read("mine.xsb") + b"; typed\n")
        self.check("mine", "a.txt")
        self.write("mine.xsb", b"")
        files = {name: self.read(name) for name in os.listdir()}
        result = self.check("mine", "a.txt")
        self.assertEqual(result.status, 2)
        self.assertTrue(result.err.startswith("check: mine.answers is there, but not its levels"))
        self.assertEqual({name: self.read(name) for name in os.listdir()}, files)

    def test_a_file_that_lost_its_levels_has_a_backup(self) -> None:
        """That is named: who moves the file away loses what was typed."""
        self.write("a.txt", CORNER)
        self.check("mine", "a.txt")
        for text, said in ((b"", "mine.answers is there, but not its levels in mine.xsb: "),
                           (b"nothing\n", "mine.xsb has no levels: ")):
            for backup in (b"a backup\n", None):
                self.write("mine.xsb", text)
                if os.path.exists("mine.xsb~"):
                    os.remove("mine.xsb~")
                if backup:
                    self.write("mine.xsb~", backup)
                result = self.check("mine", "a.txt")
                back = "put these back from mine.xsb~, or " if backup else ""
                self.assertIn(f"check: {said}{back}", result.err)

    @needs_program
    def test_slip_during_the_search_has_no_find_lost(self) -> None:
        """What the search found is kept, although the answers can't be read any more."""
        self.write("a.txt", CORNER + "\n" + LONG.replace("Solution", "No solution"))
        self.check("mine", "a.txt")
        with Meanwhile("search", 1, self.typed("mine.answers", "level 2\nsolution\n")):
            result = self.tool("check", "mine", "a.txt")
        self.assertEqual((result.status, result.err.splitlines()[-1]), (
            2, "check: mine.answers line 8: the last record lacks its last line, 'end', and the "
            "next run has what was found"))
        self.write("mine.answers", "sokoban-answers 1\n")
        self.check("mine", "a.txt")
        self.assertEqual(self.report()[-1], "total 2 solved 2 unsolvable 0 refused 0 missing 0")

    def type_and_audit(self, audit: Callable[..., bytes]) -> Callable[..., bytes]:
        """Returns an audit that types first."""
        def typing(*words: str) -> bytes:
            self.typed("mine.xsb", "typed\n")()
            return audit(*words)
        return typing

    def test_checks_at_once(self) -> None:
        """They wait for each other, and nothing is lost."""
        for number in range(6):
            row = "#@" + " " * number + "$  .#"
            walls = "#" * len(row)
            self.write(f"{number}.txt",
                       f"{walls}\n{row}\n{walls}\nSolution: {'r' * number}RRR\n")
        self.check("mine", ".")
        self.typed("mine.xsb", "typed\n")()
        runs = [subprocess.Popen([f"{TOP}/sokotool", "check", "mine", ".", "--best", best],
                                 stdout=subprocess.PIPE, stderr=subprocess.PIPE)
                for best in ("moves", "pushes") * 4]
        for run in runs:
            out, err = run.communicate()
            said = err.replace(b"check: another check of mine is running: waiting for its end\n",
                               b"")
            self.assertEqual((run.returncode, said), (0, b""), out)
        self.assertIn(b"typed\n", self.read("mine.xsb"))
        self.assertEqual(self.report()[-1], "total 6 solved 6 unsolvable 0 refused 0 missing 0")
        self.assertFalse([name for name in os.listdir() if name.startswith(".sokotool")])

    def test_check_that_is_killed_bars_no_other(self) -> None:
        self.write("a.txt", CORNER)
        self.write(".sokotool-mine.lock", "")
        self.assertEqual(self.check("mine", "a.txt").err, "")
        self.assertFalse(os.path.exists(".sokotool-mine.lock"))


class Older(Check):
    """Files that are put back or lost."""

    def test_answer_that_was_found_and_lost(self) -> None:
        """It is searched again, and without a search the summary says so."""
        self.write("a.txt", CORNER)
        self.tool("check", "mine", "a.txt")
        found = self.read("mine.answers")
        for text in (None, b"sokoban-answers 1\n"):
            os.remove("mine.answers")
            if text is not None:
                self.write("mine.answers", text)
            self.assertIn("1 level was searched before, up to 0.1 s each: 1 an answer that is lost",
                          self.lines(self.check("mine", "a.txt")))
            self.assertIn("level 1: found a solution", self.tool("check", "mine", "a.txt").err)
            self.assertEqual(self.read("mine.answers"), found)

    def test_outcomes_are_in_the_summary(self) -> None:
        self.write("a.txt", CORNER + "\n" + LOST.replace("#$ .#", "# $.#"))
        self.check("mine", "a.txt")
        memory = self.read("mine.memory")
        found = forms.forms_of(levels.read(self.read("a.txt")))
        self.write("mine.memory", memory.replace(b'"searched": {}', (
            '"searched": {"%s": {"find": ["late", 20], "solver mine": ["nothing", 60]}, '
            '"%s": {"find": ["full", 10]}}' % tuple(form.digest for form in found)).encode()))
        self.assertEqual(self.lines(self.check("mine", "a.txt"))[3:5], [
            "2 levels were searched before, up to 20 s each: 1 stopped, 1 gave up with full tables",
            "1 level was searched before by the solver mine, up to 60 s each: 1 without an answer"])

    def test_older_memory(self) -> None:
        """It has fewer levels than the collection has now."""
        self.write("a.txt", CORNER)
        self.check("mine", "a.txt")
        memory = self.read("mine.memory")
        self.write("a.txt", CORNER + "\n" + LONG)
        self.check("mine", "a.txt")
        self.write("mine.memory", memory)
        result = self.check("mine", "a.txt")
        self.assertEqual((result.status, result.err), (1, ""))
        self.assertEqual(self.report()[-1], "total 2 solved 1 unsolvable 0 refused 0 missing 1")

    def test_slips_in_the_answers(self) -> None:
        """Each gets a sentence that says what to type, and no file is changed."""
        self.write("a.txt", CORNER + "\n" + LONG)
        self.check("mine", "a.txt")
        for body, why in (
                ("Level 2\nsolution\n", "line 2: 'Level 2' is neither a line 'level N' nor a "
                                        "comment, which begins with ';'"),
                ("level 7\nsolution\nend\n", "line 2: 'level 7': there is no such level, the "
                                             "highest is 2"),
                ("level 1\nRurD\nend\n", "line 3: 'RurD' is neither 'solution' nor 'unsolvable', "
                                         "one of which has to follow the line 'level N'"),
                ("level 1\nsolution\nRurD\nlevel 2\nsolution\nrRRR\nend\n",
                 "line 5: 'level 2': the record above it lacks its last line, 'end'"),
                ("level 1\nsolution\nRurD\n", "line 5: the last record lacks its last line, "
                                              "'end'")):
            self.write("mine.answers", "sokoban-answers 1\n" + body)
            files = {name: self.read(name) for name in os.listdir()}
            result = self.check("mine", "a.txt")
            self.assertEqual((result.status, result.err), (2, f"check: mine.answers {why}\n"))
            self.assertEqual(files, {name: self.read(name) for name in os.listdir()})

    def test_other_versions(self) -> None:
        """What a program that synchronizes folders leaves isn't read, and the summary says so."""
        self.write("a.txt", CORNER)
        others = ["mine (Anna's conflicted copy 2026-11-30).xsb", "mine.kept (2).xsb",
                  "mine.sync-conflict-20261130-101010-ABCDEFG.xsb", "mine (1).answers",
                  "mine.other.conflict-1.answers"]
        for name in (*others, "mine2.xsb", "mine.kept2.xsb", "mine.other.answers~",
                     "mine-conflict"):
            self.write(name, "")
        said = self.lines(self.check("mine", "a.txt"))
        self.assertEqual([line for line in said if line.startswith("not read")],
                         [f"not read: {name} seems to be another version: take over what it has, "
                          "and remove it" for name in others])

    def test_saved_over_a_file_that_was_just_written(self) -> None:
        """What that file was before stays beside it, and the summary names it until it is removed.
        """
        self.write("a.txt", CORNER)
        self.check("mine", "a.txt")
        former = self.read("mine.xsb")
        self.write("a.txt", LONG)
        saved: List[bytes] = []

        def renamed(made: str, path: str, real: Callable[..., None] = system.rename_new) -> None:
            real(made, path)
            if path.endswith("mine.xsb") and not saved:
                saved.append(self.read("mine.xsb") + b"typed\n")
                self.write("mine.xsb", saved[0])
        with unittest.mock.patch.object(system, "rename_new", renamed):
            result = self.check("mine", "a.txt")
        self.assertIn("mine.xsb was changed by somebody else: reading again", result.err)
        for said in self.lines(result), self.lines(self.check("mine", "a.txt")):
            self.assertIn("not read: mine.conflict-1.xsb seems to be another version: take over "
                          "what it has, and remove it", said)
        self.assertEqual(self.read("mine.conflict-1.xsb"), former)
        self.assertIn(b"typed\n", self.read("mine.xsb"))

    def test_copies_of_an_export(self) -> None:
        """A copy has one line in place of a line for each of its levels, whoever made it."""
        one = f"{CORNER}\n{LONG}\n{LOST}\n"
        names = ["one.txt", "one (1).txt", "one.sync-conflict-20261130-101010-ABCDEFG.txt",
                 "one.txt.bak", "#one.txt#"]
        os.mkdir("in")
        for name in names:
            self.write(f"in/{name}", one)
        with open("in/one.txt.orig", "a", encoding="utf-8") as file:
            file.write(one.replace(" ", "  ", 1))  # a level was edited there
        said = self.lines(self.check("mine", "in"))
        self.assertEqual([line for line in said if line.startswith("twins")], [
            f"twins: all 3 levels of in/{name} are in in/#one.txt# too" for name in (
                "one (1).txt", "one.sync-conflict-20261130-101010-ABCDEFG.txt", "one.txt",
                "one.txt.bak")]
            + ["twins: 2 of the 3 levels of in/one.txt.orig are in in/#one.txt# too"])

    def test_twins_in_other_exports(self) -> None:
        """Those of which two files have few in common, or of one file, have a line each."""
        many = "\n".join(LONG.replace("$", " " * at + "$").replace("####", "####" + "#" * at)
                         for at in range(1, 6))
        for names, wanted in (
                (("a", f"{CORNER}\n{many}", "b", f"{CORNER}\n{LOST}"),
                 ["level 7 is level 1, as it is"]),
                (("a", f"{CORNER}\n{CORNER}\n{CORNER}", "b", LOST),
                 ["level 2 is level 1, as it is", "level 3 is level 1, as it is"])):
            for name, text in zip(names[::2], names[1::2]):
                self.write(f"{name}.txt", text)
            said = self.lines(self.check("mine", "a.txt", "b.txt"))
            self.assertEqual([line[7:] for line in said if line.startswith("twins")], wanted)

    def test_levels_in_utf_16(self) -> None:
        """An editor may save so; what was typed stays, in UTF-8."""
        self.write("a.txt", "A\n" + CORNER)
        self.check("mine", "a.txt")
        typed = self.read("mine.xsb").decode().replace("\nA\n", "\nGr\u00f6\u00dfe\n")
        for codec in ("utf-16-le", "utf-16-be"):
            self.write("mine.xsb", ("\ufeff" + typed).encode(codec))
            self.assertIn(self.check("mine", "a.txt").status, (0, 1))
            self.assertEqual(self.read("mine.xsb").decode(), typed)

    def test_letters_in_the_wrong_case(self) -> None:
        """They are put right in the answers and in other files, with their lines and comments."""
        self.write("a.txt", CORNER)
        self.check("mine", "a.txt")
        self.write("mine.answers",
                   "sokoban-answers 1\nlevel 1\nsolution\n; by me\nru r\nd\nend\n")
        self.assertEqual(self.check("mine", "a.txt").status, 0)
        self.assertIn(b"level 1\nsolution\n; by me\nRu r\nD\nend\n", self.read("mine.answers"))
        self.assertFalse(os.path.exists("mine.kept.xsb"))
        self.write("own", "sokoban-answers 1\nlevel 1\nsolution\nRURD\nend\n")
        self.assertEqual(self.check("other", "a.txt", "--answers", "own").status, 0)

    def test_files_that_convert_wrote(self) -> None:
        """They count as typed: what the exports lack stays."""
        self.write("a.txt", "A\n" + CORNER + "\nB\n" + LONG)
        self.assertEqual(self.tool("convert", "mine", "a.txt").status, 0)
        self.write("mine.answers", self.read("mine.answers") + b"; a comment\n")
        self.write("b.txt", "A\n" + CORNER)
        self.check("mine", "b.txt")
        self.assertEqual(len(self.report()), 3)
        self.assertIn(b"; a comment\n", self.read("mine.answers"))

    def test_kept_files(self) -> None:
        """They never appear empty, and text that is typed there stays."""
        self.write("a.txt", CORNER)
        self.check("mine", "a.txt")
        self.write("mine.kept.answers", "sokoban-answers 1\n; a note\n")
        self.check("mine", "a.txt")
        self.assertFalse(os.path.exists("mine.kept.xsb"))
        self.write("mine.kept.xsb", "a text\n")
        self.check("mine", "a.txt")
        self.assertEqual(self.read("mine.kept.xsb"), b"a text\n")
        self.write("b.txt", LONG)
        self.check("mine", "a.txt", "b.txt")
        self.write("mine.answers",
                   self.read("mine.answers").replace(b"solution", b"; my\nsolution"))
        self.check("mine", "a.txt", "b.txt")
        self.check("mine", "a.txt")
        for _ in range(2):
            self.assertIn(b"a text\n", self.read("mine.kept.xsb"))
            self.assertIn(b"; my\n", self.read("mine.kept.answers"))
            self.assertIn(b"; a note\n", self.read("mine.kept.answers"))
            self.check("mine", "a.txt")
