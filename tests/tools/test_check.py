"""The command check: the whole job, what it takes over from the last run, and what it reports as
changed."""
import json
import os
import random
import shlex
import shutil
import subprocess
import sys
import unittest
import unittest.mock
from typing import Any, Callable, Iterator, List

from sokotool import auditor, forms, levels, outcomes, searches
from sokotool.commands import convert
from tests.tools.checking import CORNER, LONG, LOST, Check
from tests.tools.helping import ONE, SAMPLES, TOP, is_slow, used

MAPS = "/usr/share/games/cavepacker/maps"


class Whole(Check):
    def test_exports_as_they_are(self) -> None:
        shutil.copytree(os.path.join(SAMPLES, "exports"), "exports")
        result = self.tool("check", "mine", *(os.path.join("exports", name)
                                              for name in sorted(os.listdir("exports"))))
        self.assertEqual(result.status, 1)
        lines = self.lines(result)
        self.assertEqual(lines[0], "mine: 13 levels, 8 solved, 1 unsolvable, 4 refused, 0 missing")
        self.assertIn("problem: exports/player.sok line 24: the solution of level 12 cannot be "
                      "played: move 2 (u) wall", lines)
        self.assertIn("no answer: exports/forum.txt line 3: level 3 refused board player: The "
                      "level doesn't have exactly one player, @ or +. It has 0 players.\t"
                      "A friend's level, copied from a page", lines)
        self.assertLess(len(lines), 24)
        self.assertEqual([line for line in result.err.splitlines() if ": found" in line],
                         [f"check: level {level}: found a solution ({done} of 3 done, {done} found)"
                          for done, level in enumerate((1, 2, 12), 1)])

    def test_two_times_and_then_changes(self) -> None:
        first = self.check("mine", *self.exports(), "--answers", "hand")
        left = ("problem: exports/player.sok line 24: the solution of level 10 cannot be played: "
                "move 2 (u) wall")
        rest = [left, "no answer: exports/player.sok line 18: level 10 missing\tA letter too many"]
        self.assertEqual(first.status, 1)
        self.assertEqual(self.lines(first),
                         ["mine: 11 levels, 9 solved, 1 unsolvable, 0 refused, 1 missing", *rest])
        files = {end: self.read("mine" + end) for end in (".xsb", ".answers", ".report", ".html")}
        self.write("checked", self.audit("mine.xsb", "mine.answers"))
        self.assertEqual(self.read("checked").decode().splitlines(), self.report())

        again = self.check("mine", *self.exports())
        self.assertEqual((again.status, self.lines(again)[1:]),
                         (1, [*rest, "nothing changed since the last time"]))
        self.assertEqual(files, {end: self.read("mine" + end) for end in files})
        self.assertFalse([name for name in os.listdir() if name.endswith("~")])

        self.change_exports()
        result = self.check("mine", *self.exports())
        self.assertEqual(self.lines(result), [
            "mine: 11 levels, 10 solved, 1 unsolvable, 0 refused, 0 missing",
            "inserted: level 1", "removed: level 11 (solved moves 5 pushes 3 changes 2)",
            "renumbered: levels 2-11 (formerly 1-10)", "turned: level 2 (turned by half)",
            "newly solved: level 11", "kept in mine.kept.xsb: 1 answer of levels that are away"])
        self.assertEqual(result.status, 0)
        self.assertEqual(files, {end: self.read(f"mine{end}~") for end in files})
        self.write("checked", self.audit("mine.xsb", "mine.answers"))
        self.assertEqual(self.read("checked").decode().splitlines(), self.report())
        # The answers that were written by hand to the first levels went with them, and one was
        # turned.
        self.assertEqual(self.report()[1:3], ["level 2 solved moves 4 pushes 2 changes 1",
                                              "level 3 solved moves 12 pushes 3 changes 2"])
        self.assertIn(b"; Corner turn\nlevel 2\nsolution\nLdlU\nend\n", self.read("mine.answers"))
        self.assertEqual(self.check("mine", *self.exports()).status, 0)

    def test_answers_by_the_numbers_that_levels_had_or_have(self) -> None:
        """The same file of answers can be named again after its levels moved."""
        self.check("mine", *self.exports(), "--answers", "hand")
        self.change_exports()
        result = self.check("mine", *self.exports(), "--answers", "hand")
        self.assertNotIn("problem: hand", result.out.decode())
        self.write("hand",
                   "sokoban-answers 1\nlevel 1\nsolution\nrR\nend\nlevel 12\nsolution\nend\n")
        result = self.check("mine", *self.exports(), "--answers", "hand")
        self.assertEqual([line for line in self.lines(result) if "hand" in line], [
            "problem: hand line 2: refused for level 1: unsolved 1",
            "problem: hand line 6: no level has the board of this record"])
        self.assertEqual(result.status, 1)

    def test_equal_answers_of_a_level_that_is_away(self) -> None:
        """The answer goes to the level that has the board, so there is no problem."""
        self.write("a.txt", ONE + "\n" + ONE)
        self.check("mine", "a.txt")
        self.write("a.txt", ONE)
        self.write("hand", "sokoban-answers 1\n" + "".join(
            f"level {number}\nsolution\nR\nend\n" for number in (1, 2)))
        result = self.check("mine", "a.txt", "--answers", "hand")
        self.assertNotIn("problem: hand", result.out.decode())
        self.assertEqual(result.status, 0)

    def test_mended_board_keeps_its_answer_if_that_still_solves_it(self) -> None:
        self.write("a.txt", CORNER + "\n" + LOST)
        self.write("hand", "sokoban-answers 1\nlevel 1\nsolution\nRurD\nend\n")
        self.assertEqual(self.check("mine", "a.txt", "--answers", "hand").status, 0)
        self.write("a.txt",
                   CORNER.replace("#    #", "#    #\n#    #").replace("#    #\n#    #", "##   #",
                                                                      1) + "\n" + LOST)
        result = self.check("mine", "a.txt")
        self.assertEqual((result.status, self.lines(result)[1:]), (0, ["another board: level 1"]))
        self.write("a.txt", CORNER.replace("# . ", "#.  ").replace("#  . #", "# .  #") + "\n" +
                   LOST)
        result = self.check("mine", "a.txt")
        self.assertIn("lost: level 1 (missing, formerly solved moves 4 pushes 2 changes 1)",
                      self.lines(result))
        self.assertIn("kept in mine.kept.xsb: 1 answer of levels that are away",
                      self.lines(result))

    def test_best_of_several(self) -> None:
        """Of several solutions the one with the fewest moves or pushes is kept, whichever file it
        is from."""
        self.write("a.txt",
                   "#######\n#  .  #\n#  $$ #\n#  .@ #\n#     #\n#######\nSolution\n"
                   "lUdrruulDrdLrl\n")
        for name, letters in (("one", "UruLLDlluR"), ("other", "lUdrruulDrdL"),
                              ("wrong", "UruLLDlluRR")):
            self.write(name, f"sokoban-answers 1\nlevel 1\nsolution\n{letters}\nend\n")
        for best, wanted in (("moves", "level 1 solved moves 10 pushes 5 changes 3"),
                             ("pushes", "level 1 solved moves 12 pushes 3 changes 2")):
            result = self.check("mine", "a.txt", "--best", best, "--answers", "wrong", "other",
                                "one")
            self.assertEqual(self.report()[0], wanted)
            self.assertIn("problem: wrong line 2: refused for level 1: unsolved 1",
                          self.lines(result))
        self.assertIn("otherwise answered: level 1 (solved moves 12 pushes 3 changes 2, formerly "
                      "solved moves 10 pushes 5 changes 3)", self.lines(result))
        self.assertEqual(self.check("first", "a.txt").status, 0)
        self.assertIn("better: level 1 (solved moves 10 pushes 5 changes 3, formerly solved "
                      "moves 14 pushes 3 changes 3)"[:16],
                      " ".join(self.lines(self.check("first", "a.txt", "--answers", "other"))))

    def test_certificate_that_is_refused_gives_way(self) -> None:
        self.write("a.txt", LOST)
        self.write("wrong", "sokoban-answers 1\nlevel 1\nunsolvable\npattern 3,3 @ *\nend\n")
        result = self.check("mine", "a.txt", "--answers", "wrong")
        self.assertEqual((result.status, self.report()[0]), (1, "level 1 unsolvable patterns 4"))
        self.assertIn("problem: wrong line 2: refused for level 1: start", self.lines(result))

    def test_search(self) -> None:
        """Levels that make leaves are searched, with a line for each, and not once more after a
        certificate was found."""
        with open(os.path.join(SAMPLES, "deadlocks.xsb"), "rb") as file:
            self.write("a.txt", file.read())
        result = self.tool("check", "mine", "a.txt", "--jobs", "2")
        said = ["check: 3 levels to search, at most 10 s each, 60 s in all"]
        said += [f"check: level {level}: found a certificate ({done} of 3 done, {done} found)"
                 for done, level in enumerate((4, 5, 6), 1)]
        self.assertEqual((result.status, result.err.splitlines()), (0, said))
        again = self.tool("check", "mine", "a.txt")
        self.assertEqual((again.status, again.err), (0, ""))

    def test_many_problems_are_all_on_standard_error(self) -> None:
        """The summary has up to eight. Of more it has seven, and how many are left."""
        for count in (1, 8, 9, 12):
            self.write("a.txt", CORNER + "Solution: d\n" * count)
            result = self.check("mine", "a.txt")
            problems = [f"a.txt line {line}: the solution of level 1 leaves 1 box off the goals"
                        for line in range(7, 7 + count)]
            self.assertEqual(result.err.splitlines(),
                             [f"check: {it}" for it in problems] * (count > 8))
            shown = problems if count <= 8 else [*problems[:7], f"and {count - 7} more"]
            self.assertEqual([it for it in self.lines(result) if it.startswith("problem: ")],
                             [f"problem: {it}" for it in shown])

    def test_twins_are_named(self) -> None:
        self.write("a.txt", CORNER + "\n" + CORNER.replace("Corner", "Again"))
        self.assertIn("twins: level 2 is level 1, as it is",
                      self.lines(self.check("mine", "a.txt")))

    def test_summary_fits_a_screen(self) -> None:
        """Whatever happens, the summary has at most 24 lines."""
        boards = [CORNER.replace("#@$  #", "#@$  #\n#" +
                                 format(number, "04b").translate({48: "_", 49: "#"}) + "#")
                  for number in range(16)]
        for several in (boards, boards[::-1] + [ONE] * 9,
                        [ONE.replace("@", "@ " * number) for number in range(1, 30)]):
            self.write("a.txt", "\n".join(several) + "Solution\nx\nSolution:\n" * 9)
            self.assertLessEqual(len(self.check("mine", "a.txt").out.splitlines()), 24)


class Time(Check):
    """The search: what is said at its start, what it is given, and what is remembered of it."""

    def setUp(self) -> None:
        super().setUp()
        with open(os.path.join(SAMPLES, "deadlocks.xsb"), "rb") as file:
            self.write("a.txt", file.read())

    def test_files_are_written_before_the_search_and_after_it(self) -> None:
        seen = []

        def results(_self: searches.Searches, _watch: Callable[[], None]) -> Iterator[Any]:
            seen.extend(self.report())
            yield from ()
        with unittest.mock.patch.object(searches.Searches, "results", results):
            result = self.tool("check", "mine", "a.txt")
        self.assertEqual(seen[-1], "total 6 solved 0 unsolvable 3 refused 0 missing 3")
        self.assertIn("check: 3 levels left: the next run goes on with them", result.err)
        result = self.tool("check", "mine", "a.txt")
        self.assertEqual((result.status, self.report()[-1]),
                         (0, "total 6 solved 0 unsolvable 6 refused 0 missing 0"))

    def test_interrupt_ends_the_search_and_the_files_are_written(self) -> None:
        real = searches.Searches.results

        def results(of: searches.Searches, watch: Callable[[], None]) -> Iterator[Any]:
            for result in real(of, watch):
                yield result
                if result.record:
                    raise KeyboardInterrupt
        with unittest.mock.patch.object(searches.Searches, "results", results):
            result = self.tool("check", "mine", "a.txt", "--jobs", "1")
        self.assertEqual((result.status, self.report()[-1]),
                         (1, "total 6 solved 0 unsolvable 4 refused 0 missing 2"))
        self.assertEqual(self.lines(result)[0],
                         "mine: 6 levels, 0 solved, 4 unsolvable, 0 refused, 2 missing")

    def test_second_interrupt_ends_the_run(self) -> None:
        patches = [unittest.mock.patch.object(searches.Searches, "results",
                                              side_effect=KeyboardInterrupt),
                   unittest.mock.patch.object(searches.Searches, "rest",
                                              side_effect=KeyboardInterrupt)]
        with patches[0], patches[1]:
            self.assertEqual(self.tool("check", "mine", "a.txt").status, 130)
        self.assertEqual(self.report()[-1], "total 6 solved 0 unsolvable 3 refused 0 missing 3")

    def test_budget_of_the_whole_run(self) -> None:
        """The budget ends the search, and the next run goes on."""
        self.write("a.txt", CORNER + "\n" + CORNER.replace("#    #", "##   #", 1))
        result = self.tool("check", "mine", "a.txt", "--search", "0.000001")
        self.assertEqual(result.err, "check: 2 levels to search, at most 10 s each, 1e-06 s in "
                                     "all\ncheck: 2 levels left: the next run goes on with them\n")
        self.assertEqual(self.tool("check", "mine", "a.txt", "--search", "0").err, "")
        result = self.tool("check", "mine", "a.txt")
        self.assertIn("level 2: found a solution (2 of 2 done, 2 found)", result.err)
        again = self.tool("check", "mine", "a.txt", "--seconds", "20")
        self.assertEqual((again.err, self.lines(again)[-1]),
                         ("", "nothing changed since the last time"))

    def test_levels_are_searched_again_only_with_more_time(self) -> None:
        found = forms.forms_of(levels.read(self.read("a.txt")))
        kept = outcomes.Outcomes({})
        self.assertEqual(kept.due(found, "find", 10), found)
        for form, what, seconds in zip(found, ("late", "solvable", "full", "late"), (9, 1, 1, 10)):
            kept.keep(form.digest, "find", what, seconds)
        # The answer that was found is lost.
        self.assertEqual(kept.due(found, "find", 10), [*found[4:], found[1], found[0]])
        self.assertEqual(kept.due(found, "find", 11), [*found[4:], found[1], found[0], found[3]])
        self.assertEqual(kept.due(found, "other", 1), found)
        kept.keep(found[0].digest, "find", "late", 2)
        self.assertEqual(kept[found[0].digest]["find"], ("late", 9))

    def test_name_that_cannot_be_written_is_noticed_first(self) -> None:
        os.mkdir("folder.report")
        with unittest.mock.patch.object(auditor.Auditor, "run", side_effect=AssertionError):
            for name, why in (("nodir/x", "nodir/x.xsb: No such file or directory"),
                              ("folder", "folder.report: it is a folder")):
                result = self.check(name, "a.txt")
                self.assertEqual((result.status, result.err), (2, f"check: cannot write {why}\n"))


class Typed(Check):
    """What a keeper typed stays."""

    def test_answer_of_a_level_that_is_away_for_one_run(self) -> None:
        self.write("a.txt", LOST)
        self.write("b.txt", CORNER)
        self.write("own", "sokoban-answers 1\n; by hand\nlevel 2\nsolution\nRurD\nend\n")
        self.check("mine", "a.txt", "b.txt", "--answers", "own")
        result = self.check("mine", "a.txt")
        self.assertEqual((result.status, self.lines(result)[1:]), (0, [
            "removed: level 2 (solved moves 4 pushes 2 changes 1)",
            "kept in mine.kept.xsb: 1 answer of levels that are away"]))
        self.assertEqual(self.audit("mine.kept.xsb", "mine.kept.answers").splitlines()[0],
                         b"level 1 solved moves 4 pushes 2 changes 1")
        self.assertEqual(self.check("mine", "a.txt").status, 0)
        result = self.check("mine", "a.txt", "b.txt")
        self.assertEqual((result.status, self.lines(result)[1:]), (0, ["inserted: level 2"]))
        self.assertIn(b"; by hand\nlevel 2\nsolution\nRurD\nend\n", self.read("mine.answers"))
        self.assertFalse(os.path.exists("mine.kept.xsb"))

    def test_comments_between_records_of_a_level_that_is_away_for_one_run(self) -> None:
        """They stay in mine.answers. If that is lost, or they were typed beside the kept record,
        they come back with it: once."""
        self.write("a.txt", LOST)
        self.write("b.txt", CORNER)
        self.check("mine", "a.txt", "b.txt")
        record = b"level 2\nsolution\nRurD\nend\n"
        self.write("mine.answers", b"sokoban-answers 1\n; apart\n\n; by hand\n" + record)
        self.check("mine", "a.txt")
        self.assertIn(b"; apart\n", self.read("mine.answers"))
        self.assertNotIn(b"; apart\n", self.read("mine.kept.answers"))
        typed = self.read("mine.kept.answers").replace(b"; by", b"; apart\n; typed\n\n; by")
        without = self.read("mine.answers").replace(b"; apart\n\n", b"")
        for mine, comments in ((without, b"; apart\n; typed\n\n"),
                               (self.read("mine.answers"), b"; typed\n\n")):
            self.write("mine.answers", mine)
            self.write("mine.kept.answers", typed)
            self.check("mine", "a.txt", "b.txt")
            self.assertIn(comments + b"; by hand\n" + record, self.read("mine.answers"))
            self.assertEqual(self.read("mine.answers").count(b"; apart\n"), 1)
            self.assertFalse(os.path.exists("mine.kept.answers"))
            self.check("mine", "a.txt")

    def test_refused_record_stays_until_another_is_accepted(self) -> None:
        self.write("a.txt", CORNER)
        self.check("mine", "a.txt")
        record = b"; a draft\nlevel 1\nsolution\nRur\nend\n"
        self.write("mine.answers", b"sokoban-answers 1\n" + record)
        for _ in range(2):
            result = self.check("mine", "a.txt")
            self.assertEqual(result.status, 1)
            self.assertIn("no answer: a.txt line 2: level 1 refused unsolved 1: The letters end "
                          "with boxes off the goals.\tCorner\n", result.out.decode())
            self.assertIn(record, self.read("mine.answers"))
        self.write("a.txt", CORNER + "Solution: RurD\n")
        result = self.check("mine", "a.txt")
        self.assertEqual(result.status, 0)
        self.assertIn("kept in mine.kept.xsb: 1 answer for which there are better ones",
                      self.lines(result))
        self.assertIn(record, self.read("mine.kept.answers"))

    def test_answer_that_was_computed_for_a_level_that_is_away(self) -> None:
        """It is kept, also if another level has the number now, and comes back."""
        self.write("a.txt", CORNER)
        self.check("mine", "a.txt")
        before = self.read("mine.xsb")
        other = "\nOther\n#######\n#@ $  #\n#  . .#\n#######\n"
        self.write("mine.xsb", before + b"\n" + LONG.partition("Sol")[0].encode())
        self.tool("check", "mine", "a.txt")
        typed, solved = self.read("mine.xsb"), self.report()[1]
        self.assertIn("level 2 solved", solved)
        self.write("mine.xsb", before + other.encode())
        self.check("mine", "a.txt")
        self.assertIn(b"#@ $  .#", self.read("mine.kept.xsb"))
        self.assertEqual(self.read("mine.kept.answers").count(b"solution"), 1)
        self.write("mine.xsb", typed)
        self.check("mine", "a.txt")
        self.assertEqual(self.report()[1], solved)

    def test_words_that_are_typed_into_the_report(self) -> None:
        """It is made anew, from the answers as they were."""
        self.write("a.txt", LONG)
        self.check("mine", "a.txt")
        written = self.read("mine.report")
        self.write("mine.report", written.replace(b"moves 4", b"by Bob, moves 4"))
        result = self.check("mine", "a.txt")
        self.assertEqual(self.lines(result)[1:], ["nothing changed since the last time"])
        self.assertEqual(self.read("mine.report"), written)

    def test_report_names_the_line_of_a_refused_certificate(self) -> None:
        """The line is the one in NAME.answers as it is after the check, with its comments."""
        self.write("a.txt", LOST)
        self.check("mine", "a.txt")
        self.write("a.txt", CORNER)
        self.check("mine", "a.txt")
        self.write("mine.answers", "sokoban-answers 1\n; a heading\n\n; a draft\nlevel 1\n"
                   "unsolvable\n; one line\npattern 3,3 @ 2,3\nend\n")
        result = self.check("mine", "a.txt")
        lines = self.read("mine.answers").splitlines()
        number = lines.index(b"pattern 3,3 @ 2,3") + 1
        self.assertRegex(self.report()[0], f"level 1 refused line {number} ")
        self.assertIn(f": level 1 refused line {number} ", result.out.decode())
        self.assertLess(lines.index(b"; a heading"), lines.index(b"; a draft"))

    def test_titles_and_texts(self) -> None:
        """They win over the exports, and are reported once, also where their level is away."""
        self.write("a.txt", "A\n" + LOST + "\nB\n" + CORNER)
        self.check("mine", "a.txt")
        self.write("mine.xsb", self.read("mine.xsb").replace(b"\nB\n", b"\nBetter B\n"))
        result = self.check("mine", "a.txt")
        self.assertIn("edited by hand: level 2", self.lines(result))
        self.assertIn(b"\nBetter B\n", self.read("mine.xsb"))
        self.assertIn("nothing changed since the last time",
                      self.lines(self.check("mine", "a.txt")))
        self.write("a.txt", "A\n" + LOST)
        result = self.check("mine", "a.txt")
        self.assertIn("kept in mine.kept.xsb: 1 text of levels that are away", result.out.decode())

    def test_title_over_a_kept_text_that_no_level_has_any_more(self) -> None:
        """It may have been typed: it stays when the text comes back. One that a level has goes."""
        for title, left in (("Old", None), ("New", b"; kept from level 1, Old\n")):
            self.write("a.txt", ONE + "Title: Old\n")
            self.write("b.txt", LONG)
            self.check("mine", "a.txt", "b.txt")
            self.write("mine.xsb", b"a note\n" + self.read("mine.xsb"))
            self.check("mine", "b.txt")
            self.assertIn(b"; kept from level 1, Old\na note\n", self.read("mine.kept.xsb"))
            self.write("a.txt", ONE + f"Title: {title}\n")
            result = self.check("mine", "a.txt", "b.txt")
            self.assertIn(b"a note\n", self.read("mine.xsb"))
            self.assertEqual(os.path.exists("mine.kept.xsb"), bool(left))
            self.assertEqual("kept in mine.kept.xsb: 1 comment of levels that are back"
                             in self.lines(result), bool(left))
            if left:
                self.assertTrue(self.read("mine.kept.xsb").startswith(left))
            for name in [name for name in os.listdir() if name.startswith("mine")]:
                os.remove(name)

    def test_order_of_the_levels(self) -> None:
        """An order that the keeper chose stays, and a new level comes after the one that it follows
        in the exports."""
        boards_in_order = [LOST, CORNER, ONE]
        self.write("a.txt", "\n".join(boards_in_order))
        self.check("mine", "a.txt")
        self.write("own", "sokoban-answers 1\nlevel 2\nsolution\nRurD\nend\n")
        self.check("mine", "a.txt", "--answers", "own")
        self.write("mine.xsb", "\n".join(boards_in_order[::-1]))
        self.check("mine", "a.txt")
        self.write("a.txt", "\n".join([LOST, LONG, CORNER, ONE]))
        result = self.check("mine", "a.txt")
        rows = [b"".join(row + b"\n" for row in level.rows)
                for level in levels.read(self.read("mine.xsb"))]
        self.assertEqual(rows, [drawn[drawn.index("#"):].replace("Solution: rRRR\n", "").encode()
                                for drawn in (ONE, CORNER, LOST, LONG)])
        self.assertEqual(self.report()[1], "level 2 solved moves 4 pushes 2 changes 1")
        self.assertIn("inserted: level 4", self.lines(result))

    def test_comments_between_and_in_records(self) -> None:
        self.write("a.txt", CORNER + "\n" + LONG)
        self.check("mine", "a.txt")
        text = ("sokoban-answers 1\n; a heading\n\n; of one\nlevel 1\n; in it\nsolution\nRurD\n\n"
                "end\n\n; the second part\n\nlevel 2\nsolution\nrRRR\nend\n; the end\n")
        self.write("mine.answers", text)
        self.check("mine", "a.txt")
        self.assertEqual(self.read("mine.answers").decode().replace(
            f"; {auditor.REFERENCE_NOTE}\n", ""), text)
        self.write("a.txt", LONG)
        self.check("mine", "a.txt")
        self.assertIn(b"; a heading\n\n\n; the second part\n\nlevel 1\n",
                      self.read("mine.answers"))


class Files(Check):
    def test_the_name_is_shown_without_control_characters(self) -> None:
        self.write("a.txt", ONE)
        self.check("my\x1b", "a.txt")
        self.write("my\x1b.answers", b"sokoban-answers 1\nlevel 1\nsolution\nR\nend\n")
        self.write("a.txt", ONE.replace("$", "$ "))
        said = self.check("my\x1b", "a.txt").out.decode()
        self.assertEqual(said.partition(":")[0], "my ")
        self.assertIn("\nkept in my .kept.xsb: 1 answer ", said)

    def test_inputs_are_not_written_over(self) -> None:
        self.write("mine.xsb", CORNER)
        os.symlink("mine.xsb", "link")
        for name in ("mine.xsb", "link", "./mine.xsb"):
            result = self.check("mine", name)
            self.assertEqual((result.status, result.out, result.err),
                             (2, b"", f"check: would write over {name}: choose another NAME, "
                              "such as checked\n"))

    def test_exports_that_are_named_like_the_collection(self) -> None:
        """They are read: check writes no numbered parts."""
        self.write("mine-1.xsb", CORNER)
        self.write("mine-2.xsb", LOST)
        for words in (["mine-1.xsb", "mine-2.xsb"], ["."]):
            self.assertEqual(self.lines(self.check("mine", *words))[0],
                             "mine: 2 levels, 0 solved, 1 unsolvable, 0 refused, 1 missing")

    def test_first_words_that_are_natural(self) -> None:
        """They name no collection, or not its exports, and the message says what to type."""
        self.write("first.xsb", CORNER)
        self.write("first.answers", "sokoban-answers 1\n")
        os.mkdir("Mein Ordner")
        self.write("Mein Ordner/a.txt", CORNER)
        here = sorted(os.listdir())
        is_name = "check: the first word is the NAME of a collection, and "
        for words, said in (
                (("first", "first.xsb"),
                 "check: would write over first.xsb: choose another NAME, such as checked\n"),
                (("first.xsb", "first.answers"), is_name + "first.xsb is a file that is there\n"),
                (("Mein Ordner/a.txt", "first.xsb"),
                 is_name + "Mein Ordner/a.txt is a file that is there\n"),
                (("neu.xsb", "Mein Ordner"),
                 is_name + "neu.xsb has an end: type it without .xsb\n"),
                (("Mein Ordner",), "check: no EXPORT is named: first comes a new NAME for the "
                                   "collection, as in 'sokotool check mine Mein Ordner'\n"),
                (("x", "Mein", "Ordner"),
                 "check: cannot read Mein: No such file or directory\n"
                 "check: cannot read Ordner: No such file or directory\n"
                 "check: these files have no level; put a name with blanks into quotes: "
                 "'Mein Ordner'\n")):
            result = self.tool("check", *words)
            self.assertEqual((result.status, result.out), (2, b""), words)
            self.assertEqual(result.err, said)
        for option in ("--seconds", "--search"):
            for number in ("-1", "nan", "x"):
                self.assertEqual(self.tool("check", "x", "first.xsb", option, number).status, 2)
        self.assertEqual(sorted(os.listdir()), here)

    def test_nothing_is_written_on_errors(self) -> None:
        self.write("a.txt", CORNER)
        self.write("empty", "no rows\n")
        self.write("bad", "sokoban-answers 1\nlevel 1\n")
        self.check("mine", "a.txt")
        files = {name: self.read(name) for name in os.listdir()}
        for words, why in ((["empty"],
                            "empty line 1: no level in this file\n"
                            "check: these files have no level"),
                           (["a.txt", "--answers", "bad"],
                            "bad line 3: the last record lacks its last line, 'end'"),
                           (["gone"], "cannot read gone")):
            result = self.check("mine", *words)
            self.assertEqual((result.status, result.out), (2, b""), words)
            self.assertTrue(result.err.startswith(f"check: {why}"), result.err)
        self.assertEqual(files, {name: self.read(name) for name in os.listdir()})
        self.write("mine.answers", "by hand\n")
        self.assertEqual(self.check("mine", "a.txt").err, "check: mine.answers is no answers file: "
                         "line 1 isn't 'sokoban-answers 1'\n")
        os.remove("mine.xsb")
        self.assertIn("mine.answers is there, but not its levels", self.check("mine", "a.txt").err)
        self.assertEqual(self.read("mine.answers"), b"by hand\n")

    def test_answers_written_by_hand_into_the_file_stay(self) -> None:
        """Records that are added to NAME.answers, and a report that is missing."""
        self.write("a.txt", CORNER)
        self.check("mine", "a.txt")
        self.write("mine.answers", "sokoban-answers 1\n; mine\nlevel 1\nsolution\nRurD\nend\n")
        result = self.check("mine", "a.txt")
        self.assertEqual((result.status, self.lines(result)[1:]), (0, ["newly solved: level 1"]))
        self.assertIn(b"; mine\nlevel 1\n", self.read("mine.answers"))
        os.remove("mine.report")
        self.assertEqual(self.lines(self.check("mine", "a.txt"))[1:],
                         ["nothing changed since the last time"])
        self.assertTrue(os.path.exists("mine.report"))

    def test_levels_on_standard_input(self) -> None:
        result = self.check("mine", "-", given=LOST.encode())
        self.assertEqual((result.status, self.report()[0]), (0, "level 1 unsolvable patterns 4"))


class Screen(Check):
    def test_terminal(self) -> None:
        """On a terminal a status line is replaced, and the summary stays."""
        if not shutil.which("script"):
            self.skipTest("there is no command script here")
        self.write("a.txt", CORNER)
        subprocess.run(["script", "-qec", f"{shlex.quote(TOP)}/sokotool check mine a.txt", "said"],
                       stdout=subprocess.DEVNULL, check=False, stdin=subprocess.DEVNULL,
                       env={**os.environ, "TERM": "xterm"})
        said = self.read("said").decode()
        self.assertIn(" \rcheck: auditing", said)
        self.assertIn(" \rcheck: level 1: found a solution (1 of 1 done, 1 found)\r\n", said)
        self.assertIn("mine: 1 level, 1 solved, 0 unsolvable, 0 refused, 0 missing\r\n", said)


class Unchanged(Check):
    def answer(self) -> None:
        """Runs check, and compares what it writes with a check without a memory of the exports."""
        self.check("mine", "exports", "--csv")
        written = {name: self.read(name) for name in os.listdir() if name.startswith("mine.")}
        memory = json.loads(written["mine.memory"])
        self.write("mine.memory", json.dumps({**memory, "exports": None, "made": {}}))
        self.check("mine", "exports", "--csv")
        self.assertEqual({name: self.read(name) for name in written}, written)

    def test_exports_that_did_not_change_are_not_converted(self) -> None:
        os.mkdir("exports")
        shutil.copytree(os.path.join(SAMPLES, "exports"), "exports/inbox")
        self.write("exports/chinese.txt", ONE.encode() + "Title: \u4ed3\u5e93\n".encode("gb18030"))
        self.assertTrue(self.converts("exports"))
        first = self.said
        self.assertFalse(self.converts("exports"))
        for text in (first, self.said):
            self.assertIn("exports/chinese.txt line 1: not UTF-8", text.err)
        self.assertEqual([it for it in self.lines(first) if it.startswith("problem: ")],
                         [it for it in self.lines(self.said) if it.startswith("problem: ")])
        self.answer()
        before = self.read("mine.memory")
        self.assertFalse(self.converts(os.path.abspath("exports")))
        self.assertEqual(self.read("mine.memory"), before)
        self.assertIn(f"problem: {os.path.abspath('exports')}/inbox/player.sok line 24: the ",
                      self.said.out.decode())

    def test_what_counts_for_the_conversion(self) -> None:
        os.mkdir("inbox")
        self.write("inbox/a.txt", ONE + "Solution: R\n")
        self.converts("inbox")
        for words in (["inbox", "--best", "pushes"], ["inbox", "--best", "both"],
                      ["inbox", "--encoding", "big5"], ["inbox/a.txt"]):
            self.assertTrue(self.converts(*words), words)
            self.assertFalse(self.converts(*words), words)
        for name in ("inbox/b.txt", "inbox/a.txt"):
            self.write(name, LONG)
            self.assertTrue(self.converts("inbox"))
            self.assertFalse(self.converts("inbox"))
        os.rename("inbox/b.txt", "inbox/c.txt")
        self.assertTrue(self.converts("inbox"))
        with unittest.mock.patch("sokotool.conversion.code", return_value="another"):
            self.assertTrue(self.converts("inbox"))
        self.assertTrue(self.converts("inbox"))

    def test_code_counts(self) -> None:
        """The modules of formats and commands are part of the code, in a zip as in a folder."""
        zipped = os.path.abspath("sokotool.pyz")
        subprocess.run([sys.executable, f"{TOP}/packaging/pyz", zipped], check=True,
                       stdout=subprocess.DEVNULL)
        asked = ("import pkgutil, sys; sys.path[0] = sys.argv[1]; from sokotool import conversion; "
                 "read = pkgutil.get_data; got = []; pkgutil.get_data = lambda *it: ("
                 "got.append(it[1]), read(*it))[1]; print(conversion.code(), *got)")
        whole, packed = (subprocess.run([sys.executable, "-B", "-c", asked, path], check=True,
                                        stdout=subprocess.PIPE).stdout.decode().split()
                         for path in (f"{TOP}/tools", zipped))
        self.assertEqual(whole[0], packed[0])
        for name in ("levels.py", "commands/convert.py", "formats/level_rows.py"):
            self.assertIn(name, whole)

    def test_what_is_converted_each_time(self) -> None:
        """That is what has no digest: levels beside answers, standard input, what can't be read."""
        self.write("other.xsb", ONE)
        self.write("other.answers", "sokoban-answers 1\nlevel 1\nsolution\nR\nend\n")
        self.write("a.txt", LONG)
        for words in (["a.txt", "other.answers"], ["a.txt", "lost.txt"]):
            for _ in range(2):
                self.assertTrue(self.converts(*words), words)
        with unittest.mock.patch("sokotool.commands.convert.read_files",
                                 side_effect=convert.read_files) as read_files:
            for _ in range(2):
                self.check("mine", "-", given=LONG.encode())
        self.assertEqual(read_files.call_count, 2)

    def test_a_damaged_conversion_is_made_again(self) -> None:
        self.write("a.txt", LONG)
        self.converts("a.txt")
        memory = self.read("mine.memory")
        whole = json.loads(memory)
        for exports in (5, {}, {**whole["exports"], "levels": 5},
                        {**whole["exports"], "answers": 5},
                        {**whole["exports"], "levels": {"0": ["", 5, "", []]}},
                        {**whole["exports"], "answers": [[1, "0" * 16]]},
                        {**whole["exports"], "places": [["a.txt", [1, 2]]]},
                        {**whole["exports"], "notes": [1]}):
            self.write("mine.memory", json.dumps({**whole, "exports": exports}))
            self.assertTrue(self.converts("a.txt"), exports)
            self.assertEqual(self.read("mine.memory"), memory)

    def test_a_page_and_a_table_that_were_edited_are_made_again(self) -> None:
        self.write("a.txt", LONG)
        self.check("mine", "a.txt", "--csv")
        for end in (".html", ".csv"):
            made = self.read("mine" + end)
            self.write("mine" + end, made + b"edited\n")
            self.check("mine", "a.txt", "--csv")
            self.assertEqual(self.read("mine" + end), made)
        for name in [name for name in os.listdir() if name.startswith("mine.")]:
            os.rename(name, "other" + name[4:])
        self.check("other", "a.txt")
        self.assertEqual((b"other.xsb" in self.read("other.html"),
                          b"mine.xsb" in self.read("other.html")), (True, False))

    def test_no_search_and_no_form_of_exports_is_loaded(self) -> None:
        self.write("a.txt", LONG + "\n" + LOST)
        for is_loaded in (True, False):
            said = subprocess.run(
                [sys.executable, "-c", "import sys; from sokotool.main import main; "
                 "main(['check', 'mine', 'a.txt', '--seconds', '0']); "
                 "print(*(it for it in sys.modules if it.startswith('sokotool.')))"],
                stdout=subprocess.PIPE, check=True, env={
                    **os.environ, "PYTHONPATH": os.path.join(TOP, "tools")}).stdout.decode()
            loaded = {it for it in said.split() if it.startswith(("sokotool.formats.",
                                                                  "sokotool.search"))}
            self.assertEqual("sokotool.formats.level_rows" in loaded, is_loaded)
            self.assertFalse({it for it in loaded if "search" in it})

    @is_slow
    def test_a_run_that_changes_nothing_takes_no_longer_than_the_first(self) -> None:
        """The least processor time of some runs: a busy machine makes some seem longer."""
        chance, text = random.Random(7), ""
        for number in range(1000):
            width, height = chance.randint(10, 18), chance.randint(7, 11)
            rows = [[*"#" * width], *([*"#" + " " * (width - 2) + "#"] for _ in range(height - 2)),
                    [*"#" * width]]
            hall, end = chance.randint(1, height - 2), chance.randint(4, width - 2)
            for _ in range(9):
                row = chance.choice([row for row in range(1, height - 1) if row != hall])
                rows[row][chance.randint(1, width - 2)] = "#"
            rows[hall][1:3] = "@$"
            rows[hall][end] = "."
            text += "\n".join("".join(row) for row in rows)
            text += f"\nTitle: {number}\nSolution: {'R' * (end - 2)}\n\n"
        self.write("a.txt", text)
        times: List[List[float]] = [[], []]
        while len(times[0]) < 9 and (not times[0] or min(times[1]) > .8 * min(times[0])):
            for name in [name for name in os.listdir() if name.startswith("mine")]:
                os.remove(name)
            for spent in times:
                began = used()
                done = subprocess.run([sys.executable, os.path.join(TOP, "sokotool"), "check",
                                       "mine", "a.txt", "--seconds", "0"],
                                      stdout=subprocess.DEVNULL, check=False)
                spent.append(used() - began)
                self.assertEqual(done.returncode, 0)
        self.assertLess(min(times[1]), min(times[0]), times)


@is_slow
@unittest.skipUnless(os.path.isdir(MAPS), "Debian's cavepacker-data isn't installed")
class Maps(Check):
    def test_maps_in_a_minute(self) -> None:
        names = sorted(os.path.join(MAPS, name) for name in os.listdir(MAPS)
                       if name.endswith((".sok", ".sol")))
        began = used()
        result = self.check("maps", *names)
        self.assertLess(used() - began, 60)
        self.assertEqual(self.lines(result)[0],
                         "maps: 1015 levels, 1011 solved, 0 unsolvable, 1 refused, 3 missing")
        began = used()
        self.assertEqual(self.lines(self.check("maps", *names))[-1],
                         "nothing changed since the last time")
        self.assertLess(used() - began, 60)
