"""Where each level comes from and why it is refused, in the summary of check and on its page."""
import csv
import itertools
import json
import os
import re
import unittest.mock
from typing import Any, Dict, List

from tests.tools import checking, viewing

TORN = "Torn\n#####\n#@ .#\n\n#$  #\n#####\n"
FEW = "\n\nFew\n######\n#@$$.#\n######\n\nSolution\nRRR\n"
ONE = "######\n#@ $.#\n######\n"


class Places(checking.Check):
    """The summary."""

    def test_each_level_without_an_answer_has_its_export_and_reason(self) -> None:
        self.write("b.txt", FEW)
        self.write("a.txt", ONE + "Title: Open\n")
        result = self.check("mine", "a.txt", "b.txt")
        self.assertEqual(self.lines(result)[1:], [
            "problem: b.txt line 9: the solution of level 2 cannot be played: move 1 (r) blocked",
            "no answer: a.txt line 1: level 1 missing\tOpen",
            "no answer: b.txt line 4: level 2 refused board goals: The level has more boxes than "
            "goals. It has 2 boxes and 1 goal.\tFew"])

    def test_a_typed_level_is_in_the_collection(self) -> None:
        self.write("a.txt", FEW)
        self.check("mine", "a.txt")
        self.write("mine.xsb", self.read("mine.xsb") + b"\n#####\n#@$ #\n#####\n")
        said = self.check("mine", "a.txt").out.decode()
        self.assertRegex(said, r"no answer: mine.xsb line \d+: level 2 refused board goals: ")
        self.assertIn("no answer: a.txt line 4: level 1 ", said)

    def test_it_ends_with_the_files_that_were_written(self) -> None:
        self.write("a.txt", ONE)
        first = self.check("mine", "a.txt").out.decode().splitlines()
        self.assertEqual(first[-1],
                         "wrote: mine.html, mine.xsb, mine.answers, mine.report, mine.memory")
        self.assertNotIn("wrote", self.check("mine", "a.txt").out.decode())
        self.write("a.txt", ONE + "Title: New\n")
        with unittest.mock.patch("sokotool.summary.sys"):  # a terminal
            last = self.check("mine", "a.txt").out.decode().splitlines()[-1]
        self.assertEqual(last, "wrote: mine.html (open it in a browser), mine.xsb, mine.memory")

    def test_the_name_of_a_file_is_no_number_of_a_level(self) -> None:
        self.write("a.txt", ONE)
        result = self.check("mine", "level 7.txt", "a.txt")
        self.assertEqual(result.status, 1)
        self.assertIn("problem: cannot read level 7.txt: No such file or directory",
                      self.lines(result))

    def test_levels_have_their_numbers_and_files_their_names(self) -> None:
        """Also in what was left out, if the keeper has changed the order of the levels."""
        again, wide = ONE + "Title: Twins\n", "#######\n#@ $ .#\n#######\nTitle: Wide\n"
        self.write("a.txt", f"{FEW}\n{again}\n{again}\n{wide}")
        self.write("b.lst", "Twins\nlrR\n")
        self.write("level 1.answers", "sokoban-answers 1\n")
        words = "a.txt", "b.lst", "level 1.answers"
        self.check("mine", *words)
        typed = self.read("mine.xsb").replace(wide.encode(), b"")
        self.write("mine.xsb", wide.encode() + b"\n" + typed)
        problems = [it for it in self.lines(self.check("mine", *words)) if "problem: " in it]
        self.assertEqual(problems, [
            "problem: a.txt line 9: the solution of level 2 cannot be played: move 1 (r) blocked",
            "problem: b.lst line 2: the solution of level 3 cannot be played: move 1 (l) wall",
            "problem: level 1.answers line 1: answers to levels that are not there: level 1.xsb is "
            "missing"])


class Sources(checking.Check):
    """The data of the page."""

    def sources(self, *words: str) -> Dict[str, Any]:
        self.check("mine", *words)
        page = self.read("mine.html").decode()
        data = re.search('(?s)id="data">(.*?)</script>', page)
        assert data
        sources: Dict[str, Any] = json.loads(data[1])["sources"]
        return sources

    def test_what_was_left_out_goes_with_its_level(self) -> None:
        self.write("b.txt", TORN + FEW)
        self.write("a.txt", ONE)
        self.assertEqual(self.sources("a.txt", "b.txt"), {
            "1": {"file": "a.txt", "line": 1, "left": []},
            "2": {"file": "b.txt", "line": 2,
                  "left": ["line 2: level 2 has no box: are these all of its rows?"]},
            "3": {"file": "b.txt", "line": 5,
                  "left": ["line 5: level 3 has 0 players: are these all of its rows?"]},
            "4": {"file": "b.txt", "line": 10, "left": [
                "line 15: the solution of level 4 cannot be played: move 1 (r) blocked"]}})

    def test_a_problem_that_names_no_level_is_of_the_one_above(self) -> None:
        self.write("a.txt", ONE + "\n#####\n#@$\t.#\n#####\n\n" + ONE)
        left = {number: it["left"] for number, it in self.sources("a.txt").items()}
        self.assertEqual([said[:8] for said in left["2"]], ["line 5: ", "line 6: "])
        self.assertEqual(left["1"], [])

    def test_a_problem_of_a_file_is_of_no_level(self) -> None:
        """Files without a level, before and after a good one."""
        self.write("a.zip", b"PK\x03\x04 torn")
        self.write("b.txt", ONE + "\n" + ONE)
        self.write("c.txt", "no level\n")
        for words in itertools.permutations(("a.zip", "b.txt", "c.txt")):
            left = [it["left"] for it in self.sources(*words).values()]
            self.assertEqual(left, [[], []], words)
            said = self.check("mine", *words).out.decode()
            for why in ("c.txt line 1: no level in this file",
                        "a.zip line 1: a damaged zip archive"):
                self.assertIn(f"problem: {why}", said)


class Shown(viewing.Page, checking.Check):
    """The page in a browser."""

    def test_the_page_of_a_level_names_its_export_and_what_was_left_out(self) -> None:
        self.write("b.txt", FEW)
        self.check("mine", "b.txt")
        self.write("page.html", self.read("mine.html"))
        self.open("#1")
        self.holds("document.querySelector('h2 small').textContent",
                   "line 5 of mine.xsb, from line 4 of b.txt")
        self.assertEqual(self.all(".left"), ["b.txt line 9: the solution of level 1 cannot be "
                                             "played: move 1 (r) blocked"])


class Table(checking.Check):
    """check --csv"""

    def rows(self, *words: str) -> List[List[str]]:
        self.check("mine", *words)
        wanted = ("number", "title", "author", "status", "moves", "boxes", "width", "file", "line",
                  "reason")
        with open("mine.csv", encoding="utf-8", newline="") as file:
            return [[row[name] for name in wanted] for row in csv.DictReader(file)]

    def test_a_row_for_each_level(self) -> None:
        self.write("b.txt", FEW)
        self.write("a.txt", ONE + "Title: Open\nAuthor: Ann\n\nrR\n")
        self.check("mine", "a.txt", "b.txt")
        self.assertFalse(os.path.exists("mine.csv"))
        self.write("mine.xsb", self.read("mine.xsb") + b"\n#####\n#@$.#\n#####\n")
        rows = self.rows("a.txt", "b.txt", "--csv")
        self.assertEqual(rows[0], ["1", "Open", "Ann", "solved", "2", "1", "6", "a.txt", "1", ""])
        self.assertEqual(rows[1], [
            "2", "Few", "", "refused", "", "2", "6", "b.txt", "4",
            "board goals: The level has more boxes than goals. It has 2 boxes and 1 goal."])
        self.assertEqual(rows[2][:8], ["3", "", "", "missing", "", "1", "5", "mine.xsb"])

    def test_it_is_the_table_of_named(self) -> None:
        self.write("a.txt", ONE)
        self.check("mine", "a.txt", "--csv")
        named = self.tool("named", "mine.xsb", "mine.report", "--csv").out
        self.assertEqual(self.read("mine.csv"), named.replace(b"mine.xsb,2", b"a.txt,1"))

    def test_it_is_kept_and_compared_like_the_others(self) -> None:
        self.write("a.txt", ONE)
        self.write("mine.csv", "mine,own\n")
        self.check("mine", "a.txt")
        self.assertEqual(self.read("mine.csv"), b"mine,own\n")
        self.assertFalse(os.path.exists("mine.csv~"))
        said = self.check("mine", "a.txt", "--csv").out.decode()
        self.assertEqual(said.splitlines()[-1], "wrote: mine.csv, mine.memory")
        self.assertEqual(self.read("mine.csv~"), b"mine,own\n")
        self.write("mine.csv", "mine,own\n")
        self.assertEqual(self.check("mine", "a.txt", "--csv", "--compare").out.decode(),
                         "mine.csv line 1 would change\n")

    def test_it_stays_up_to_date(self) -> None:
        """Later checks write it too, unless the keeper has changed it."""
        self.write("a.txt", ONE)
        self.check("mine", "a.txt", "--csv")
        for title in ("Open", "Shut"):
            self.write("a.txt", f"{ONE}Title: {title}\n")
            self.assertIn(", mine.csv, ", self.check("mine", "a.txt").out.decode())
            self.assertIn(f"\n1,{title},", self.read("mine.csv").decode())
        self.write("mine.csv", self.read("mine.csv") + b"mine,own\n")
        self.write("a.txt", ONE)
        self.assertIn("wrote: mine.html, mine.xsb, ", self.check("mine", "a.txt").out.decode())
        self.assertTrue(self.read("mine.csv").endswith(b"mine,own\n"))

    def test_it_is_no_export(self) -> None:
        self.write("a.txt", ONE)
        self.check("mine", "a.txt", "--csv")
        result = self.check("other", ".")
        self.assertEqual((result.err, self.lines(result)[0][:8]), ("", "other: 2"))
