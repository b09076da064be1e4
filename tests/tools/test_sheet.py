"""A collection as a table, and the page of what changed."""
import csv
import io
import re
from typing import Dict, List

from tests.tools.helping import Case

LEVELS = """\
=Two, \u4e00
#####
#@$.#
#####

Author: Ann
Title: "Few"

######
#@$$.#
######
Title: Goals
"""
REPORT = """\
level 1 solved moves 1 pushes 1 changes 1
level 2 refused board goals
total 2 solved 1 unsolvable 0 refused 1 missing 0
"""


class Sheet(Case):
    """named --csv"""

    def rows(self, levels: str, report: str) -> List[Dict[str, str]]:
        self.write("a.xsb", levels)
        self.write("a.report", report)
        result = self.tool("named", "a.xsb", "a.report", "--csv")
        self.assertEqual((result.status, result.err), (0, ""))
        return list(csv.DictReader(io.StringIO(result.out.decode(), newline="")))

    def test_rows(self) -> None:
        one, two = self.rows(LEVELS, REPORT)
        self.assertEqual([*one], ["number", "title", "author", "status", "moves", "pushes", "boxes",
                                  "width", "height", "board", "file", "line", "reason"])
        self.assertEqual({**one, "board": ""}, {
            "number": "1", "title": '"Few"', "author": "Ann", "status": "solved", "moves": "1",
            "pushes": "1", "boxes": "1", "width": "5", "height": "3", "board": "",
            "file": "a.xsb", "line": "2", "reason": ""})
        self.assertEqual((two["title"], two["status"], two["moves"], two["boxes"], two["line"]),
                         ("Goals", "refused", "", "2", "9"))
        self.assertEqual(two["reason"], "board goals: The level has more boxes than goals. It has "
                                        "2 boxes and 1 goal.")
        self.assertTrue(re.fullmatch("[0-9a-f]{20}", one["board"]))

    def test_no_cell_is_a_formula(self) -> None:
        for sign in "=+-@":
            levels = f"{sign}cmd()\n#####\n#@$.#\n#####\n"
            (row,) = self.rows(levels, "level 1 missing\ntotal 1 solved 0 unsolvable 0 refused 0 "
                                       "missing 1\n")
            self.assertEqual((row["title"], row["reason"]),
                             (f"'{sign}cmd()", "The level is legal and has no answer."))

    def test_another_report_is_refused(self) -> None:
        self.write("a.xsb", LEVELS)
        self.write("a.report", REPORT.replace("level 2", "level 3"))
        self.assertEqual(self.tool("named", "a.xsb", "a.report", "--csv").status, 1)


class Changes(Case):
    """diff --page"""

    def page(self, old: str, new: str) -> str:
        for name, levels in (("a", old), ("b", new)):
            count = levels.count("@")
            self.write(f"{name}.xsb", levels)
            self.write(f"{name}.report", "".join(
                f"level {number} missing\n" for number in range(1, count + 1)) +
                f"total {count} solved 0 unsolvable 0 refused 0 missing {count}\n")
        result = self.tool("diff", "a.xsb", "a.report", "b.xsb", "b.report", "--page", "it.html")
        self.assertEqual((result.status, result.err), (int(old != new), ""))
        return self.read("it.html").decode()

    def test_boards_before_and_after(self) -> None:
        one, two = "A\n#####\n#@$.#\n#####\n", "A\n######\n#@ $.#\n######\n"
        page = self.page(one, two + "\nB & <b\n#####\n#@$*#\n#####\n")
        self.assertEqual(re.findall("<h2>(.*?)</h2>", page),
                         ["level 1: A", "level 2: B &amp; &lt;b"])
        self.assertEqual(re.findall("<figcaption>(.*?)</figcaption>", page),
                         ["a.xsb line 2", "b.xsb line 2", "b.xsb line 7"])
        drawn = [(svg.count('"wall"'), svg.count('"box"'), svg.count('"goal"'),
                  svg.count('"player"')) for svg in re.findall("<svg.*?</svg>", page)]
        self.assertEqual(drawn, [(4, 1, 1, 1), (4, 1, 1, 1), (4, 2, 1, 1)])

    def test_a_board_that_stays_is_drawn_once(self) -> None:
        one, two = "#####\n#@$.#\n#####\n", "######\n#@ $.#\n######\n"
        page = self.page(one, two + "\n" + one)
        self.assertEqual(re.findall("<figcaption>(.*?)</figcaption>", page),
                         ["b.xsb line 1", "b.xsb line 5"])

    def test_nothing_changed(self) -> None:
        one = "#####\n#@$.#\n#####\n"
        self.assertIn("Nothing changed.", self.page(one, one))
