"""The command table: the table of a contest, and its page."""
import html
import os
import re
import time
import unittest
import unittest.mock
from typing import Any, List, Optional, Tuple

from sokotool import auditor, mistakes, texts
from tests.tools import helping
from tests.tools.browser import PROGRAM as BROWSER
from tests.tools.helping import (Case, Result, is_slow, needs_a_memory_limit, needs_copies,
                                 needs_program, used)
from tests.tools.test_page import data_of
from tests.tools.viewing import shared

LEVELS = ("Warm-up\n#######\n#@ $ .#\n#######\n\nCorner turn\n######\n#    #\n#@$  #\n#  . #\n"
          "######\n")
HEAD = "level\tentrant\tstatus\tmoves\tpushes\tchanges\tbest by moves\tbest by pushes"
STANDINGS = ("place\tentrant\tsolved\tunsolvable\trefused\tmissing\tmoves\tpushes\tbest by moves\t"
             "best by pushes\tfault")


def solutions(*letters: Optional[str]) -> str:
    """An answers file with these solutions to the first levels."""
    records = (f"level {number}\nsolution\n{each}\nend\n" for number, each in enumerate(letters, 1)
               if each is not None)
    return "sokoban-answers 1\n" + "".join(records)


class Table(Case):
    def setUp(self) -> None:
        super().setUp()
        patch = unittest.mock.patch.dict(os.environ, SOKOAUDIT=helping.PROGRAM)
        patch.start()
        self.addCleanup(patch.stop)
        self.write("levels.xsb", LEVELS)
        self.write("anna.answers", solutions("rRR", "RurD"))
        self.write("ben.answers", solutions("rRR", "RurD")[:-4])
        self.write("cleo.answers", solutions("rRr", "udRurD"))
        self.write("dora.answers", solutions(None, "RurD"))

    def table(self, *words: str) -> Tuple[Result, List[str], List[str]]:
        """Runs table, and returns the run with its rows and standings."""
        result = self.tool("table", "levels.xsb", *words)
        rows, _, standings = result.out.decode().partition("\n\n")
        return result, rows.split("\n"), standings.split("\n")[:-1]

    def test_contest(self) -> None:
        result, rows, standings = self.table("anna.answers", "ben.answers", "cleo.answers",
                                             "dora.answers")
        self.assertEqual(rows, [
            HEAD, "\tben\tanswers line 9 unclosed\t\t\t\t\t",
            "1\tanna\tsolved\t3\t2\t1\tbest\tbest", "1\tcleo\trefused move 3 case\t\t\t\t\t",
            "1\tdora\tmissing\t\t\t\t\t",
            "2\tanna\tsolved\t4\t2\t1\ttied\ttied", "2\tcleo\tsolved\t6\t2\t1\t\t",
            "2\tdora\tsolved\t4\t2\t1\ttied\ttied"])
        self.assertEqual(standings, [
            STANDINGS, "1\tanna\t2\t0\t0\t0\t7\t4\t2\t2\t", "2\tdora\t1\t0\t0\t1\t4\t2\t1\t1\t",
            "3\tcleo\t1\t0\t1\t0\t6\t2\t0\t0\t",
            "\tben\t\t\t\t\t\t\t\t\tanswers line 9 unclosed"])
        self.assertEqual(result.status, 1)

    @needs_program
    def test_entrants_with_exports(self) -> None:
        """Exports with boards, lists of letters by number or without, and answers with a byte order
        mark or without the first line count like answers files. What the levels' own file has below
        a level is nobody's answer."""
        self.write("levels.xsb", LEVELS + "Solution\nRurD\n")
        first, second = LEVELS.split("\n\n")
        turned = "\n".join(row[::-1] for row in second.split("\n")[1:])
        self.write("emil.sok", f"{turned}\nSolution\nLulD\n\n{first}\n\nrRR\n")
        self.write("fred.txt", "2: RurD\n1: rRR\n")
        self.write("gina.answers", "\ufeff" + solutions("rRR", "RurD"))
        self.write("hugo.txt", "Sorry\n")
        self.write("ines.answers", solutions("rRR", "RurD").partition("\n")[2])
        self.write("jan.txt", "RurD\nrRR\n")
        result, rows, standings = self.table("emil.sok", "fred.txt", "gina.answers", "hugo.txt",
                                             "ines.answers", "jan.txt", "--page", "table.html")
        said = ("no answers file, and no solution of these levels is read in it; hugo.txt line 1: "
                "no level in this file")
        self.assertEqual(standings[1:], [f"1\t{name}\t2\t0\t0\t0\t7\t4\t2\t2\t" for name in (
            "emil.sok", "fred.txt", "gina", "ines", "jan.txt")] + ["\thugo.txt" + "\t" * 9 + said])
        self.assertEqual(rows[1], f"\thugo.txt\t{said}\t\t\t\t\t")
        self.assertEqual((result.status, result.err), (1, ""))
        self.assertEqual(len(data_of(self.read("table.html"))["levels"]), 10)

    @needs_program
    def test_records_in_any_order(self) -> None:
        """Records out of order count, of several for a level the best, and one of a level that
        isn't there or with a wrong number costs no other."""
        first, second = solutions("rRR", "RurD").split("level 2\n")
        one, two = first[18:], "level 2\n" + second
        longer = one.replace("rRR", "rlrRR")
        for name, text in (("emil", two + one), ("fred", longer + one + two + longer),
                           ("gina", one + two + one.replace("level 1", "level 12")),
                           ("hugo", one.replace("level 1", "level 2") + two),
                           ("ines", one + one.replace("level 1", "level 0") + two),
                           ("jan", one.replace("level 1", "level 01") + "".join(
                               one.replace("level 1", f"level {number}")
                               for number in ("-1", "1.5", "9" * 20)) + two)):
            self.write(f"{name}.answers", "sokoban-answers 1\n" + text)
        names = "emil", "fred", "gina", "ines", "jan"
        result, _, standings = self.table(*(f"{it}.answers" for it in (*names, "hugo")))
        self.assertEqual(standings[1:], [*(f"1\t{name}\t2\t0\t0\t0\t7\t4\t2\t2\t"
                                           for name in names),
                                         "6\thugo\t1\t0\t0\t1\t4\t2\t1\t1\t"])
        self.assertEqual((result.status, result.err.splitlines()), (0, [
            "table: emil.answers line 6: the records aren't in order, or several are for a level: "
            "they count as if they were sorted, the best one of each level",
            "table: fred.answers line 6: the records aren't in order, or several are for a level: "
            "they count as if they were sorted, the best one of each level",
            "table: gina.answers line 10: there is no level 12: this record doesn't count",
            "table: ines.answers line 6: there is no level 0: this record doesn't count",
            "table: jan.answers line 6: there is no level -1: this record doesn't count",
            "table: jan.answers line 10: there is no level 1.5: this record doesn't count",
            f"table: jan.answers line 14: there is no level {'9' * 20}: this record doesn't count",
            "table: hugo.answers line 6: the records aren't in order, or several are for a level: "
            "they count as if they were sorted, the best one of each level"]))

    def test_equal_entrants_share_a_place(self) -> None:
        os.mkdir("other")
        self.write("other/anna.answers", self.read("anna.answers"))
        result, _, standings = self.table("anna.answers", "other/anna.answers", "dora.answers")
        self.assertEqual(standings[1:],
                         ["1\tanna\t2\t0\t0\t0\t7\t4\t2\t2\t",
                          "1\tother/anna\t2\t0\t0\t0\t7\t4\t2\t2\t",
                          "3\tdora\t1\t0\t0\t1\t4\t2\t1\t1\t"])
        self.assertEqual(result.status, 0)

    def test_moves_or_pushes(self) -> None:
        """A solution may be best by moves and not by pushes, and a certificate is an answer."""
        self.write("levels.xsb",
                   "#######\n#  .  #\n#  $$ #\n#  .@ #\n#     #\n#######\n\n#####\n#$ .#\n# @ #\n"
                   "#####\n")
        lost = "level 2\nunsolvable\npattern 2,2 @ *\nend\n"
        self.write("moves.answers", solutions("UruLLDlluR"))
        self.write("pushes.answers", solutions("lUdrruulDrdL") + lost)
        _, rows, standings = self.table("moves.answers", "pushes.answers")
        self.assertEqual(rows[1:], ["1\tmoves\tsolved\t10\t5\t3\tbest\t",
                                    "1\tpushes\tsolved\t12\t3\t2\t\tbest",
                                    "2\tmoves\tmissing\t\t\t\t\t",
                                    "2\tpushes\tunsolvable patterns 1\t\t\t\t\t"])
        self.assertEqual(standings[1:],
                         ["1\tpushes\t1\t1\t0\t0\t12\t3\t0\t1\t",
                          "2\tmoves\t1\t0\t0\t1\t10\t5\t1\t0\t"])

    def test_limits_beyond_what_a_system_has(self) -> None:
        for seconds in ("inf", "1e300"):
            self.assertEqual(self.table("anna.answers", "--seconds", seconds, "--memory", "9" * 30),
                             self.table("anna.answers"))

    @needs_a_memory_limit
    def test_five_with_a_broken_file_and_a_list_of_20_megabytes(self) -> None:
        """A file affects only its entrant, and takes no more than its time and memory."""
        hall = "#" * 60 + "\n" + ("#" + "$ .  " * 11 +
                                  "   #\n") * 50 + "#@" + " " * 57 + "#\n" + "#" * 60 + "\n"
        self.write("levels.xsb", LEVELS + "\nHall\n" + hall)
        cells = " ".join(f"{column},2" for column in range(2, 58))
        lines = "".join(f"pattern {cells} {2 + at % 50},{3 + at // 50 % 48} @ 2,45 3,45 4,45 5,45\n"
                        for at in range(65536))
        self.write("eve.answers", solutions("rRR", "RurD") + "level 3\nunsolvable\n" + lines +
                   "end\n")
        self.assertGreater(os.path.getsize("eve.answers"), 20_000_000)
        self.write("frank.answers", "no answers\n")
        began = used()
        memory = "120" if auditor.find().is_reference else "25"
        result, rows, standings = self.table(
            *(f"{name}.answers" for name in ("anna", "ben", "cleo", "eve", "frank")), "--seconds",
            "20", "--memory", memory, "--page", "page.html")
        self.assertLess(used() - began, 40)
        self.assertEqual((result.status, len(rows), len(standings)), (1, 1 + 3 + 3 * 2, 6))
        self.assertEqual([row.split("\t")[:3] for row in standings[1:3]],
                         [["1", "anna", "2"], ["2", "cleo", "1"]])
        faults = {row.split("\t")[1]: row.split("\t")[10] for row in standings[3:]}
        self.assertEqual(faults, {
            "ben": "answers line 9 unclosed", "eve": "out of memory",
            "frank": "no answers file, and no solution of these levels is read in it; "
                     "frank.answers line 1: no level in this file"})

    @needs_a_memory_limit
    def test_limits(self) -> None:
        for name, body in (("slow", "exec sleep 30"),
                           ("large", "exec python3 -c 'bytearray(10 ** 9)'"),
                           ("killed", "kill -9 $$")):
            self.write(name, f"#!/bin/sh\n{body}\n")
            os.chmod(name, 0o755)
        for name, why in (("slow", "stopped after 0.5 s"), ("large", "MemoryError"),
                          ("killed", "ended by signal 9")):
            with unittest.mock.patch.dict(os.environ, SOKOAUDIT=os.path.realpath(name)):
                result, rows, _ = self.table("anna.answers", "--seconds", "0.5" if name == "slow"
                                             else "20", "--memory", "200")
            self.assertEqual((result.status, rows[1:]), (1, [f"\tanna\t{why}\t\t\t\t\t"]))

    def test_reading_has_the_same_limits(self) -> None:
        """A file that takes its reader long costs its entrant alone, in the time of the limit."""
        self.write("eve.txt", ("#######\n#@ $ .#\n#######\nrlrlrlrlRR\n\n" * 1_000))
        began = time.monotonic()
        result, rows, standings = self.table("anna.answers", "eve.txt", "cleo.answers",
                                             "--seconds", "1.5")
        self.assertLess(time.monotonic() - began, 60)
        self.assertEqual((result.status, rows[1]), (1, "\teve.txt\tstopped after 1.5 s\t\t\t\t\t"))
        self.assertEqual([row.split("\t")[1] for row in standings[1:]], ["anna", "cleo", "eve.txt"])

    @needs_a_memory_limit
    def test_reading_has_a_limit_of_memory(self) -> None:
        self.write("eve.txt", "; \n" * 10_000_000)
        _, rows, standings = self.table("anna.answers", "eve.txt", "--memory", "100")
        self.assertEqual(rows[1], "\teve.txt\tout of memory\t\t\t\t\t")
        self.assertEqual([row.split("\t")[1] for row in standings[1:]], ["anna", "eve.txt"])

    @needs_copies
    def test_what_a_file_makes_of_its_reader(self) -> None:
        """A fault of the reader itself, and its death, cost the entrant alone."""
        for fault, why in ((ValueError("no"), "cannot be read: ValueError('no')"),
                           (MemoryError, "out of memory"), (SystemExit, "ended by signal 9")):
            def read(name: str, fault: Any = fault) -> bytes:
                if name != "eve.txt":
                    return self.read(name)
                if fault is SystemExit:
                    os.kill(os.getpid(), 9)
                raise fault
            with unittest.mock.patch.object(texts, "read", read):
                _, rows, standings = self.table("anna.answers", "eve.txt")
            self.assertEqual(rows[1], f"\teve.txt\t{why}\t\t\t\t\t")
            self.assertEqual([row.split("\t")[1] for row in standings[1:]], ["anna", "eve.txt"])

    @needs_program
    def test_messages_about_a_file(self) -> None:
        """The first ten of each file are printed, and the text to mail has all."""
        self.write("gina.answers", solutions("rRR") + "".join(
            f"level {number}\nsolution\nR\nend\n" for number in range(3, 18)))
        result, _, _ = self.table("gina.answers", "--mail", "out")
        lines = result.err.splitlines()
        self.assertEqual((len(lines), lines[0], lines[-1]), (
            11, "table: gina.answers line 6: there is no level 3: this record doesn't count",
            "table: gina: 5 more messages"))
        self.assertEqual(self.read("out/gina.result.txt").count(b"  gina.answers line "), 15)

    def test_errors(self) -> None:
        self.assertEqual(self.tool("table", "gone", "anna.answers").status, 2)
        result, rows, _ = self.table("gone.answers")
        self.assertEqual((result.status, rows[1]), (
            1, "\tgone\tcannot read gone.answers: No such file or directory\t\t\t\t\t"))

    # ---- the page

    def test_page_has_every_answer(self) -> None:
        self.write("refused.answers",
                   "sokoban-answers 1\n; a comment\nlevel 1\nsolution\nrRR\nend\nlevel 2\n"
                   "unsolvable\npattern 3,3 @ *\nend\n")
        self.table("anna.answers", "ben.answers", "cleo.answers", "refused.answers", "--page",
                   "page.html")
        page = self.read("page.html")
        data = data_of(page)
        self.assertEqual(data["fault"], "")
        self.assertEqual([level["title"] for level in data["levels"]], [
            f"{name}, level {number}, {title}" for name in ("anna", "cleo", "refused")
            for number, title in ((1, "Warm-up"), (2, "Corner turn"))])
        links = re.findall(r'<td class="number">(\d+)</td><td>(\w+)</td><td><a href="#(\d+)">'
                           r'([^<]+)</a>', page.decode())
        self.assertEqual(links,
                         [("1", "anna", "1", "solved"), ("1", "cleo", "3", "refused move 3 case"),
                          ("1", "refused", "5", "solved"),
                          ("2", "anna", "2", "solved"), ("2", "cleo", "4", "solved"),
                          ("2", "refused", "6", "refused line 9 push 3,2 d")])
        self.assertEqual(page.count(b"answers line 9 unclosed"), 3)
        line = data["verdicts"]["6"]["words"][1]
        self.assertIn([int(line), "pattern 3,3 @ *"], data["records"]["6"]["body"])

    def test_matrix(self) -> None:
        """A row for each level, with its title, and a column for each entrant whose file was
        audited. Each refusal has its reason and a place for its picture."""
        self.write("eve.answers", "sokoban-answers 1\nlevel 1\nsolution\nr\nlevel 2\nend\n"
                   "level 2\nunsolvable\npattern 3, 3 @ *\nend\n")
        self.table("anna.answers", "ben.answers", "cleo.answers", "dora.answers", "eve.answers",
                   "--page", "page.html")
        page = self.read("page.html").decode()
        matrix = page.split("<caption>")[1]
        self.assertTrue(matrix.startswith("Levels by entrants</caption>"))
        self.assertEqual(re.findall("<button>(.*?)</button>", matrix),
                         ["level", "title", "anna", "cleo", "dora", "eve"])
        rows = re.findall("<tr>(<td.*)</tr>", matrix)
        self.assertEqual(rows, [
            '<td class="number">1</td><td>Warm-up</td>'
            '<td class="solved best"><a href="#1">3/2</a></td>'
            '<td class="refused"><a href="#3">refused</a></td><td></td>'
            '<td class="refused"><a href="#6">refused</a></td>',
            '<td class="number">2</td><td>Corner turn</td>'
            '<td class="solved tied"><a href="#2">4/2</a></td>'
            '<td class="solved"><a href="#4">6/2</a></td>'
            '<td class="solved tied"><a href="#5">4/2</a></td>'
            '<td class="refused"><a href="#7">refused</a></td>'])
        refused = page.split("<h2>Refused</h2>")[1].split("<table>")[0]
        self.assertEqual(re.sub(" class=.*?(?= )", "", refused).splitlines(), [
            "", "<h3>ben</h3>", "<p><code>answers line 9 unclosed</code> The file ends inside a "
            "record. Add the line &#x27;end&#x27;.</p>",
            '<h3><a href="#3">cleo, level 1, Warm-up</a></h3>',
            "<p><code>refused move 3 case</code> A push is a capital letter, and a step without a "
            "push a small one. Let sokotool convert write the letters in the right case.</p>",
            '<div data-number="3"></div>',
            '<h3><a href="#6">eve, level 1, Warm-up</a></h3>',
            "<p><code>refused move 3 letter</code> The letter is none of l u r d L U R D. Here: "
            f"{html.escape(mistakes.JOINED)}. Remove it, or let sokotool convert read the file."
            "</p>", '<div data-number="6"></div>',
            '<h3><a href="#7">eve, level 2, Corner turn</a></h3>',
            "<p><code>refused line 9 syntax</code> The line isn&#x27;t a pattern or a zone. Here: "
            f"{mistakes.COMMA}. Write a cell as column,row without a space, the cells in reading "
            "order, and a space on each side of @; sokotool warn names the mistake.</p>",
            '<div data-number="7"></div>'])

    def test_texts_to_mail(self) -> None:
        self.write("levels.xsb", LEVELS + "\nOpen\n###\n#@$.\n###\n")
        self.write("eve.answers", "sokoban-answers 1\nlevel 1\nsolution\nrRl\nend\n"
                   "level 2\nunsolvable\npattern 3, 3 @ *\nend\n")
        names = [f"{name}.answers" for name in ("anna", "ben", "cleo", "eve")]
        self.table(*names, "--mail", "in/out")
        self.assertEqual(sorted(os.listdir("in/out")), [
            "anna.result.txt", "ben.result.txt", "cleo.result.txt", "eve.result.txt"])
        self.assertEqual(self.read("in/out/cleo.result.txt").decode(), """\
Contest levels.xsb, entrant cleo
Place 2: 1 solved, 0 unsolvable, 2 refused, 0 missing; 6 moves and 2 pushes in all

Level 1, Warm-up: refused move 3 case
  A push is a capital letter, and a step without a push a small one. Let
  sokotool convert write the letters in the right case.
    #######
    #  @$.#
    #######

Level 2, Corner turn: solved moves 6 pushes 2 changes 1

Level 3, Open: refused board open
  The player could walk out of the level. Look for a missing wall, a tab, or a
  row that was cut off.
""")
        said = self.read("in/out/eve.result.txt").decode()
        for it in ("Level 1, Warm-up: refused unsolved 1\n", "    #######\n    # @ $.#\n",
                   f"Here: {mistakes.COMMA}", "    pattern 3, 3 @ *\n"):
            self.assertIn(it, re.sub(r"\n  (?! )", " ", said) if it[0] == "H" else said)
        self.assertIn(b", best by moves, best by pushes", self.read("in/out/anna.result.txt"))
        self.assertEqual(self.read("in/out/ben.result.txt").decode(), """\
Contest levels.xsb, entrant ben
The file could not be audited: answers line 9 unclosed
  The file ends inside a record. Add the line 'end'.
""")

    def test_texts_to_mail_write_over_no_entrant(self) -> None:
        self.write("anna.result.txt", self.read("anna.answers"))
        self.write("a\tb.answers", self.read("anna.answers"))
        result = self.tool("table", "levels.xsb", "anna.answers", "anna.result.txt", "--mail", ".")
        said = result.err.replace(f"table: {auditor.REFERENCE_NOTE}\n", "")
        self.assertEqual((result.status, said), (2, "table: would write over ./anna.result.txt\n"))
        self.assertEqual(self.read("anna.result.txt"), self.read("anna.answers"))
        self.tool("table", "levels.xsb", "a\tb.answers", "anna.answers", "--mail", "out")
        self.assertEqual(sorted(os.listdir("out")), ["a-b.result.txt", "anna.result.txt"])
        self.write("file", "")
        self.assertEqual(self.tool("table", "levels.xsb", "anna.answers", "--mail", "file").status,
                         2)

    def test_names_are_text(self) -> None:
        name = "<b>&\n\t.answers"
        self.write(name, self.read("anna.answers"))
        result, rows, _ = self.table(name, "--page", "page.html")
        self.assertIn("1\t<b>&  \tsolved\t3", rows[1])
        self.assertIn(b"<td>&lt;b&gt;&amp;  </td>", self.read("page.html"))

    def test_names_that_differ_in_their_end(self) -> None:
        self.write("anna", solutions("rRR"))
        _, rows, standings = self.table("anna", "anna.answers")
        self.assertEqual(rows[1:], [
            "1\tanna\tsolved\t3\t2\t1\ttied\ttied",
            "1\tanna.answers\tsolved\t3\t2\t1\ttied\ttied",
            "2\tanna\tmissing\t\t\t\t\t", "2\tanna.answers\tsolved\t4\t2\t1\tbest\tbest"])
        self.assertEqual(standings[1:], ["1\tanna.answers\t2\t0\t0\t0\t7\t4\t2\t2\t",
                                         "2\tanna\t1\t0\t0\t1\t3\t2\t1\t1\t"])

    def test_names_that_are_formulas(self) -> None:
        """A spreadsheet runs none, wherever a name is printed."""
        signs = "=+-@"
        for sign in signs:
            self.write(f"{sign}1.answers", solutions("rRR") if sign != "=" else "no answers\n")
        _, rows, standings = self.table("--", *(f"{sign}1.answers" for sign in signs))
        printed = [row.split("\t")[1] for row in rows[1:] + standings[1:]]
        self.assertEqual({*printed}, {f"'{sign}1" for sign in signs})

    @is_slow
    @unittest.skipUnless(BROWSER, "there is no browser (chromium) here")
    def test_page_in_a_browser(self) -> None:
        """The table sorts by a click, and closes for an answer."""
        self.table("anna.answers", "ben.answers", "cleo.answers", "--page", "page.html")
        page = self.read("page.html").decode()
        heads = "#contest table:last-of-type th button"
        click = f"<script>document.querySelectorAll('{heads}')[3].click()</script>"
        # without the policy, since it lets no other script run
        page = re.sub("<meta http-equiv.*>", "", page)
        self.write("sorted.html", page.replace("</body>", click + "</body>"))
        shared.start()
        cases: List[Tuple[str, str, List[Any]]] = [
                ("sorted.html",
                 r'<td class="number">(\d+)</td><td class="number">\d+</td><td class="number">1</'
                 r'td>', ["3", "4", "6"]),
                ("page.html", r'<details id="contest"( open="")?>', [' open=""']),
                ("page.html", r'<div class="refusal" data-number="(\d+)"><div [^>]*><svg '
                 r'[^>]*aria-label="([^"]*)', [("3", "box 5,2; player 4,2")]),
                ("page.html#4:end", r'<details id="contest"( open="")?>', [""]),
                ("page.html#4:end", r'data-name="moves">moves <b>(\d+)', ["6"])]
        for name, pattern, wanted in cases:
            shared.open(f"file://{self.folder}/{name}")
            if "refusal" in pattern:
                self.assertTrue(shared.until("!!document.querySelector('.refusal svg')"))
            found = shared.ask("document.documentElement.outerHTML")
            self.assertEqual(re.findall(pattern, found)[-len(wanted):], wanted, name)
