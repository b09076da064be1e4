"""The usual mistakes in certificates: what warn, check and a solver's refusal say of each."""
import json
import os
import re
from typing import List, Sequence, Tuple

from sokotool import mistakes
from sokotool.levels import Level
from sokotool.mistakes import (ALONE, BLANKS, COMMA, EITHER, FROM_ZERO, OLD, ORDER, OTHER, PLAYER,
                               SPACES, SWAPPED, TWICE, ZERO)

from tests.tools.helping import SAMPLES, Case

PAIR = "##########\n#@$ $ ..##\n###### ###\n#.   $   #\n##########\n"
# the lines of a certificate; what is said of each without the board, or ""; and with the board
# where that is something else
ROWS: List[Tuple[str, Sequence[str], Sequence[str]]] = [
    ("pattern 3,2 5,2 @ 2,2/pattern 4,2 5,2 @ *", ["", ""], []),
    # the four
    ("pattern 2,3 2,5 @ 2,2/pattern 2,3 @ 2,2", ["", ""], [SWAPPED, SWAPPED]),
    ("pattern 2,5 4,2 @ *", [EITHER], [SWAPPED]),
    ("pattern 4,2 2,4 3,4 @ *", [""], []),
    ("pattern 2,4 4,2 @ *", [EITHER], []),
    ("pattern 2,4 8,2 @ *", [EITHER], [ORDER]),
    ("pattern 5,2 3,2 @ 2,2", [ORDER], []),
    ("pattern 3,2 5,2 @ 4,2 2,2", [ORDER], []),
    ("pattern 3,2 5,2 @2,2/pattern 3,2 5,2@ 2,2/pattern 3,2@*", [SPACES] * 3, []),
    ("pattern 3, 2 5, 2 @ 2, 2/pattern 3 ,2 @ *", [COMMA] * 2, []),
    # others
    ("pattern 2,1 4,1 @ 1,1/pattern 2,1 @ *", ["", ""], [FROM_ZERO] * 2),
    ("pattern 0,1 @ *", [FROM_ZERO], []),
    ("pattern  3,2 @ */pattern 3,2\t@ */pattern 3,2 @ *\x20/\x20pattern 3,2 @ *", [BLANKS] * 4, []),
    ("pattern 03,2 @ */pattern 3,02 @ *", [ZERO] * 2, []),
    ("pattern 3,2 3,2 @ *", [TWICE], []),
    ("pattern 3,2/pattern 3,2 @/pattern 3,2 @ x", [PLAYER] * 3, []),
    ("box 3,2/Pattern 3,2 @ */pattern (3,2) @ *", [OTHER] * 3, []),
    ("pattern 5, 2 3,2 @2,2", [f"{COMMA}; {SPACES}; {ORDER}"], []),
    ("pattern 3,2 @ */pattern 1,1 30,2 @ *", ["", ""], ["", "1,1 is a wall"]),
    ("pattern 3,2 @ */pattern 3,2 30,2 @ *", ["", ""], ["", "30,2 is off the board"])]


class Mistakes(Case):
    def test_rows(self) -> None:
        level = Level(1, PAIR.encode().split(b"\n")[:-1], 1)
        for text, alone, beside in ROWS:
            lines = text.encode().split(b"/")
            for known, wanted in ((None, alone), (level, beside or alone)):
                found = mistakes.of_lines(lines, known)
                self.assertEqual([found.get(at, "") for at in range(len(lines))], [*wanted], text)

    def test_zones(self) -> None:
        for lines, version, wanted in (
                (["zone 3,2 4,2"], 2, {}), (["zone 3,2 4,2"], 1, {0: OLD}),
                (["zone 4,2 3,2"], 2, {0: ORDER}),
                (["zone 3,2 4,2", "pattern 3,2 @ *"], 2, {1: ALONE}),
                (["pattern 3,2 @ *", "zone 3,2 4,2"], 2, {1: ALONE})):
            self.assertEqual(mistakes.of_lines([it.encode() for it in lines], None, version),
                             wanted, lines)

    def test_what_an_audit_accepts_has_no_mistake(self) -> None:
        for name in ("deadlocks", "every", "first"):
            text = self.sample(f"{name}.report")
            self.write("levels.xsb", self.sample(f"{name}.xsb"))
            self.write("some.answers", self.sample(f"{name}.answers"))
            said = self.tool("warn", "levels.xsb", "some.answers").out.decode()
            lines = [line for line in said.splitlines() if line.startswith("some.answers")]
            bad = [line.split()[4] for line in text.decode().splitlines()
                   if line.split()[2:4] == ["refused", "line"]
                   and line.split()[5] in ("syntax", "board", "wall")]
            self.assertEqual([it.split()[2][:-1] for it in lines if it.split()[2][:-1] in bad], bad)
            if name != "every":
                self.assertEqual(lines, [])

    def test_warn(self) -> None:
        """Levels are those of the file before. A fault of the whole file is printed alone."""
        self.write("a.xsb", PAIR)
        record = "level 1\nunsolvable\n{}\nend\n"
        self.write("a.answers", "sokoban-answers 1\n; mine\n" + record.format(
            "pattern 2,3 2,5 @2,2\n\npattern 2,5 4,2 @ *"))
        for words, wanted in ((["a.answers"], [f"line 5: {SPACES}", f"line 7: {EITHER}"]),
                              (["a.xsb", "a.answers"],
                               [f"line 5: {SPACES}; {SWAPPED}", f"line 7: {SWAPPED}"])):
            result = self.tool("warn", *words)
            self.assertEqual((result.status, result.out.decode().splitlines()),
                             (1, [f"a.answers {it}" for it in wanted]))
        for text, why in (
                ("levle 1\n", "line 2: 'levle 1' is neither a line 'level N' nor a comment, which "
                              "begins with ';'"),
                (record.format("pattern 3,2 @ *").replace("level 1", "level 2"),
                 "line 2: 'level 2': there is no such level, the highest is 1"),
                ("level 1\nunsolvable\nlevel 2\nend\n", "line 4: 'level 2': the record above it "
                                                        "lacks its last line, 'end'")):
            self.write("a.answers", "sokoban-answers 1\n" + text)
            self.assertEqual(self.tool("warn", "a.xsb", "a.answers").out.decode(),
                             f"a.answers {why}\n")
        self.write("a.answers", "\ufeffsokoban-answers 1\n")
        self.assertIn(b"a.answers line 1: a byte order mark, which an audit refuses",
                      self.tool("warn", "a.answers").out)
        self.write("a.answers", "sokoban-answers 1\n" + record.format("pattern 3,2 5,2 @ 2,2"))
        self.assertEqual(self.tool("warn", "a.xsb", "a.answers").out, b"")

    def test_many_lines(self) -> None:
        """The longest list takes seconds, and the first thousand warnings are printed."""
        lines = "".join(f"pattern {2 + at % 7},2 @{2 + at % 5},2\n" for at in range(65_536))
        self.write("a.answers", f"sokoban-answers 1\nlevel 1\nunsolvable\n{lines}end\n")
        self.write("a.xsb", PAIR)

        def work() -> None:
            said = self.tool("warn", "a.xsb", "a.answers").out.splitlines()
            self.assertEqual((len(said), said[-1]), (1001, b"a.answers: 64536 more warnings"))
        self.takes_less(3, work)

    def test_a_long_row_of_blanks(self) -> None:
        """No blank of it is looked at more than once, whatever comes after them."""
        blanks = "pattern 3,2" + " " * 50_000 + "@ *"
        self.write("a.answers", f"sokoban-answers 1\nlevel 1\nunsolvable\n{blanks}\nend\n")
        self.write("a.xsb", PAIR)
        self.takes_less(.5, lambda: self.tool("warn", "a.xsb", "a.answers"))

    def test_a_refused_line_in_the_summary(self) -> None:
        self.write("a.txt", PAIR)
        self.write("my.xsb", PAIR)
        self.write("my.answers", "sokoban-answers 1\nlevel 1\nunsolvable\npattern 3, 2 @ *\nend\n")
        result = self.tool("check", "my", "a.txt", "--seconds", "0", "--csv")
        why = f"refused line 4 syntax: The line isn't a pattern or a zone. Here: {COMMA}."
        self.assertIn(why, result.out.decode())
        self.assertIn(why[len("refused "):], self.read("my.csv").decode())

    def test_wherever_a_refusal_is_shown(self) -> None:
        """The four usual mistakes, in what named prints and in the data of the page."""
        refused = (("pattern 2,3 2,5 @ 2,2", "wall", SWAPPED),
                   ("pattern 5,2 3,2 @ 2,2", "syntax", ORDER),
                   ("pattern 3,2 5,2 @2,2", "syntax", SPACES),
                   ("pattern 3, 2 @ *", "syntax", COMMA))
        self.write("a.xsb", "\n".join([PAIR] * 5))
        self.write("a.answers", "sokoban-answers 1\n" + "".join(
            f"level {number}\nunsolvable\n{line}\nend\n"
            for number, (line, _, _) in enumerate(refused, 1)))
        self.write("a.report", "".join(
            f"level {number} refused line {4 * number} {word}\n"
            for number, (_, word, _) in enumerate(refused, 1)) + "level 5 missing\n"
            "total 5 solved 0 unsolvable 0 refused 4 missing 1\n")
        words = "named", "a.xsb", "a.report", "--answers", "a.answers"
        plain, made, rows = (self.tool(*words, *more).out.decode().splitlines()
                             for more in ((), ("--json",), ("--csv",)))
        drawn = self.tool("page", "a.xsb", "a.answers", "a.report").out.decode()
        page = json.loads(re.findall('id="data">(.*?)</script>', drawn)[0])
        for number, (_, _, why) in enumerate(refused):
            self.assertEqual(plain[number].split("\t")[3:], [why])
            self.assertTrue(json.loads(made[number])["reason"].endswith(f" Here: {why}."))
            self.assertIn(f" Here: {why}.", rows[number + 1])
            self.assertEqual(page["verdicts"][str(number + 1)]["mistake"], why)
        self.assertEqual(plain[4].count("\t"), 2)
        self.assertNotIn("mistake", page["verdicts"]["5"])
        without = self.tool(*words[:3]).out.decode().splitlines()
        self.assertEqual([line.split("\t")[:3] for line in plain],
                         [line.split("\t") for line in without])

    def test_the_page_of_messages(self) -> None:
        """Each row of its table is said of what is typed there, and what should be is right."""
        with open(os.path.join(os.path.dirname(SAMPLES), "docs/messages.md"),
                  encoding="utf-8") as file:
            rows = [line.strip("| \n").split(" | ") for line in file if line.startswith("| `pat")]
        self.assertEqual(len(rows), 5)
        level = Level(1, PAIR.encode().split(b"\n")[:-1], 1)
        for typed, right, why in rows:
            found = mistakes.of_lines([typed.strip("`").encode()], level)
            self.assertTrue(found[0].startswith(why), (found, why))
            self.assertEqual(mistakes.of_lines([right.strip("`").encode()], level), {})
