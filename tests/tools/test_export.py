"""The command export: what it writes comes back by convert."""
import glob
import os
import random
import re
import unittest
from typing import Any, Dict, List, NamedTuple, Set, Tuple
from xml.dom import minidom

from sokotool import answers, levels
from sokotool.board import Board
from sokotool.commands import export
from sokotool.formats import exporting
from tests.tools.helping import ONE, SAMPLES, Case

MAPS = "/usr/share/games/cavepacker/maps"
COLLECTIONS = 250
TITLES = ["", "", "One", "Level 1", "Dull", "rRR", "12", "A & B <c> \"d\"", "Chapter: Two", "by me",
          "Solution: R", "\u00c4rger", "\u7b2c\u4e00", "R2-D2 -- again", "Title: of a title", "-",
          "it's | that", "Comment", "(c) 2001", "Snapshot"]
TEXTS = ["Author: A. Nobody", "; a comment", "Comment:\nfirst\n\nsecond\nComment-End:",
         "Date: 2001-02-03", "Difficulty: 3 -- hard", "Copyright: B & C", "Email: a@example.org"]
NOTES = ["; by somebody", "; 2003-05-01", "; Author: D"]


Cell = Tuple[int, int]


class Known(NamedTuple):
    """What a collection has: for each level its rows, its title and its letters."""
    rows: List[List[str]]
    titles: List[str]
    letters: Dict[int, str]


def known(text: bytes, solved: bytes) -> Known:
    """What is in a levels text and an answers text; certificates are left out."""
    found = levels.read(text)
    records = answers.read(solved, len(found)).records
    return Known([[exporting.plain(row) for row in level.rows] for level in found],
                 [" ".join(level.title.split()) for level in found],
                 {it.level: it.letters.decode() for it in records if it.kind == "solution"})


class Generator:
    """Random collections, with solutions that were made by playing backwards from the goals."""

    def __init__(self, seed: int) -> None:
        self.chance = random.Random(seed)

    def collection(self) -> Tuple[str, str]:
        """The texts of the levels and of the answers."""
        text = self.chance.choice(["", "Collection: All\n\n", "; first line\n\n"])
        records: List[str] = []
        for number in range(1, self.chance.randint(2, 6)):
            rows, letters = self.level()
            title = self.chance.choice(TITLES)
            text += "\n".join(rows) + "\n" + (f"Title: {title}\n" if title else "")
            for line in self.chance.sample(TEXTS, self.chance.choice([0, 0, 1, 2])):
                text += self.chance.choice(["", "\n"]) + line + "\n"
            text += "\n"
            if self.chance.random() < .7:
                notes = self.chance.sample(NOTES, self.chance.choice([0, 0, 1]))
                records.append("\n".join([f"level {number}", "solution", *notes, letters, "end"]))
        return text, "\n".join(["sokoban-answers 1", *records]) + "\n"

    def level(self) -> Tuple[List[str], str]:
        """The rows of a closed level, and letters that solve it."""
        width, height = self.chance.randint(4, 9), self.chance.randint(4, 8)
        walls = {(x, y) for x in range(width) for y in range(height)
                 if x in (0, width - 1) or y in (0, height - 1) or self.chance.random() < .15}
        floor = sorted({(x, y) for x in range(width) for y in range(height)} - walls)
        if len(floor) < 3:
            return self.level()
        count = self.chance.randint(1, min(3, len(floor) - 1))
        goals = set(self.chance.sample(floor, count))
        player = self.chance.choice([cell for cell in floor if cell not in goals])
        boxes, letters = set(goals), ""
        for _ in range(self.chance.randint(1, 40)):
            player, letters = self.back(walls, boxes, player, letters)
        # A level that is solved at once is solved by any word of letters, such as a title.
        if boxes == goals:
            return self.level()
        return self.drawn(width, height, (walls, goals, boxes, player)), letters

    def back(self, walls: Set[Cell], boxes: Set[Cell], player: Cell, letters: str
             ) -> Tuple[Cell, str]:
        """A step back, which may pull a box."""
        x, y = player
        name, dx, dy = self.chance.choice([("l", -1, 0), ("u", 0, -1), ("r", 1, 0), ("d", 0, 1)])
        to, box = (x - dx, y - dy), (x + dx, y + dy)
        if to in walls or to in boxes:
            return player, letters
        if box in boxes and self.chance.random() < .6:
            boxes.remove(box)
            boxes.add(player)
            return to, name.upper() + letters
        return to, name + letters

    def drawn(self, width: int, height: int, things: Any) -> List[str]:
        """The rows of a board, with one of the characters for floor."""
        walls, goals, boxes, player = things
        floor, rows = self.chance.choice("   -_"), []
        for y in range(height):
            rows.append("".join(
                "#" if cell in walls else ("+" if cell in goals else "@") if cell == player
                else ("*" if cell in goals else "$") if cell in boxes
                else "." if cell in goals else floor for cell in ((x, y) for x in range(width))))
        return rows


class Export(Case):
    def back(self, form: str, name: str = "mine") -> Tuple[object, Known]:
        """Exports a collection and converts what was written. Returns the status of the export,
        and what came back."""
        result = self.tool("export", name, "--to", form, "-o", "there." + form)
        for end in (".xsb", ".answers"):
            if os.path.exists("back" + end):
                os.remove("back" + end)
        self.tool("convert", "back", "-", given=self.read("there." + form))
        return result.status, known(self.read("back.xsb"), self.read("back.answers"))

    def test_samples(self) -> None:
        """Each sample comes back in all forms. XML holds torn levels and walls alone too."""
        names = [it[:-4] for it in sorted(glob.glob(os.path.join(SAMPLES, "*.xsb")))]
        self.assertGreaterEqual(len(names), 5)
        for name in names:
            solved = b"sokoban-answers 1\n"
            if os.path.exists(name + ".answers"):
                solved = self.read(name + ".answers")
            wanted = known(self.read(name + ".xsb"), solved)
            for form in exporting.FORMS:
                status, back = self.back(form, name)
                if os.path.basename(name) in ("every", "readme"):  # with a refused solution
                    self.assertEqual(status, 1)
                elif os.path.basename(name) == "exports" and form != "slc":
                    left = iter(wanted.rows)
                    self.assertTrue(all(rows in left for rows in back.rows))
                    self.assertEqual((status, sorted(back.letters.values())),
                                     (1, sorted(wanted.letters.values())))
                else:
                    self.assertEqual((status, back), (0, wanted), (name, form))

    def test_what_is_left_out_is_reported(self) -> None:
        """Of the samples with every line of a report, solutions that are refused stay behind."""
        name = os.path.join(SAMPLES, "every")
        refused = sum(line.split()[2:4] in (["refused", "move"], ["refused", "unsolved"])
                      for line in self.read(name + ".report").decode().splitlines())
        result = self.tool("export", name, "--to", "slc")
        self.assertEqual(result.err.count("not exported, as it is refused"), refused)
        self.assertIn(f"{name}.answers line", result.err)

    def test_boards_that_are_refused(self) -> None:
        """The reason is the auditor's."""
        rows = "#" * 256 + "\n#@$" + " " * 251 + ".#\n" + "#" * 256, "#####\n# $.#\n#####"
        self.write("mine.xsb", "\n\n".join(rows))
        self.write("mine.answers", "sokoban-answers 1\n" + "".join(
            f"level {level}\nsolution\nR\nend\n" for level in (1, 2)))
        self.assertEqual([it.split(": ")[-1] for it in self.tool(
            "export", "mine", "--to", "sok").err.splitlines()[:2]], ["board size", "board player"])

    def test_generated(self) -> None:
        """Collections come back whole: levels, titles and solutions."""
        with_letters = 0
        for seed in range(COLLECTIONS):
            text, solved = Generator(seed).collection()
            self.write("mine.xsb", text)
            self.write("mine.answers", solved)
            wanted = known(text.encode(), solved.encode())
            with_letters += len(wanted.letters)
            form = sorted(exporting.FORMS)[seed % len(exporting.FORMS)]
            self.assertEqual(self.back(form), (0, wanted), (seed, form))
        self.assertGreater(with_letters, COLLECTIONS)

    def test_forms(self) -> None:
        """What other programs get to see."""
        self.write("mine.xsb", "Collection: All\n\n" + ONE + "Title: A & B\nAuthor: C\n")
        self.write("mine.answers", "sokoban-answers 1\nlevel 1\nsolution\n; by D\nR\nend\n")
        self.assertEqual(self.tool("export", "mine", "--to", "sok").out.decode(), (
            f"Collection: All\n\n{ONE}Title: A & B\n; Note: by D\nAuthor: C\n\nSolution\nR\n"))
        self.assertEqual(self.tool("export", "mine", "--to", "rle").out.decode().splitlines()[2:4],
                         ["5#|#@$.#|5#", "Title: A & B"])
        self.assertEqual(self.tool("export", "mine", "--to", "xsb").out.decode(), (
            f"; Collection: All\n\n; A & B\n{ONE}; Solution\n; R\n\n; Note: by D\n; Author: C\n"))
        document = minidom.parseString(self.tool("export", "mine", "--to", "slc").out)
        (level,) = document.getElementsByTagName("Level")
        self.assertEqual({name: level.getAttribute(name)
                          for name in ("Id", "Width", "Height", "Copyright")},
                         {"Id": "A & B", "Width": "5", "Height": "3", "Copyright": "C"})
        self.assertEqual([it.firstChild.data for it in level.getElementsByTagName("L")],
                         ONE.split())
        self.write("mine.xsb", f"{ONE}; File: b\nAuthor: D\n\n{ONE}")
        self.assertNotIn(b"Copyright", self.tool("export", "mine", "--to", "slc").out)
        self.write("mine.xsb", ONE + "; so ---- it is --\n")  # what XML has in no comment
        self.assertIn(b"<!-- so - - - - it is  -->",
                      self.tool("export", "mine", "--to", "slc").out)

    def test_texts_come_back(self) -> None:
        """Also those that have something in common with a tag."""
        said = ["; of Bob <bob@example.org>", "; 1 < 2 & <b>3</b>", "; <Level 1> & Lot 2"]
        self.write("mine.xsb", "".join(line + "\n" for line in ["Top", *said, "", *ONE.split()]
                                       + ["Title: One", *said]))
        for to in exporting.FORMS:
            self.assertEqual(self.tool("export", "mine", "--to", to, "-o", "out").status, 0)
            self.tool("convert", to, "out")
            found = [it for it in self.read(to + ".xsb").decode().splitlines() if it in said]
            self.assertEqual(found, [*said, *said], to)

    def test_a_byte_order_mark_is_no_text(self) -> None:
        text = "Title: One\n\n" + ONE
        for name, encoding in (("plain", "utf-8"), ("marked", "utf-8-sig")):
            self.write(name + ".xsb", text.encode(encoding))
        for to in ("sok", "slc", "xsb", "rle"):
            self.assertEqual(self.tool("export", "plain", "--to", to),
                             self.tool("export", "marked", "--to", to))

    def test_certificates_stay(self) -> None:
        self.write("mine.xsb", "#####\n#$ .#\n# @ #\n#####\n")
        self.write("mine.answers",
                   "sokoban-answers 1\nlevel 1\nunsolvable\npattern 2,2 @ *\nend\n")
        result = self.tool("export", "mine", "--to", "sok")
        self.assertEqual((result.status, result.err),
                         (0, "export: 1 level, 0 solutions, 1 certificate not exported\n"))

    def test_a_level_that_would_not_come_back(self) -> None:
        """Walls alone are no level to convert, and the other levels don't suffer."""
        self.write("mine.xsb", f"{ONE}\n#####\n\n{ONE}Title: Last\n")
        result = self.tool("export", "mine", "--to", "sok")
        self.assertEqual((result.status, result.err.splitlines()), (1, [
            "export: level 2 is not the same when it is read again",
            "export: 3 levels, 0 solutions"]))

    def test_a_title_or_solution_that_would_not_come_back(self) -> None:
        data = f"{ONE}Title: First\n".encode()
        head, entries = exporting.content_of(data, levels.read(data), {1: ("R", ())}, {})
        for form in exporting.FORMS:
            text = "".join(line + "\n" for line in exporting.FORMS[form](head, entries))
            for old, new, what in (("First", "Last", "title"), ("R", "Rl", "solution")):
                changed = re.sub(rf"\b{old}\b", new, text).encode()
                self.assertEqual([f"level 1: its {what} is not the same when it is read again"],
                                 [*export.differences_of(entries, changed)], (form, old))

    def test_files(self) -> None:
        self.assertEqual(self.tool("export", "mine", "--to", "sok").err,
                         "export: cannot read mine.xsb: No such file or directory\n")
        self.write("mine.xsb", ONE)
        self.write("mine.answers", "sokoban-answers 1\nlevel 2\n")
        self.assertEqual(self.tool("export", "mine", "--to", "sok").err,
                         "export: mine.answers line 2: 'level 2': there is no such level, the "
                         "highest is 1\n")
        self.assertEqual(self.tool("export", "mine").status, 2)
        os.remove("mine.answers")
        self.assertEqual(self.tool("export", "mine", "--to", "xsb", "-o", "mine.xsb").err,
                         "export: would write over mine.xsb\n")
        self.assertEqual(self.read("mine.xsb").decode(), ONE)

    @unittest.skipUnless(os.path.isdir(MAPS), "there is no cavepacker-data")
    def test_cavepacker(self) -> None:
        """A third of a package of collections, of which nothing is lost."""
        files = sorted(glob.glob(MAPS + "/*.so[kl]"))[:700]
        self.assertIn(self.tool("convert", "mine", *files).status, (0, 1))
        wanted = known(self.read("mine.xsb"), self.read("mine.answers"))
        self.assertGreater(len(wanted.letters), 300)
        for form in exporting.FORMS:
            self.assertEqual(self.back(form), (0, wanted), form)


class Playing(unittest.TestCase):
    def test_generated_solutions_solve(self) -> None:
        """The solutions of the generated collections solve their levels."""
        for seed in range(50):
            rows, letters = Generator(seed).level()
            board = Board(levels.Level(1, [row.encode() for row in rows], 1))
            self.assertIsNone(board.replay(letters.encode()).fault, (rows, letters))
