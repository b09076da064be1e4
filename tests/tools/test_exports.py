"""Each form of export is read as it was meant, or something is reported."""
import os
import random
from typing import Counter, Dict, List, Sequence, Tuple

from sokotool import answers, levels

from .exports import ALL, ALPHA, BETA, GAMMA, Export
from .helping import Case

FEWEST = 150


def plain(rows: Sequence[bytes]) -> str:
    """Rows with blanks for floor, without blanks around them."""
    text = b"\n".join(rows).decode().replace("-", " ").replace("_", " ")
    lines = text.split("\n")
    indent = min(len(line) - len(line.lstrip(" ")) for line in lines)
    return "\n".join(line[indent:].rstrip(" ") for line in lines)


class Exports(Case):
    def outcome(self, export: Export) -> str:
        """Returns whether an export is read as it was meant, or reported, or neither."""
        result, found, solved = self.convert(export.text, export.file)
        self.assertIn(result.status, (0, 1), export.name)
        read = [plain(level.rows) for level in levels.read(found)]
        letters = {it.level: it.letters.decode() for it in answers.read(solved, len(read)).records}
        if read == export.levels and letters == export.solutions and result.status == 0:
            return "right"
        return "reported" if result.status else "silent"

    def test_all(self) -> None:
        self.assertGreaterEqual(len(ALL), FEWEST)
        self.assertEqual(len({export.name for export in ALL}), len(ALL))
        counts: Counter[str] = Counter()
        for export in ALL:
            outcome = self.outcome(export)
            counts[outcome] += 1
            with self.subTest(export.name):
                wanted = "right" if export.levels else "reported"
                self.assertEqual(outcome, wanted, export.text)
        self.assertEqual(counts["silent"], 0)
        print(f"exports: {len(ALL)} tried, {counts['right']} right, {counts['reported']} reported, "
              f"{counts['silent']} silent")


class OtherGames(Case):
    def test_files_of_a_folder_are_one_note(self) -> None:
        """One for each game. A file that is named itself is left out, and so says the status."""
        os.mkdir("inbox")
        robbo = "[last_level]\n1\n[level]\n1\n[size]\n7.3\n[data]\n" + ALPHA + "\n"
        for name, text in (("a.dat", robbo), ("b.dat", robbo), ("c.txt", ALPHA),
                           ("d.bd", "[BDCFF]\n" + ALPHA), ("e.txt", "nothing\n")):
            self.write("inbox/" + name, text)
        result = self.tool("convert", "out", "inbox")
        self.assertEqual((result.status, result.err), (
            0, "convert: 1 file has no level: e.txt\n"
            "convert: 1 file of Boulder Dash is not read: d.bd\n"
            "convert: 2 files of Gnu Robbo are not read: a.dat, b.dat\n"
            "convert: 1 level, 0 solutions, 0 left out\n"))
        result = self.tool("convert", "out", "inbox/a.dat", "inbox/c.txt")
        self.assertEqual((result.status, result.err.splitlines()[0]), (
            1, "convert: inbox/a.dat line 1: a file of Gnu Robbo, which is not read"))


BOARDS = [(ALPHA, "rRR"), (BETA, "rR"), (GAMMA, "LL"),
          ("######\n#    #\n#@$  #\n#  . #\n######", "RurD")]
FIRST = ["", "Best ", "My ", "First ", "Move ", "Bob's ", "The "]
WORDS = ["Solution", "solution", "SOLUTION", "Solutions", "LURD", "Moves", "Sol", "Answer",
         "L\u00f6sung", "Soluci\u00f3n", "UserSolution", ""]
NUMBERS = ["", " 1", " #2", " 3/2", " (3/2)", " 1 (Optimizer)", "/Moves", " [2]"]
MARKS = [":", " :", "=", " -", ";", " ", " is ", ":\n", "\n", "\n\n", "\nDate: 2001-02-03\n"]
DRESS = [("", ""), ("[", "]"), ("<b>", "</b>"), ("**", "**"), ("- ", ""), ("* ", ""), ("// ", ""),
         ("# ", ""), ("; ", ""), ("1. ", ""), ("> ", ""), ("{", "}"), ("' ", "")]
BETWEEN = ["", "", "", " ", ", ", ",", "\n", "\n\n", ";", "' '", "-"]


def heading_by(chance: random.Random) -> str:
    """A heading of a solution."""
    before, after = chance.choice(DRESS)
    return (before + chance.choice(FIRST) + chance.choice(WORDS) + chance.choice(NUMBERS)
            + chance.choice(MARKS).replace("\n", after + "\n", 1) + " " * chance.randint(0, 1))


def letters_by(chance: random.Random, solution: str) -> str:
    """The letters of a solution as somebody may write them."""
    parts = [chance.choice([it, it, it.lower(), it.upper()]) for it in solution]
    between = chance.choice(BETWEEN)
    at = chance.randint(1, len(parts))
    return "".join(parts[:at]) + between + "".join(parts[at:])


def made_by(chance: random.Random) -> Tuple[str, List[str], Dict[int, str]]:
    """A random collection: its text, its boards, and the solutions of some of them."""
    text, wanted = "", {}
    drawn = [chance.choice(BOARDS) for _ in range(chance.randint(1, 5))]
    for number, (board, solution) in enumerate(drawn, 1):
        text += f"{board}\n" + chance.choice(["", "\n", "Author: B. Nobody\n"])
        if chance.random() < .7:
            text += heading_by(chance) + letters_by(chance, solution) + "\n"
            wanted[number] = solution
        text += "\n"
    return text, [board for board, _ in drawn], wanted


class Headings(Case):
    """Random collections with headings in every form are read as they were written, or reported."""

    def test_there_and_back(self) -> None:
        chance = random.Random(57)
        counts: Counter[bool] = Counter()
        for _ in range(150):
            text, boards, wanted = made_by(chance)
            result, found, solved = self.convert(text)
            read = [plain(level.rows) for level in levels.read(found)]
            kept = {it.level: it.letters.decode() for it in answers.read(solved).records}
            self.assertEqual(read, boards, text)
            self.assertTrue(kept == wanted or result.status == 1, (text, kept, wanted))
            counts[kept == wanted] += 1
            self.assertNotIn(b"refused move", self.audit("out.xsb", "out.answers"))
        # A few forms are reported, such as ten letters in two paragraphs after a sentence.
        self.assertGreater(counts[True], 9 * counts[False], counts)
