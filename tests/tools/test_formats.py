"""Random collections, written in each format by the tests, are read as they were; broken files
never break convert."""
import os
import random
from typing import Callable, Dict, List, Tuple
from xml.sax.saxutils import escape

from tests.tools.helping import SAMPLES, Case
from sokotool import answers, levels
from sokotool.board import Board
from sokotool.formats import coding
from tests.tools.test_reading import random_letters


Rows = List[str]
Listed = List[Tuple[Rows, str, str]]  # rows, titles and letters


def closed_level(chance: random.Random) -> Rows:
    """Rows of a closed level with one player, boxes and goals, and perhaps floor outside the walls
    at its left and right."""
    width, height = chance.randint(4, 9), chance.randint(1, 5)
    inner = [[chance.choice("     .$*#") for _ in range(width)] for _ in range(height)]
    at = chance.randrange(height), chance.randrange(width)
    inner[at[0]][at[1]] = chance.choice("@+")
    left = " " * chance.choice([0, 0, 2])
    rows = [left + "#" * (width + 2)] + [left + "#" + "".join(row) + "#"
                                         for row in inner] + [left + "#" * (width + 2)]
    return rows


def collection(chance: random.Random) -> Listed:
    """Levels with their titles and, for some, letters that play on them."""
    found = []
    for number in range(chance.randint(1, 6)):
        rows = closed_level(chance)
        level = levels.Level(1, [row.encode() for row in rows], 1)
        letters = b""
        while chance.random() < .7 and not letters:
            letters = random_letters(chance, level)
        replay = Board(level).replay(letters, any_case=True)
        plays = letters and not (replay.fault or "").startswith("move")
        found.append((rows, chance.choice(["Level", "Caf\u00e9 No.", "Room"]) + f" {number}",
                      replay.letters.decode() if plays else ""))
    return found


def is_right(listed: Tuple[Rows, str, str]) -> bool:
    """Whether a level has a box, and its letters solve it or there are none."""
    rows, _, letters = listed
    board = Board(levels.Level(1, [row.encode() for row in rows], 1))
    return bool(board.boxes) and (not letters or board.replay(letters.encode()).fault is None)


# ---- the writers

def coded(chance: random.Random, text: str, floor: str = "-") -> str:
    """Run-length coding of a text, with some runs left as they are."""
    out, at = "", 0
    while at < len(text):
        end = at
        while end < len(text) and text[end] == text[at]:
            end += 1
        char = floor if text[at] == " " else text[at]
        out += f"{end - at}{char}" if end - at > 1 and chance.random() < .8 else char * (end - at)
        at = end
    return out


def in_letters(row: str) -> str:
    return row.translate(str.maketrans("$*@+.", "bBpPo")).replace(" ", "_")


def xsb(chance: random.Random, listed: Listed, spell: Callable[[str], str] = lambda row: row
        ) -> str:
    out = []
    for rows, title, letters in listed:
        head = chance.choice(["; {}", "{}", "'{}'", "Title: {}"])
        out += [] if head.startswith("Title") else [head.format(title)]
        out += [""] * chance.choice([0, 1]) + [spell(row) for row in rows]
        out += ["Title: " +
                title] * head.startswith("Title") + ["Author: A. Nobody"] * chance.choice([0, 1])
        if letters:
            shown = chance.choice([letters, letters.lower(), letters.upper(),
                                   coded(chance, letters)])
            out += chance.choice([["Solution", shown], ["Solution/Moves", "", shown],
                                  ["", f"Solution: {shown}"], [f"; Solution={shown}"],
                                  ["Solution 3/2 (JSoko)", shown[:7], shown[7:]]])
            out += chance.choice([[], ["", "Snapshot", "l" * 30]])
        out.append("")
    return "\n".join(out)


def joined(chance: random.Random, listed: Listed) -> str:
    out = []
    for rows, title, letters in listed:
        out += [title, "|".join(coded(chance, row) for row in rows)] + ([f"Solution: {letters}"]
                                                                        if letters else [])
    return "\n".join(out)


def slc(chance: random.Random, listed: Listed) -> str:
    quote = chance.choice("'\"")
    out = ["<?xml version='1.0' encoding='utf-8'?>",
           "<SokobanLevels><Title>All &amp; sundry</Title><LevelCollection>"]
    for rows, title, letters in listed:
        out += [f"<Level Id={quote}{escape(title)}{quote}>"] + [f"<L>{row}</L>" for row in rows]
        out += [f"<Solution>{letters}</Solution>"] * bool(letters) + ["</Level>"]
    return "\n".join(out + ["</LevelCollection></SokobanLevels>"])


def mazes(chance: random.Random, listed: Listed) -> str:
    out = []
    for number, (rows, _, letters) in enumerate(listed, 1):
        out += ["*" * 30, f"Maze: {number}", f"Size X: {len(rows[0])}", "Size Y: 2", ""]
        out += [row.translate(str.maketrans("#$*", "X*&")) for row in rows] + [""]
        out += [f"Solution: {letters}"] * bool(letters)
    return "\n".join(out) + "\n"


WRITERS: Dict[str, Callable[..., str]] = {
    "xsb": xsb,
    "run-length": lambda chance, listed: xsb(chance, listed, lambda row: coded(chance, row)),
    "letters": lambda chance, listed: xsb(chance, listed, in_letters),
    "joined": joined,
    "slc": slc,
    "mazes": mazes,
}


class ThereAndBack(Case):
    def test_each_format(self) -> None:
        for name, writer in WRITERS.items():
            chance = random.Random(name)
            for _ in range(20):
                listed = collection(chance)
                text = writer(chance, listed).replace("\n", chance.choice(["\n", "\r\n", "\r"])
                                                      if name != "slc" else "\n")
                code = "utf-8" if name == "slc" else chance.choice(["utf-8", "utf-8-sig", "latin-1",
                                                                    "utf-16"])
                result, found, solved = self.convert(text.encode(code))
                kept = {record.level: record.letters.decode()
                        for record in answers.read(solved).records}
                plain = ["\n".join(row.decode().replace("-", " ").replace("_", " ")
                                   for row in level.rows) for level in levels.read(found)]
                self.assertEqual(plain, ["\n".join(rows) for rows, _, _ in listed], (name, text))
                self.assertEqual(kept, {n: letters for n, (_, _, letters) in enumerate(listed, 1)
                                        if letters}, (name, text, result.err))
                self.assertEqual(result.status, int(not all(map(is_right, listed))),
                                 (name, text, result.err))
                if name != "mazes":
                    self.assertEqual([level.title.strip("'") for level in levels.read(found)],
                                     [title for _, title, _ in listed], (name, text))

    def test_coding(self) -> None:
        chance = random.Random(4)
        for _ in range(300):
            text = "".join(chance.choice("ab") * chance.randint(1, 4)
                           for _ in range(chance.randint(0, 6)))
            self.assertEqual(coding.expand(coded(chance, text), 1000), text)
        self.assertEqual(coding.expand("aa", 1), "aa")  # no limit for what isn't coded
        for text, most in (("3(a2b)", 9), ("2(2(2a))", 8), ("(a)", 1), ("()", 0)):
            self.assertEqual(len(coding.expand(text, most)), most)
            self.assertRaises(coding.Wrong, coding.expand, text + "a", most)
        for text in ("(", ")", "2", "2)", "(2)", "(" * 21 + ")" * 21, "9" * 5000 + "a"):
            self.assertRaises(coding.Wrong, coding.expand, text, 1000)


class Broken(Case):
    """Random and cut files: a message and a status, never a traceback, and no output past the
    limits."""

    def test_random_and_cut_files(self) -> None:
        chance = random.Random(5)
        whole = [writer(chance, collection(chance)).encode() for writer in WRITERS.values()]
        whole += [self.read(os.path.join(SAMPLES, "exports", name))
                  for name in sorted(os.listdir(os.path.join(SAMPLES, "exports")))]
        for _ in range(100):
            data = bytearray(chance.choice(whole))
            for _ in range(chance.randint(0, 6)):
                at = chance.randrange(len(data) + 1)
                data[at:at + chance.choice([0, 1, 3])] = chance.choice([
                    b"", b"\n", b"\0", b"9999999", b"(", b"<L>", b"&", b"\xff", b"|", b"#", b"\r",
                    b"Solution\n", b"\t", bytes([chance.randrange(256)])])
            start = chance.randrange(3) * len(data) // 8
            end = chance.choice([len(data), chance.randrange(len(data) + 1)])
            self.check(bytes(data[start:end]))

    def test_noise(self) -> None:
        chance = random.Random(6)
        for letters in (bytes(range(256)), b"#@$.* \n", b"#0123()ab|\n-", b"<L>/evl #\n"):
            for _ in range(8):
                self.check(bytes(chance.choice(letters) for _ in range(chance.randint(0, 300))))

    def check(self, data: bytes) -> None:
        result, found, solved = self.convert(data, "noise.txt")
        self.assertIn(result.status, (0, 1, 2), data)
        self.assertLess(len(found) + len(solved), 1_000_000)
        self.assertNotEqual(result.err, "")
        count = int(result.err.split("\n")[-2].split()[1])
        self.assertEqual((len(levels.read(found)), len(answers.read(solved, count).records)),
                         (count, int(result.err.split("\n")[-2].split()[3])), data)
        audited = self.audit("out.xsb", "out.answers").decode()
        self.assertIn(f"total {count} ", audited, data)
        self.assertNotRegex(audited, "refused move")
        for words in (["warn", "noise.txt"], ["named", "out.xsb", "noise.txt"],
                      ["merge", "noise.txt"],
                      ["page", "noise.txt", "noise.txt", "noise.txt"]):
            self.assertIn(self.tool(*words).status, (0, 1, 2), data)
