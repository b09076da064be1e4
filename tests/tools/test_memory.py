"""The file NAME.memory: it has no text again that the collection has, and what former versions
wrote is read."""
import json
import os
import random
import unittest
from typing import Any, Dict, List

from sokotool import level_texts, memory
from sokotool.level_texts import ABOVE, BELOW, LEVEL, Block
from tests.tools.checking import CORNER, LONG, LOST, Check
from tests.tools.helping import needs_program


def former(data: bytes) -> bytes:
    """A memory as former versions wrote it: with lists of lines, and with the exports' texts."""
    whole: Dict[str, Any] = json.loads(data)

    def lines(part: level_texts.Lines) -> List[str]:
        return [line.decode("utf-8", "surrogateescape") for line in part]
    blocks = [level_texts.unpacked(it) for it in whole["levels"]]
    whole["levels"] = [[*(lines(part) for part in block[:3]), sorted(block.typed)]
                       for block in blocks]
    text = level_texts.text(blocks).decode("utf-8", "surrogateescape")
    whole["exports"] = {"digest": "0" * 16, "files": [text, "sokoban-answers 1\n",
                                                      "sokoban-answers 1\n"],
                        "places": [["a.txt", 1] for _ in blocks], "problems": [], "notes": []}
    if "found" in whole:
        whole["found"] = [[lines(level_texts.unpacked_rows(rows)), record]
                          for rows, record in whole["found"]]
    return json.dumps(whole).encode()


def hall(chance: random.Random) -> str:
    """A large level with its solution."""
    rows = [list("#" + " " * 28 + "#") for _ in range(20)]
    for row in rows[1:]:
        for _ in range(3):
            row[chance.randint(1, 28)] = "#"
    rows[0][1:3], rows[0][25] = "@$", "."
    return "\n".join(["#" * 30, *map("".join, rows), "#" * 30, f"Solution: {'R' * 23}", "", ""])


class Packed(unittest.TestCase):
    def test_a_block_comes_back(self) -> None:
        chance = random.Random(5)
        for _ in range(2000):
            def some(kinds: bytes, most: int) -> level_texts.Lines:
                return tuple(bytes(chance.choices(kinds, k=chance.randrange(most)))
                             for _ in range(chance.randrange(4)))
            cells = (bytes(chance.choices(b"# -_@$.*+", [9, 9, 1, 1, 1, 1, 1, 1, 1], k=length))
                     for length in chance.choices(range(40), k=chance.randint(1, 5)))
            rows = tuple(b"#" + row for row in cells)
            block = Block(some(b"a;: 1|\xff\xc3\xa9", 9), rows, some(b"a;: 1|\xff\xc3\xa9", 9),
                          frozenset(chance.sample([ABOVE, BELOW, LEVEL], chance.randrange(4))))
            packed = json.loads(json.dumps(level_texts.packed(block)))
            self.assertEqual(level_texts.unpacked(packed), block)


class Memory(Check):
    def test_the_text_is_not_there_again(self) -> None:
        chance = random.Random(6)
        self.write("a.txt", "".join(hall(chance) for _ in range(100)))
        self.check("mine", "a.txt")
        data = self.read("mine.memory")
        self.assertLess(len(data), len(self.read("mine.xsb")) * .6)
        self.assertNotIn(b"R" * 23, data)
        self.assertNotIn(b" " * 9, data)

    def test_memories_of_former_versions(self) -> None:
        """What was typed stays, and so does what was found."""
        self.write("a.txt", f"{CORNER}\n{LONG}")
        self.check("mine", "a.txt")
        for old, new in (("Corner\n", "Corner, typed\n"), (": Long\n", ": Long\n; typed\n")):
            self.write("mine.xsb", self.read("mine.xsb").decode().replace(old, new, 1))
        self.check("mine", "a.txt")
        known = memory.read(self.read("mine.memory"), "mine.memory")
        self.write("mine.memory", former(self.read("mine.memory")))
        self.assertEqual(memory.read(self.read("mine.memory"), "mine.memory").written.collection,
                         known.written.collection)
        self.write("mine.answers",
                   "sokoban-answers 1\n; typed too\nlevel 1\nsolution\nRurD\nend\n")
        self.write("a.txt", f"{LOST}\n{CORNER}\n{LONG}")
        self.check("mine", "a.txt")
        xsb = self.read("mine.xsb")
        self.assertIn(b"Corner, typed\n", xsb)
        self.assertIn(b"Title: Long\n; typed\n", xsb)
        self.assertIn(b"; typed too\nlevel 2\nsolution\nRurD\n", self.read("mine.answers"))

    def test_finds_of_former_versions(self) -> None:
        self.write("a.txt", CORNER)
        self.check("mine", "a.txt")
        whole = json.loads(self.read("mine.memory"))
        whole["found"] = [[level_texts.packed_rows(CORNER.encode().split(b"\n")[:-1]),
                           "level 1\nsolution\nRurD\nend\n"]]
        for data in (json.dumps(whole).encode(), former(json.dumps(whole).encode())):
            self.write("mine.memory", data)
            self.check("mine", "a.txt")
            self.assertIn(b"RurD", self.read("mine.answers"))
            os.remove("mine.answers")

    @needs_program
    def test_a_level_that_goes_from_all_files_at_once(self) -> None:
        """It goes from the exports and, by hand, from the collection: nothing but the memory has
        its rows, and its answer is kept with them."""
        self.write("a.txt", f"{CORNER}\n{LONG.split('Solution')[0]}")
        self.check("mine", "a.txt")
        self.write("mine.answers", "sokoban-answers 1\n; typed\nlevel 2\nsolution\nrRRR\nend\n")
        self.write("a.txt", CORNER)
        text = self.read("mine.xsb").decode()
        self.write("mine.xsb", text[:text.index("########")])
        self.check("mine", "a.txt")
        self.assertIn(b"; typed\nlevel 1\nsolution\nrRRR\nend\n", self.read("mine.kept.answers"))
        self.assertIn(b"########\n#@ $  .#\n########\n", self.read("mine.kept.xsb"))


class Exports(Check):
    def test_what_was_typed_over_is_remembered(self) -> None:
        """A title in place of that of an export, and an answer that is better than its own."""
        self.write("a.txt", f"{CORNER}Solution: udRurD\n\n{LONG}")
        self.converts("a.txt")
        self.write("mine.xsb", self.read("mine.xsb").replace(b"Corner\n", b"Corner, typed\n", 1))
        self.write("mine.answers", self.read("mine.answers").replace(b"udRurD", b"RurD", 1))
        self.assertTrue(self.converts("a.txt"))  # for the answer that isn't in its file any more
        for _ in range(2):
            self.assertFalse(self.converts("a.txt"))
            self.assertIn(b"Corner, typed\n", self.read("mine.xsb"))
            self.assertIn(b"RurD\n", self.read("mine.answers"))
        # a conversion gives the same
        written = self.read("mine.memory")
        self.write("mine.memory", json.dumps({**json.loads(written), "exports": None}))
        self.assertTrue(self.converts("a.txt"))
        self.assertEqual(self.read("mine.memory"), written)
        # the exports' own answer comes back where the typed one is removed
        os.remove("mine.answers")
        self.converts("a.txt")
        self.assertIn(b"udRurD\n", self.read("mine.answers"))

    def test_an_answer_that_was_removed_comes_back(self) -> None:
        """Nothing but the export has it then, which is converted again, once."""
        self.write("a.txt", f"{CORNER}Solution: RurD\n\n{LONG}")
        self.converts("a.txt")
        written = self.read("mine.answers")
        self.write("mine.answers", "sokoban-answers 1\n")
        self.assertTrue(self.converts("a.txt"))
        self.assertEqual(self.read("mine.answers"), written)
        self.assertFalse(self.converts("a.txt"))
