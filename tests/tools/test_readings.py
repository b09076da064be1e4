"""Exports are read as a careful person reads them, by `sokotool convert` and by the page."""
import base64
import json
import random
import re
import shutil
import subprocess
import unittest
from typing import Dict, List, NamedTuple, Sequence, Tuple, Union

from sokotool import answers, levels, sources
from sokotool.board import board_of
from sokotool.builder import Collection
from sokotool.commands import convert
from tests.tools import test_encodings
from tests.tools.exports import ALPHA
from tests.tools.helping import TOP, Case
from tests.tools.readings import Wanted, readings
from tests.tools.test_exports import made_by, plain

SCRIPTS = [f"{TOP}/tools/{name}.js" for name in (
    "sokotool/viewer/game", "page/texts", "page/files", "page/rows", "page/letters", "page/read")]
# the fewest cases, the most titles that no rule finds, and how many exports are made
FEWEST, MOST_WRONG, MADE = 100, 2, 300


class Read(NamedTuple):
    """What a reader gets: the levels, what it says, and whether something is left out."""

    levels: List[Wanted]
    said: List[str]
    is_fault: bool


def untitled(found: Sequence[Wanted]) -> List[Tuple[str, str]]:
    """Levels without their titles."""
    return [(rows, letters) for rows, _, letters in found]


def contents(text: bytes, solved: bytes, titles: Sequence[str] = ()) -> List[Wanted]:
    """The levels of two texts, each with the letters that solve it."""
    found = levels.read(text)
    letters: Dict[int, str] = {}
    for record in answers.read(solved, len(found)).records:
        board = board_of(found[record.level - 1])
        if board.player is not None and board.replay(record.letters).fault is None:
            letters[record.level] = record.letters.decode()
    return [(plain(level.rows), titles[at] if titles else level.title, letters.get(at + 1, ""))
            for at, level in enumerate(found)]


def converted(text: Union[str, bytes]) -> Read:
    """What convert gets from an export."""
    data = text if isinstance(text, bytes) else text.encode()
    said: List[Tuple[str, bool]] = []
    collection = Collection(report=lambda place, why, is_fault: said.append(
        (place.said(why), is_fault)))
    convert.read_files(collection, [sources.Export("a.txt", lambda: data, False)])
    ((found, solved),) = collection.parts()
    return Read(contents(found, solved), [why for why, _ in said],
                any(is_fault for _, is_fault in said))


def on_the_page(texts: Sequence[Union[str, bytes]]) -> List[Read]:
    """What the page gets from exports, by its own scripts outside a browser."""
    given = [[["a.txt", base64.b64encode(
        it if isinstance(it, bytes) else it.encode()).decode()]] for it in texts]
    ran = subprocess.run(["node", f"{TOP}/tests/tools/reading.js", *SCRIPTS],
                         input=json.dumps(given).encode(), stdout=subprocess.PIPE, check=True)
    return [Read(contents(base64.b64decode(it["levels"]), base64.b64decode(it["answers"]),
                          it["titles"]), [f"{one['place']}: {one['words']}" for one in it["said"]],
                 bool(it["said"])) for it in json.loads(ran.stdout)]


class Readings(Case):
    """Each case of the table: no level, title or solution is lost without a word."""

    def test_convert(self) -> None:
        cases = [*readings()]
        self.assertGreaterEqual(len(cases), FEWEST)
        wrong = []
        for case in cases:
            with self.subTest(case.name):
                read = converted(case.text)
                wanted = [(plain(rows.encode().split(b"\n")), title, letters)
                          for rows, title, letters in case.levels]
                self.assertEqual(untitled(read.levels), untitled(wanted), case.text)
                wrong += [case.name] * (read.levels != wanted)
                lines = {line for line in case.told
                         if any(f" line {line}: " in why for why in read.said)}
                self.assertEqual((lines, read.is_fault), ({*case.told}, bool(case.told)),
                                 (case.text, read.said))
        self.assertLessEqual(len(wrong), MOST_WRONG, wrong)

    @unittest.skipUnless(shutil.which("node"), "there is no node")
    def test_page(self) -> None:
        """The page reads what convert reads."""
        cases = [*readings()]
        for case, read in zip(cases, on_the_page([case.text for case in cases])):
            with self.subTest(case.name):
                self.assertEqual(read.levels, converted(case.text).levels, case.text)

    @unittest.skipUnless(shutil.which("node"), "there is no node")
    def test_encodings(self) -> None:
        """Titles and letters in each encoding that is guessed, in many and in two lines, above a
        line of UTF-8."""
        made = []
        for codec, lines in test_encodings.LINES.items():
            # Some versions of node take Windows-1252 for Latin-1.
            usable = [it for it in lines.split("|")
                      if codec != "cp1252" or not re.search(rb"[\x80-\x9f]", it.encode(codec))]
            made += ["".join(f"{line}\n{ALPHA}\nrRR\n\n" for line in some).encode(codec)
                     + "\u03a9: rRR\n".encode() for some in (usable, usable[:2])]
        for data, read in zip(made, on_the_page(made)):
            with self.subTest(data):
                self.assertEqual(read.levels, converted(data).levels, data)

    @unittest.skipUnless(shutil.which("node"), "there is no node")
    def test_made_ones(self) -> None:
        """Both readers get the same from random collections, or one of them says why not."""
        chance = random.Random(59)
        made = [made_by(chance)[0] for _ in range(MADE)]
        differ = 0
        for text, read in zip(made, on_the_page(made)):
            mine = converted(text)
            is_same = untitled(read.levels) == untitled(mine.levels)
            self.assertTrue(is_same or read.is_fault or mine.is_fault, text)
            differ += read.levels != mine.levels
        self.assertLess(differ, MADE // 20)
