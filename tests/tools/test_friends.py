"""Folders with other files than exports: collections of sokotool with their answers, and files that
have no level."""
import os
import re
import shutil
import zipfile
from typing import Dict

from sokotool import answers, auditor, levels
from tests.tools.helping import SAMPLES, needs_program
from tests.tools.checking import CORNER, LONG, LOST, Check

PROOF = "level 1\nunsolvable\n; the corner\npattern 2,2 @ *\nend\n"


class Answers(Check):
    """Answers files of sokotool or sokoaudit are read as exports."""

    def friend(self, name: str, *ends: str) -> None:
        """Copies samples into a folder."""
        os.makedirs("friend", exist_ok=True)
        for end in ends:
            shutil.copy(os.path.join(SAMPLES, name + end), "friend")

    def test_solutions_and_certificates_come_in_by_board(self) -> None:
        self.friend("first", ".xsb", ".answers")
        self.friend("zones", ".xsb")
        shutil.copy(os.path.join(SAMPLES, "zones.made"), "friend/zones.answers")
        wanted = [self.sample("first.report").splitlines()[at].split(b" ", 2)[2]
                  for at in range(5)]
        for command in ("check", "convert"):
            words = ["--seconds", "0"] if command == "check" else []
            result = self.tool(command, "mine", "friend", *words)
            self.assertIn(result.status, (0, 1))
            self.assertNotIn("problem", result.out.decode())
            lines = self.audit("mine.xsb", "mine.answers").splitlines()
            self.assertEqual([line.split(b" ", 2)[2] for line in lines[:5]], wanted)
            self.assertIn(b"; Nothing moves the box in the corner any more.\nlevel 4\n",
                          self.read("mine.answers"))
            self.assertNotIn(b"sokoban-answers", self.read("mine.xsb"))
            for name in ("mine.xsb", "mine.answers"):
                os.remove(name)

    def test_merge_of_two_collections(self) -> None:
        """With all of their answers, and without the other files of both."""
        self.write("a.txt", CORNER + "\n" + LOST)
        self.write("b.txt", LONG + "\n" + CORNER)
        self.write("own", "sokoban-answers 1\n; by hand\nlevel 1\nsolution\nRurD\nend\n")
        self.check("mine", "a.txt", "--answers", "own")
        self.check("theirs", "b.txt")
        result = self.check("both", "mine.xsb", "mine.answers", "theirs.xsb", "theirs.answers")
        self.assertEqual((result.status, self.lines(result)), (0, [
            "both: 4 levels, 3 solved, 1 unsolvable, 0 refused, 0 missing",
            "twins: level 4 is level 1, as it is"]))
        self.assertIn(b"; by hand\nlevel 1\nsolution\nRurD\nend\n", self.read("both.answers"))
        files = self.files("both")
        os.remove("a.txt")
        os.remove("b.txt")
        os.remove("own")
        for name in files:
            os.remove(name)
        result = self.check("both", ".")
        self.assertEqual((result.status, result.err), (0, ""))
        self.assertEqual(files, self.files("both"))

    def files(self, name: str) -> Dict[str, bytes]:
        """Returns the files of a collection, without the digest of what was read, which has whether
        a file was named or found in a folder."""
        return {it: re.sub(rb'"digest": "\w+"', b"", self.read(it)) for it in os.listdir()
                if it.startswith(name)}

    def test_levels_of_answers(self) -> None:
        """Those of the same name, or the only ones beside them; otherwise it is said what is
        missing."""
        os.mkdir("in")
        self.write("in/a.xsb", LOST)
        self.write("in/b.answers", "sokoban-answers 1\n" + PROOF)
        self.assertEqual(self.check("mine", "in").status, 0)
        self.assertIn(b"; the corner\n", self.read("mine.answers"))
        self.write("in/c.xsb", CORNER)
        self.assertIn("problem: in/b.answers line 1: answers to levels that are not there: b.xsb "
                      "is missing", self.lines(self.check("mine", "in")))
        os.rename("in/b.answers", "in/a.answers")
        # A record for no level costs no other one.
        for name, number in (("mine", "7"), ("other", "0"), ("third", "-1")):
            self.write("in/a.answers", "sokoban-answers 1\n" + PROOF.replace("1", number, 1)
                       + PROOF)
            self.assertIn(f"problem: in/a.answers line 2: 'level {number}': there is no such "
                          "level, the highest is 1", self.lines(self.check(name, "in")))
            self.assertIn(b"; the corner\n", self.read(f"{name}.answers"))
        # The levels lie beside a file that is named alone.
        self.write("in/a.answers", "sokoban-answers 1\n" + PROOF)
        self.write("turned.txt", "\n".join(row[::-1] for row in LOST.splitlines()) + "\n")
        self.check("other", "turned.txt", "in/a.answers")
        self.assertIn(b"; the corner\npattern 4,2 @ *\n", self.read("other.answers"))

    def test_answers_that_do_not_hold(self) -> None:
        """They are reported, and come in nowhere."""
        self.write("a.xsb", CORNER + "\n" + LONG)
        self.write("a.answers", "sokoban-answers 1\nlevel 1\nsolution\nd\nend\n"
                   "level 2\nsolution\nrrrr\nend\n")
        result = self.check("mine", "a.xsb", "a.answers")
        self.assertIn("problem: a.answers line 2: the solution of level 1 leaves 1 box off the "
                      "goals", self.lines(result))
        self.assertEqual([it.letters for it in answers.read(self.read("mine.answers")).records],
                         [b"rRRR"])

    @needs_program
    def test_comments_between_records(self) -> None:
        """They go to the next record, and those at the end to the last one."""
        self.write("a.xsb", CORNER + "\n" + LOST)
        said = ["; of Bob, 2020", "; easy", "; the hard ones follow", "; after", "; the end"]
        self.write("a.answers", "\n\n".join((
            "sokoban-answers 1\n" + said[0], said[1] + "\nlevel 1\nsolution\nRurD\nend", said[2],
            PROOF.replace("level 1", "level 2") + said[3],
            said[4] + f"\n; {auditor.REFERENCE_NOTE}\n")))
        for command in ("check", "convert"):
            self.tool(command, command, "a.xsb", "a.answers",
                      *(["--seconds", "0"] if command == "check" else []))
            self.assertEqual([line for line in self.read(command + ".answers").decode().split("\n")
                              if line[:1] in (";", "l")],
                             [*said[:2], "level 1", said[2], *said[3:], "level 2", "; the corner"])

    def test_of_several_solutions_the_best(self) -> None:
        self.write("a.txt", CORNER + "Solution: udRurD\n")
        self.write("b.xsb", CORNER)
        self.write("b.answers", "sokoban-answers 1\nlevel 1\nsolution\nRurD\nend\n")
        self.assertIn("another solution of level 1", self.tool(
            "convert", "both", "a.txt", "b.xsb", "b.answers").err)
        self.check("mine", "a.txt", "b.xsb", "b.answers")
        self.assertEqual(self.report()[0], "level 1 solved moves 4 pushes 2 changes 1")


class Folders(Check):
    """Files in folders that are no exports."""

    def setUp(self) -> None:
        super().setUp()
        os.makedirs("inbox/docs")
        self.write("inbox/a.txt", LOST)
        self.write("inbox/README.txt", "# Levels\n\nSend me more (r) of them!\n")
        self.write("inbox/LICENSE", "All rights are yours.\n")
        self.write("inbox/docs/shot.png", b"\x89PNG\r\n\x1a\n\0\0\0\rIHDR\xff\xfe" + bytes(99))

    def test_two_collections_in_one_folder(self) -> None:
        self.write("one.txt", CORNER + "Solution: RurD\n")
        self.write("two.txt", LOST)
        shutil.rmtree("inbox")
        self.check("a", "one.txt")
        self.check("b", "two.txt")
        self.write("two.txt", LOST + "\n" + LONG)
        self.check("b", "two.txt")
        self.check("b", "one.txt")
        self.assertTrue({"b.kept.xsb", "b.xsb~", "b.html", "b.memory"} < {*os.listdir()})
        result = self.check("a", ".")
        self.assertEqual((result.status, result.err), (0, ""))
        text = b"\n".join(line for line in self.read("a.xsb").split(b"\n")
                          if line and not line.startswith((b"#", b";")))
        self.assertEqual(text, b"Corner\nCorner\nLost\nTitle: Long")
        self.assertEqual(len(levels.read(self.read("a.xsb"))), 4)

    def test_backups_and_kept_files_that_are_named_without_the_others(self) -> None:
        """The answers go by the levels of their time."""
        shutil.rmtree("inbox")
        self.write("a.txt", CORNER + "Solution: RurD\n")
        self.check("mine", "a.txt")
        self.write("a.txt", LOST + "\n" + CORNER + "Solution: RurD\n")
        self.check("mine", "a.txt")
        result = self.tool("convert", "old", "mine.xsb~", "mine.answers~")
        self.assertEqual(result, (0, b"", "convert: 1 level, 1 solution, 0 left out\n"))
        self.write("a.txt", LOST)
        self.check("mine", "a.txt")
        result = self.tool("convert", "kept", "mine.kept.xsb", "mine.kept.answers")
        self.assertEqual(result, (0, b"", "convert: 1 level, 1 solution, 0 left out\n"))
        self.tool("convert", "every", *sorted(it for it in os.listdir() if it[:5] == "mine."))
        self.assertEqual(len(levels.read(self.read("every.xsb"))), 1)

    @needs_program
    def test_written_files_in_an_archive(self) -> None:
        shutil.rmtree("inbox")
        self.write("two.txt", LOST)
        self.check("b", "two.txt")
        with zipfile.ZipFile("pack.zip", "w") as archive:
            for name in sorted(os.listdir()):
                if name.startswith("b."):
                    archive.write(name)
        result = self.check("a", "pack.zip")
        self.assertEqual((result.status, result.err), (0, ""))
        self.assertEqual(self.read("a.xsb").replace(b"; File: b.xsb\n", b""), self.read("b.xsb"))

    def test_files_without_a_level_are_one_note(self) -> None:
        said = "3 files have no level: LICENSE, README.txt, docs/shot.png\n"
        for command in ("check", "convert"):
            words = ["--seconds", "0"] if command == "check" else []
            result = self.tool(command, command, "inbox", *words)
            self.assertEqual((result.status, result.err.partition("convert: 1 level")[0]),
                             (0, f"{command}: {said}"))
            self.assertEqual(len(levels.read(self.read(f"{command}.xsb"))), 1)
            self.assertNotIn(b"Send", self.read(f"{command}.xsb"))
        with zipfile.ZipFile("pack.zip", "w") as archive:
            for name in ("a.txt", "LICENSE"):
                archive.write("inbox/" + name, name)
        result = self.check("mine", "pack.zip")
        self.assertEqual((result.status, result.err), (0, "check: 1 file has no level: LICENSE\n"))

    def test_file_that_is_named_is_a_problem(self) -> None:
        result = self.check("mine", "inbox/a.txt", "inbox/LICENSE")
        self.assertEqual(result.status, 1)
        self.assertIn("problem: inbox/LICENSE line 1: no level in this file", self.lines(result))

    def test_what_looks_like_a_level_is_a_problem(self) -> None:
        """Also in a folder: rows that can't be read, and letters of no level."""
        texts = ["####\n", "11111\n10001\n10231\n11111\n", "Solution: rrrrlllluuuu\n",
                 "XXXXX\nX@$.X\nXXXXX\n", '{"levels": [["####", "#@.#"]]}']
        for text in [*map(str.encode, texts), LOST.encode("utf-16") + b"#",
                     b"PK\0\0" + LOST.encode()]:
            self.write("inbox/b.txt", text)
            result = self.check("mine", "inbox")
            self.assertEqual(result.status, 1, text)
            self.assertIn(b"problem: inbox/b.txt", result.out, text)

    def test_ignored_names(self) -> None:
        self.write("inbox/b.txt", "####\n")
        self.write("inbox/docs/b.txt", CORNER)
        for text, wanted in (("b.txt\n", 1), ("/b.txt\ndocs/*.png\n", 2), ("docs/\nb*\n", 1),
                             ("# all texts\n\n[ab].txt\nLICENSE\n", 0)):
            self.write("inbox/.sokoignore", text)
            result = self.check("mine", "inbox")
            self.assertNotIn("problem", result.out.decode())
            found = levels.read(self.read("mine.xsb")) if not result.status or wanted else []
            self.assertEqual(len(found), wanted, text)
            for name in os.listdir():
                if name.startswith("mine"):
                    os.remove(name)
        result = self.check("mine", *sorted("inbox/" + name for name in os.listdir("inbox")))
        self.assertIn("these files have no level", result.err)
