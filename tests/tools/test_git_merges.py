"""A collection in a repository of git that two people keep: their branches are merged for real,
with the attributes of docs/keeping.md, and a check brings all that both typed into one collection.
"""
import os
import re
import shutil
import subprocess
import unittest
from typing import List

from tests.tools.checking import Check
from tests.tools.helping import TOP, not_on_windows


def corridor(title: str, length: int, letters: str = "") -> str:
    """A level whose solution is as long as its corridor, with a title and perhaps a solution."""
    row = "#@" + " " * length + "$ .#"
    wall = "#" * len(row)
    rows = f"{title}\n{wall}\n{row}\n{wall}\n"
    return rows + (f"Solution: {letters}\n" if letters else "") + "\n"


def solution(number: int, length: int, comment: str) -> str:
    return f"; {comment}\nlevel {number}\nsolution\n{'r' * length}RR\nend\n"


def attributes() -> List[str]:
    """The lines of .gitattributes that the page tells a keeper to type."""
    with open(os.path.join(TOP, "docs/keeping.md"), encoding="utf-8") as file:
        page = file.read()
    return re.findall(r"(?m)^\$ ((?:echo|printf) .*> \.gitattributes)$", page)


@not_on_windows
@unittest.skipUnless(shutil.which("git"), "there is no git")
class GitMerges(Check):
    def setUp(self) -> None:
        super().setUp()
        os.mkdir("inbox")
        self.git("init", "-q")
        for words in (("user.name", "Keeper"), ("user.email", "keeper@example.org"),
                      ("commit.gpgsign", "false"), ("core.hooksPath", "/dev/null")):
            self.git("config", *words)
        self.write(".gitignore", "*~\n")
        self.assertEqual(len(attributes()), 2)
        for line in attributes():
            subprocess.run(line, shell=True, check=True)
        self.write("inbox/m.txt", corridor("One", 1, "rRR") + corridor("Two", 2, "rrRR")
                   + corridor("Three", 3))
        self.check("my", "inbox")
        self.commit()
        self.main = self.git("symbolic-ref", "--short", "HEAD").strip()

    def git(self, *words: str, status: int = 0) -> str:
        ran = subprocess.run(["git", *words], stdout=subprocess.PIPE, stderr=subprocess.STDOUT,
                             check=False)
        self.assertEqual(ran.returncode, status, ran.stdout.decode())
        return ran.stdout.decode()

    def commit(self) -> None:
        self.git("add", ".")
        self.git("commit", "-qm", "work")

    def typed(self, name: str, old: str, new: str) -> None:
        """Types something in place of something else, or at the end."""
        text = self.read(name).decode()
        self.assertIn(old, text)
        self.write(name, text.replace(old, new, 1) if old else text + new)

    def branch(self, name: str, export: str) -> None:
        """Makes a branch from the first commit with one more export, checked."""
        self.git("checkout", "-qb", name, self.main)
        first = name.title()
        long = 5 if name == "other" else 7
        self.write(f"inbox/{export}.txt", corridor(f"{first} long", long, "r" * long + "RR")
                   + corridor(f"{first} longer", long + 1))
        self.check("my", "inbox")

    def merged(self) -> None:
        """Merges the other branch into this one, and checks."""
        self.git("merge", "other", "-qm", "both", status=1)
        result = self.check("my", "inbox")
        self.assertNotIn("check: ", result.err)
        for name in ("my.xsb", "my.answers", "my.report", "my.memory"):
            self.assertNotRegex(self.read(name), b"(?m)^(<<<<<<<|=======|>>>>>>>)")

    def test_both_typed(self) -> None:
        """Both added an export, typed a title, an answer and a comment, and numbered their levels
        otherwise."""
        self.branch("other", "z")
        self.typed("my.xsb", "Two\n", "Two, by the other\n")
        self.check("my", "inbox")
        self.typed("my.answers", "", solution(5, 6, "typed by the other"))
        self.check("my", "inbox")
        self.commit()
        self.branch("mine", "a")
        self.typed("my.xsb", "Three\n", "Three, by me\n")
        self.check("my", "inbox")
        self.typed("my.answers", "", solution(5, 3, "typed by me"))
        self.check("my", "inbox")
        self.commit()
        self.merged()
        self.assertIn(b"<<<<<<<", self.read("my.answers~"))
        levels = re.findall(r"(?m)^[A-Z][\w, ]+$", self.read("my.xsb").decode())
        self.assertEqual(levels, ["Mine long", "Mine longer", "One", "Two, by the other",
                                  "Three, by me", "Other long", "Other longer"])
        answers = self.read("my.answers").decode()
        for record in (solution(5, 3, "typed by me"), solution(7, 6, "typed by the other"),
                       "level 6\nsolution\nrrrrrRR\nend\n"):
            self.assertIn(record, answers)
        self.assertEqual(self.report("my")[-1], "total 7 solved 6 unsolvable 0 refused 0 missing 1")
        self.assertFalse(os.path.exists("my.kept.xsb"))
        self.commit()
        self.assertEqual(self.tool("check", "my", "inbox", "--compare").out,
                         b"my: no file would change\n")

    def test_comments_before_a_record_that_both_have(self) -> None:
        """Each typed one, with an empty line below it."""
        for name, comment in (("other", "by the other"), ("mine", "by me")):
            self.git("checkout", "-qb", name, self.main)
            self.typed("my.answers", "level 2\n", f"; {comment}\n\nlevel 2\n")
            self.commit()
        self.merged()
        self.assertIn(b"; by me\n\n; by the other\n\nlevel 2\n", self.read("my.answers"))
        self.assertEqual(self.read("my.answers").count(b"level 2\n"), 1)

    def test_three_versions(self) -> None:
        """Git may also leave what both had."""
        self.git("config", "merge.conflictStyle", "diff3")
        self.test_both_typed()

    def test_answers_that_merge_by_themselves(self) -> None:
        """Then a record may have the number of another level, and goes to the level it solves."""
        self.branch("other", "z")
        self.typed("my.answers", "", solution(3, 3, "typed by the other"))
        self.commit()
        self.branch("mine", "a")
        self.git("checkout", "-q", "other", "--", "my.answers")
        self.check("my", "inbox")
        self.assertIn(solution(5, 3, "typed by the other"), self.read("my.answers").decode())

    def test_marks_in_a_memory_and_in_levels(self) -> None:
        """Each has a message that says what to type."""
        for name, why in (("my.memory", "my.memory has marks of a merge in git: take either "
                           "version, by 'git checkout --ours my.memory', and then run check"),
                          ("my.xsb", "my.xsb line 3 has marks of a merge in git: keep what you "
                           "want of both sides, and remove the marks")):
            before = self.read(name)
            first, second, rest = before.split(b"\n", 2)
            self.write(name, b"\n".join([first, second, b"<<<<<<< HEAD", b"=======", b"a: 1",
                                         b">>>>>>> other", rest]))
            typed = self.read(name)
            result = self.check("my", "inbox")
            self.assertEqual((result.status, result.err), (2, f"check: {why}\n"))
            self.assertEqual(self.read(name), typed)
            self.write(name, before)

    def test_marks_of_an_export_are_text(self) -> None:
        """They are reported, and the keeper may go on to type."""
        self.write("inbox/n.txt", "<<<<<<< HEAD\n" + corridor("Four", 4) + "=======\n"
                   + corridor("Five", 5) + ">>>>>>> other\n")
        self.check("my", "inbox")
        self.typed("my.xsb", "Five\n", "Five, typed\n")
        result = self.check("my", "inbox")
        self.assertEqual(result.err, "")
        self.assertIn("problem: inbox/n.txt line 1: an unsolved conflict of git",
                      result.out.decode())
        self.assertIn(b"Five, typed\n", self.read("my.xsb"))
