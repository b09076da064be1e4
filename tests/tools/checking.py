"""Runs check in the folder of a test, and reads what it writes."""
import os
import re
import shutil
import unittest.mock
from typing import List

from sokotool import auditor
from sokotool.commands import convert
from tests.tools.helping import SAMPLES, Case, Result

CORNER = "Corner\n######\n#    #\n#@$  #\n#  . #\n######\n"
LOST = "Lost\n#####\n#$ .#\n# @ #\n#####\n"
LONG = "Title: Long\n########\n#@ $  .#\n########\nSolution: rRRR\n"


class Check(Case):
    maxDiff = None

    def setUp(self) -> None:
        super().setUp()
        self.use_program()

    def check(self, *words: str, given: bytes = b"") -> Result:
        """Runs check without a search."""
        return self.tool("check", *words, "--seconds", "0", given=given)

    def converts(self, *words: str) -> bool:
        """Returns whether a check of the exports converts them."""
        with unittest.mock.patch("sokotool.commands.convert.read_files",
                                 side_effect=convert.read_files) as read_files:
            self.said = self.check("mine", *words)
        return bool(read_files.called)

    def lines(self, result: Result) -> List[str]:
        """Returns the summary without the note of the reference and the files that were written."""
        return [line for line in result.out.decode().splitlines()
                if line != auditor.REFERENCE_NOTE and not line.startswith("wrote: ")]

    def report(self, name: str = "mine") -> List[str]:
        """The lines of a report."""
        return [line for line in self.read(f"{name}.report").decode().splitlines()
                if not line.startswith(";")]

    def exports(self) -> List[str]:
        """Copies the exports without the two faults that tear levels, and writes answers to two
        levels of the editor."""
        if not os.path.exists("exports"):
            shutil.copytree(os.path.join(SAMPLES, "exports"), "exports")
            forum = self.read("exports/forum.txt").split(b"\n")
            self.write("exports/forum.txt", b"\n".join(forum[:4] + forum[5:]).replace(b"\t", b" "))
            self.write("hand", "sokoban-answers 1\n; Corner turn\nlevel 1\nsolution\nRurD\nend\n"
                       "level 2\nsolution\ndrU ldlluR drU\nend\n")
        return sorted(os.path.join("exports", name) for name in os.listdir("exports"))

    def change_exports(self) -> None:
        """One level is inserted before all, one turned, one mended, and the last removed."""
        self.write("exports/a.txt", LONG)
        editor = self.read("exports/editor.slc").decode()
        for row, turned in (("#    #", "# .  #"), ("#@$  #", "#  $@#?"), ("#  . #", "#    #"),
                            ("#?", "#")):
            editor = editor.replace(row, turned, 1)
        self.write("exports/editor.slc", editor)
        self.write("exports/player.sok",
                   re.sub(rb"(?m)^rurr$", b"rrr", self.read("exports/player.sok")))
        os.remove("exports/stairs.sok")
        os.remove("exports/stairs.sol")
