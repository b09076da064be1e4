"""Power cuts while check writes: the next run makes all files new, and loses nothing."""
import os
from typing import Dict

from . import disk
from .helping import ONE, Case, Result

MORE = "Title: More\n\n#######\n#@ $ .#\n#######\nSolution: rRR\n"


class PowerCuts(Case):
    def setUp(self) -> None:
        super().setUp()
        self.use_program()

    def check(self) -> Result:
        return self.tool("check", "mine", "one.txt", "more.txt", "--seconds", "0")

    def files(self) -> Dict[str, bytes]:
        return {name: self.read(name) for name in os.listdir()}

    def test_check(self) -> None:
        """What was typed and what was added is there after the next run, whatever was lost."""
        self.write("one.txt", ONE + "Solution: R\n")
        self.write("more.txt", "")
        self.check()
        self.write("mine.xsb", self.read("mine.xsb") + b"; typed\n")
        self.write("more.txt", MORE)
        with disk.followed() as cuts:
            result = self.check()
        wanted = self.files()
        self.assertEqual(result.status, 0)
        self.assertIn(b"; typed\n", wanted["mine.xsb"])
        self.assertIn(b"rRR", wanted["mine.answers"])
        for left in sorted(cuts):
            disk.put(left)
            self.assertEqual(self.check().status, 0)
            self.assertEqual(self.files(), wanted, left)
