"""A page in the browser that all tests share."""
import json
import os
import re
from typing import Any, List, Optional

from tests.tools import browser
from tests.tools.helping import SAMPLES, Case

shared = browser.Browser()
FOCUS = "document.activeElement"
CARD = FOCUS + ".dataset.level ?? ''"
SAID = "document.querySelector('.said').textContent"
# the address, once the page shows what it names
HASH = "viewer.routed === location.hash ? location.hash : null"
# A solution whose fourth letter is refused, and a list whose first pattern has one push out.
WALK = "Walk\n#######\n#@ $ .#\n#  *  #\n#######\n"
WALK_ANSWER = "level 1\nsolution\nrRlLRR\nend\n"
CORRIDOR = "Corridor\n##########\n#@$ $ ..##\n###### ###\n#.   $   #\n##########\n"
CORRIDOR_ANSWER = "level 2\nunsolvable\npattern 3,2 5,2 @ 2,2\npattern 4,2 5,2 @ 3,2\nend\n"


class Page(Case):
    """A test of a page. It is skipped where there is no browser."""

    def setUp(self) -> None:
        if not browser.PROGRAM:
            self.skipTest("there is no browser (chromium) here")
        super().setUp()
        os.symlink(SAMPLES, "samples")
        shared.start()
        shared.size(1280, 800)

    def page(self, levels: str, answers: str = "", report: Optional[str] = None) -> None:
        """Writes a page of texts. Without a report, one is made in which every level is missing."""
        count = len(re.findall(r"(?m)(?<!#\n)^#+\n", levels))
        lines = "".join(f"level {n} missing\n" for n in range(1, count + 1))
        report = report or f"{lines}total {count} solved 0 unsolvable 0 refused 0 missing {count}\n"
        self.write("x.xsb", levels)
        self.write("x.answers", "sokoban-answers 1\n" + answers)
        self.write("x.report", report)
        self.print("x.xsb", "x.answers", "x.report")

    def samples(self, name: str) -> None:
        """Writes the page of a sample."""
        self.print(*(f"samples/{name}.{end}" for end in ("xsb", "answers", "report")))

    def print(self, *words: str) -> None:
        """Writes the page that the command prints."""
        self.write("page.html", self.tool("page", *words).out)

    def open(self, address: str = "") -> None:
        """Opens the page. The test fails if its script has an error."""
        shared.open(f"file://{self.folder}/page.html{address}")
        self.addCleanup(lambda: self.assertEqual(shared.errors, []))

    def walk(self, address: str = "") -> None:
        """Opens a page of a level with a solution and one with a list."""
        report = ("level 1 refused move 4 case\nlevel 2 unsolvable patterns 2\n"
                  "total 2 solved 0 unsolvable 1 refused 1 missing 0\n")
        self.page(WALK + "\n" + CORRIDOR, WALK_ANSWER + CORRIDOR_ANSWER, report)
        self.open(address)

    def all(self, selector: str, of: str = "textContent") -> List[Any]:
        """What each element that fits a selector has of this property or attribute."""
        selector, of = json.dumps(selector), json.dumps(of)
        return list(shared.ask(f"[...document.querySelectorAll({selector})]"
                               f".map(e => e[{of}] ?? e.getAttribute({of}))"))

    def holds(self, expression: str, value: Any) -> None:
        """Waits until an expression in the page has this value."""
        shared.until(f"JSON.stringify({expression}) === {json.dumps(json.dumps(value))}", 30)
        self.assertEqual(shared.ask(expression), value)
