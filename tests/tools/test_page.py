"""The page: its data, its messages, and the exit status. test_viewer shows it in a browser."""
import io
import json
import os
import re
import shutil
import unittest
from contextlib import redirect_stderr, redirect_stdout
from typing import Any, Tuple

from sokotool.main import main

from tests.runner import call
from tests.tools.helping import ONE, SAMPLES, Case, Result

NODE = shutil.which("node")
NONE = "sokoban-answers 1\n"
TITLES = '''<script>document.title = "run"</script><img src=x onerror='document.title = "run"'>
#####
#@ .#
# $ #
#####
Title: </script><b>bold</b> "quoted" \\ back

'''
# a sample's line, and a line that its level and answer can't have
CHANGES = (("moves 1", "moves 2"), ("patterns 3", "patterns 4"), ("zone 5", "zone 4"),
           ("board goals", "board box"), ("line 26", "line 27"), ("move 2 letter", "move 1 letter"),
           ("level 23 missing", "level 23 refused start"), ("level 2 ", "level 3 "),
           ("total 23", "total 22"))


def data_of(made: bytes) -> Any:
    """Returns the data of the page."""
    data, = re.findall('id="data">(.*?)</script>', made.decode())
    return json.loads(data)


class Texts(Case):
    """The texts in the page, and the status."""

    def setUp(self) -> None:
        super().setUp()
        os.symlink(SAMPLES, "samples")

    def page(self, *words: str, given: bytes = b"") -> Tuple[Result, Any]:
        result = self.tool("page", *words, given=given)
        return result, data_of(result.out) if result.out else None

    def samples(self, *names: str, given: bytes = b"") -> Tuple[Result, Any]:
        words = ("-" if name == "-" else "samples/" + name for name in names)
        return self.page(*words, given=given)

    def test_samples_belong_together(self) -> None:
        for name in ("every", "first", "exports", "deadlocks"):
            result, data = self.samples(*(f"{name}.{end}" for end in ("xsb", "answers", "report")))
            self.assertEqual((result.status, result.err, data["fault"]), (0, "", ""))
            self.assertEqual(data["names"], [f"samples/{name}.{end}"
                                             for end in ("xsb", "answers", "report")])
            lines = self.sample(name + ".report").decode().rstrip().split("\n")[:-1]
            self.assertEqual([it["line"] for it in data["verdicts"].values()], lines)

    def test_report_of_another_collection(self) -> None:
        for words in (("first.xsb", "every.answers", "every.report"),
                      ("every.xsb", "first.answers", "every.report"),
                      ("first.xsb", "first.answers", "every.report"),
                      ("first.xsb", "first.answers", "first.xsb")):
            result, data = self.samples(*words)
            self.assertEqual(result.status, 1)
            self.assertTrue(data["fault"])
            self.assertIn(data["fault"], result.err)

    def test_report_that_was_changed(self) -> None:
        report = self.sample("every.report").decode()
        for old, new in CHANGES:
            self.assertIn(old, report)
            changed = report.replace(old, new).encode()
            result, data = self.samples("every.xsb", "every.answers", "-", given=changed)
            self.assertEqual((result.status, bool(data["fault"])), (1, True), new)

    def test_report_that_was_cut(self) -> None:
        lines = self.sample("first.report").splitlines(True)
        for count in (0, 3, 5):
            cut = b"".join(lines[:count])
            result, data = self.samples("first.xsb", "first.answers", "-", given=cut)
            said = (f"it is cut: it has {count} levels and no total line" if count
                    else "it isn't a report")
            self.assertEqual((result.status, data["fault"]), (1, said))

    def test_titles_as_by_named(self) -> None:
        self.write("a.xsb", "First\n" + ONE + "Author: Ben\n\n" + ONE)
        self.write("a", NONE)
        self.write("r", "level 1 missing\nlevel 2 missing\n"
                   "total 2 solved 0 unsolvable 0 refused 0 missing 2\n")
        levels = self.page("a.xsb", "a", "r")[1]["levels"]
        self.assertEqual([level["title"] for level in levels], ["First", ""])

    def test_no_text_ends_the_script(self) -> None:
        self.write("a.xsb", TITLES + "@DATA@ @game.js@\n" + ONE)
        self.write("a", NONE)
        self.write("r", "level 1 missing\nlevel 2 missing\n"
                   "total 2 solved 0 unsolvable 0 refused 0 missing 2\n")
        result, data = self.page("a.xsb", "a", "r")
        # the data, the script and its start end, and nothing else
        self.assertEqual(result.out.count(b"</script>"), 4)
        self.assertEqual([level["title"] for level in data["levels"]],
                         ['</script><b>bold</b> "quoted" \\ back', "@DATA@ @game.js@"])

    @unittest.skipUnless(NODE, "node is not installed")
    def test_script_parses(self) -> None:
        page = self.samples("first.xsb", "first.answers", "first.report")[0].out.decode()
        script, = re.findall(r"<script>\n(.*?)</script>", page, re.S)
        self.write("page.js", script)
        self.assertEqual(call([str(NODE), "--check", "page.js"]), (b"", b"", 0))

    def test_words(self) -> None:
        first = [f"samples/first.{end}" for end in ("xsb", "answers", "report")]
        result = self.tool("page", "-", "-", first[2])
        self.assertEqual((result.status, result.err),
                         (2, "page: standard input (-) is named twice\n"))
        result = self.tool("page", *first[:2])
        self.assertEqual(result.status, 2)
        self.assertTrue(result.err.endswith("the following arguments are required: REPORT\n"))

    def test_terminal(self) -> None:
        words = ["page", *(f"samples/first.{end}" for end in ("xsb", "answers", "report"))]
        with redirect_stdout(Terminal()) as screen, redirect_stderr(io.StringIO()) as err:
            self.assertEqual(main(words), 2)
            self.assertEqual(main([*words, "-o", "page.html"]), 0)
        said = "page: the page is for a browser, not for a terminal: add -o page.html\n"
        self.assertEqual((screen.getvalue(), err.getvalue()), ("", said))
        self.assertEqual(data_of(self.read("page.html"))["fault"], "")


class Terminal(io.StringIO):
    """Standard output that is a terminal."""

    def isatty(self) -> bool:
        return True
