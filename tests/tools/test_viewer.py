"""The page in a real browser: what is drawn, and its address."""
import re
from typing import List

from tests.tools.helping import ONE, pace
from tests.tools.test_page import TITLES
from tests.tools.viewing import CORRIDOR, HASH, SAID, Page, shared

SAMPLES = ("every", "first", "exports", "deadlocks")
SOLVED = re.compile(r"^level (\d+) solved moves (\d+) pushes (\d+) changes (\d+)", re.M)
LISTED = re.compile(r"^level (\d+) unsolvable patterns (\d+)", re.M)
# for how many milliseconds of the processor's time the page may not answer
LONGEST = 100
# the patterns of the list that is shown which a push leaves uncovered
OPEN_PUSHES = """viewer.page.answer.certificate.patterns.filter(pattern => {
    const work = viewer.page.answer.certificate.pushesOut(pattern);
    let step = work.next();
    while (!step.done) step = work.next();
    return step.value.some(push => push.covered < 0);
}).map(pattern => pattern.line)"""


class Eye(Page):
    """What is drawn."""

    def test_every_status(self) -> None:
        self.samples("every")
        self.open()
        wanted = re.findall(r"^level (\d+) (\w+)", self.sample("every.report").decode(), re.M)
        self.assertEqual(list(zip(self.all(".card", "data-level"), self.all(".card", "className"))),
                         [(number, f"card {status}") for number, status in wanted])
        self.open("#9")
        self.assertEqual(self.all(".refused-line code"), ["pattern 3,3 2,3 @ *"])
        self.assertIn("Here: the cells aren't in reading order", self.all(".why")[0])
        self.open("#20")
        self.assertEqual(self.all(".arrow.refused", "data-at"), ["2,3"])
        self.assertEqual(self.all(".arrow.refused", "data-dir"), ["r"])

    def test_counts_are_the_ones_in_the_report(self) -> None:
        for name in SAMPLES:
            report = self.sample(name + ".report").decode()
            self.samples(name)
            self.open()
            for number, *counts in SOLVED.findall(report):
                shared.ask(f"location.hash = '#{number}:end'")
                self.holds("document.querySelector('.heading').textContent.split(' ')[1]", number)
                self.assertEqual(self.all(".count b"), counts, (name, number))
                self.assertEqual(self.all(".state", "data-solved"), ["true"])

    def test_accepted_lists_cover_each_push(self) -> None:
        for name in SAMPLES:
            report = self.sample(name + ".report").decode()
            self.samples(name)
            self.open()
            for number, lines in LISTED.findall(report):
                shared.ask(f"location.hash = '#{number}'")
                self.holds("viewer.page.answer.patterns?.length", int(lines))
                self.assertEqual(shared.ask(OPEN_PUSHES), [], (name, number))

    def test_push_into_the_boxes_of_a_pattern_but_not_its_region(self) -> None:
        self.page(CORRIDOR, "level 1\nunsolvable\npattern 3,2 5,2 @ 2,2\n"
                  "pattern 4,2 5,2 @ 6,2\nend\n", "level 1 refused line 4 push 2,2 r\n"
                  "total 1 solved 0 unsolvable 0 refused 1 missing 0\n")
        self.open("#1")
        self.assertEqual(self.all(".arrow", "data-at"), ["2,2"])
        self.assertEqual(self.all(".pushes li"),
                         ["push 2,2 r: no pattern covers the result"])

    def test_arrow_leads_to_its_pattern(self) -> None:
        self.walk("#2")
        shared.click(".arrow .shaft")
        self.assertEqual(self.all("input[type=number]", "value"), ["2"])
        self.holds(HASH, "#2:2")

    def test_other_boxes(self) -> None:
        self.samples("deadlocks")
        for address, others in (("#4", ["6,4"]), ("#5:2", ["8,3"])):
            self.open(address)
            self.assertEqual(self.all(".other", "data-cells"), others)
        self.assertIn("start position", self.all("button"))

    def test_refused_letter_and_titles(self) -> None:
        self.page(TITLES + ONE, "level 1\nunsolvable\npattern 3,3 @ *\nend\n"
                  "level 2\nsolution\nRR\nend\n",
                  "level 1 refused line 4 push 2,3 r\nlevel 2 refused move 2 blocked\n"
                  "total 2 solved 0 unsolvable 0 refused 2 missing 0\n")
        self.open()
        self.assertEqual(self.all(".card .title")[0], '</script><b>bold</b> "quoted" \\ back')
        self.assertEqual(shared.ask("document.title"), "x.xsb - sokoaudit report")
        self.open("#2")
        self.assertEqual(self.all(".letters .bad"), ["R"])
        self.assertEqual(self.all(".whole button"), ["copy", "copy"])

    def test_refused_letter_is_not_played(self) -> None:
        self.walk("#1:end")
        self.assertEqual(self.all(".count b"), ["3", "1", "1"])
        shared.press("ArrowRight", "End")
        self.holds(HASH, "#1:3")
        self.assertEqual(self.all(".count b"), ["3", "1", "1"])
        self.open("#1:-3")
        self.assertEqual(self.all(".count b"), ["0", "0", "0"])

    def test_cut_title_has_a_tooltip(self) -> None:
        title = "A title that is longer than any card is wide, a card of few levels too"
        self.page(f"{title}\n{ONE}")
        self.open()
        self.assertEqual(self.all(".card [title]", "title"), [title])
        self.assertTrue(shared.ask("document.querySelector('.card .title').scrollWidth"
                                   " > document.querySelector('.card .title').clientWidth"))

    def test_report_of_other_levels(self) -> None:
        self.print(*("samples/" + name for name in ("first.xsb", "first.answers", "every.report")))
        self.open()
        self.assertEqual(self.all(".fault"), ["The report isn't of these levels and answers: "
                                              "it has 23 levels, and the collection has 5."])
        self.assertEqual(self.all(".chip.all"), [" levels 5"])
        self.assertNotIn("23", self.all("header")[0])

    def test_level_says_its_collection(self) -> None:
        self.walk("#2")
        self.assertEqual(self.all(".heading"), ["Level 2 Corridor line 8 of x.xsb"])

    def test_fits_in_each_width(self) -> None:
        self.samples("every")
        for width, dark in ((1280, False), (1000, True), (390, False), (320, True)):
            shared.size(width, 800, dark)
            for address in ("", "#1", "#2", "#3", "#10"):
                self.open(address)
                wide = shared.ask("document.documentElement.scrollWidth")
                self.assertLessEqual(wide, width, (width, address))
                for height in self.all("nav > *", "offsetHeight"):
                    self.assertLess(height, 40, (width, address))

    def test_header_is_one_row(self) -> None:
        self.samples("every")
        self.open()
        self.assertLess(shared.ask("document.querySelector('header').offsetHeight"), 70)

    def test_all_pushes_are_on_paper(self) -> None:
        boxes = " ".join(f"{column},3" for column in range(3, 20, 2))
        self.page(f"{'#' * 20}\n#@{' ' * 17}#\n#{' $' * 9}#\n#{' ' * 18}#\n{'#' * 20}\n",
                  f"level 1\nunsolvable\npattern {boxes} @ 2,2\nend\n")
        self.open("#1")
        shared.call("Emulation.setEmulatedMedia", media="print")
        self.assertEqual(shared.ask("document.querySelector('.pushes').children.length"), 34)
        self.assertEqual(*shared.ask("['scrollHeight', 'clientHeight'].map(it => "
                                     "document.querySelector('.pushes')[it])"))
        shared.call("Emulation.setEmulatedMedia", media="")

    def test_no_request(self) -> None:
        self.samples("every")
        self.open()
        shared.press("ArrowRight", "Enter", "n", "ArrowRight", "Escape")
        self.holds(HASH, "")
        self.assertEqual(shared.requests, [f"file://{self.folder}/page.html"])


class Addresses(Page):
    """The address after '#'."""

    def test_follows_the_step(self) -> None:
        self.walk("#1:0")
        length = shared.ask("history.length")
        shared.press("ArrowRight", "ArrowRight")
        self.holds(HASH, "#1:2")
        self.assertEqual(shared.ask("history.length"), length)
        self.open("#1:2")
        self.assertEqual(self.all(".count b"), ["2", "1", "1"])
        shared.press("ArrowLeft", "Home")
        self.holds(HASH, "#1:0")
        shared.press("n")
        self.holds(HASH, "#2")
        shared.press("ArrowRight")
        self.holds(HASH, "#2:2")
        self.open("#2:2")
        self.assertEqual(self.all("input[type=number]", "value"), ["2"])

    def test_back_leads_to_the_step(self) -> None:
        self.walk()
        shared.press("ArrowRight", "Enter")
        self.holds(HASH, "#1")
        shared.press("Home", "ArrowRight")
        self.holds(HASH, "#1:1")
        shared.press("Escape")
        self.holds(HASH, "")
        shared.ask("history.back()")
        self.holds(HASH, "#1:1")
        self.holds("document.querySelector('.count b').textContent", "1")

    def test_follows_what_is_played(self) -> None:
        self.walk("#1:0")
        shared.press(" ")
        self.holds("document.querySelector('.count b').textContent", "3")
        self.holds(HASH, "#1:3")

    def test_step_of_a_level_that_was_left(self) -> None:
        self.walk("#1:0")
        shared.press("ArrowRight", "n")
        self.holds(HASH, "#2")
        shared.ask("new Promise(done => setTimeout(done, 400))")
        # on a busy machine the next level says something itself
        self.assertEqual((shared.ask(HASH), "Letter" in shared.ask(SAID)), ("#2", False))


class Large(Page):
    """What is large: the page answers while it works."""
    is_timed = True

    def answers_during(self, work: str, done: str) -> None:
        """The page is never silent for more than a tenth of a second, as on an idle machine. Others
        may use this one, so the best of four tries counts."""
        def watched() -> None:
            shared.ask(f"{{ {work}; }} 0")  # a block, since it may run again
            shared.until(done)

        tries: List[float] = []
        while not tries or tries[-1] >= LONGEST and len(tries) < 4:
            before = pace()
            tries.append(2 * shared.longest(watched) / (before + pace()))
        self.assertLess(tries[-1], LONGEST, tries)

    def test_long_list(self) -> None:
        row = "#" + " " * 98 + "#\n"
        level = "#" * 100 + "\n#@" + " " * 97 + "#\n" + row * 16 + "".join(
            "#" + " " * 50 + "$" + " " * 46 + ".#\n" + row for _ in range(16)) + "#" * 100 + "\n"
        boxes = [f"52,{19 + 2 * i}" for i in range(16)]
        lines = "".join("pattern " + " ".join(box for i, box in enumerate(boxes) if n >> i & 1)
                        + " @ 2,2\n" for n in range(1, 65536))
        self.page(level, "level 1\nunsolvable\n" + lines + "end\n",
                  "level 1 unsolvable patterns 65535\n"
                  "total 1 solved 0 unsolvable 1 refused 0 missing 0\n")
        self.open()
        done = "document.querySelectorAll('.arrow').length === 64"
        show = ("const show = () => viewer.page.keys.End ? viewer.page.answer.show(65535)"
                " : setTimeout(show, 20); show()")
        self.answers_during(f"viewer.go(1); {show}", done)
        self.assertEqual(self.all(".pushes button")[0], "push 52,18 d: covered by pattern 2")

    def test_large_levels(self) -> None:
        level = ("#" * 255 + "\n#@$." + " " * 250 + "#\n" + ("#" + " $" * 126 + " #\n") * 252
                 + "#" * 255 + "\n\n")
        self.page(level * 40)
        self.open()
        work = "for (const level of viewer.levels) level.board = null; viewer.overview.show(true)"
        self.answers_during(work, "!viewer.overview.undrawn.size")
