"""The words of reports and errors: the page of messages has each of them with its sentences, and
every word that the program can print is among them."""
import os
import re

from sokotool import report
from sokotool.levels import Level
from sokotool.messages import ERRORS, REFUSALS, VERDICTS, reason

from tests.runner import TOP, read
from tests.tools.helping import Case


def key_of(words: str) -> str:
    """The key of words as a page shows them, with letters for numbers, cells and directions."""
    words = re.sub(r" (line|move|unsolved) [LMNB]\b", r" \1", f" {words}").strip()
    words = re.sub(r" C,R d$", "", words)
    return re.sub("^answers line ", "answers ", words)


class Messages(Case):
    """The table of sentences."""

    def test_the_page_has_each_message(self) -> None:
        page = read(os.path.join(TOP, "docs/messages.md")).replace("\n  ", " ")
        rows = re.findall(r"(?m)^- \*\*`([^`]+)`\*\* (.*?)(?: \*(.*)\*)?$", page)
        shown = {key_of(words): (meaning.replace("\\*", "*"), cure.replace("\\*", "*"))
                 for words, meaning, cure in rows}
        del shown["board WHY"]  # it points at other rows
        self.assertEqual({**VERDICTS, **REFUSALS, **ERRORS}, shown)

    def test_each_refusal_of_the_samples_has_a_sentence(self) -> None:
        report = read(os.path.join(TOP, "samples/every.report"))
        words = re.findall(r"(?m)^level \d+ refused (.*)$", report)
        keys = {re.sub(r" \d+,\d+ [lurd]$| \d+(?= |$)", "", it) for it in words}
        keys = {re.sub(" $", "", it) for it in keys}
        self.assertEqual(set(REFUSALS) - keys, {"line count"})
        self.assertEqual(keys - set(REFUSALS), set())

    def test_a_board_is_refused_for_its_numbers(self) -> None:
        for row, words, numbers in ((b"#@$*$.#", "goals", "3 boxes and 2 goals"),
                                    (b"#+@$*.#", "player", "2 players")):
            said = report.line_of(f"level 1 refused board {words}")
            assert said
            self.assertTrue(reason(Level(1, [row], 1), said).endswith(f" It has {numbers}."))
