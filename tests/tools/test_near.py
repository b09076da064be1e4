"""Near misses and edges: a text with all but one part of a form is told, never taken for it without
a word, and what is counted is right at its edge."""
import contextlib
import itertools
import os
import random
import re
import signal
import struct
import sys
import unittest.mock
from typing import Iterator, List

from sokotool import answers, builder, changes, levels, progress, sources, summary, system
from sokotool.board import board_of
from sokotool.commands import convert
from sokotool.formats import other_games

from .helping import ONE, Case, not_on_windows

ROWS = ["#####", "#@$.#", "#####"]
# the heads of other games, by their parts
GAMES = {
    "Gnu Robbo": ["[last_level]\n5\n", "[size]\n16.31\n"],
    "PuzzleScript": ["LEGEND\n", "COLLISIONLAYERS\n"],
    "xsok": [";WALLS\n", "wall x.y\n"],
    "Boulder Dash": ["[BDCFF]\n"],
    "XPM": ["/* XPM */\n"],
}
# a heading of a solution: what may come before its word, the word, and what may come after it
BEFORE = "", "; ", "Best ", "My first ", "Another ", "No "
WORDS = "Solution", "solutions", "LURD", "Solved", "Moves", "Answer"
AFTER = "", ":", " 3/2", " (1/1)", " of level 1", " by Ann", "?", "!", " 7", ": none"
# rows as other texts have them: what is before and after each one
DRESSES = [("    \"", "\","), ("'", "'"), (": ", ""), ("<Row>", "</Row>"), ("`", "`,")]


class NearMisses(Case):
    def has_level(self, text: str) -> bool:
        """Whether the text has one level when it is converted. If it hasn't, something is said."""
        result, _, found = self.convert(text)
        count = len(levels.read(self.read("out.xsb"))) if os.path.exists("out.xsb") else 0
        self.assertTrue(count == 1 or result.status or " is not read" in result.err
                        or "has no level" in result.err, (text, result.err))
        return count == 1 and found is not None

    def test_heads_of_other_games(self) -> None:
        """All parts of a head name the game, and fewer don't: the level is read then."""
        for game, parts in GAMES.items():
            self.assertEqual(other_games.game_of("".join(parts) + ONE), game)
            for at in range(len(parts)):
                fewer = "".join(parts[:at] + parts[at + 1:])
                self.assertEqual(other_games.game_of(fewer + ONE), "", (game, fewer))
                self.assertTrue(self.has_level(fewer + "\n" + ONE), (game, fewer))
            late = "Some text\n" + "".join(parts)
            if len(parts) == 1:
                self.assertEqual(other_games.game_of(late + ONE), "", game)

    def test_headings(self) -> None:
        """Letters after a line that may be a heading are the solution, or are told."""
        for before, word, after in itertools.product(BEFORE, WORDS, AFTER):
            text = f"{ONE}{before}{word}{after}\nR\n"
            result, _, written = self.convert(text)
            found = [it.answer for it in answers.read(written).records]
            self.assertTrue(found or result.status == 1 or "solution" in result.err,
                            (text, result.err))

    def test_dressed_rows(self) -> None:
        """Rows that are dressed alike are a level. With one of them bare, or dressed in another
        way, or without an end, there is a level or a message."""
        for (begin, end), (other, other_end) in itertools.permutations(DRESSES, 2):
            dressed = [f"{begin}{row}{end}" for row in ROWS]
            self.assertTrue(self.has_level("\n".join(dressed) + "\n"), dressed)
            for at, row in enumerate(ROWS):
                for bad in (row, begin + row, row + end, f"{other}{row}{other_end}"):
                    self.has_level("\n".join(dressed[:at] + [bad] + dressed[at + 1:]) + "\n")

    def test_a_bad_file_among_good_ones(self) -> None:
        """The good ones are converted, and the bad one is named."""
        os.mkdir("in")
        self.write("in/a.txt", ONE + "Solution: R\n")
        self.write("in/one.xsb", "#\n\n" * 10_001)
        self.write("in/one.answers", "sokoban-answers 1\nlevel 1\nsolution\nR\nend\n")
        self.write("in/z.txt", ONE)
        result = self.tool("convert", "out", "in", "--split")
        self.assertIn("one", result.err)
        self.assertIn(b"R", self.read("out-1.answers"))


class Edges(Case):
    """The first and the last of a count, exactly one or two, and exactly the limit."""

    def test_levels_in_words(self) -> None:
        """Numbers as text are the numbers, those of two levels too, and each run is written once.
        """
        for chosen in itertools.product((False, True), repeat=6):
            numbers = [number for number, there in enumerate(chosen, 1) if there]
            said = [it.partition("-") for it in changes.ranges(numbers).split(", ") if it]
            runs = [(int(first), int(last or first)) for first, _, last in said]
            self.assertEqual([it for first, last in runs for it in range(first, last + 1)], numbers)
            self.assertTrue(all(one[1] + 1 < other[0] for one, other in zip(runs, runs[1:])), runs)

    def test_some_of_many_changes(self) -> None:
        """Of more than four changes of a kind the summary has four, and says how many more."""
        for count in range(7):
            removed = [changes.Change("removed", 0, number, "", f"word{number}")
                       for number in range(1, count + 1)]
            said = " ".join(summary.changed(removed))
            self.assertEqual(said.count("word"), min(count, 4))
            more = re.findall(r"; and (\d+) more", said)
            self.assertEqual(more, [str(count - 4)] * (count > 4))

    def test_levels_that_got_other_numbers(self) -> None:
        """One, two or three after a new one are a run."""
        for count in (1, 2, 3):
            moved = [changes.Change("renumbered", number + 1, number, "", "")
                     for number in range(1, count + 1)]
            now, was = ("level 2", "1") if count == 1 else (f"levels 2-{count + 1}", f"1-{count}")
            self.assertEqual([*summary.changed(moved)], [f"renumbered: {now} (formerly {was})"])

    def test_lines_and_levels_of_a_fault(self) -> None:
        """A solution that can't be played is told with its line and its level, wherever it is."""
        for before, bad in itertools.product(range(3), range(1, 4)):
            text = "\n" * before + "".join(
                ONE + f"Solution: {'L' if number == bad else 'R'}\n\n" for number in range(1, 4))
            line = before + ONE.count("\n") * bad + 2 * (bad - 1) + 1
            self.assertIn(f"mine.txt line {line}: the solution of level {bad} cannot be played",
                          self.convert(text)[0].err)


class Parts(Case):
    """What is built from exports, and split into several collections."""

    def test_each_answer_is_in_the_part_of_its_level(self) -> None:
        chance = random.Random(9)
        for most in (1, 2, 3, 5):
            with unittest.mock.patch.object(levels, "MOST_LEVELS", most):
                built = builder.Collection(split=True)
                widths = [chance.randrange(6) for _ in range(chance.randrange(1, 17))]
                export = ""
                for width in widths:
                    wall = "#" * (width + 5)
                    export += f"{wall}\n#@{' ' * width}$.#\n{wall}\n\n"
                    export += f"Solution: {'r' * width}R\n\n" if width % 3 else ""
                convert.read_files(built, [sources.Export("a.txt", export.encode)])
                parts = built.parts()
            self.assertEqual(len(parts), -(-len(widths) // most))
            there: List[int] = []
            for text, written in parts:
                drawn = levels.read(text)
                self.assertLessEqual(len(drawn), most)
                there += [len(it.rows[0]) - 5 for it in drawn]
                for record in answers.read(written).records:
                    board = board_of(drawn[record.level - 1])
                    played = b"".join(record.answer.lines[1:-1]).decode()
                    self.assertIsNone(builder.Collection().attempt(played, board).why)
            self.assertEqual(there, widths)


@contextlib.contextmanager
def on_terminal(columns: int) -> Iterator[int]:
    """Standard error is a terminal of this width, whose other end is yielded."""
    import fcntl
    import pty
    import termios
    ours, theirs = pty.openpty()
    fcntl.ioctl(theirs, termios.TIOCSWINSZ, struct.pack("HHHH", 5, columns, 0, 0))
    with open(theirs, "w", encoding="utf-8") as stream, unittest.mock.patch.object(
            sys, "stderr", stream), unittest.mock.patch.dict(os.environ, TERM="xterm"):
        yield ours
    os.close(ours)


def read_until(terminal: int, end: str) -> str:
    """What a terminal gets until it ends so: what was written twice may come in two parts."""
    said = ""
    while not said.endswith(end):
        said += os.read(terminal, 999).decode()
    return said


@not_on_windows
class Terminals(Case):
    def test_width_of_the_status_line(self) -> None:
        """It never ends in the last column, and leaves nothing."""
        for columns in (9, 20, 80):
            with on_terminal(columns) as terminal:
                shown = progress.Progress("find")
                shown.show("level 12 of 345")
                first = os.read(terminal, 999).decode()
                self.assertEqual(len(first), min(columns - 1, len("find: level 12 of 345")))
                shown.show("other 13")
                other = "find: other 13"[:columns - 1]
                self.assertEqual(read_until(terminal, other), f"\r{' ' * len(first)}\r{other}")
                shown.clear()
                shown.clear()
                wiped = os.read(terminal, 999).decode()
                self.assertEqual(wiped.strip("\r "), "")
                self.assertLess(len(wiped.strip("\r")), columns)


class Handlers(Case):
    def test_handlers_are_put_back(self) -> None:
        """Also after an error, and after an interrupt, which comes when the work ends or fails."""
        def handler(*_: object) -> None:
            raise AssertionError

        before = signal.signal(signal.SIGINT, handler)
        self.addCleanup(signal.signal, signal.SIGINT, before)
        with system.uninterrupted():
            pass
        self.assertIs(signal.getsignal(signal.SIGINT), handler)
        with self.assertRaises(ValueError), system.uninterrupted():
            raise ValueError
        self.assertIs(signal.getsignal(signal.SIGINT), handler)
        done = []
        with self.assertRaises(KeyboardInterrupt), system.uninterrupted():
            signal.raise_signal(signal.SIGINT)
            done.append("the work")
        self.assertEqual(done, ["the work"])
        with self.assertRaises(KeyboardInterrupt), system.uninterrupted():
            signal.raise_signal(signal.SIGINT)
            raise ValueError
        self.assertIs(signal.getsignal(signal.SIGINT), handler)
