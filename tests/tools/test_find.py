"""The command find, and its search."""
import contextlib
import glob
import os
import random
import re
import signal
import subprocess
import time
import unittest.mock

import solve
from typing import Any, List, Tuple
from tests.tools.helping import (TOP, Case, Result, is_slow, needs_copies, not_on_windows,
                                 used)
from sokotool import levels
from sokotool.board import Board
from sokotool.search import refute
from sokotool.search.budget import Budget
from sokotool.search.deadlocks import Known
from sokotool.search.plays import Play
from sokotool.search.rooms import Room, bits, count

CORNER = "#####\n#$ .#\n# @ #\n#####\n"
SIDE = "#######\n#  $@.#\n#######\n"
TWO_ON_A_WALL = "#######\n#@ .  #\n#     #\n# $ $.#\n#######\n"
CORRAL = "##########\n#  #     #\n#  $ @ $.#\n#  $   ..#\n#  #     #\n##########\n"
# The kinds of deadlocks in docs/certificates.md and docs/solvers.md, and the number of patterns in
# the list on that page.
KINDS = {
    "dead corner": (CORNER, 1),
    "wall without a goal": ("#####\n#@ .#\n# $ #\n#####\n", 3),
    "player's side": (SIDE, 3),
    "boxes that hold each other": ("######\n#@   #\n# $$ #\n# $$ #\n#  ..#\n#  ..#\n######\n", 1),
    "two boxes and a push": (TWO_ON_A_WALL, 10),
    "too few goals along two walls": ("#######\n#@    #\n#  .  #\n#    $#\n#  $ .#\n#######\n", 33),
    "pair in a corridor": ("##########\n#@$ $ ..##\n###### ###\n#.   $   #\n##########\n", 2),
    "corral": (CORRAL, 8),
    "whole level": ("#######\n#@  . #\n#    .#\n# $$  #\n##  # #\n#######\n", 14),
    "closed diagonal": ("#########\n#@      #\n# #$    #\n# $ $#  #\n#  #$ ..#\n#     ..#\n"
                        "#########\n", 8),
    "box outside the room": ("########\n#@$. #$#\n#    ###\n# .  #\n######\n", 1),
}
# where a shorter list was found
SHORTENED = {"two boxes and a push": 7, "too few goals along two walls": 13, "whole level": 3,
             "closed diagonal": 1}
SOLVABLE = "######\n#    #\n#@$  #\n#  . #\n######\n"
# levels of 7 boxes, the patterns that a search finds, and the positions that it tries: without a
# step of the search one of the levels takes more
EFFORT = (
    ("###########/#  #     .#/#   $# @  #/#.        #/#    $  $ #/"
     "# # #  $  #/## # $.   #/#   $. . ##/# #  $ . .#/###########", 7, 0),
    ("###########/#  $ .    #/#    #  #.#/#   $  $#$#/##.  .#   #/"
     "#     $ # #/##   $ #  #/##  # $ #.#/#  @  . .##/###########", 45, 0),
    ("###########/# #  # #  #/#.    @ . #/#     #   #/# .#  .  ##/"
     "#  # $    #/#..  #$$# #/#$#$$     #/# . $  ## #/###########", 4, 882),
    ("###########/#     #   #/#  .   $  #/#.  .  #$##/#...@  #  #/"
     "#$ ##   $ #/#   # . $ #/#$ $     ##/#      # ##/###########", 5, 812),
    ("###########/##  # #  .#/#     .$ ##/# $   # $ #/##    .$ .#/"
     "#  $  # $ #/#  #  ..  #/## # $  #.#/#  # # @# #/###########", 0, 4851),
    ("###########/#.#  @   ##/# $  # $. #/# . . $ $ #/## .   # ##/"
     "##  $$   ##/#   #  #. #/#   #$   .#/# # #    ##/###########", 0, 5811),
    ("###########/##  $ . # #/## $ $#   #/#  #     .#/# . ### . #/"
     "# $  $. . #/### $     #/#  #@$ #  #/## .  #   #/###########", 18, 961),
    ("###########/#   .## # #/# .  #  # #/#. #   # .#/# #     $$#/"
     "#$#$ # $$ #/#  . # @$##/#  ..#    #/#      ## #/###########", 2, 51),
    ("###########/#    # #  #/#   $    ##/#$  $  .  #/#  $  .#$ #/"
     "# .## .   #/#.@ #   ###/# # .   $ #/####.$    #/###########", 0, 837),
)


def summary(result: Result) -> str:
    return result.err.splitlines()[-1]


def total(levels: int, **counts: int) -> str:
    """Returns the last line: the number of levels with each outcome."""
    kinds = "found", "solvable", "stopped", "gave_up", "long", "illegal", "left"
    numbers = (f"{kind.replace('_', '-')} {counts.get(kind, 0)}" for kind in kinds)
    return f"find: total {levels} " + " ".join(numbers)


def hall(side: int, boxes: int) -> str:
    """A level of one large room with many boxes, and a goal for each."""
    cells = [[" "] * (side - 2) for _ in range(side - 2)]
    cells[0][0] = "@"
    places = [(x, y) for y in range(2, side - 4, 2) for x in range(1, side - 3, 2)]
    for x, y in places[:boxes]:
        cells[y][x] = "$"
    for x, y in places[-boxes:]:
        cells[y + 1][x + 1] = "."
    rows = ["#" + "".join(row) + "#" for row in cells]
    return "\n".join(["#" * side, *rows, "#" * side]) + "\n"


def random_level(rng: random.Random) -> str:
    """Returns a level with up to three boxes in a small room, with or without walls in it."""
    width, height = rng.randint(3, 5), rng.randint(3, 4)
    cells = [" " if rng.random() < 0.85 else "#" for _ in range(width * height)]
    places = rng.sample(range(width * height), 7)
    boxes = rng.randint(1, 3)
    for place, character in zip(places, "@" + "$" * boxes + "." * boxes):
        cells[place] = character
    rows = ["".join(cells[start:start + width]) for start in range(0, width * height, width)]
    return "\n".join(["#" * (width + 2)] + [f"#{row}#" for row in rows] +
                     ["#" * (width + 2)]) + "\n"


class Kinds(Case):
    def test_each_kind(self) -> None:
        self.write("kinds.xsb", "\n".join(level for level, _ in KINDS.values()))
        result = self.tool("find", "kinds.xsb", "--seconds", "60")
        self.assertEqual((result.status, summary(result)), (0, total(11, found=11)))
        self.write("answers", result.out)
        lines = self.audit("kinds.xsb", "answers").decode().splitlines()
        for line, (kind, (_, most)) in zip(lines, KINDS.items()):
            self.assertIn(" unsolvable patterns ", line, kind)
            self.assertLessEqual(int(line.split()[-1]), SHORTENED.get(kind, most), kind)

    def test_lists_as_by_hand(self) -> None:
        self.write("levels", SIDE + "\n" + CORRAL)
        lines = self.tool("find", "levels").out.splitlines()
        self.assertEqual(lines[3:6],
                         [b"pattern 4,2 @ 5,2", b"pattern 3,2 @ 4,2", b"pattern 2,2 @ *"])
        corral = {b"pattern " + boxes for boxes in (b"4,3 4,4 @ 5,2", b"3,3 4,4 @ 5,2",
                                                    b"4,3 3,4 @ 5,2", b"3,3 3,4 @ 5,2",
                                                    b"2,2 @ *", b"2,3 @ *", b"2,4 @ *", b"2,5 @ *")}
        self.assertEqual(set(lines[9:17]), corral)


class Levels(Case):
    def test_solutions_are_printed(self) -> None:
        """A level that the search solves gets its solution, and one that isn't legal nothing."""
        solved = "#####\n#@*.#\n#####\n"
        self.write("levels",
                   "\n".join([SOLVABLE, solved, "#####\n#@$ #\n#####\n", "####\n#@$.\n####\n"]))
        result = self.tool("find", "levels")
        self.write("answers", result.out)
        lines = self.audit("levels", "answers").decode().splitlines()
        self.assertTrue(lines[0].startswith("level 1 solved moves"))
        self.assertEqual(lines[1], "level 2 solved moves 0 pushes 0 changes 0")
        self.assertEqual(result.out.count(b"level "), 2)
        self.assertEqual((result.status, summary(result)), (1, total(4, solvable=2, illegal=2)))

    def test_missing_in_a_report(self) -> None:
        self.write("levels", "\n".join([CORNER, TWO_ON_A_WALL, SOLVABLE]))
        self.write("answers", b"sokoban-answers 1\nlevel 1\nunsolvable\npattern 2,2 @ *\nend\n")
        self.write("report", self.audit("levels", "answers"))
        result = self.tool("find", "levels", "report")
        self.assertEqual(result.out.splitlines()[1], b"level 2")
        self.assertEqual(result.err.splitlines(), [
            "find: level 2: found a certificate (1 of 2 done, 1 found)",
            "find: level 3: found a solution (2 of 2 done, 2 found)",
            total(2, found=1, solvable=1)])
        self.assertEqual(result.status, 0)
        self.write("other", CORNER)
        self.write("nothing", "no rows\n")
        self.write("cut", b"".join(self.read("report").splitlines(True)[:-1]))
        for words, why in (
                (["nothing"], "nothing has no level"),
                (["levels", "cut"],
                 "cut isn't a report on levels: it is cut: it has 3 levels and no total line"),
                (["other", "report"],
                 "report isn't a report on other: it has 3 levels, and the collection has 1")):
            refused = self.tool("find", *words)
            self.assertEqual((refused.status, refused.out, refused.err), (2, b"", f"find: {why}\n"))

    def test_words(self) -> None:
        self.write("levels", CORNER)
        for words in (["--seconds", "0"], ["--seconds", "nan"], ["--jobs", "-1"], ["--jobs", "x"]):
            result = self.tool("find", "levels", *words)
            self.assertEqual((result.status, result.out), (2, b""), words)

    @needs_copies
    def test_limits(self) -> None:
        big = "\n".join(["#" * 60] + ["#" + row.ljust(58) + "#" for row in ["", "  @"] +
                                      [" $ " * 10, "", " . " * 10, ""] * 3] + ["#" * 60]) + "\n"
        self.write("levels", big)
        result = self.tool("find", "levels", "--seconds", "0.01")
        self.assertEqual((result.status, result.out), (1, b"sokoban-answers 1\n"))
        self.assertEqual(result.err.splitlines(),
                         ["find: level 1: stopped after 0.01 s (1 of 1 done, 0 found)",
                          total(1, stopped=1)])
        with unittest.mock.patch("sokotool.search.cores.LIMITS", (5,)):
            result = self.tool("find", "levels")
        self.assertEqual(result.err.splitlines(),
                         ["find: level 1: gave up: its tables are full (1 of 1 done, 0 found)",
                          total(1, gave_up=1)])

    @is_slow
    def test_time_is_kept_on_any_board(self) -> None:
        """A search ends within a second of its time limit, not counting the time of a run that
        needs no search. The machine may be busy, so the best of three tries counts."""
        self.write("levels", CORNER)
        besides = self.taken()
        for side, boxes in ((255, 5000), (255, 12000), (30, 60)):
            self.write("levels", hall(side, boxes))
            self.assertTrue(any(self.taken("--seconds", "1") - besides < 2 for _ in range(3)),
                            (side, boxes))

    def taken(self, *words: str) -> float:
        """Returns the processor seconds that a search takes."""
        began = used()
        self.tool("find", "levels", *words)
        return used() - began

    @needs_copies
    def test_list_that_is_too_long(self) -> None:
        self.write("levels", TWO_ON_A_WALL)
        for name, most in (("search.closed.MOST_PATTERNS", 3), ("search.refute.MOST_PATTERNS", 6),
                           ("texts.MOST_BYTES", 150)):
            with unittest.mock.patch("sokotool." + name, most):
                result = self.tool("find", "levels")
            self.assertEqual(result.out, b"sokoban-answers 1\n")
            self.assertEqual(summary(result), total(1, long=1))

    @needs_copies
    def test_search_without_memory_costs_its_level_alone(self) -> None:
        self.write("levels", "\n".join([CORNER, SIDE, SIDE, CORNER]))

        def search(level: levels.Level, *limits: float) -> Tuple[str, bytes]:
            if level.number == 2:
                raise MemoryError
            if level.number == 3:
                os.kill(os.getpid(), signal.SIGKILL)
            return refute.outcome(level, *limits)

        with unittest.mock.patch("sokotool.searches.outcome", search):
            result = self.tool("find", "levels")
        self.assertEqual(result.out.count(b"\nlevel "), 2)
        self.assertEqual(result.err.count("gave up: out of memory"), 2)
        self.assertEqual((result.status, summary(result)), (1, total(4, found=2, gave_up=2)))

    @needs_copies
    def test_searches_that_cannot_be_started(self) -> None:
        """They end the command, and not one after the other for ever."""
        self.write("a.xsb", CORRAL)
        for target, act, why in (
                ("sokotool.system.end_with_parent", lambda: os._exit(1),
                 "a search ended when it was started"),
                ("multiprocessing.process.BaseProcess.start",
                 unittest.mock.Mock(side_effect=OSError(11, "Try again")),
                 "a search cannot be started: Try again")):
            with unittest.mock.patch(target, act):
                result = self.tool("find", "a.xsb")
            self.assertEqual((result.status, result.err), (2, f"find: {why}\n"))

    def test_jobs_print_the_same(self) -> None:
        rng = random.Random(5)
        self.write("levels", "\n".join([CORRAL] + [random_level(rng) for _ in range(30)]))
        alone = self.tool("find", "levels", "--seconds", "60")
        together = self.tool("find", "levels", "--seconds", "60", "--jobs", "4")
        self.assertEqual((together.status, together.out, together.err),
                         (alone.status, alone.out, alone.err))


def rest_of(terminal: int) -> bytes:
    """What a terminal still has, once nobody can write to it any more."""
    said = b""
    with contextlib.suppress(OSError):  # the end, on Linux
        while got := os.read(terminal, 65536):
            said += got
    return said


def end_group(group: int) -> None:
    """Ends what a test has left of the processes of a group, where a system has groups."""
    with contextlib.suppress(AttributeError, OSError):
        os.killpg(group, signal.SIGKILL)


def seconds_of(group: int) -> float:
    """The processor seconds that the processes of a group have used, where files say so."""
    ticks = 0
    for name in glob.glob("/proc/[0-9]*/stat"):
        with contextlib.suppress(OSError), open(name, "rb") as file:
            fields = file.read().rpartition(b")")[2].split()
            ticks += (int(fields[2]) == group) * (int(fields[11]) + int(fields[12]))
    return ticks / 100


class Signs(Case):
    """Messages, interrupts and the processes of a search."""

    def find(self, *words: str, **streams: Any) -> "subprocess.Popen[bytes]":
        running = subprocess.Popen([os.path.join(TOP, "sokotool"), "find", *words],
                                   env={**os.environ, "TERM": "xterm"},  # it may be dumb here
                                   start_new_session=True, **streams)
        self.addCleanup(end_group, running.pid)
        return running

    @not_on_windows
    def test_interrupt_keeps_what_was_found(self) -> None:
        self.write("levels", "\n".join([CORNER, hall(60, 60), CORNER]))
        import pty  # which Windows lacks
        ours, theirs = pty.openpty()
        with open("answers", "wb") as answers:
            running = self.find("levels", "--seconds", "100", "--jobs", "3", stdout=answers,
                                stderr=theirs)
        os.close(theirs)
        said = b""
        # Level 3 has begun, and then level 2 alone is at work.
        while not re.search(rb"level 3 for.*found: level 2 for \d+ s\r", said, re.DOTALL):
            self.assertIsNone(running.poll(), said)
            said += os.read(ours, 65536)
        os.killpg(running.pid, signal.SIGINT)
        self.assertEqual(running.wait(600), 130)
        said += rest_of(ours)
        record = "level %d\nunsolvable\npattern 2,2 @ *\nend\n"
        self.assertEqual(self.read("answers").decode(), "sokoban-answers 1\n" + record % 1 +
                         record % 3)
        self.assertEqual(said.decode().splitlines()[-1], total(3, found=2, left=1))

    @is_slow
    def test_terminal_names_the_level_at_work(self) -> None:
        self.write("levels", hall(60, 60))
        import pty  # which Windows lacks
        ours, theirs = pty.openpty()
        self.find("levels", "--seconds", "3", stdout=subprocess.DEVNULL, stderr=theirs).wait(600)
        os.close(theirs)
        said = rest_of(ours).decode()
        self.assertRegex(said, " \rfind: 0 of 1 done, 0 found: level 1 for [12] s")
        self.assertTrue(said.rstrip().endswith(total(1, stopped=1)), said)

    def test_searches_end_with_their_parent(self) -> None:
        self.write("levels", hall(60, 60))
        running = self.find("levels", "--seconds", "1000", stdout=subprocess.PIPE,
                            stderr=subprocess.DEVNULL)
        assert running.stdout
        self.assertEqual(running.stdout.readline(), b"sokoban-answers 1\n")
        time.sleep(1)
        running.kill()
        # The pipe ends when no process has it open. A search that goes on uses its processor.
        before = seconds_of(running.pid)
        for _ in range(600):
            with contextlib.suppress(subprocess.TimeoutExpired):
                self.assertEqual(running.communicate(timeout=.1)[0], b"")
                return
            self.assertLess(seconds_of(running.pid) - before, 3)
        self.fail("a search goes on")


class Search(Case):
    @is_slow
    def test_random_levels(self) -> None:
        """A list is found, and the audit accepts it, for each level that a plain search of all
        positions finds unsolvable, and for each other one a solution."""
        rng = random.Random(1)
        found = levels.read("\n".join(random_level(rng) for _ in range(250)).encode())
        self.write("levels", b"\n".join(b"\n".join(level.rows) + b"\n" for level in found))
        first = self.tool("find", "levels", "--seconds", "60")
        self.write("answers", first.out)
        lines = self.audit("levels", "answers").decode().splitlines()
        unsolvable = 0
        for level, line in zip(found, lines):
            is_solvable = solve.search(level.rows)[0] is not None
            unsolvable += not is_solvable
            self.assertEqual(line.split()[2], "solved" if is_solvable else "unsolvable",
                             b"\n".join(level.rows).decode())
        self.assertGreater(unsolvable, 100)
        self.assertEqual(self.tool("find", "levels", "--seconds", "60").out, first.out)

    def test_effort(self) -> None:
        """A search tries hardly more positions than it did, and its list has no more patterns."""
        run = Play.run
        for level, patterns, positions in EFFORT:
            plays: List[Play] = []

            def noted(play: Play, most: int) -> str:
                plays.append(play)
                return run(play, most)

            (read,) = levels.read(level.replace("/", "\n").encode())
            with unittest.mock.patch.object(Play, "run", noted):
                end, record = refute.outcome(read, 60)
            self.assertEqual(end, "found" if patterns else "solvable", level)
            self.assertLessEqual(record.count(b"\npattern "), patterns, level)
            self.assertLessEqual(sum(it.positions for it in plays), positions * 1.1, level)

    def test_floods(self) -> None:
        """Floods by shifts and cell by cell find the same cells, and the sides of a box are the
        parts that a flood finds."""
        rng = random.Random(2)
        for level in levels.read("\n".join(random_level(rng) for _ in range(60)).encode()):
            room = Room(Board(level))
            known = Known(room)
            for box in bits(room.cells):
                free = room.cells ^ box
                for start in bits(room.near(box)):
                    part = room.flood(start, free)
                    self.assertEqual(part, room.trace(start, free))
                    for other in bits(room.near(box)):
                        same = known.side(place(box), place(start)) == known.side(place(box),
                                                                                  place(other))
                        self.assertEqual(same, bool(part & other))

    def test_pairs(self) -> None:
        """Two boxes are lost together exactly if a play of both can't bring them to goals."""
        rng = random.Random(3)
        for level in levels.read("\n".join(random_level(rng) for _ in range(40)).encode()):
            board = Board(level)
            room = Room(board)
            known = Known(room)
            known.find_pairs(Budget(60))
            if count(room.boxes) != 2 or len(board.boxes) != 2:
                continue
            is_solvable = solve.search(level.rows)[0] is not None
            self.assertEqual(bool(known.lost_pair(room.boxes, room.player)), not is_solvable)


def place(bit: int) -> int:
    return bit.bit_length() - 1
