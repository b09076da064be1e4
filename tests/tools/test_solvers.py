"""Runs of solvers, good and hostile ones."""
import os
import re
import shlex
import signal
import sys
import time
import unittest.mock
from typing import Any, Callable, List

from sokotool import levels, mistakes, outcomes, solver_output, solvers, texts
from sokotool.search.budget import Budget, Limits
from tests.tools.exports import ALPHA, BETA, GAMMA
from tests.tools.helping import (LACKING, SAMPLES, TOP, Case, Result, is_slow, needs_copies,
                                 not_on_windows, used)
from tests.tools.checking import LOST, Check
from tests.tools.test_export import Generator

# Does what YASS or Festival does, by its name: reads the level that it is given, works until its
# time is over, and writes a file of solutions beside the level or into the current folder.
STAND_IN = f"""#!{sys.executable}
import os, sys, time
is_yass = os.path.basename(sys.argv[0]) == "YASS"
level, *options = sys.argv[1:]
time_limit = "-maxtime" if is_yass else "-time"
allowed = {{time_limit: options[options.index(time_limit) + 1]}}
if is_yass:
    allowed["-prompt"] = "no"
assert dict(zip(options[::2], options[1::2])) == allowed, options
text = open(level).read()
print("solving", level, flush=True)
time.sleep(float(allowed[time_limit]))
with open(level + ", Solutions.sok" if is_yass else "solutions.sok", "w") as file:
    file.write(text + "\\nSolution\\n" + ("rR" if "#@ $" in text else "LL") + "\\n")
"""
LEVELS = levels.read(f"{ALPHA}\n\n{BETA}\n\n{GAMMA}\n".encode())
RECORD = b"level 1\nsolution\nrRR\nend\n"


def solver(command: str) -> solvers.Solver:
    """A solver whose output is all shown, and whose certificates are refused."""
    return solvers.Solver(command, lambda *_: "no", True)


class Solvers(Case):
    def solved(self, script: str, count: int = 1, seconds: float = 20, jobs: int = 3,
               words: str = "", total: float = 60) -> List[outcomes.Result]:
        """Runs a script in Python on the first levels."""
        self.write("solver.py", "import os, signal, sys, time\n" + script)
        command = f"{sys.executable} solver.py {words}"
        return list(solvers.Solvers(solver(command), LEVELS[:count],
                                    Limits(seconds, total, jobs), Budget(total)).results())

    def outcome(self, script: str, **how: Any) -> str:
        """The outcome of a script on the first level."""
        (result,) = self.solved(script, **how)
        return result.what

    def test_letters_are_found_wherever_they_are(self) -> None:
        for printed in ("rRR", "rrr", "Solution: rRR", "r\\nRR", "r R R", "found: r2R", "3r",
                        "Dull rd\\nsolution (3 moves, 2 pushes): rRR in 0.1 s",
                        "\\x1b[1mrRR\\x1b[0m",
                        "rRRR\\nrRl\\nrRR\\nrlrRR", "lurd\\n\\nrr\\nr\\n", "\\xff\\x00\\nrRR"):
            (result,) = self.solved(f"sys.stdout.buffer.write(b'{printed}')")
            self.assertEqual((result.what, result.record), (outcomes.SOLVED, RECORD), printed)

    def test_the_level_is_given(self) -> None:
        """On standard input, and as a file."""
        board = ALPHA + "\n"
        for place in ("sys.stdin", "open(sys.argv[1])"):
            self.assertEqual(self.outcome(
                f"print('rRR' if {place}.read() == {board!r} else 'no')", words="{}"), "solved")
        self.assertEqual(self.outcome("print('rRR' if sys.argv[1] == '--in=x' else '')",
                                      words="--in=x"), "solved")

    def test_files_beside_the_level(self) -> None:
        self.assertEqual(self.outcome("open(sys.argv[1] + ', Solutions.sok', 'w').write('rRR')",
                                      words="{}"), "solved")

    @not_on_windows
    def test_the_folder_is_gone_or_full(self) -> None:
        """What a solver does to its folder costs nothing but its level."""
        self.assertEqual(self.outcome("import shutil\nshutil.rmtree(os.path.dirname(sys.argv[1]))\n"
                                      "print('rRR')", words="{}"), "solved")
        self.assertEqual(self.outcome(
            "os.chdir(os.path.dirname(sys.argv[1]))\nopen('huge', 'w').truncate(1 << 40)\n"
            "os.mkfifo('fifo')\nos.symlink('/dev/zero', 'zero')\n"
            "for _ in range(300):\n os.mkdir('d')\n os.chdir('d')", words="{}"), "nothing")

    def test_wrong_letters(self) -> None:
        """What a replay refuses is no answer, and is told."""
        (result,) = self.solved("print('no luck\\nrR\\nllll'); print('oh', file=sys.stderr)\n"
                                "sys.exit(3)")
        self.assertEqual((result.what, result.record), (outcomes.NOTHING, b""))
        for line in ("no luck", "refused: llll: move 1 wall", "refused: rR: unsolved 1", "oh",
                     "ended with status 3"):
            self.assertIn(line, result.said)

    def test_no_command(self) -> None:
        for command in ("", "  ", "'a", "./nothing", "no-such-program {}"):
            self.assertRaises(texts.Stop, solvers.Solvers, solver(command), LEVELS,
                              Limits(1, 60, 1), Budget(60))
        self.write("nothing", "\0")
        os.chmod("nothing", 0o755)
        (result,) = solvers.Solvers(solver("./nothing"), LEVELS[:1], Limits(1, 60, 1),
                                    Budget(60)).results()
        self.assertEqual(result.what, outcomes.FAILED)
        self.assertIn("cannot be run", result.said[0])

    def test_a_part_of_a_name(self) -> None:
        """Windows finds a program by its name without the end, but starts it only by the whole."""
        end = ".cmd" if LACKING == "windows" else ""
        self.write("bin-solve" + end, "#!/bin/sh\necho rRR\n")
        os.chmod("bin-solve" + end, 0o755)
        with unittest.mock.patch.dict(os.environ, PATH=f"{self.folder}{os.pathsep}/usr/bin:/bin"):
            (result,) = solvers.Solvers(solver("bin-solve {}"), LEVELS[:1], Limits(9, 60, 1),
                                        Budget(60)).results()
        self.assertEqual((result.what, result.record), (outcomes.SOLVED, RECORD), result.said)

    @is_slow
    def test_a_gigabyte(self) -> None:
        """Without end, or with the letters at the end; of letters alone, and in one line."""
        for block in ("b'x' * 65535 + b'\\n'", "b'r' * 65536", "b'l\\n' * 32768"):
            began = used()
            self.assertEqual(self.outcome(f"while True: sys.stdout.buffer.write({block})"),
                             outcomes.LONG)
            self.assertLess(used() - began, 20)
        self.assertEqual(self.outcome("for _ in range(3000): print('x' * 65535)\nprint('rRR')"),
                         outcomes.SOLVED)
        self.assertEqual(self.outcome("print('rRR')\nwhile True: print('x' * 65535)"),
                         outcomes.SOLVED)

    def test_never_ends(self) -> None:
        """Its time is over, also if it ignores SIGTERM; what it found counts."""
        for ignores in ("", "signal.signal(signal.SIGTERM, signal.SIG_IGN)\n"):
            for printed, what in (("", outcomes.LATE), ("rRR", outcomes.SOLVED)):
                lines = f"{ignores}print('{printed}', flush=True)\nwhile True: time.sleep(9)"
                for seconds in (3, 60):  # a Python takes long to start on a busy machine
                    began = time.monotonic()
                    found = self.outcome(lines, seconds=seconds)
                    self.assertLess(time.monotonic() - began, seconds + 40)
                    if found == what:
                        break
                self.assertEqual(found, what)
        self.assertEqual(self.outcome("os.close(1); os.close(2)\nwhile True: time.sleep(9)",
                                      seconds=.5), outcomes.LATE)

    @not_on_windows
    def test_forks(self) -> None:
        """The children of a solver end with it, even if it is gone and they hold its output."""
        script = """
for _ in range(5):
    if os.fork() == 0:
        signal.signal(signal.SIGTERM, signal.SIG_IGN)
        open(f"pid-{os.getpid()}", "w").close()
        time.sleep(999)
        os._exit(0)
while len([it for it in os.listdir(".") if it.startswith("pid-")]) < 5: time.sleep(.01)
print("rRR")
"""
        began = time.monotonic()
        self.assertEqual(self.outcome(script), outcomes.SOLVED)
        self.assertLess(time.monotonic() - began, 60)
        pids = [int(it[4:]) for it in os.listdir() if it.startswith("pid-")]
        self.assertEqual(len(pids), 5)
        for _ in range(100):
            alive = [pid for pid in pids if is_alive(pid)]
            if not alive:
                break
            time.sleep(.05)
        self.assertEqual(alive, [])

    @is_slow
    def test_side_by_side(self) -> None:
        """Several at once, each level with its own letters, and one that dies loses only itself.
        Each waits until all have begun."""
        script = """
open(f"begun-{os.getpid()}", "w").close()
while len([it for it in os.listdir(".") if it.startswith("begun-")]) < 3: time.sleep(.01)
text = sys.stdin.read()
if "$@" in text: os.kill(os.getpid(), signal.SIGTERM)
print("rRR" if "$ ." in text else "rR")
"""
        found = {it.level.number: it for it in self.solved(script, count=3)}
        self.assertEqual([found[number].what for number in (1, 2, 3)],
                         [outcomes.SOLVED, outcomes.SOLVED, outcomes.NOTHING])
        self.assertEqual(found[2].record, b"level 2\nsolution\nrR\nend\n")
        self.assertEqual(found[3].said, [f"ended by signal {signal.SIGTERM.value}"])

    def test_time_of_all(self) -> None:
        """No run begins, and none goes on, when the time of all is over."""
        began = time.monotonic()
        found = self.solved("time.sleep(999)", count=3, jobs=1, total=1)
        self.assertEqual([it.what for it in found], [outcomes.LATE])
        self.assertLess(found[0].seconds, 4)
        self.assertLess(time.monotonic() - began, 60)

    def test_interrupt(self) -> None:
        """When the caller stops, all runs end, and what was printed before counts."""
        self.write("solver.py", "import os, time\nprint('rRR', flush=True)\n"
                   "open('pid-' + str(os.getpid()), 'w').close()\ntime.sleep(99)\n")
        runs = solvers.Solvers(solver(f"{sys.executable} solver.py"), LEVELS, Limits(50, 60, 3),
                               Budget(60))

        def watch() -> None:
            if len([it for it in os.listdir() if it.startswith("pid-")]) == 3:
                raise KeyboardInterrupt
        self.assertRaises(KeyboardInterrupt, list, runs.results(watch))
        self.assertFalse(any(is_alive(int(it[4:])) for it in os.listdir() if it[:4] == "pid-"))
        self.assertTrue(all(it.seconds < 50 for it in runs.rest()))
        self.assertEqual([(it.what, it.record) for it in runs.rest()],
                         [(outcomes.SOLVED, RECORD), (outcomes.LATE, b""), (outcomes.LATE, b"")])

    @unittest.skipIf(LACKING, "the system ends no process with the one that started it")
    def test_a_solver_ends_with_its_parent(self) -> None:
        name = os.path.abspath("pid")
        child = os.fork()
        if not child:
            try:
                self.solved(f"open({name!r}, 'w').write(str(os.getpid()))\ntime.sleep(99)\n")
            finally:
                os._exit(1)
        self.assertTrue(comes(lambda: os.path.exists(name) and self.read(name)))
        os.kill(child, signal.SIGKILL)
        os.waitpid(child, 0)
        self.assertTrue(comes(lambda: not is_alive(int(self.read(name)))))


def comes(is_so: Callable[[], object]) -> bool:
    """Whether something becomes so within a minute."""
    end = time.monotonic() + 60
    while not is_so() and time.monotonic() < end:
        time.sleep(.05)
    return bool(is_so())


def is_alive(pid: int) -> bool:
    """Whether a process runs."""
    try:
        with open(f"/proc/{pid}/stat", encoding="utf-8") as file:
            return file.read().rpartition(")")[2].split()[0] not in "ZX"
    except OSError:
        return False


class Checks(Check):
    """The option --solver of check."""

    def solve(self, script: str, *options: str, words: str = "") -> Result:
        """Runs check with a solver in Python, and with a search that finds nothing."""
        self.write("solver.py", "import os, signal, sys, time\n" + script)
        with unittest.mock.patch("sokotool.searches.outcome", lambda *_: ("late", b"")):
            return self.tool("check", "mine", "a.txt", "--jobs", "2", *options, "--solver",
                             f"{sys.executable} solver.py {words}")

    @staticmethod
    def remove_files() -> None:
        """Removes the files of the last check."""
        for name in os.listdir():
            if name.startswith("mine."):
                os.remove(name)

    @needs_copies
    def test_levels_that_are_left(self) -> None:
        """Only levels without an answer are given to the solver, and its answers are audited."""
        self.write("a.txt", f"{ALPHA}\nrRR\n\n{BETA}\n\n{GAMMA}\n\n{LOST}")
        result = self.solve("text = sys.stdin.read()\nopen('seen', 'a').write(text + ';')\n"
                            "print('it is', 'rR' if text.startswith('######\\n#@ $') else 'l')")
        self.assertEqual(sorted(self.read("seen").decode().split(";")),
                         ["", BETA + "\n", GAMMA + "\n"])
        self.assertEqual(self.report()[:4], [
            "level 1 solved moves 3 pushes 2 changes 1",
            "level 2 solved moves 2 pushes 1 changes 1", "level 3 missing",
            "level 4 unsolvable patterns 4"])
        self.assertEqual(result.status, 1)
        said = result.err.splitlines()
        self.assertEqual({line.partition(" (")[0] for line in said[3:]},
                         {"check: level 2: the solver found a solution",
                          "check: level 3: the solver found nothing"})
        self.assertTrue(said[-1].endswith("(2 of 2 done, 1 found)"))

    @needs_copies
    def test_verbose(self) -> None:
        self.write("a.txt", BETA)
        result = self.solve("print('thinking\\nrr\\n\\x1b[2Jup')\nsys.exit(7)", "--verbose")
        for line in ("thinking", "rr", " [2Jup", "ended with status 7"):
            self.assertIn(f"check: level 1: | {line}\n", result.err)
        self.assertEqual(self.report()[0], "level 1 solved moves 2 pushes 1 changes 1")
        self.assertNotIn("thinking", self.solve("print('thinking')").err)

    @needs_copies
    def test_a_certificate(self) -> None:
        """A certificate in what is printed, or in a file, counts like a solution once the audit has
        accepted it. What is refused is reported."""
        with open(os.path.join(SAMPLES, "deadlocks.xsb"), encoding="utf-8") as file:
            self.write("a.txt", "".join(file.readlines()[24:31]))
        listed = "pattern 3,2 5,2 @ 2,2\\npattern 4,2 5,2 @ 2,2\\n"
        whole = f"sokoban-answers 1\\nlevel 7\\nunsolvable\\n{listed}end\\n"
        for script in (f"print('{whole}')", f"print('Searching..\\n{listed}found in 1 s')",
                       f"print('unsolvable\\nzone 3,2\\nend\\n{whole}')",
                       f"open(sys.argv[1] + '.table', 'w').write('; all\\n{listed}')"):
            result = self.solve(script, "--verbose", words="{}")
            self.assertIn("level 1: the solver found a certificate (1 of 1 done, 1 found)",
                          result.err, script)
            self.assertEqual(self.report()[0], "level 1 unsolvable patterns 2")
            self.remove_files()
        for lines, why in ((listed[:24], "pattern 3,2 5,2 @ 2,2: push 2,2 r"),
                           ("zone 3,2\\n", "zone 3,2: leak 3,2 l"),
                           ("pattern 5,2 3,2 @ 2,2\\n",
                            f"pattern 5,2 3,2 @ 2,2: syntax: {mistakes.ORDER}"),
                           ("pattern 2,3 2,5 @ 2,2\\n",
                            f"pattern 2,3 2,5 @ 2,2: wall: {mistakes.SWAPPED}"),
                           ("pattern 3,2 @2,2\\n", f"pattern 3,2 @2,2: syntax: {mistakes.SPACES}"),
                           ("pattern 3, 2 @ 2,2\\n",
                            f"pattern 3, 2 @ 2,2: syntax: {mistakes.COMMA}")):
            result = self.solve(f"print('so be it\\nunsolvable\\n{lines}end')", "--verbose")
            for said in ("level 1: | so be it", f"level 1: | refused: {why}",
                         "level 1: the solver found nothing"):
                self.assertIn(f"check: {said}", result.err)
            self.assertEqual(self.report()[0], "level 1 missing")
            self.remove_files()
            # the reason needs no --verbose
            result = self.solve(f"print('so be it\\nunsolvable\\n{lines}end')")
            self.assertIn(f"check: level 1: the solver found nothing; a certificate was refused: "
                          f"{why} (1 of 1 done, 0 found)", result.err)
            self.remove_files()

    @needs_copies
    def test_limits_of_its_own(self) -> None:
        """The solver runs without the search, and a limit of the search is none of the solver."""
        self.write("a.txt", f"{BETA}\n\n{GAMMA}")
        for words in (["--search", "0"], ["--seconds", "0"]):
            result = self.solve("time.sleep(.5)", *words, "--solver-seconds", "20")
            self.assertEqual(result.err.splitlines()[0],
                             "check: 2 levels for the solver, at most 20 s each")
            os.remove("mine.memory")
        result = self.solve("time.sleep(3)", "--search", "0.1", "--jobs", "1",
                            "--solver-seconds", "9", "--solver-search", "1")
        self.assertEqual(result.err.splitlines()[0],
                         "check: 2 levels to search, at most 10 s each, 0.1 s in all; "
                         "2 levels for the solver, at most 9 s each, 1 s in all")
        self.assertIn("check: 2 levels left: the next run goes on with them", result.err)

    @needs_copies
    def test_what_cant_be_run_has_not_searched(self) -> None:
        """The next run hands its levels to a solver again."""
        self.write("a.txt", BETA)
        self.write("broken", "\0")
        os.chmod("broken", 0o755)
        for _ in range(2):
            result = self.tool("check", "mine", "a.txt", "--search", "0", "--solver", "./broken {}")
            self.assertIn("check: level 1: the solver cannot be run (1 of 1 done", result.err)

    def test_no_program(self) -> None:
        self.write("a.txt", BETA)
        result = self.tool("check", "other", "a.txt", "--solver", "no-such-program {}")
        self.assertEqual((result.status, result.out, result.err), (
            2, b"", "check: --solver: there is no program no-such-program\n"))

    @needs_copies
    def test_the_lines_of_the_page(self) -> None:
        """The lines for two solvers work as they are, with shorter times, for stand-ins with the
        options and files of those, which take all of their time on each level."""
        with open(os.path.join(TOP, "docs/solvers.md"), encoding="utf-8") as file:
            lines = re.findall(r"(?m)^sokotool check my inbox/\* (--solver '(?:YASS|sh).*)$",
                               file.read())
        self.assertEqual(len(lines), 2)
        self.write("a.txt", f"{BETA}\n\n{GAMMA}")
        for name in ("YASS", "festival"):
            self.write(name, STAND_IN)
            os.chmod(name, 0o755)
        path = {"PATH": os.getcwd() + os.pathsep + os.environ["PATH"]}
        for line in lines:
            words = shlex.split(line.replace("55", "1.5"))
            with unittest.mock.patch.dict(os.environ, path), unittest.mock.patch(
                    "sokotool.searches.outcome", lambda *_: ("late", b"")):
                result = self.tool("check", "mine", "a.txt", "--solver-seconds", "40", "--search",
                                   "1", "--jobs", "1", "--verbose", *words)
            self.assertEqual(result.err.count("the solver found a solution"), 2, result.err)
            self.assertEqual(self.report()[-1],
                             "total 2 solved 2 unsolvable 0 refused 0 missing 0")
            self.remove_files()

    def test_what_a_solver_starts(self) -> None:
        """Where the system can't end it with the solver, a line says so."""
        self.write("a.txt", BETA)
        said = self.solve("print('rR')").err
        self.assertEqual(said.count("what it starts may go on"), LACKING == "windows")

    @is_slow
    def test_a_long_line(self) -> None:
        """It is read once, whatever ends it."""
        text = b"pattern 1,1" + b" " * 8_000 + b"\rx\n"
        self.takes_less(.05, lambda: [*solver_output.certificates_in([text])])

    @is_slow
    def test_the_example(self) -> None:
        """The solver of the examples solves fifty small levels."""
        boards = [Generator(seed).level()[0] for seed in range(50)]
        self.write("a.txt", "\n\n".join("\n".join(rows) for rows in boards) + "\n")
        found = levels.read(self.read("a.txt"))
        command = f"{sys.executable} {shlex.quote(TOP)}/examples/solver.py"
        results = list(solvers.Solvers(solver(command), found, Limits(60, 600, 2),
                                       Budget(600)).results())
        self.assertEqual(len(results), 50)
        self.assertEqual({it.what for it in results}, {outcomes.SOLVED})
