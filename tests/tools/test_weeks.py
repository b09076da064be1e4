"""Weeks of a keeper, with real processes, signals and git: whatever is typed, and whenever, is in a
file of NAME after each run of check, until the keeper removes it or puts an older file back.

While check runs, files are saved in place or by a rename, exports change, another check runs beside
it, and it is interrupted once or twice, or killed. Between two runs there are branches, merges,
stashes and checkouts of git, restored backups and lost files. Type

    WEEKS=60 SEED=1 tests/run tools PROGRAM test_weeks

to try that many weeks. The gate tries none: the times of the processes differ from run to run."""
import ctypes
import glob
import os
import random
import re
import shutil
import signal
import subprocess
import sys
import tempfile
import time
import unittest
from typing import Any, Dict, List, Set

from tests.tools import helping
from tests.tools.helping import TOP, Case, is_slow
from tests.tools.test_history import History, words_in

WEEKS, DAYS = int(os.environ.get("WEEKS", "0")), 8
SEED = int(os.environ.get("SEED", "1"))
# how long a run may take
MOST_SECONDS = 300
# the folder of the process for renameat2, and its flag
_HERE, _EXCHANGE = -100, 2
_WORD = re.compile(rb"word\d+x")
_ATTRIBUTES = "* -text\nmine.memory -merge\nmine.report -merge\nmine.html -merge\n"


class Stale(Exception):
    """A file isn't any more what the editor has read."""


class Keeper(History):
    """A keeper whose editor saves in place or by a rename, unless the file was changed since it was
    opened. No editor can look and save at once: if check replaced the file in between, what check
    wrote there is gone, and `has_written_over` is true until a run has ended whole: before that,
    some of it may be in hidden and former files."""

    def __init__(self, chance: random.Random) -> None:
        super().__init__(chance)
        self.opened: Dict[str, List[str]] = {}
        self.has_written_over = False

    def lines(self, name: str) -> List[str]:
        self.opened[name] = super().lines(name)
        return [*self.opened[name]]

    def put(self, name: str, lines: List[str]) -> None:
        is_rename, new, old = self.chance.random() < .5, name + ".new", name + ".old"
        try:
            if is_rename:
                super().put(new, lines)
            os.link(name, old)  # which is replaced now, unless check is faster
            if super().lines(old) != self.opened[name]:
                raise Stale
            if is_rename:
                self.swap(new, name)
                replaced = os.stat(new)
            else:
                with open(name, "w", encoding="utf-8") as file:
                    replaced = os.fstat(file.fileno())
                    file.write("".join(line + "\n" for line in lines))
            self.has_written_over |= not os.path.samestat(replaced, os.stat(old))
        finally:
            for it in (old, new):
                if os.path.exists(it):
                    os.remove(it)

    def swap(self, new: str, name: str) -> None:
        """Exchanges two files, so that it is known which one was replaced."""
        rename = ctypes.CDLL(None, use_errno=True).renameat2
        if rename(_HERE, os.fsencode(new), _HERE, os.fsencode(name), _EXCHANGE):
            raise FileNotFoundError(name)

    def save(self) -> None:
        """Types something, unless check is just replacing the file. A word counts once it is saved,
        and no longer once it is removed from some file."""
        before = {*self.words}
        try:
            self.type()
        except (FileNotFoundError, FileExistsError, IndexError, ValueError, Stale):
            self.words &= before


def git(*words: str) -> int:
    return subprocess.run(["git", *words], stdout=subprocess.DEVNULL, stderr=subprocess.DEVNULL,
                          check=False).returncode


def words_anywhere() -> Set[str]:
    """The words in all files, hidden and former ones too."""
    found: Set[str] = set()
    for name in (*glob.glob("mine*"), *glob.glob(".sokotool*")):
        if os.path.isfile(name):
            with open(name, "rb") as file:
                found.update(it.decode() for it in _WORD.findall(file.read()))
    return found


@is_slow
@unittest.skipUnless(WEEKS, "WEEKS says how many weeks are tried")
@unittest.skipUnless(sys.platform == "linux" and shutil.which("git"), "it needs Linux and git")
class Weeks(Case):
    def test_weeks(self) -> None:
        count = {"runs": 0, "saves": 0}
        for week in range(WEEKS):
            folder = tempfile.mkdtemp(dir=self.folder)
            os.chdir(folder)
            with self.subTest(week=week):
                self.week(Keeper(random.Random(SEED * 1000 + week)), count)
            os.chdir(self.folder)
            shutil.rmtree(folder)
        print(f"weeks: {WEEKS} of seed {SEED}: {count['runs']} runs, {count['saves']} saves",
              file=sys.stderr)

    def week(self, keeper: Keeper, count: Any) -> None:
        os.mkdir("inbox")
        git("init", "-q", "-b", "main")
        for words in (("user.name", "K"), ("user.email", "k@example.org"),
                      ("commit.gpgsign", "false"), ("core.hooksPath", "/dev/null")):
            git("config", *words)
        for name, text in ((".gitattributes", _ATTRIBUTES), (".gitignore", "*~\n.sokotool*\n")):
            self.write(name, text)
        for day in range(DAYS):
            if not glob.glob("inbox/*") or keeper.chance.random() < .6:
                keeper.put_exports()
            if day and keeper.chance.random() < .5:
                self.between(keeper)
            how = self.run_day(keeper, count)
            there = words_in(False) if how == "whole" else words_anywhere()
            if keeper.has_written_over:
                keeper.words &= there
                keeper.has_written_over = how != "whole"
            self.assertFalse(sorted(keeper.words - there), f"day {day}, {how}")
            for name in glob.glob("mine*.conflict-*"):  # the keeper has read them
                os.remove(name)
                keeper.words &= words_in(False)
            if "[2" in how:  # a slip, which the keeper takes back
                git("checkout", "-q", "HEAD", "--", ".")
                keeper.words &= words_in(False)
            keeper.note_files()
            keeper.change_exports()
            for _ in range(keeper.chance.randint(0, 3)):
                keeper.save()
                count["saves"] += 1

    # ---- a run

    def start(self, keeper: Keeper) -> Any:
        words = ["--seconds", keeper.chance.choice(("0", "0", ".2")), "--search", "1"]
        return subprocess.Popen(
            [sys.executable, os.path.join(TOP, "sokotool"), "check", "mine", "inbox", *words],
            stdout=subprocess.DEVNULL, stderr=subprocess.PIPE,
            env={**os.environ, "SOKOAUDIT": helping.PROGRAM})

    def run_day(self, keeper: Keeper, count: Any) -> str:
        """Runs check, once or twice at once, and types meanwhile. Returns whether all ended."""
        chance = keeper.chance
        runs = [self.start(keeper) for _ in range(chance.choice((1, 1, 1, 2)))]
        several: List[List[signal.Signals]] = [[], [], [], [signal.SIGINT], [signal.SIGINT] * 2,
                                               [signal.SIGKILL]]
        signals = chance.choice(several)
        began = time.monotonic()
        while any(run.poll() is None for run in runs):
            self.assertLess(time.monotonic() - began, MOST_SECONDS, "it hangs")
            time.sleep(chance.random() * .3)
            if chance.random() < .4 and time.monotonic() - began < 5:
                keeper.save()
                count["saves"] += 1
            if chance.random() < .1:
                keeper.change_exports()
                keeper.put_exports()
            if signals and chance.random() < .3:
                runs[0].send_signal(signals.pop())
        said = [run.communicate()[1].decode() for run in runs]
        count["runs"] += len(runs)
        # Python itself has some until its modules are loaded.
        self.assertNotRegex("".join(said), r"tools.sokotool.\w+\.py")
        statuses = {run.returncode for run in runs}
        return "whole" if statuses <= {0, 1} else f"ended with {sorted(statuses)}: {said}"

    # ---- between two runs

    def between(self, keeper: Keeper) -> None:
        """What else a keeper does. Words that are in no file then aren't looked for again."""
        what = keeper.chance.choice((self.branches, self.branches, self.stashes, self.checks_out,
                                     self.restores, self.loses))
        what(keeper)
        keeper.words &= words_in(False)

    def commit(self) -> None:
        git("add", "-A")
        git("commit", "-qm", "day")

    def branches(self, keeper: Keeper) -> None:
        """Work on a branch, and on this one, and a merge."""
        self.commit()
        git("checkout", "-qb", "other")
        self.work(keeper)
        theirs = {*keeper.words}
        git("checkout", "-q", "main")
        keeper.words &= words_in(False)
        self.work(keeper)
        ours = {*keeper.words}
        if git("merge", "-qm", "both", "other"):
            for name in ("mine.xsb", "mine.kept.xsb", "mine.kept.answers", *glob.glob("inbox/*")):
                if os.path.exists(name) and b"<<<<<<< " in self.read(name):
                    git("checkout", "--ours", name)
                    theirs = set()
        git("branch", "-qD", "other")
        # what both have is in both, unless one side has removed it
        keeper.words = ours & theirs if theirs else ours & words_in(False)

    def work(self, keeper: Keeper) -> None:
        """A change of the exports, a check, and typing before and after it."""
        keeper.change_exports()
        keeper.put_exports()
        for _ in range(2):
            keeper.save()
            self.start(keeper).communicate()
        self.commit()

    def stashes(self, keeper: Keeper) -> None:
        self.commit()
        keeper.save()
        git("stash", "-q")
        keeper.words &= words_in(False)
        self.start(keeper).communicate()
        git("checkout", "-q", ".")
        git("stash", "pop", "-q")

    def checks_out(self, keeper: Keeper) -> None:
        """An older state of all files, or of one."""
        self.commit()
        name = keeper.chance.choice((".", "mine.xsb", "mine.answers", "mine.memory"))
        git("checkout", "-q", "HEAD~1", "--", name)

    def restores(self, keeper: Keeper) -> None:
        keeper.put_back()

    def loses(self, keeper: Keeper) -> None:
        name = keeper.chance.choice(("mine.memory", "mine.report", "mine.html", "mine.answers"))
        if os.path.exists(name):
            os.remove(name)
