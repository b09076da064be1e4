"""The runner of all tests. A case compares what a command prints with what is wanted, and shows a
difference as a diff. What this machine can't do is skipped, with a line that names it. The last
line of each part is 'N passed, M failed', and then ', K skipped' if something was."""
import atexit
import contextlib
import difflib
import multiprocessing
import os
import re
import shutil
import subprocess
import sys
import tempfile
import time
from concurrent.futures import ProcessPoolExecutor
from pathlib import Path
from typing import (Any, Callable, Dict, Iterator, List, Mapping, NamedTuple, Optional, Sequence,
                    Tuple)

TOP = os.path.dirname(os.path.dirname(os.path.realpath(__file__)))
MEMORY = "/dev/shm"
NAMES = "--names"  # the word that lists what a part takes
# the folder in memory: a process that Python 3.13 forks forgets all calls at its end, and would
# remove a folder that these alone name
_ROOMS: List["tempfile.TemporaryDirectory[str]"] = []


class Ran(NamedTuple):
    """What a command wrote on its two streams, and its status."""
    output: bytes
    errors: bytes
    status: int


def call(words: Sequence[str], joined: bool = False, **how: Any) -> Ran:
    """Runs a command without input. If `joined`, the output has both streams."""
    errors = subprocess.STDOUT if joined else subprocess.PIPE
    ran = subprocess.run(words, stdin=subprocess.DEVNULL, stdout=subprocess.PIPE, stderr=errors,
                         check=False, **how)
    return Ran(ran.stdout, ran.stderr or b"", ran.returncode)


def run(words: Sequence[str], **how: Any) -> str:
    """What the command prints on both streams, and its status as the last line."""
    output, _, status = call(words, joined=True, **how)
    return f"{decode(output)}status {status}\n"


def shell(command: str, *words: str, **how: Any) -> str:
    """What a command of bash prints on both streams, and its status as the last line. The words are
    its $0, $1 and so on."""
    return run(["bash", "-c", command, *words], **how)


def run_in_turn(words: Sequence[str]) -> str:
    """The same of a command that makes the module of the library, while no other test makes it."""
    return run(["flock", f"{TOP}/packaging", *words])


def run_apart(words: Sequence[str], **how: Any) -> Tuple[str, str]:
    """What the command prints with its status as the last line, and what it prints on standard
    error."""
    output, errors, status = call(words, **how)
    return f"{decode(output)}status {status}\n", decode(errors)


class Cases:
    """The cases of a part: how many passed, failed and were skipped. With tests/run --first the
    part ends with the first one that fails."""

    def __init__(self, part: str) -> None:
        self.part, self.passed, self.failed, self.skipped = part, 0, 0, 0
        self.ends_first = bool(os.environ.get("FIRST"))

    def __str__(self) -> str:
        skipped = f", {self.skipped} skipped" if self.skipped else ""
        return f"{self.passed} passed, {self.failed} failed{skipped}"

    def add(self, passed: int, failed: int, skipped: int = 0) -> None:
        """Adds cases that were counted elsewhere."""
        self.passed, self.failed = self.passed + passed, self.failed + failed
        self.skipped += skipped

    def skip(self, what: str, why: str, number: int = 1) -> None:
        """Skips cases, by default one, and says why."""
        self.skipped += number
        self.say(f"skipped: {what}: {why}")

    def say(self, text: str) -> None:
        """Prints a line, with the part before it."""
        print(f"{self.part}: {text}", flush=True)

    def same(self, name: str, wanted: str, found: str) -> None:
        """A case: the two texts are the same."""
        diff: Iterator[str] = iter(())
        if wanted != found:
            lines = wanted.split("\n"), found.split("\n")
            diff = difflib.unified_diff(*lines, "wanted", "found", lineterm="")
        self.holds(name, wanted == found, *diff)

    def holds(self, name: str, is_so: object, *said: str) -> bool:
        """A case: a condition holds. If it doesn't, the lines are printed."""
        self.add(bool(is_so), not is_so)
        if not is_so:
            self.say(f"FAILED: {name}")
            shown = "".join(f"    {line}\n" for line in said)
            print(shown.encode(errors="backslashreplace").decode(), end="", flush=True)
            if self.ends_first:
                self.finish()
        return bool(is_so)

    def succeeds(self, name: str, *words: str, **how: Any) -> bool:
        """A case: the command ends with status 0. If it doesn't, the end of its output is printed.
        """
        said = run(words, **how)
        return self.holds(name, said.endswith("status 0\n"), *said.splitlines()[-20:])

    def prints(self, name: str, wanted: str, command: str, *words: str, **how: Any) -> None:
        """A case: the command of bash prints what is wanted, with its status as the last line."""
        self.same(name, wanted, shell(command, *words, **how))

    def each(self, what: str, commands: Mapping[str, str], folder: str = ".",
             needs: str = "bash") -> None:
        """A case for each of these commands of bash, by its name: it succeeds in the folder. They
        are skipped if this machine has no command `needs`."""
        if self.needs(needs, what):
            for name, command in commands.items():
                words = ["bash", "-o", "pipefail", "-c", command]
                self.succeeds(f"{what}: {name}", *words, cwd=folder)

    def needs(self, command: str, what: str) -> Optional[str]:
        """The path of a command on this machine; if there is none, says what is skipped."""
        found = shutil.which(command)
        if not found:
            self.skip(what, f"there is no command {command}")
        return found

    def demands(self, *commands: str) -> None:
        """Ends the part, all of which is skipped, if this machine lacks one of these commands."""
        if not all([self.needs(it, "this part") for it in commands]):
            self.finish()

    def builds_soon(self, what: str, target: str, number: int) -> bool:
        """Whether a build is quick because rt has built the libraries, which then have stamps.
        After 'rt ci' alone a build would prove every library again; then what needs it is skipped,
        about this number of cases."""
        is_soon = os.path.exists(f"{TOP}/crates/report/out/rlib/stamp")
        if not is_soon:
            self.skip(what, f"'rt ci' left no library to build over; 'make {target}' builds and "
                      "tests it", number)
        return is_soon

    def side_by_side(self, parts: Mapping[str, Sequence[Any]]) -> Dict[str, Any]:
        """Runs parts by their names, at once if there are processors, each in a process and a
        folder of its own, and adds their cases. A part is a function, which gets its cases first,
        and more arguments. Returns what the functions return."""
        returned = {}
        forks = multiprocessing.get_context("fork")
        with ProcessPoolExecutor(processes(), mp_context=forks) as pool:
            waiting = {name: pool.submit(_part, f"{self.part}: {name}", *part)
                       for name, part in parts.items()}
            for name, it in waiting.items():
                counted, returned[name] = it.result()
                self.add(*counted)
        return returned

    def finish(self) -> None:
        """Prints how many cases passed, failed and were skipped, and ends the process. It is a
        failure if there was none, as where no test has the name that was given."""
        if not self.passed + self.failed + self.skipped:
            self.ends_first = False
            self.holds("there is a case", False, "no test has such a name")
        print(self, flush=True)
        sys.exit(self.failed != 0)


def _part(name: str, function: Callable[..., Any], *words: Any) -> Tuple[Tuple[int, ...], Any]:
    cases = Cases(name)
    cases.ends_first = False  # others count beside it
    with enter_folder():
        returned = function(cases, *words)
    cases.say(str(cases))
    return (cases.passed, cases.failed, cases.skipped), returned


def decode(data: bytes) -> str:
    """Bytes as text; `encode` makes the same bytes again."""
    return data.decode(errors="surrogateescape")


def encode(text: str) -> bytes:
    """The bytes of a text that `decode` made."""
    return text.encode(errors="surrogateescape")


def write(name: str, text: str) -> None:
    """Writes a file."""
    Path(name).write_bytes(encode(text))


def read(name: str) -> str:
    """The text of a file."""
    return decode(Path(name).read_bytes())


def arguments(usage: str) -> List[str]:
    """The words of the command line, which the usage names after the part. The demanded ones come
    first and have to be executable files, but for --names alone. A name of an existing file becomes
    an absolute path."""
    words, demanded = sys.argv[1:], usage.count(" ") - usage.count("[")
    if words == [NAMES] and "[" in usage:
        return [""] * demanded + words
    most = len(words) if ".." in usage else usage.count(" ")
    can_run = all(os.access(it, os.X_OK) for it in words[:demanded])
    if not demanded <= len(words) <= most or not can_run:
        sys.exit(f"usage: tests/run {usage}; 'make' builds the program of these sources, "
                 "crates/sokoaudit/out/sokoaudit")
    return [os.path.realpath(it) if os.path.exists(it) else it for it in words]


def chosen(words: Sequence[str], every: Sequence[str]) -> List[str]:
    """Those of these names that the words give, or all. A word may be the path of a file that has
    such a name. One that is no name ends the part. With --names it prints them all and ends."""
    names = [os.path.basename(it) for it in words]
    if names == [NAMES]:
        print(*every, sep="\n")
        sys.exit()
    for it in names:
        if it not in every:
            sys.exit(f"there is no {it}; --names prints what there is")
    return names or [*every]


def processes() -> int:
    """How many processes a part may use: as many as the gate says, or one for each processor."""
    return int(os.environ.get("RT_JOBS") or len(os.sched_getaffinity(0)))


def is_share(words: Sequence[str]) -> bool:
    """Whether the first of these words names a share, such as 2/3."""
    return bool(words and re.fullmatch(r"\d+/\d+", words[0]))


def share_of(every: Sequence[Any], word: str) -> Sequence[Any]:
    """The share that a word such as 2/3 names: each third one, from the second on."""
    number, count = map(int, word.split("/"))
    if not 0 < number <= count:
        sys.exit(f"there is no share {word}")
    return every[number - 1::count]


def daily_seed() -> int:
    """The seed of random tests that is new each day, such as 20300131, or what SEED says."""
    return int(os.environ.get("SEED") or time.strftime("%Y%m%d"))


def work_in_memory() -> None:
    """Puts new folders into one in memory, where that has room for large texts and programs may
    run: there nothing waits for a disk. The folder is removed at the end."""
    with contextlib.suppress(AttributeError, OSError):  # another system
        known = os.statvfs(MEMORY)
        has_room = known.f_bavail * known.f_frsize > 2_000_000_000
        if has_room and not known.f_flag & os.ST_NOEXEC and "TMPDIR" not in os.environ:
            folder = tempfile.TemporaryDirectory(prefix="sokoaudit-", dir=MEMORY)
            os.environ["TMPDIR"] = tempfile.tempdir = folder.name
            _ROOMS.append(folder)
            atexit.register(folder.cleanup)


def enter_folder() -> "tempfile.TemporaryDirectory[str]":
    """Changes to a new folder, which is removed at the end."""
    folder = tempfile.TemporaryDirectory(prefix="sokoaudit-")
    os.chdir(folder.name)
    return folder
