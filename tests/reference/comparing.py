"""Compares the reference, in this process, with a program, with the library for C, and with the
module of the page."""
import ctypes
import functools
import importlib.machinery
import json
import os
import shutil
import subprocess
import tempfile
import types
from collections import Counter
from typing import Any, Dict, Iterator, List, Optional, Sequence, Tuple, Union

from rules import lines_in
from tests.reference.noise import Pair
from tests.runner import TOP, Ran, call

SECONDS = 60
Word = Union[bytes, int]  # the bytes of a text, or a number


def load(name: str, path: str) -> Any:
    """A file of Python as a module."""
    loader = importlib.machinery.SourceFileLoader(name, path)
    module: Any = types.ModuleType(loader.name)
    module.__file__ = path
    loader.exec_module(module)
    return module


def load_reference() -> Any:
    """The script reference/sokoaudit as a module."""
    module = load("reference", f"{TOP}/reference/sokoaudit")
    # the same text is read for several commands
    module.levels_in = functools.lru_cache(4)(module.levels_in)
    module.read_board = functools.lru_cache(1000)(module.read_board)
    return module


REFERENCE = load_reference()


class Auditor:
    """An implementation of the commands, with its name."""
    name = ""

    def run(self, command: str, *words: Word) -> Ran:
        """The output, the errors and the status of a command on texts and numbers."""
        raise NotImplementedError

    def audit(self, levels: bytes, answers: bytes) -> Ran:
        """The report."""
        return self.run("audit", levels, answers)

    def make(self, levels: bytes) -> Ran:
        """The answers that are made."""
        return self.run("make", levels)

    def dead(self, levels: bytes, number: int) -> Ran:
        """The map of a level."""
        return self.run("dead", levels, number)


class Reference(Auditor):
    """The reference, in this process."""
    name = "reference"

    def run(self, command: str, *words: Word) -> Ran:
        names = {"audit": "audit", "make": "make_answers", "dead": "dead_map"}
        work = getattr(REFERENCE, names[command])
        return Ran(*REFERENCE.answer_to(lambda: work(*words)))


class Program(Auditor):
    """A program, which gets the texts as files."""
    name = "program"

    def __init__(self, path: str) -> None:
        self.path = os.path.realpath(path)
        self.folder = tempfile.mkdtemp(dir="/dev/shm" if os.path.isdir("/dev/shm") else None)

    def __enter__(self) -> "Program":
        return self

    def __exit__(self, *_: object) -> None:
        shutil.rmtree(self.folder)

    def run(self, command: str, *words: Word) -> Ran:
        names: List[str] = []
        for place, word in enumerate(words):
            if isinstance(word, bytes):
                names.append(os.path.join(self.folder, str(place)))
                with open(names[-1], "wb") as file:
                    file.write(word)
            else:
                names.append(str(word))
        try:
            return call([self.path, command, *names], timeout=SECONDS)
        except subprocess.TimeoutExpired:
            return Ran(b"", b"over %d seconds\n" % SECONDS, -1)


class Module(Auditor):
    """The module of a page, which node calls."""
    name = "module of the page"

    def __init__(self, page: str) -> None:
        words = ["node", os.path.join(os.path.dirname(__file__), "module.js"), page]
        self.node = subprocess.Popen(words, stdin=subprocess.PIPE, stdout=subprocess.PIPE)

    def __enter__(self) -> "Module":
        return self

    def __exit__(self, *_: object) -> None:
        self.node.communicate()

    def run(self, command: str, *words: Word) -> Ran:
        texts = [it for it in words if isinstance(it, bytes)]
        numbers = [it for it in words if isinstance(it, int)]
        stdin, stdout = self.node.stdin, self.node.stdout
        assert stdin and stdout
        stdin.write(json.dumps([command, [*map(len, texts)], *numbers]).encode() + b"\n")
        stdin.write(b"".join(texts))
        stdin.flush()
        status, length = json.loads(stdout.readline() or '[-1, 0]')
        text = stdout.read(length)
        return Ran(b"", text + b"\n", status) if status == 2 else Ran(text, b"", status)


class Outcome(ctypes.Structure):
    """'struct sokoaudit_outcome' of include/sokoaudit.h."""
    _fields_ = [(name, ctypes.c_size_t) for name in (
        "bytes", "levels", "solved", "unsolvable", "refused", "missing", "records", "fault",
        "line")]


class Library(Auditor):
    """The library for C, in this process."""
    name = "library"

    def __init__(self, path: str) -> None:
        self.calls = ctypes.CDLL(os.path.realpath(path))
        folder = os.path.dirname(os.path.realpath(path))
        self.module = load("sokoaudit", os.path.join(folder, "sokoaudit.py"))
        self.room = 4096
        self.calls.sokoaudit_fault_text.restype = ctypes.c_size_t

    def run(self, command: str, *words: Word) -> Ran:
        """The result of a call, which is repeated with more room if the text is longer than the
        buffer. The counts have to agree with the text, and the verdicts in numbers with a report's
        lines."""
        outcome = Outcome()
        given: List[Any] = []
        for word in words:
            if isinstance(word, bytes):
                given += [word, ctypes.c_size_t(len(word))]
            else:
                given.append(ctypes.c_size_t(word))
        function = getattr(self.calls, f"sokoaudit_{command}")
        while True:
            buffer = ctypes.create_string_buffer(self.room)
            room = ctypes.c_size_t(self.room)
            status = function(*given, buffer, room, ctypes.byref(outcome))
            if outcome.bytes <= self.room:
                break
            self.room = outcome.bytes
        if status == 2:
            fault, room = ctypes.create_string_buffer(64), ctypes.c_size_t(64)
            length = self.calls.sokoaudit_fault_text(ctypes.byref(outcome), fault, room)
            return Ran(b"", fault.raw[:length] + b"\n", status)
        text = buffer.raw[:outcome.bytes]
        if not counts_are_of(command, outcome, text):
            text = b"other counts in the outcome\n" + text
        elif command == "audit":
            text = other_verdict(self.module, words, text.decode().splitlines()) + text
        return Ran(text, b"", status)


def other_verdict(module: Any, words: Sequence[Word], report: List[str]) -> bytes:
    """The first verdict of sokoaudit_lines or sokoaudit_judge that differs from this report, or
    nothing."""
    levels, answers = (word for word in words if isinstance(word, bytes))
    found, counts = module.lines(levels, answers)
    spelled = ["level %d %s" % (number, module.words(line)) for number, line in enumerate(found, 1)]
    spelled.append("total %d solved %d unsolvable %d refused %d missing %d" % counts)
    if spelled != report:
        return b"other verdicts by sokoaudit_lines\n"
    rows = REFERENCE.levels_in(levels)
    for number, before, kind, body in records_in(answers):
        line = module.judge(b"\n".join(rows[number - 1]), kind, body)
        line = line._replace(line=line.line + before if line.line else 0)
        if line != found[number - 1]:
            return b"level %d: another verdict by sokoaudit_judge\n" % number
    return b""


def records_in(answers: bytes) -> Iterator[Tuple[int, int, int, bytes]]:
    """The records of an answers text: level, number of lines before the body, kind and body. Zones
    in a text of version 1 are left out."""
    lines, at = lines_in(answers), 0
    kept = [place for place, line in enumerate(lines)
            if place and line and not line.startswith(b";")]
    while at < len(kept):
        level, kind = kept[at:at + 2]
        last = next(it for it in range(at + 2, len(kept)) if lines[kept[it]] == b"end")
        body = lines[kind + 1:kept[last]]
        if lines[0].endswith(b"2") or not any(line.startswith(b"zone ") for line in body):
            number = 1 if lines[kind] == b"solution" else 2
            yield int(lines[level].split()[1]), kind + 1, number, b"\n".join(body)
        at = last + 1


def counts_are_of(command: str, outcome: Outcome, text: bytes) -> bool:
    """Whether the numbers of an outcome agree with its text."""
    if command == "audit":
        total = "total %d solved %d unsolvable %d refused %d missing %d\n" % (
            outcome.levels, outcome.solved, outcome.unsolvable, outcome.refused, outcome.missing)
        return text.endswith(total.encode())
    return command != "make" or outcome.records == text.count(b"\nlevel ")


class Comparison:
    """The reference and what is compared with it. A result is a level's report line, a level's
    record or its lack of one, a map, or an error."""

    def __init__(self, others: Sequence[Auditor]) -> None:
        self.reference, self.others = Reference(), others
        self.counts: Dict[str, int] = Counter()

    def differs(self, command: str, *words: Word) -> Optional[str]:
        """The first of the others whose result isn't the reference's, with both results; or None.
        """
        due = self.reference.run(command, *words)
        for other in self.others:
            got = other.run(command, *words)
            if got != due:
                return "%s by the %s: %s" % (command, other.name, first_difference(due, got))
        return None

    def count(self, name: str, results: int) -> None:
        """Counts results, once for each of the others."""
        for other in self.others:
            self.counts["%s by the %s" % (name, other.name)] += results

    def of(self, pair: Pair, maps: int) -> Optional[str]:
        """The first difference on the two texts, or None. Compares `maps` maps of the program, and
        all maps of the library."""
        levels, answers = pair
        made = self.reference.make(levels)
        due = self.reference.audit(levels, answers)
        lines = max(1, due[0].count(b"\n") - 1)
        found = self.differs("audit", levels, answers) or self.differs("make", levels)
        self.count("audit", lines)
        self.count("make", lines)
        if not found and made[2] == 0:
            found = self.differs("audit", levels, made[0])
            self.count("audit of made answers", lines)
        return found or self.maps(levels, lines, maps)

    def maps(self, levels: bytes, count: int, some: int) -> Optional[str]:
        """The first difference of a map, or None."""
        for number in range(1, count + 2):
            due = self.reference.dead(levels, number)
            for other in self.others:
                if other.name == "program" and number > some:
                    continue
                self.counts["dead by the " + other.name] += 1
                got = other.dead(levels, number)
                if got != due:
                    parts = number, other.name, first_difference(due, got)
                    return "dead %d by the %s: %s" % parts
        return None


def first_difference(due: Ran, got: Ran) -> str:
    """The first line that differs, or the statuses."""
    for mine, its in zip((due[1] + due[0]).split(b"\n"), (got[1] + got[0]).split(b"\n")):
        if mine != its:
            return "the reference has %r, and it has %r" % (mine, its)
    return "the reference has status %d, and it has %d" % (due[2], got[2])
