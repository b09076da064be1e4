"""Helpers of the tests: a folder of its own for each test, and runs of sokotool and sokoaudit in
it."""
import argparse
import contextlib
import functools
import importlib.util
import io
import os
import shutil
import sys
import tempfile
import time
import unittest
import unittest.mock
from importlib.machinery import SourceFileLoader
from typing import Any, Callable, Dict, List, NamedTuple, Sequence, Tuple, Union

from sokotool import auditor, main

from tests import runner

# the system whose lacks this run has: windows, macos or none
TOP = runner.TOP
LACKING = os.environ.get("LACKING", "")
not_on_windows = unittest.skipIf(LACKING == "windows", "Windows has no such thing")
needs_copies = unittest.skipIf(LACKING == "windows", "a search is a new Python there, without what "
                               "this test replaces")
needs_a_memory_limit = unittest.skipIf(LACKING, "there is no limit of memory")
PROGRAM = os.path.join(TOP, "crates/sokoaudit/out/sokoaudit")
SAMPLES = os.path.join(TOP, "samples")
ONE = "#####\n#@$.#\n#####\n"
PARSER_OF = functools.lru_cache(None)(main.parser_for)
PIECE = 0.016  # the processor seconds of a piece of work on an idle machine


def over_reference() -> bool:
    """Returns whether the reference stands for the program in this run."""
    return os.path.realpath(PROGRAM) == os.path.join(TOP, "reference", "sokoaudit")


def needs_program(test: Any) -> Any:
    """Skips a test of what the program alone prints or leaves unsaid, where the reference stands
    for it: that has its own help, and a note in each file that a check writes."""
    return unittest.skipIf(over_reference(), "the reference has other words")(test)


def is_slow(test: Any) -> Any:
    """Skips a test that takes long or measures time, and asks nothing of the system, where another
    system or the reference stands for what ships."""
    return unittest.skipIf(LACKING or over_reference(), "it takes long or measures time")(test)


def plain_variables() -> Dict[str, str]:
    """Returns the variables of this process, without one by which Python keeps nothing back."""
    return {name: it for name, it in os.environ.items() if name != "PYTHONUNBUFFERED"}


def known_parser(words: Sequence[str]) -> argparse.ArgumentParser:
    """Returns the parser of a command, which is made once for all tests."""
    return PARSER_OF(tuple(words[:1]))


@functools.lru_cache(None)
def reference_module() -> Any:
    """Returns the reference as a module, which is loaded once."""
    loader = SourceFileLoader("reference_program", os.path.join(TOP, "reference", "sokoaudit"))
    spec = importlib.util.spec_from_loader(loader.name, loader)
    assert spec
    module: Any = importlib.util.module_from_spec(spec)
    with unittest.mock.patch.object(sys, "path", [os.path.join(TOP, "reference"), *sys.path]):
        loader.exec_module(module)
    return module


def answer_here(*words: str) -> auditor.Ran:
    """Runs the reference in this process."""
    module = reference_module()
    out, error, status = module.answer_to(lambda: module.run(words))
    return auditor.Ran(status, out, error.decode().strip())


def reference_here() -> Any:
    """Returns a patch by which the reference runs in this process, whatever program is named."""
    def run(_self: auditor.Auditor, *words: str, **_: object) -> auditor.Ran:
        return answer_here(*words)
    return unittest.mock.patch.object(auditor.Auditor, "run", run)


def pace() -> float:
    """Returns how many times as much processor time a fixed piece of work takes as on an idle
    machine."""
    began = time.process_time()
    sorted(map(str, range(100_000)))
    return (time.process_time() - began) / PIECE


def used() -> float:
    """Returns the processor seconds of this process, and of those it started that have ended."""
    return sum(os.times()[:4])


class Result(NamedTuple):
    """The exit status of a run, and what it printed."""
    status: object
    out: bytes
    err: str


Converted = Tuple[Result, Any, Any]  # the run, and the bytes of both texts, or None


class Case(unittest.TestCase):
    """A test in an empty folder."""

    def setUp(self) -> None:
        self.folder = tempfile.mkdtemp()
        self.addCleanup(shutil.rmtree, self.folder)
        self.addCleanup(os.chdir, os.getcwd())
        os.chdir(self.folder)

    def write(self, name: str, text: Union[str, bytes]) -> None:
        """Writes a file, given as text in UTF-8 or as bytes."""
        with open(name, "wb") as file:
            file.write(text if isinstance(text, bytes) else text.encode())

    def read(self, name: str) -> bytes:
        """Returns the bytes of a file."""
        with open(name, "rb") as file:
            return file.read()

    def sample(self, name: str) -> bytes:
        """Returns the bytes of a sample."""
        return self.read(os.path.join(SAMPLES, name))

    def expected(self, name: str) -> bytes:
        """Returns the expected output of a run, from a file of this folder."""
        return self.read(os.path.join(os.path.dirname(__file__), name))

    def tool(self, *words: str, given: bytes = b"") -> Result:
        """Runs sokotool in this process."""
        printed, err = io.BytesIO(), io.StringIO()
        out = io.TextIOWrapper(printed, "utf-8")
        status: object
        before, sys.stdin = sys.stdin, io.TextIOWrapper(io.BytesIO(given))
        try:
            with contextlib.redirect_stdout(out), contextlib.redirect_stderr(err):
                try:
                    with unittest.mock.patch.object(main, "parser_for", known_parser):
                        status = main.main(list(words))
                except SystemExit as ended:
                    status = ended.code
        finally:
            sys.stdin = before
        out.flush()
        return Result(status, printed.getvalue(), err.getvalue())

    def audit(self, levels: str, answers: str) -> bytes:
        """Runs sokoaudit, and returns its report. The reference runs in this process."""
        if over_reference():
            ran = answer_here("audit", levels, answers)
            return ran.out or f"{ran.fault}\n".encode()
        return runner.call([PROGRAM, "audit", levels, answers], joined=True).output

    def use_program(self) -> None:
        """Lets sokotool audit by the program. The reference runs in this process."""
        patches = [unittest.mock.patch.dict(os.environ, SOKOAUDIT=PROGRAM),
                   *([reference_here()] if over_reference() else [])]
        for patch in patches:
            patch.start()
            self.addCleanup(patch.stop)

    def takes_less(self, most: float, work: Callable[[], object]) -> None:
        """Some work takes fewer processor seconds than `most`, as on an idle machine. The best of
        four tries counts, since others may use this one."""
        tries: List[float] = []
        while not tries or tries[-1] >= most and len(tries) < 4:
            before, began = pace(), used()
            work()
            taken = used() - began
            tries.append(2 * taken / (before + pace()))
        self.assertLess(tries[-1], most, tries)

    def convert(self, text: Union[str, bytes], name: str = "mine.txt") -> Converted:
        """Converts one file, and returns the run, the levels' text and the answers' text."""
        self.write(name, text)
        result = self.tool("convert", "out", name, "--replace")
        if not os.path.exists("out.xsb"):
            return result, None, None
        return result, self.read("out.xsb"), self.read("out.answers")
