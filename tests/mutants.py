"""tests/run mutants PROGRAM [FAULT..]: plants the faults of tests/must-fail, all or some, one at a
time in a copy of this tree, and runs the part or the test that has to fail there. A word is the
name of a fault, or a source for all of its faults; 'timed' names those whose test measures time,
and 2/3 a share of the others. Ends in 'N passed, M failed'.

The faults of a source PATH are in tests/must-fail/PATH.faults, with an empty line between two. Each
has the lines

- fault: its name, which says what the broken code does
- test: what tests/run is given, with PROGRAM for the program and PAGE for the page made anew
- needs: commands without which it is skipped; perhaps no such line
- old: and new: in pairs: a text in one line, which the source has once, and what replaces it

A case fails if the fault can't be planted, if the test passes, or if it doesn't run to its end. One
more case for each part of the tests: without a fault all that is named passes, and of the page, the
one made anew is sokoaudit.html, which tests/run page tests."""
import ast
import base64
import contextlib
import os
import re
import resource
import shutil
import signal
import subprocess
import sys
import tempfile
import time
from collections import defaultdict
from concurrent.futures import ThreadPoolExecutor
from queue import Queue
from typing import Dict, Iterable, Iterator, List, NamedTuple, Set, Tuple

from tests.runner import (NAMES, TOP, Cases, arguments, chosen, decode, is_share, processes, read,
                          run, share_of, write)

COUNTS = re.compile(r"(\d+) passed, (\d+) failed(?:, (\d+) skipped)?")
# a clone may be below any folder
HARD = """mutants 'o"k' $x ü """
FAULTS, END = f"{TOP}/tests/must-fail", ".faults"
LIMIT = 1200  # seconds, on a machine that others keep busy too
# the page is made of these
PAGE_PARTS = ("tools/page/", "tools/sokotool/viewer/", "packaging/ports/inline")
MADE_OF = r"Made of the sources <code>(\w+)</code> by <code>(.*?)</code>"


class Fault(NamedTuple):
    """A fault: the file that it changes, the words of the test, the commands that it needs, and the
    pairs. One that has other lines than it has to have has no pairs."""
    name: str
    file: str
    test: str
    needs: Tuple[str, ...]
    pairs: Tuple[Tuple[str, str], ...]


class BadFault(Exception):
    """Why a fault can't be planted."""


def read_faults(path: str) -> Iterator[Fault]:
    """The faults of a file."""
    for text in read(path).rstrip("\n").split("\n\n"):
        fields: Dict[str, List[str]] = defaultdict(list)
        for line in text.split("\n"):
            kind, _, rest = line.partition(": ")
            fields[kind.rstrip(":")].append(rest)
        pairs = (*zip(fields["old"], fields["new"]),)
        count = {kind: len(it) for kind, it in fields.items() if it}
        wanted = {"fault": 1, "test": 1, "old": len(pairs), "new": len(pairs)}
        is_so = {**count, "needs": 1} == {**wanted, "needs": 1}
        source = os.path.relpath(path, FAULTS)[:-len(END)]
        yield Fault("".join(fields["fault"]), source, "".join(fields["test"]),
                    (*" ".join(fields["needs"]).split(),), pairs if is_so else ())


def every_fault() -> List[Fault]:
    """All faults, by the names of their files."""
    paths = (f"{at}/{it}" for at, _, names in os.walk(FAULTS) for it in names if it.endswith(END))
    return [it for path in sorted(paths) for it in read_faults(path)]


def planted(fault: Fault) -> str:
    """Returns the text of the file with the fault."""
    path = f"{TOP}/{fault.file}"
    if not os.path.isfile(path):
        raise BadFault(f"there is no file {fault.file}")
    if not fault.pairs:
        raise BadFault("its lines are fault, test, perhaps needs, and pairs of old and new")
    text = read(path)
    for old, new in fault.pairs:
        if text.count(old) != 1:
            raise BadFault(f"{fault.file} has {text.count(old)} times: {old}")
        text = text.replace(old, new)
    if fault.file.endswith(".py") or re.match("#!.*python", text):
        try:
            ast.parse(text)
        except SyntaxError as error:
            raise BadFault(f"it is no Python any more: {error}") from error
    return text


def copied(folder: str) -> str:
    """Copies this tree into a folder, without what is built."""
    names = run(["git", "-C", TOP, "ls-files", "-coz", "--exclude-standard"]).split("\0")[:-1]
    for name in (it for it in names if os.path.isfile(f"{TOP}/{it}")):
        os.makedirs(os.path.dirname(f"{folder}/{name}"), exist_ok=True)
        shutil.copy2(f"{TOP}/{name}", f"{folder}/{name}")
    run(["git", "-C", folder, "init", "-q"])
    return folder


def compiled(tree: str) -> str:
    """Compiles the Python of a tree once for all tests. What is compiled counts only for the same
    text, so a planted fault is seen at once."""
    run([sys.executable, "-m", "compileall", "-q", "--invalidation-mode", "checked-hash",
         f"{tree}/tools", f"{tree}/tests"])
    return tree


def make_page(tree: str) -> None:
    """Makes the page of a copy anew, around the module of this page."""
    page = read(f"{TOP}/sokoaudit.html")
    (module,) = re.findall(r'id="wasm">([^<]*)<', page)
    reference = read(f"{TOP}/reference/sokoaudit")
    (version,) = re.findall('(?m)^VERSION = "sokoaudit (.*)"', reference)
    with tempfile.NamedTemporaryFile(suffix=".wasm") as file:
        file.write(base64.b64decode(module))
        file.flush()
        made = subprocess.run([f"{tree}/packaging/ports/inline", file.name, version,
                               *re.findall(MADE_OF, page)[0]], stdout=subprocess.PIPE, check=True)
    write(f"{tree}/sokoaudit.html", decode(made.stdout))


class Trees:
    """Copies of this tree, in which tests run: one for each process and one more, since a test
    often waits for what it started. Their browser is chromium-headless-shell, if that is there:
    it starts in a third of the time."""

    def __init__(self, program: str, room: str):
        self.program, self.free = program, Queue()  # type: ignore[var-annotated]
        self.variables = {**os.environ}
        if shell := shutil.which("chromium-headless-shell"):
            os.makedirs(f"{room}/bin")
            os.symlink(shell, f"{room}/bin/chromium")
            self.variables["PATH"] = f"{room}/bin:{os.environ['PATH']}"
        self.running: Set[int] = set()
        self.count = processes() + 1
        first = compiled(copied(f"{room}/0"))
        for i in range(1, self.count):
            self.free.put(shutil.copytree(first, f"{room}/{i}"))
        self.free.put(first)

    def test(self, words: str, file: str = "", text: str = "") -> Tuple[str, str]:
        """Runs a test where a file has this text, up to the first case that fails. Returns what it
        printed, and its last line of numbers or ''."""
        tree = self.free.get()
        try:
            if file:
                write(f"{tree}/{file}", text)
            if file.startswith(PAGE_PARTS):
                make_page(tree)
            filled = [{"PROGRAM": self.program, "PAGE": f"{tree}/sokoaudit.html"}.get(it, it)
                      for it in words.split()]
            return self.ended(tree, [f"{tree}/tests/run", "--first", *filled])
        finally:
            for name in [file, "sokoaudit.html"] if file else []:
                shutil.copy2(f"{TOP}/{name}", f"{tree}/{name}")
            self.free.put(tree)

    def ended(self, tree: str, words: List[str]) -> Tuple[str, str]:
        """Runs a test of a copy to its end, with all that it started. Returns what it printed, and
        its numbers."""
        with tempfile.TemporaryFile() as file:
            ran = subprocess.Popen(words, stdin=subprocess.DEVNULL, stdout=file, stderr=file,
                                   cwd=tree, env=self.variables, start_new_session=True)
            self.running.add(ran.pid)
            with contextlib.suppress(subprocess.TimeoutExpired):
                ran.wait(LIMIT)
            self.running.remove(ran.pid)
            end(ran.pid)
            ran.wait()
            file.seek(0)
            said = decode(file.read())
        last = said.splitlines()[-1:] or [""]
        counts = COUNTS.fullmatch(last[0])
        is_so = counts and ran.returncode == int(counts[2] != "0")
        return said, last[0] if is_so else ""


def end(group: int) -> None:
    """Ends a group of processes."""
    with contextlib.suppress(ProcessLookupError):
        os.killpg(group, signal.SIGKILL)


def is_of_page(test: str) -> bool:
    """Whether a test is one of the page made anew."""
    return "PAGE" in test.split()


def together(tests: Iterable[str]) -> List[str]:
    """The tests of each part in one, with all that they name, but for those of the page."""
    parts: Dict[str, Dict[str, None]] = defaultdict(dict)
    for words in map(str.split, sorted(it for it in tests if not is_of_page(it))):
        given = [it for at, it in enumerate(words) if not at or it.isupper() or "/" in it]
        parts[" ".join(given)].update(dict.fromkeys(words[len(given):]))
    # a test is in its class and in its module too
    return [" ".join([part, *(it for it in names if not any(it.startswith(f"{whole}.")
                                                            for whole in names))])
            for part, names in parts.items()]


def picked(words: List[str]) -> List[Fault]:
    """The faults that are named, or all. Those with the same test are in one share."""
    every = every_fault()
    if words == ["timed"] or is_share(words):
        tests = sorted({it.test for it in every})
        timed = [it for it in tests if it.startswith("speed ")]
        untimed = [it for it in tests if it not in timed]
        shared = {*(timed if words == ["timed"] else share_of(untimed, words[0]))}
        return [it for it in every if it.test in shared]
    found: List[Fault] = []
    for word in words:
        if word == NAMES:
            chosen(words, [it.name for it in every])
        source = os.path.relpath(word.replace(f"{FAULTS}/", f"{TOP}/"), TOP)
        named = [it for it in every
                 if it.name == word or it.file in (source, source[:-len(END)])]
        if not named:
            sys.exit(f"there is no fault {word}")
        found += named
    return found if words else every


def judge(cases: Cases, fault: Fault, result: Tuple[str, str]) -> None:
    """A case: the test fails with the fault."""
    said, numbers = result
    found, name = COUNTS.fullmatch(numbers), f"{fault.name}: {fault.test}"
    if not found:
        cases.holds(f"{name} runs to its end", False, *said.splitlines()[-20:])
    elif cases.holds(f"{name} fails", found[2] != "0", numbers):
        first = re.search("(?m)^(FAIL|ERROR|.*: FAILED): (.*)", said)
        cases.say(f"{name}: {first[2] if first else numbers}")


def judge_whole(cases: Cases, test: str, result: Tuple[str, str]) -> None:
    """A case: without a fault the test passes."""
    said, numbers = result
    found = COUNTS.fullmatch(numbers)
    cases.holds(f"without a fault: {test}", found and found[1] != "0" and found[2] == "0",
                *said.splitlines()[-20:])


def main() -> None:
    """Runs the part."""
    began = time.monotonic()
    signal.signal(signal.SIGTERM, lambda *_: sys.exit(143))
    program, *named = arguments("mutants PROGRAM [FAULT..]")
    cases, faults, texts = Cases("mutants"), [], {}
    for fault in picked(named):
        lacks = [it for it in fault.needs if not shutil.which(it)]
        try:
            texts[fault] = planted(fault)
        except BadFault as error:
            cases.holds(f"{fault.name} can be planted", False, f"{fault.file}{END}: {error}")
        else:
            if lacks:
                cases.skip(fault.name, f"there is no command {lacks[0]}")
            else:
                faults.append(fault)
    if not faults:
        cases.finish()
    with tempfile.TemporaryDirectory(prefix=HARD) as room:
        trees, tests = Trees(program, room), [it.test for it in faults]
        if any(map(is_of_page, tests)):
            make_page(f"{room}/0")
            cases.holds("without a fault the page that is made is this one",
                        read(f"{room}/0/sokoaudit.html") == read(f"{TOP}/sokoaudit.html"))
        with ThreadPoolExecutor(trees.count) as pool:
            before = {it: pool.submit(trees.test, it) for it in together(tests)}
            after = [pool.submit(trees.test, it.test, it.file, texts[it]) for it in faults]
            try:
                for test, result in before.items():
                    judge_whole(cases, test, result.result())
                for fault, result in zip(faults, after):
                    judge(cases, fault, result.result())
            except BaseException:  # an interrupt, or the gate ends
                for result in [*before.values(), *after]:
                    result.cancel()
                for group in [*trees.running]:
                    end(group)
                raise
    used = resource.getrusage(resource.RUSAGE_CHILDREN)
    cases.say(f"{len(faults)} faults in {time.monotonic() - began:.0f} s, with "
              f"{used.ru_utime + used.ru_stime:.0f} s of the processors")
    cases.finish()


if __name__ == "__main__":
    main()
