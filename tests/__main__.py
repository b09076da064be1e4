"""python3 -m tests, at the top: runs all tests that this machine can run. With the toolchain that
is the gate (.ci/run). Without it the reference stands for the program: each part below that finds
its commands runs, and each has a line that says what was left out and why. On Windows, where it is
'py -m tests', what needs no shell runs. Ends in 'N passed, M failed'."""
import contextlib
import os
import re
import shutil
import subprocess
import sys
import tempfile
import time
from concurrent.futures import ThreadPoolExecutor, as_completed
from typing import Dict, Iterator, List, NamedTuple

TOP = os.path.dirname(os.path.dirname(os.path.realpath(__file__)))
# the parts, those that take longest first, each with the commands that it cannot do without
PARTS = {
    "tools reference/sokoaudit": "",
    "failing": "bash",
    "documents sokoaudit": "bash",
    "script": "bash make git",
    "hostile reference/sokoaudit quick": "bash",
    "gate": "bash flock git",
    "manual sokoaudit": "bash make",
    "reference.parts": "bash",
    "conformance reference/sokoaudit text zones": "",
    "newcomer": "bash git tar",
    "tables reference/sokoaudit": "",
    "ports": "",
    "sources": "git",
    "samples sokoaudit": "bash",
}
NUMBERS = re.compile(r"(\d+) passed, (\d+) failed(?:, (\d+) skipped)?")
FAILURE = re.compile(r"(?m)^\S.*: FAILED: ")
# loads what the parts load
LOADS = """
import importlib, pkgutil, unittest, formats, rules, solve, sokotool, tests.runner
for it in pkgutil.walk_packages(sokotool.__path__, "sokotool."):
    if not it.name.endswith("__main__"):
        importlib.import_module(it.name)
"""
FIRST = """There is no command rt, the Rattle toolchain: nothing is proved here, and the reference
in Python stands for the program. HACKING.md says what is tested with the toolchain."""


class Ended(NamedTuple):
    """A part that has ended: its words, what it printed, its numbers and its seconds."""
    part: str
    said: str
    numbers: List[int]
    seconds: float


def command_of(part: str) -> List[str]:
    """The command of a part. Where there is a shell, it gets the variables that any machine has."""
    name, *words = part.split()
    bare = [f"{TOP}/tests/bare", "env", *(f"{name}={it}" for name, it in given_to(part).items())]
    words = [os.path.join(TOP, it) if os.path.exists(os.path.join(TOP, it)) else it for it in words]
    script = f"{TOP}/tests/{name}.sh"
    starts = ["bash", script] if os.path.exists(script) else [sys.executable, "-B", "-m",
                                                              f"tests.{name}"]
    return [*(bare if hasattr(os, "fork") else []), *starts, *words]


def given_to(part: str) -> Dict[str, str]:
    """The variables that a part gets beside those of any machine: what stands for another system
    (tests/lacking), and where the script stands for the program, no note of the reference."""
    kept = "LACKING", "LACKING_TESTS", "PYTHONPYCACHEPREFIX"
    given = {it: os.environ[it] for it in kept if it in os.environ}
    paths = ["tools", "reference", "include", *(["tests/lacking"] if "LACKING" in given else [])]
    quiet = {"SOKOAUDIT_QUIET": "1"} if "sokoaudit" in part.split() else {}
    return {**given, **quiet, "RT_JOBS": "1",
            "PYTHONPATH": os.pathsep.join(os.path.join(TOP, it) for it in paths)}


def run(part: str) -> Ended:
    """Runs a part, unless it lacks a command. One that ends without numbers, or with another status
    than they say, or prints more failures than they count, failed."""
    needs = PARTS[part].split()
    lacks = [f"there is no command {it}" for it in needs if not shutil.which(it)]
    if needs and not hasattr(os, "fork"):
        lacks = ["this system has no such shell"]
    if lacks:
        return Ended(part, f"skipped: all: {lacks[0]}", [0, 0, 1], 0)
    began = time.monotonic()
    ran = subprocess.run(command_of(part), cwd=TOP, stdin=subprocess.DEVNULL, check=False,
                         stdout=subprocess.PIPE, stderr=subprocess.STDOUT,
                         env={**os.environ, **given_to(part)})
    said = ran.stdout.decode(errors="replace")
    last = NUMBERS.fullmatch((said.splitlines() or [""])[-1])
    numbers = [int(it or 0) for it in last.groups()] if last else [0, 1, 0]
    if last and (bool(ran.returncode) != bool(numbers[1])
                 or len(FAILURE.findall(said)) > numbers[1]):
        numbers[1] += 1
    return Ended(part, said, numbers, time.monotonic() - began)


def show(ended: Ended) -> None:
    """Prints a line for a part, and what it printed of failures, or the end of it, if it failed."""
    passed, failed, skipped = ended.numbers
    why: Dict[str, None] = dict.fromkeys(re.findall(r"(?m)skipped: .*: (.*)$", ended.said))
    print(f"{ended.part.split()[0]:16} {passed:6} {failed:6} {skipped:7} {ended.seconds:7.0f}  "
          f"{'; '.join(why)}".rstrip(), flush=True)
    if failed:
        said = [it for it in ended.said.splitlines() if "skipped: " not in it]
        first = next((at for at, it in enumerate(said) if re.search("FAIL|ERROR", it)), -20)
        print(*(f"    {it}" for it in said[first:][:200]), sep="\n", flush=True)


@contextlib.contextmanager
def compiled() -> Iterator[None]:
    """Compiles what the parts load into a folder, where each Python that they start finds it: the
    programs keep nothing that is compiled, and a tenth of the time would go to that."""
    with tempfile.TemporaryDirectory(prefix="sokoaudit-") as folder:
        os.environ["PYTHONPYCACHEPREFIX"] = folder
        try:
            subprocess.run([sys.executable, "-c", LOADS], cwd=TOP, stderr=subprocess.DEVNULL,
                           env={**os.environ, **given_to(""), "PYTHONDONTWRITEBYTECODE": ""},
                           check=False)
            yield
        finally:
            del os.environ["PYTHONPYCACHEPREFIX"]


def run_parts() -> None:
    """Runs the parts, at once where there are processors, and prints the sum of their numbers."""
    print(f"{FIRST}\n\n{'part':16} passed failed skipped seconds  skipped, because", flush=True)
    sums = [0, 0, 0]
    with compiled(), ThreadPoolExecutor(os.cpu_count()) as pool:
        running = [pool.submit(run, part) for part in PARTS]
        try:
            for it in as_completed(running):
                show(it.result())
                sums = [a + b for a, b in zip(sums, it.result().numbers)]
        except KeyboardInterrupt:
            for it in running:
                it.cancel()
            sys.exit(130)
    skipped = f", {sums[2]} skipped" if sums[2] else ""
    print(f"{sums[0]} passed, {sums[1]} failed{skipped}")
    sys.exit(sums[1] != 0)


def main() -> None:
    """Runs the gate, or the parts."""
    if shutil.which("rt") and shutil.which("bash"):
        os.execvp("bash", ["bash", os.path.join(TOP, ".ci", "run")])
    run_parts()


if __name__ == "__main__":
    main()
