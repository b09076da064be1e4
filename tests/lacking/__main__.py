"""tests/run lacking PROGRAM [TEST..]: the tests of sokotool once more, without what Windows lacks
and without what macOS lacks, side by side. PROGRAM is the sokoaudit that they run. Left out are the
tests that need a browser, take long or measure time, and those that only work on texts in memory.
The oldest Python from 3.8 on that this machine has lacks what Windows lacks, and the newest what
macOS lacks. Ends in 'N passed, M failed'.

What is simulated: functions and modules that are missing, new processes that start anew, \\ as
os.sep, a rename that replaces no file, commands by PATHEXT, names of devices, a file that can't be
replaced for a moment, many processors, a closed pipe as EINVAL, decomposed names, ends of names in
another case, and the lines that make commands of sokotool.pyz.

What isn't: os.path with drives and \\ (but for a few tests), files that can't be removed while they
are open, names that differ only in case, paths of more than 260 characters, jobs of processes
(ctypes.WinDLL), consoles and their code pages, cmd and PowerShell themselves, and all of the file
systems. No test has run on Windows or macOS itself, only sokoaudit.exe under Wine (tests/run
native)."""
import glob
import os
import re
import shutil
import sys
from typing import List

from tests.runner import NAMES, TOP, Cases, arguments, chosen, run, work_in_memory

TESTS = [f"test_{it}" for it in (
    "auditor", "beside", "check", "commands", "convert", "files", "find", "friends", "page", "pyz",
    "solvers", "system", "table")]


def without(cases: Cases, system: str, python: str, *words: str) -> None:
    """The tests in a Python that lacks what the system lacks."""
    paths = [f"{TOP}/{it}" for it in ("tests/lacking", "tools", "reference", "include")]
    variables = {**os.environ, "LACKING": system, "LACKING_TESTS": "yes",
                 "PYTHONPATH": os.pathsep.join(paths)}
    said = run([python, "-B", "-m", "tests.tools", *words], cwd=TOP, env=variables)
    counts = re.findall(r"(?m)^(\d+) passed, (\d+) failed(?:, (\d+) skipped)?$", said)
    is_whole = cases.holds("the tests run", counts, said)
    if is_whole:
        passed, failed, skipped = (int(it or 0) for it in counts[-1])
        cases.add(passed, failed, skipped)
        for line in said.splitlines():
            if failed or line.startswith("tools: skipped"):
                cases.say(line)


def pythons() -> List[str]:
    """A Python of each version from 3.8 on that this machine has, the oldest first, or the one that
    runs."""
    home = os.environ.get("PYENV_ROOT", os.path.expanduser("~/.pyenv"))
    found = []
    for name in (f"python3.{number}" for number in range(8, 40)):
        every = [shutil.which(name), *glob.glob(f"{home}/versions/*/bin/{name}")]
        found += [it for it in every if it and run([it, "-c", ""]) == "status 0\n"][:1]
    return found or [sys.executable]


if __name__ == "__main__":
    program, *names = arguments("lacking PROGRAM [TEST..]")
    names = names if names != [NAMES] else chosen(names, TESTS)
    work_in_memory()
    cases = Cases("lacking")
    every = pythons()
    python_of = {"windows": every[0], "macos": every[-1]}
    for system, python in python_of.items():
        cases.say(f"{system}: {run([python, '--version']).splitlines()[0]}")
    cases.side_by_side({it: (without, it, python_of[it], program, *(names or TESTS))
                        for it in python_of})
    cases.finish()
