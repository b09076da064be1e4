"""tests/run native PROGRAM: makes the programs for Windows and for Linux on ARM64, and compares
them with PROGRAM, under Wine and qemu. Ends in 'N passed, M failed'."""
import os
import re
import shutil
import subprocess
from typing import List

from tests.runner import (TOP, Cases, Ran, arguments, call, decode, enter_folder, run, run_in_turn,
                          write)
from tests.tables.rows import PLAIN, rows, text

TEST = f"{TOP}/tests/run"
FUZZ = ["reference.fuzz", "--seed", "7", "--cases", "100", "--keep", f"{TOP}/out/fuzz"]
# of each machine: its program, what runs it here, and that command's words
MACHINES = {
    "arm64": ("sokoaudit", "qemu-aarch64", "exec qemu-aarch64"),
    "windows": ("sokoaudit.exe", "wine",
                "WINEDEBUG=-all WINEDLLOVERRIDES=winedbg.exe=d exec wine"),
}
# on a loaded machine Wine itself fails now and then, so a run there has several tries
TRIES = {"arm64": 1, "windows": 5}
NUMBER = 310  # about as many cases has each machine
TABLES = ("certificates", "collections", "made", "maps", "solutions", "zones")
LEVEL = "####\n# .#\n#  ###\n#*@  #\n#  $ #\n#  ###\n####\n"
# words of runs in a folder with samples; the files of some are too long, missing or have odd names
WORDS = """
audit first.xsb first.answers
audit every.xsb every.answers
audit deadlocks.xsb deadlocks.answers
audit exports.xsb exports.answers
make first.xsb
make zones.xsb
make every.xsb
dead first.xsb 4
dead first.xsb +007
dead first.xsb 9999
audit - first.answers
audit first.xsb -
audit - -
audit -- -odd.xsb first.answers
make grün.xsb
make crlf.xsb
make nul.xsb
audit first.xsb aux.answers
audit none first.answers
audit first.xsb none
make .
make long
audit first.xsb header
audit first.xsb unclosed
help
help audit
help help
make --help
-V

solve a
audit
audit a
audit a b c
make
dead a
dead a 0
dead a x
dead a -1
dead a 99999999999999999999
audit -x a b
-x
help solve
"""


def ran(program: str, words: List[str]) -> Ran:
    """A run with the first sample as standard input, and what it printed."""
    with open("first.xsb", "rb") as given:
        it = subprocess.run([program, *words], stdin=given, stdout=subprocess.PIPE,
                            stderr=subprocess.PIPE, check=False)
    return Ran(it.stdout, it.stderr, it.returncode)


def compare(cases: Cases, machine: str, other: str, program: str) -> None:
    """Compares the two programs on all words."""
    for line in WORDS.split("\n")[1:-1]:
        words = line.split()
        wanted = ran(program, words)
        for _ in range(TRIES[machine]):
            found = ran(other, words)
            if found == wanted:
                break
        cases.same(f"{machine}: sokoaudit {line}", str(wanted), str(found))


def compare_rows(cases: Cases, machine: str, other: str) -> None:
    """Runs the rows of the tables that are a plain run on their own levels and answers."""
    for table in TABLES:
        for row in rows(table):
            words = row["words"].split()
            if not re.fullmatch(PLAIN, row["words"]) or "levels" not in row:
                continue
            for name in ("levels", "answers"):
                write(name, text(row.get(name, "")))
            wanted = f"{row['status']} {text(row['output'] or row['faults'])}"
            for _ in range(TRIES[machine]):
                it = call([other, *words], joined=True)
                found = f"{it.status} {decode(it.output)}"
                if found == wanted:
                    break
            cases.same(f"{machine}: {table}: {row['name']}", wanted, found)


def test(cases: Cases, machine: str, program: str) -> None:
    """Makes and tests the program for a machine."""
    name, runner, words = MACHINES[machine]
    said = run_in_turn([f"{TOP}/packaging/native", "--quick", machine, program, machine])
    if said.endswith("status 3\n"):
        cases.skip(f"the program for {machine}", said.splitlines()[0], NUMBER)
        return
    if not cases.holds(f"{machine} is made", said == "status 0\n", said):
        return
    if not shutil.which(runner):
        cases.skip(f"the program for {machine}", f"there is no command {runner}", NUMBER)
        return
    # usage errors have the name that a program is called by
    os.mkdir(f"{machine}-here")
    here, other = (os.path.abspath(it) for it in (f"{machine}-here/{name}", f"run-{machine}"))
    os.symlink(program, here)
    write(other, f'#!/bin/sh\n{words} {os.path.abspath(machine)}/{name} "$@"\n')
    os.chmod(other, 0o755)
    # Wine's services, which take long to start, stay while a program comes each minute. They keep
    # the streams of the first program. The first run of all makes Wine's folder, and its services
    # would end with it.
    call(["sh", "-c", f"{{ {other} --version; wineserver -k; wineserver -w; wineserver -p60; "
                      f"{other} --version; }} >/dev/null 2>&1"])
    os.chdir("samples")
    compare(cases, machine, other, here)
    os.chdir("..")
    for _ in range(TRIES[machine]):
        said = run([TEST, *FUZZ, other])
        if said.endswith("status 0\n"):
            break
    cases.holds(f"{machine}: random cases", said.endswith("status 0\n"), *said.splitlines()[-20:])
    if machine == "windows":
        compare_rows(cases, machine, other)
        return
    for part in ("samples", "tables"):
        cases.succeeds(f"{machine}: {part}", TEST, part, other)


def main() -> None:
    """Runs the part."""
    (program,) = arguments("native PROGRAM")
    cases, room = Cases("native"), enter_folder()
    shutil.copytree(f"{TOP}/samples", "samples")
    write("samples/-odd.xsb", LEVEL)
    write("samples/grün.xsb", LEVEL)
    write("samples/crlf.xsb", LEVEL.replace("\n", "\r\n") + "\x1a" + LEVEL)
    write("samples/long", "\n" * 33554433)
    write("samples/header", "sokoban-answers 3\n")
    write("samples/unclosed", "sokoban-answers 1\nlevel 1\nsolution\n")
    for machine in MACHINES:
        test(cases, machine, program)
    room.cleanup()
    cases.finish()


if __name__ == "__main__":
    main()
