"""tests/run tables PROGRAM [TABLE..]: runs each row of the tables in this folder, or of those that
are named. The fields that aren't named below are the files of a new folder, in which the program
runs with the row's words; the default is an audit. If PROGRAM is the reference, rows are skipped
that need the program's own words, and where there is no shell, those that need one. Ends in
'N passed, M failed'."""
import contextlib
import glob
import multiprocessing
import os
import re
import runpy
import sys
import tempfile
from typing import Any, Mapping, Sequence, Tuple

from tests.runner import TOP, Cases, arguments, chosen, decode, enter_folder, run_apart, write
from tests.tables.rows import PLAIN, rows, text

NO_FILES = {"name", "words", "version", "output", "faults", "status", "needs_program"}


def run_copied(script: str, words: Sequence[str]) -> Tuple[str, str]:
    """What `run_apart` returns for a script in Python, which a copy of this process runs: that
    takes a tenth of the time of a new Python."""
    with tempfile.TemporaryFile() as output, tempfile.TemporaryFile() as errors:
        def work() -> None:
            for number, file in ((1, output), (2, errors)):
                os.dup2(file.fileno(), number)
            sys.argv = [script, *words]
            runpy.run_path(script, run_name="__main__")
        copy = multiprocessing.get_context("fork").Process(target=work)
        copy.start()
        copy.join()
        for file in (output, errors):
            file.seek(0)
        return f"{decode(output.read())}status {copy.exitcode}\n", decode(errors.read())


def run_row(cases: Cases, program: str, table: str, row: Mapping[str, Any]) -> None:
    """A case: the row's words have this output, this status and these faults; '..' at the end of
    the faults matches any text."""
    name, words = f"{table}: {row['name']}", row["words"].split()
    is_plain = IS_PYTHON and re.fullmatch(PLAIN, row["words"])
    if IS_PYTHON and row.get("needs_program") == "yes":
        cases.skip(name, "the reference has other words")
        return
    if not is_plain and not cases.needs("bash", name):
        return
    with enter_folder():
        for file in row.keys() - NO_FILES:
            write(file, text(row[file]))
        if not is_plain:
            command = f'exec -a sokoaudit "$0" {row["words"]}'
            printed, said = run_apart(["bash", "-c", command, program])
        elif hasattr(os, "fork"):
            printed, said = run_copied(program, words)
        else:
            printed, said = run_apart([sys.executable, "-B", program, *words])
    faults = text(row["faults"])
    said = faults if faults.endswith("..\n") and said.startswith(faults[:-3]) else said
    wanted = f"{text(row['output'])}status {row['status']}\n{faults}"
    cases.same(name, wanted, printed + said)


program, *named = arguments("tables PROGRAM [TABLE..]")
every = sorted(os.path.basename(it)[:-6] for it in glob.glob(f"{TOP}/tests/tables/*.table"))
cases, named = Cases("tables"), chosen(named, every)
with open(program, "rb") as start:
    IS_PYTHON = re.match(rb"#!.*python", start.readline())
if IS_PYTHON:
    sys.path.insert(0, os.path.dirname(program))
    with contextlib.suppress(Exception):  # a planted fault shows in the rows
        runpy.run_path(program)  # loads the modules that it uses
for table in named:
    for row in rows(table):
        run_row(cases, program, table, row)
cases.finish()
