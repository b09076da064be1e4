"""Tests with little memory, and with outputs that fail."""
import os
import subprocess
from typing import Dict

from tests.drawing import listed, walled
from tests.inputs import LEVELS, WHOLE_ANSWERS, WHOLE_LEVELS
from tests.runner import Cases, decode, read, shell, write
from tests.tables.rows import text

MEMORY = "out of memory\nstatus 2\n"
FAULT = "cannot write\nstatus 2\n"
AUDIT = '"$0" audit levels answers'
UNSOLVABLE = ("level 1 unsolvable patterns 65536\n"
              "total 1 solved 0 unsolvable 1 refused 0 missing 0\nstatus 0\n")


def little_memory(cases: Cases, program: str) -> None:
    """Lists of 65,536 patterns on a board of 255 by 255, on which no box leaves the upper row, and
    the goals are below. With less and less memory the audit prints its report or 'out of memory',
    and nothing else."""
    row = [f"{x},2" for x in range(2, 255)]
    pairs = [f"{row[i]} {row[j]}" for j in range(len(row)) for i in range(j)]
    for boxes, places in ((1, row), (2, pairs)):
        cells = {(2, 3): "@"}
        for it in range(1, boxes + 1):
            cells.update({(10 * it, 2): "$", (10 * it, 254): "."})
        write("levels", text(walled(255, 255, cells)))
        write("answers", text(listed(f"{places[it % len(places)]} @ *" for it in range(65536))))
        cases.prints(f"boxes {boxes}: a long list on a large board", UNSOLVABLE, AUDIT, program)
        short = 0
        for room in range(4000, 36001, 1000):
            found = shell(f"ulimit -v {room}; exec {AUDIT}", program)
            short += found == MEMORY
            cases.same(f"boxes {boxes}: {room} KiB", UNSOLVABLE,
                       UNSOLVABLE if found == MEMORY else found)
        cases.say(f"on a large board {short} of 33 sizes of memory were too small for a list with "
                  f"{boxes} boxes a pattern")


def devices(cases: Cases, program: str, refuse: str) -> None:
    """Outputs that are full, closed, or fail once."""
    write("levels", text(WHOLE_LEVELS))
    write("answers", text(WHOLE_ANSWERS))
    for words in ("audit levels answers", "make levels", "dead levels 1", "--help"):
        command = f'"$0" {words}'
        for what, wanted, line in (
            ("a full disk", FAULT, f"{command} 2>&1 >/dev/full"),
            ("a closed output", FAULT, f"{command} 2>&1 >&-"),
            ("both outputs closed", "status 2\n", f"{command} 2>&- >&-"),
        ):
            cases.prints(f"{words}: {what}", wanted, line, program)
        cases.same(f"{words}: a closed pipe", FAULT, to_closed_pipe(program, words))
        cases.prints(f"{words}: a write that fails once", FAULT, command, program,
                     env=failing(refuse, 1))
    write("nooks", text(f"{LEVELS['nook']}/") * 500)
    write("header", "sokoban-answers 1\n")
    for words in ("audit nooks header", "make nooks"):
        long_output(cases, program, words, refuse)


def to_closed_pipe(program: str, words: str) -> str:
    """What a run prints on standard error, and its status, if the reader of its output is gone."""
    reader, writer = os.pipe()
    os.close(reader)
    ran = subprocess.run([program, *words.split()], stdin=subprocess.DEVNULL, stdout=writer,
                         stderr=subprocess.PIPE, check=False)
    os.close(writer)
    return f"{decode(ran.stderr)}status {ran.returncode}\n"


def failing(refuse: str, number: int) -> Dict[str, str]:
    """The environment in which the write of this number fails."""
    return {**os.environ, "FAIL_WRITE": str(number), "LD_PRELOAD": refuse}


def long_output(cases: Cases, program: str, words: str, refuse: str) -> None:
    """Each write fails in turn: what was written before it stays, and nothing is written after it.
    """
    status = shell(f'"$0" {words} >whole', program)
    whole = read("whole")
    for number in range(1, 100):
        said = shell(f'"$0" {words} 2>&1 >out', program, env=failing(refuse, number))
        out = read("out")
        if said == status:
            break
        cases.same(f"{words}: write {number} fails", FAULT, said)
        cases.holds(f"{words}: the output up to write {number} is a beginning",
                    len(out) < len(whole) and whole.startswith(out))
    cases.same(f"{words}: {number - 1} writes", f"{whole}{status}", f"{out}{said}")
