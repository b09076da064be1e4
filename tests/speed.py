"""tests/run speed PROGRAM [WORD..]: plants slow, greedy and broken programs, and limits that are
too high, each of which bench/run has to find, all or some by their names. Ends in 'N passed, M
failed'."""
import os
import unittest.mock
from typing import List, Tuple

from bench import timing
from bench.measured import Case, Size, cases as bench_cases
from tests.runner import Cases, arguments, chosen, enter_folder, write
from tests.tables.rows import text

# two cases, the second of which has the larger texts
NAMES = "patterns with seeds on a board", "zones looked for in 10,000 levels"
HALF = "a_machine_half_as_fast"
# by how much the time and the memory of the table are multiplied
TOO_HIGH = {"time_limits_ten_times_too_high": (10, 1), "memory_limits_ten_times_too_high": (1, 10)}
# what stands for $P, the program, and which of the cases of each name fail
IS_SECOND = '[ "$1" = make ]'
PLANTED = {
    "the_program": ('exec $P "$@"', "", ""),
    "slower":
        ('{ $P "$@"; $P "$@"; } >/dev/null; exec $P "$@"', "units", "units"),
    "one_case_slower":
        (f'! {IS_SECOND} || {{ $P "$@"; $P "$@"; }} >/dev/null; exec $P "$@"', "", "units"),
    "memory":
        ('room=$(ulimit -v); [ $room = unlimited ] || ulimit -v $((room / 2)); exec $P "$@"',
         "KiB", "KiB"),
    "memory_of_one_case":
        (f'room=$(ulimit -v); [ $room = unlimited ] || ! {IS_SECOND} || ulimit -v $((room / 2)); '
         'exec $P "$@"', "", "KiB"),
    "crash": ('$P "$@"; kill -SEGV $$', "prints", "prints"),
    "nothing_printed": ("exit 0", "prints high", "prints high"),
    "another_report": ('$P "$@"; echo more', "prints", "prints"),
    "error": ("echo answers line 1 header >&2; exit 2", "prints high", "prints high"),
}


def failures(case: Case, unit: timing.Work) -> List[str]:
    """The limits of a case that don't hold."""
    failing: List[str] = []

    class Quiet(Cases):
        """Cases of which the failing ones are noted."""
        def holds(self, name: str, is_so: object, *said: str) -> bool:
            failing.extend([name] * (not is_so))
            return bool(is_so)

    write("levels", text(case.levels or ""))
    write("answers", text(case.answers or ""))
    timing.judge(Quiet("planted"), f"a tenth of: {case.name}", case.command, unit)
    return failing


def plant(program: str, lines: str) -> None:
    """Puts a program in the place of the one that bench runs."""
    write("planted", f"#!/bin/sh\nP={program}\n{lines}\n")
    os.chmod("planted", 0o755)
    os.replace("planted", "sokoaudit")


def multiplied(times: int, rooms: int) -> str:
    """Writes a table of limits this many times as high, and returns its name."""
    rows = (f"{name} | {limit.units * times:.3f} | {limit.room * rooms} | {limit.said}\n"
            for name, limit in timing.read_limits().items())
    write("limits", "".join(rows))
    return "limits"


def main() -> None:
    """Runs the part."""
    program, *named = arguments("speed PROGRAM [NAME..]")
    named = chosen(named, [*PLANTED, HALF, *TOO_HIGH])
    cases, room = Cases("speed"), enter_folder()
    plant(program, 'exec $P "$@"')  # it makes the answers of one of the cases
    picked = [next(it for it in bench_cases(Size(is_tenth=True)) if name in it.name)
              for name in NAMES]

    def twice() -> None:
        timing.work()
        timing.work()

    runs: List[Tuple[str, str, List[str], timing.Work]] = [
        (what, lines, wanted, timing.work) for what, (lines, *wanted) in PLANTED.items()]
    runs.append((HALF, '$P "$@" >/dev/null; exec $P "$@"', ["", ""], twice))
    runs += [(what, 'exec $P "$@"', ["high", "high"], timing.work) for what in TOO_HIGH]
    for what, lines, wanted, unit in runs:
        if what not in named:
            continue
        plant(program, lines)
        table = multiplied(*TOO_HIGH[what]) if what in TOO_HIGH else timing.TABLE
        for case, words in zip(picked, wanted):
            with unittest.mock.patch.object(timing, "TABLE", table):
                found = failures(case, unit)
            is_so = len(found) == len(words.split()) and all(map(str.count, found, words.split()))
            cases.holds(f"{what}: {case.name}: {words or 'nothing'} fails", is_so, *found)
    room.cleanup()
    cases.finish()


if __name__ == "__main__":
    main()
