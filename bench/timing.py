"""Times runs, and compares them with bench/limits.table. A row is a case at about a tenth of its
size, or one of the slowest known inputs: its name, the processor time in units, the memory in KiB,
the exit status, the bytes that it prints, and how the first line begins.

The unit is work that is the same whatever the program does, and takes as many times as long on a
machine that is as many times slower. So a program that is slower in everything is noticed too."""
import os
import resource
import statistics
import time
import zlib
from typing import Callable, Dict, List, NamedTuple, Tuple

from tests.runner import TOP, Cases, Ran, call, decode, read

TABLE = f"{TOP}/bench/limits.table"
TRIES = 5
MORE = 2.2  # how many times as long a run may take as the table says, since others use the machine
MORE_ROOM = 1.2  # how many times as much memory it may take
LESS = 5  # how many times less it may take, until the table has to be printed anew
WORK = b"".join(b"%d,%d %d,%d @ *\n" % (i % 7, i % 255, i % 31, i % 101) for i in range(20000))


class Limit(NamedTuple):
    """A row of the table, without its name."""
    units: float
    room: int
    said: str


Work = Callable[[], object]


def work() -> object:
    """The unit: presses a text."""
    return zlib.compress(WORK, 6)


def read_limits() -> Dict[str, Limit]:
    """The rows of the table by their names."""
    rows = [line.split(" | ", 3) for line in read(TABLE).splitlines()]
    return {name: Limit(float(units), int(room), said) for name, units, room, said in rows}


def short(ran: Ran) -> str:
    """The end of a row: what a run came to."""
    first = decode(ran.output).partition("\n")[0]
    return f"{ran.status} | {len(ran.output)} | {first[:50]}"


def pairs(command: str, tries: int, unit: Work = work) -> List[Tuple[float, float]]:
    """The processor seconds of some runs of a command, each with those of a unit right before it.
    All are on one processor, since another one may be faster for a while."""
    found, processors = [], os.sched_getaffinity(0)
    os.sched_setaffinity(0, {min(processors)})
    for _ in range(tries):
        before = time.process_time()
        unit()
        one = time.process_time() - before
        used = _used()
        call(command.split())
        found.append((_used() - used, one))
    os.sched_setaffinity(0, processors)
    return found


def units(found: List[Tuple[float, float]]) -> float:
    """The units that runs took: half of them took less."""
    return statistics.median(run / unit for run, unit in found)


def seconds(command: str, tries: int) -> Tuple[float, float]:
    """The least processor seconds of some runs of a command, and of as many units between them."""
    runs, ones = zip(*pairs(command, tries))
    return min(runs), min(ones)


def _used() -> float:
    """The processor time that all runs took so far."""
    used = resource.getrusage(resource.RUSAGE_CHILDREN)
    return used.ru_utime + used.ru_stime


def within(command: str, room: int) -> Ran:
    """A run with a limit of memory, in KiB."""
    return call(["sh", "-c", f"ulimit -v {room}; exec {command}"])


def least_room(command: str) -> int:
    """The least KiB with which a command doesn't run out of memory, up to 100."""
    low, high = 0, 1 << 20
    while high - low > 100:
        middle = (low + high) // 2
        ran = within(command, middle)
        low, high = (low, middle) if ran.status in (0, 1) else (middle, high)
    return high


def measured(command: str) -> Limit:
    """What a command takes here."""
    return Limit(round(units(pairs(command, 6 * TRIES)), 3), least_room(command),
                 short(call(command.split())))


def judge(cases: Cases, name: str, command: str, unit: Work = work) -> None:
    """Four cases: a run of the command prints what the table says; it does so within its memory; it
    takes no more processor time; and the table says not much more than that, for a limit that is
    too high notices nothing. The machine may be busy, so there are several tries."""
    limit = read_limits().get(name, Limit(0, 0, "bench/limits.table doesn't have it"))
    found = call(command.split())
    cases.same(f"{name}: what it prints", limit.said, short(found) + decode(found.errors))
    room = round(MORE_ROOM * limit.room)
    cases.holds(f"{name}: {room} KiB are enough", within(command, room) == found)
    most, used, found_pairs = MORE * limit.units, 0.0, []
    for _ in range(4):
        found_pairs += pairs(command, TRIES, unit)
        used = units(found_pairs)
        if used <= most:
            break
    cases.holds(f"{name}: up to {most:.2f} units", used <= most, f"{used:.2f}")
    is_tight = limit.units <= LESS * used and within(command, limit.room // LESS) != found
    cases.holds(f"{name}: its limits are not {LESS} times too high", is_tight,
                f"{used:.3f} units; bench/run --limits prints the table anew")
