"""bench/run [--table] [--only WORD] [PROGRAM [OTHER]]: times long solutions, long lists and large
collections. Without PROGRAM it builds the program of these sources if they changed. The library for
C is always the one of these sources. With --only it takes the cases alone whose names have the
word, and with --table it prints bench/times.table.

With OTHER both programs run each case at about a hundredth of its size, and have to print the same.
With --judge the cases of PROGRAM at about a tenth of their size and the slowest known inputs are
compared with bench/limits.table. For both the last line is 'N passed, M failed'. With --limits it
prints that table anew."""
import argparse
import os
import re
import sys
from typing import Iterator, Tuple

from bench import timing
from bench.measured import Size, cases, through_library
from bench.worst import worst
from tests.runner import TOP, Cases, enter_folder, run, run_apart, write
from tests.tables.rows import text

TIME = "/usr/bin/time"


def written(size: Size, only: str) -> Iterator[Tuple[str, str, str]]:
    """The names, targets and commands of the cases whose names have the word, each with its texts
    in the folder."""
    for case in cases(size):
        for file, line in (("levels", case.levels), ("answers", case.answers)):
            if line is not None:
                write(file, text(line))
        if only in case.name:
            yield case.name, f"{case.target:g} s", case.command


def slowest(only: str) -> Iterator[Tuple[str, str]]:
    """The names and commands of the slowest inputs whose names have the word, likewise."""
    for it in worst():
        if only in it.name:
            for file, line in (("levels", it.levels), ("answers", it.answers)):
                write(file, text(line))
            yield it.name, it.command


def timed(only: str) -> Iterator[Tuple[str, str]]:
    """The names and commands of what is compared with bench/limits.table."""
    for name, _, command in written(Size(is_tenth=True), only):
        yield f"a tenth of: {name}", command
    yield from slowest(only)


def measured(command: str) -> str:
    """The processor time that a run takes, up to a hundredth of a second, and its memory."""
    said = run(["bash", "-c", f"{TIME} -f '%U %S %M' {command} 2>&1 >out | tail -n 1"])
    found = re.match(r"([\d.]+) ([\d.]+) (\d+)\n", said)
    if not found:
        sys.exit(said)
    used, kibibytes = float(found[1]) + float(found[2]), int(found[3])
    return f"{max(used, 0.01):.2f} s, {kibibytes / 1024:.0f} MB"


def print_table(only: str) -> None:
    """Prints bench/times.table."""
    limits = timing.read_limits()
    print("# processor time, and the most memory that the program held\n"
          "# case | target or limit | measured", flush=True)
    for name, command in slowest(only):
        used, unit = timing.seconds(command, 3)
        most = timing.MORE * limits[name].units * unit
        print(f"{name} | {most:.2g} s | {used:.2g} s", flush=True)
    for name, target, command in written(Size(), only):
        print(f"{name} | {target} | {measured(command)}", flush=True)
    if not only:
        it = through_library()
        print(f"{it.name} | {it.target:g} s | {measured(it.command)}")


def print_times(only: str) -> None:
    """Prints the time and memory that each case takes."""
    for name, command in slowest(only):
        used, unit = timing.seconds(command, 3)
        print(f"{name}: {used:.3f} s, {used / unit:.2f} units", flush=True)
    for name, target, command in written(Size(), only):
        print(f"{name}: {measured(command)}, target {target}", flush=True)
    if not only:
        it = through_library()
        print(f"{it.name}: {measured(it.command)}, target {it.target:g} s")


def print_limits(only: str) -> None:
    """Prints the rows of bench/limits.table."""
    for name, command in timed(only):
        print(name, *timing.measured(command), sep=" | ", flush=True)


def compare(other: str, only: str) -> None:
    """A case for each case: the program and the other one print the same."""
    compared = Cases("bench")
    for name, _, command in written(Size(is_small=True), only):
        wanted = run_apart(["bash", "-c", command.replace("./sokoaudit", other)])
        found = run_apart(["bash", "-c", command])
        compared.same(f"a hundredth of: {name}", "".join(wanted), "".join(found))
    compared.finish()


def judge(only: str) -> None:
    """The cases of the limits."""
    compared = Cases("bench")
    for name, command in timed(only):
        timing.judge(compared, name, command)
    compared.finish()


def main() -> None:
    """Measures or compares."""
    parser = argparse.ArgumentParser(prog="bench/run", description=__doc__,
                                     formatter_class=argparse.RawDescriptionHelpFormatter)
    parser.add_argument("--table", dest="what", action="store_const", const=print_table)
    parser.add_argument("--limits", dest="what", action="store_const", const=print_limits)
    parser.add_argument("--judge", dest="what", action="store_const", const=judge)
    parser.add_argument("--only", metavar="WORD", default="")
    parser.add_argument("program", nargs="?")
    parser.add_argument("other", nargs="?")
    given = parser.parse_args()
    if not given.program:
        print(run([f"{TOP}/packaging/build"]), end="", file=sys.stderr)
    program = given.program or f"{TOP}/crates/sokoaudit/out/sokoaudit"
    for word in (program, given.other or program):
        if not (os.path.isfile(word) and os.access(word, os.X_OK)):
            sys.exit(f"bench/run: there is no program {word}")
    program, other = os.path.realpath(program), given.other and os.path.realpath(given.other)
    with enter_folder():
        os.symlink(program, "sokoaudit")
        if other:
            compare(other, given.only)
        else:
            (given.what or print_times)(given.only)


if __name__ == "__main__":
    main()
