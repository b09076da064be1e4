"""Parts of the comparison with the reference: the samples, what hinders a run, and random cases.

tests/run reference.parts [FUNCTION..]: all but the last, which need no program, or those of these
names. Ends in 'N passed, M failed'.
"""
import contextlib
import glob
import io
import re
import unittest.mock

from tests.inputs import LEVELS
from tests.reference import fuzz
from tests.reference.comparing import Comparison
from tests.runner import TOP, Cases, arguments, chosen, daily_seed, enter_folder, read, run, write
from tests.tables.rows import text

# files with expected output, and the words: {0} is the name without its end, {1} and {2} its parts
PRINTED = (
    ("samples/*.report", "audit {0}.xsb {0}.answers"),
    ("samples/*.made", "make {0}.xsb"),
    ("samples/*.map", "dead {1}.xsb {2}"),
    ("tests/samples/*.error", "audit {0}.xsb {0}.answers"),
)
# what hinders a run, by docs/formats.md: a command of bash, and what it prints on both streams
ONE = "level 1 missing\ntotal 1 solved 0 unsolvable 0 refused 0 missing 1\nstatus 1\n"
HINDERED = {
    '"$0" audit - answers <levels': ONE,
    '"$0" audit levels - <answers': ONE,
    '"$0" audit - - <levels': "cannot read answers\nstatus 2\n",
    '"$0" audit none none': "cannot read levels\nstatus 2\n",
    '"$0" audit levels none': "cannot read answers\nstatus 2\n",
    "cp levels $'\\xff'; \"$0\" make $'\\xff'": "words not in UTF-8\nstatus 2\n",
    "\"$0\" solve $'\\xff'": "words not in UTF-8\nstatus 2\n",
    'cp levels ./-l; "$0" make -- -l': "sokoban-answers 1\nstatus 0\n",
    '"$0" dead -- -l 2': "no such level\nstatus 2\n",
    '"$0" audit -- - answers <levels': ONE,
    '"$0" make -l 2>&1 | grep -c usage': "1\nstatus 0\n",
    '"$0" make -- 2>&1 | grep -c usage': "1\nstatus 0\n",
    '"$0" -- make -l 2>&1 | grep -c usage': "1\nstatus 0\n",
    '"$0" audit levels -- -a': ONE,
    '"$0" dead levels ١ 2>&1 | grep -c usage': "1\nstatus 0\n",
    '"$0" -V --none': "sokoaudit 0.3.0-dev\nstatus 0\n",
    'cp levels grün; "$0" make grün': "sokoban-answers 1\nstatus 0\n",
    '"$0" make .': "cannot read levels\nstatus 2\n",
    '"$0" make levels >/dev/full': "cannot write\nstatus 2\n",
    '"$0" make levels 2>&1 >&-': "cannot write\nstatus 2\n",
    '"$0" make none 2>&-': "status 2\n",
    '"$0" make most': "sokoban-answers 1\nstatus 0\n",
    '"$0" make more': "levels too long\nstatus 2\n",
    'ulimit -v 40000; "$0" make most': "out of memory\nstatus 2\n",
    '"$0" dead levels 2': "no such level\nstatus 2\n",
    '"$0" dead levels +0001': "#####\n#@$.#\n#####\nstatus 0\n",
    '"$0" dead levels $(printf %05000d 1)': "#####\n#@$.#\n#####\nstatus 0\n",
    '"$0" dead levels 0 2>&1 | grep -c usage': "1\nstatus 0\n",
    '"$0" dead levels ++1 2>&1 | grep -c usage': "1\nstatus 0\n",
    '"$0" dead levels 10000': "no such level\nstatus 2\n",
    '"$0" dead levels 10001 2>&1 | grep -c "no such level"': "0\nstatus 1\n",
    '"$0" dead many 10000': "board player\nstatus 2\n",
    '"$0" make many | wc -l': "1\nstatus 0\n",
    '"$0" make too-many': "too many levels\nstatus 2\n",
}
# words that print help with status 0, and words that are a usage error, as of the program
HELP = ("-h", "--help", "help", "help dead", "-h --none", "audit --help", "audit levels -h",
        "audit levels answers --help", "dead levels 1 -h", "dead levels --help 0", "make - -h")
NO_HELP = ("", "help solve", "help -h", "help make make", "solve -h", "--none -h", "-- -h",
           "audit -- -h", "make levels levels -h", "dead levels 0 -h", "make '' -h", "make -V")


def hindered(cases: Cases) -> None:
    """A case for each way in which a run of the reference is hindered, and for its help."""
    write("levels", text(LEVELS["straight"]))
    for name in ("answers", "-a"):
        write(name, "sokoban-answers 1\n")
    write("most", " " * 33554432)
    write("more", " " * 33554433)
    write("many", "#\n\n" * 10000)
    write("too-many", "#\n\n" * 10001)
    for command, wanted in HINDERED.items():
        cases.prints(command, wanted, command, f"{TOP}/reference/sokoaudit")
    for status, stream, every in ((0, "2>&-", HELP), (2, "2>&1 >&-", NO_HELP)):
        for words in every:
            cases.prints(f"usage for: {words}", f"usage\nstatus {status}\n",
                         f'said=$("$0" {words} {stream}); s=$?; echo "${{said%%:*}}"; exit $s',
                         f"{TOP}/reference/sokoaudit")


def samples(cases: Cases) -> None:
    """A case for each file with the expected output for a sample: the reference prints it."""
    for pattern, words in PRINTED:
        for file in sorted(glob.glob(f"{TOP}/{pattern}")):
            name = file.rpartition(".")[0]
            level, _, number = name.rpartition(".")
            given = [it.format(name, level, number) for it in words.split()]
            printed = run([f"{TOP}/reference/sokoaudit", *given]).rpartition("status")[0]
            cases.same(f"the reference: {file}", read(file), printed)


def statuses(cases: Cases) -> None:
    """A case each: a comparison of nothing, and one that an interrupt ends, aren't equal ones."""
    def interrupted(comparison: Comparison, *_: object, **__: object) -> None:
        comparison.counts["one"] += 1
        raise KeyboardInterrupt

    words = ["--seed", "1", "--cases", "0", f"{TOP}/reference/sokoaudit"]
    cases.holds("a comparison of nothing", fuzz.main(words) == 2)
    said = io.StringIO()
    with unittest.mock.patch.object(Comparison, "of", interrupted):
        words[3] = "1"
        with contextlib.redirect_stdout(said):
            cases.holds("an interrupted comparison", fuzz.main(words) == 2)
    last = r"seed 1: 1 results compared in \d+ s, \d+ s of processor time: 1 one"
    lines = said.getvalue().splitlines()
    cases.holds("its last line", re.fullmatch(last, lines[-1]), *lines)


def random_cases(cases: Cases, *words: str) -> None:
    """A case each: the program and the reference agree on random cases of a fixed seed, and of one
    that is new each day."""
    for seed, count in ((1, 3000), (daily_seed(), 600)):
        given = ["--seed", str(seed), "--cases", str(count), "--keep", f"{TOP}/out/fuzz", *words]
        cases.holds(f"the program and the reference agree on the seed {seed}",
                    fuzz.main(given) == 0)


if __name__ == "__main__":
    parts = {it.__name__: it for it in (samples, hindered, statuses)}
    named = chosen(arguments("reference.parts [FUNCTION..]"), [*parts])
    both, _room = Cases("reference"), enter_folder()
    for name in named:
        parts[name](both)
    both.finish()
