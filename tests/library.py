"""tests/run library PROGRAM [LIBRARY]: builds the examples with the library for C in the folder
LIBRARY, which is made first if none is named, and runs them; compares the library's results with
what the program prints, byte for byte; and refuses each allocation of its calls in turn. Ends in 'N
passed, M failed'."""
import glob
import os
import re

from tests.inputs import WHOLE_ANSWERS, WHOLE_LEVELS
from tests.reference import fuzz
from tests.refusals import refusing
from tests.runner import (TOP, Cases, arguments, enter_folder, read, run, run_apart, run_in_turn,
                          write)
from tests.tables.rows import text
from tests.verdicts import constants, module_calls, verdicts

CC = "${CC:-cc} -std=c99 -Wall -Wextra -Werror -O2 -I out/lib"
LINE = "level 1 unsolvable patterns 3\n"
REPORT = f"{LINE}total 1 solved 0 unsolvable 1 refused 0 missing 0\n"
CALLED = "malloc|realloc|free|mem(cpy|move|set|cmp)|bcmp"
# What commands on the library print. The library calls only functions for memory, and has no
# variable ('nothing' is what a failed allocation points to, and is never written)
PRINTED = {
    f"{CC} printing.c -o printing && ./printing": "pattern 3,2 5,2 @ 2,2\n",
    f"{CC} judging.c out/lib/libsokoaudit.a -o judging && ./judging": "line 2 of the list\n",
    "PYTHONPATH=out/lib python3 judging.py": "no play solves it\nunsolvable patterns 3\n",
    f"nm -u out/lib/libsokoaudit.a | sed -E '/^$|:$| U ({CALLED})$/d'": "",
    "nm out/lib/libsokoaudit.a | awk '$2 ~ /^[BbCDdSs]$/ && $3 != \"nothing\"'": "",
    "nm -D --defined-only out/lib/libsokoaudit.so | cut -d ' ' -f 3 | xargs":
        "sokoaudit_audit sokoaudit_dead sokoaudit_fault_text sokoaudit_judge sokoaudit_levels "
        "sokoaudit_lines sokoaudit_make sokoaudit_records\n",
    "readelf -n out/lib/libsokoaudit.so judging | grep -c 'x86 ISA needed:.* x86-64-v2'": "2\n",
    f"{CC} examples/through.c out/lib/libsokoaudit.a -o through": "",
    **{f"{CC} -std={std} -fsyntax-only examples/check.c examples/search.c": ""
       for std in ("c99", "c11", "c17")},
}
FOUND = (f"{CC} examples/check.c $(PKG_CONFIG_PATH=out/lib pkg-config --cflags --libs sokoaudit) "
         "-o found && LD_LIBRARY_PATH=out/lib ./found")
MAIN = """int main(void) {
    struct position p = {2, {12, 14}, 11};
    print_position(stdout, &p, 10);
    return 0;
}
"""


def take_lines() -> None:
    """Makes programs of the C and Python in docs/solvers.md: the lines that print a certificate,
    and the lines that check one."""
    solvers = read(f"{TOP}/docs/solvers.md")
    printing, judging = re.findall(r"(?ms)^```c\n(.*?)^```", solvers)
    position = "#include <stdio.h>\nstruct position { int boxes, box[2], player; };\nstatic "
    write("printing.c", f"{position}{printing}{MAIN}")
    source = read("examples/check.c")
    begin = re.findall(r"(?m)^#include.*\n", source)
    begin += re.findall(r"(?ms)^int main.*?^    const char .level.*?\n", source)
    begin += ['const char *list = "pattern 2,3 @ *\\npattern 3,3 @ *\\n";\n']
    write("judging.c", f"{''.join(begin)}{judging}return 0; }}\n")
    (judging,) = re.findall(r"(?ms)^```python\n(.*?)^```", solvers)
    write("judging.py", 'level = "#####\\n#@ .#\\n# $ #\\n#####\\n"\n' + judging)


def compare(cases: Cases, program: str) -> None:
    """Compares the program and the library on the same arguments."""
    write("levels", text(WHOLE_LEVELS))
    write("answers", text(WHOLE_ANSWERS))
    write("empty", "")
    write("header", "sokoban-answers 1\n")
    write("long", " " * 33554433)
    write("many", "#\n\n" * 10001)
    samples = [f"audit {it[:-8]}.xsb {it}" for it in sorted(glob.glob("samples/*.answers"))]
    for words in ("audit empty empty", "make empty", "audit long header", "audit empty long",
                  "make long", "audit many header", *samples):
        cases.prints(f"through {words}", run([program, *words.split()]), f"./through {words}")
    # a buffer that is too small gets the beginning, and nothing is written after it
    report = run([program, "audit", "levels", "answers"]).rpartition("status")[0]
    for room in (0, 1, 40, 41, 42, len(report) - 1, len(report)):
        rest = "" if room == len(report) else f"\n{len(report)} bytes\n"
        wanted = f"{report[:room]}{rest}status 0\n"
        cases.prints(f"a room of {room} bytes", wanted,
                     f"ROOM={room} ./through audit levels answers")
    # random cases, in one process
    random = ["--seed", "2", "--cases", "1000", "--keep", f"{TOP}/out/fuzz",
              "--library", os.path.abspath("out/lib/libsokoaudit.so"), program]
    cases.holds("the library on random cases", fuzz.main(random) == 0)


program, *library = arguments("library PROGRAM [LIBRARY]")
cases, _room = Cases("library"), enter_folder()
cases.demands("cc", "make")
if not library:
    said = run_in_turn([f"{TOP}/packaging/module", "--quick"])
    if said.endswith("status 3\n"):
        cases.skip("the library for C", said.splitlines()[0], 22800)
        cases.finish()
os.mkdir("out")
if library:
    os.symlink(library[0], "out/lib")
elif not cases.succeeds("packaging/library", f"{TOP}/packaging/library", "out/lib"):
    cases.finish()
for name in ("examples", "samples"):
    os.symlink(f"{TOP}/{name}", name)
sources = "".join(map(read, sorted(glob.glob("examples/*.[cp]*"))))
heads = re.findall(r"(?m)^ +((?:cc|PYTHONPATH\S*) .*?)(?:\*/)?$", sources)
cases.holds("the commands at the heads of the examples are found", len(heads) == 4, *heads)
take_lines()
FOUND_IT = "unsolvable, by a list of 3 positions\n"
printed_by_heads = LINE, REPORT, FOUND_IT, read("samples/first.report")
for command, printed in (*zip(heads, printed_by_heads), *PRINTED.items()):
    cases.prints(command, f"{printed}status 0\n", command)
if cases.needs("pkg-config", "finding the library"):
    cases.prints("check.c with what pkg-config finds", f"{LINE}status 0\n", FOUND)
if cases.needs("qemu-x86_64", "an old processor"):
    old = "qemu-x86_64 -cpu core2duo ./judging 2>&1"
    cases.prints(old, "./judging: CPU ISA level is lower than required\nstatus 127\n", old)
if cases.needs("c++", "the examples as C++"):
    cases.prints("the examples as C++", "status 0\n",
                 "c++ -Wall -Wextra -pedantic -Werror -fsyntax-only -I out/lib "
                 "-x c++ examples/check.c examples/search.c")
if cases.needs("valgrind", "leaks"):
    leaks = "valgrind -q --leak-check=full --error-exitcode=9"
    cases.prints("no leak", f"{FOUND_IT}status 0\n", f"{leaks} ./search")
    cases.prints("no leak over two texts", f"{read('samples/first.report')}status 0\n",
                 f"{leaks} ./through audit samples/first.xsb samples/first.answers 2>&1")
constants(cases, program)
compare(cases, program)
verdicts(cases)
module_calls(cases)
refuse = refusing.library(cases)
refusing.of_program(cases, os.path.abspath("through"), refuse, program)
judging = refusing.Refusals(cases, os.path.abspath("search"), refuse,
                            lambda came, _: "memory" if came == ("status 2\n", "") else "")
judging.row("search.c", [], run_apart(["./search"]))
judging.say_endings()
cases.finish()
