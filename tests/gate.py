"""tests/run gate [FUNCTION..]: tests how the gate counts and how it runs parts at once, by planted
parts; that it runs each part and each share of one; what tests/bare hands on, and what
packaging/needs installs; and what the benchmark measures. Only the named functions of this file
run. Ends in 'N passed, M failed'."""
import contextlib
import glob
import io
import os
import re
import signal
import unittest.mock
from collections import Counter, defaultdict
from shlex import quote
from typing import Dict, List

from bench import inputs as bench_inputs
from tests import __main__ as every
from tests import mutants
from tests.runner import (TOP, Cases, arguments, call, chosen, decode, enter_folder, read, run,
                          shell, write)
from tests.tools import dealing

# a part as a command of bash, the least number of its cases, and the numbers that the gate counts
PLANTED = (
    ("echo 5 passed, 0 failed", 5, "5 passed, 0 failed"),
    ("echo p: skipped: what: why; echo 2 passed, 0 failed, 3 skipped", 5,
     "2 passed, 0 failed, 3 skipped"),
    ("echo p: skipped: all: why; echo 0 passed, 0 failed, 1 skipped", 5,
     "0 passed, 0 failed, 1 skipped"),
    ("echo 5 passed, 2 failed; exit 1", 5, "5 passed, 2 failed"),
    ("echo 5 passed, 0 failed", 6, "5 passed, 1 failed"),
    ("echo 0 passed, 0 failed", 1, "0 passed, 1 failed"),
    ("echo 2 passed, 0 failed, 3 skipped", 6, "2 passed, 1 failed, 3 skipped"),
    ("echo 5 passed, 0 failed; exit 1", 5, "5 passed, 1 failed"),
    ("echo 5 passed, 0 failed; kill -SEGV $$", 5, "5 passed, 1 failed"),
    ("echo 5 passed, 2 failed", 5, "5 passed, 3 failed"),
    ("echo 5 passed, 0 failed; echo more", 5, "0 passed, 1 failed"),
    ("echo 5 passed, 0 failed", 3, "5 passed, 0 failed"),
    ("echo 6 passed, 0 failed", 3, "6 passed, 1 failed"),
    ("echo p: q: FAILED: it; echo 5 passed, 0 failed", 5, "5 passed, 1 failed"),
    ("echo p: q: FAILED: it; echo 4 passed, 1 failed; exit 1", 5, "4 passed, 1 failed"),
    ("echo '    p: FAILED: it'; echo 5 passed, 0 failed", 5, "5 passed, 0 failed"),
    ("exit 0", 0, "0 passed, 1 failed"),
    ("echo Traceback; exit 1", 0, "0 passed, 1 failed"),
    ("kill -KILL $PPID; exit 0", 0, "0 passed, 1 failed"),
)
# the same of 'python3 -m tests': a part, the commands that it needs, and what its line says
ALONE = (
    ("echo 5 passed, 0 failed", "", "5 0 0 0"),
    ("echo p: skipped: what: why; echo 2 passed, 0 failed, 3 skipped", "", "2 0 3 0 why"),
    ("echo 1; echo p: FAILED: it; echo 5 passed, 2 failed; exit 1", "", "5 2 0 0/p: FAILED: it/"
     "5 passed, 2 failed"),
    ("echo 4 passed, 0 failed; exit 1", "", "4 1 0 0/4 passed, 0 failed"),
    ("echo 3 passed, 1 failed", "", "3 2 0 0/3 passed, 1 failed"),
    ("echo p: q: FAILED: it; echo 1 passed, 0 failed", "", "1 1 0 0/p: q: FAILED: it/"
     "1 passed, 0 failed"),
    ("echo 2 passed, 0 failed; echo more", "", "0 1 0 0/2 passed, 0 failed/more"),
    ("exit 0", "", "0 1 0 0"),
    ('ls "$PYTHONPYCACHEPREFIX$PWD/tools/sokotool/"main.*.pyc && echo 1 passed, 0 failed', "",
     "1 0 0 0"),
    ("touch begun", "bash none-such", "0 0 1 0 there is no command none-such"),
)
# the parts that need the toolchain, the program, or what a browser shows
OF_THE_GATE = {"broken", "calls", "edits", "lacking", "library", "mutants", "native", "packages",
               "page", "reference", "refusals", "speed"}
RUN = f'cd {quote(TOP)} && . tests/counts && part "$@" && finish'
BUSY = "i=0; while [ $i != 200000 ]; do i=$((i + 1)); done; "
# parts in two lanes in bash, each in a line, and the numbers that the gate prints: of a part that
# failed, once more at the end. Where it runs one too early or too late, a part has no numbers
UNTIL = "for it in $(seq 600); do [ ! -e {} ] || break; sleep 0.1; done"
MEETS = f"touch {{}}; {UNTIL}; {UNTIL.format('go')}; echo 1 passed, 0 failed"
LOCKS = "mkdir lock && sleep 0.5 && rmdir lock && echo 1 passed, 0 failed"
AT_ONCE = {
    "parts are printed as they end": (f"""
        begin 6 bash -c '{UNTIL.format("counted")}; echo 5 passed, 1 failed; exit 1'
        begin 2 bash -c 'echo 2 passed, 0 failed'
        while [ ${{#names[@]}} = 2 ]; do count_ended; done
        touch counted
        """, "2 passed, 0 failed" + "/5 passed, 1 failed" * 2 + "/7 passed, 1 failed"),
    "two run at once, and the third waits": (f"""
        begin 1 bash -c '{MEETS.format("one", "two")}'
        begin 1 bash -c '{MEETS.format("two", "one")}'
        (sleep 0.5; touch go) &
        begin 1 bash -c 'echo 1 passed, 0 failed'
        [ ${{#names[@]}} -le 2 ] || echo three
        """, "1 passed, 0 failed/1 passed, 0 failed/1 passed, 0 failed/3 passed, 0 failed"),
    "some take turns": (f"""
        begin 1 turns bash -c '{LOCKS}'
        begin 1 turns bash -c '{LOCKS}'
        """, "1 passed, 0 failed/1 passed, 0 failed/2 passed, 0 failed"),
    "one runs alone": ("""
        begin 1 bash -c 'sleep 0.5; touch end; echo 1 passed, 0 failed'
        part 2 bash -c '[ -e end ] && echo 2 passed, 0 failed'
        """, "1 passed, 0 failed/2 passed, 0 failed/3 passed, 0 failed"),
    "one has no numbers": ("""
        begin 1 bash -c 'exit 0'
        begin 2 bash -c 'echo 2 passed, 0 failed'
        begin 2 bash -c 'echo 2 passed, 0 failed'
        """, "2 passed, 0 failed/2 passed, 0 failed/4 passed, 1 failed"),
}
# what stands for tests/counts and says what the gate begins
STUB = """
log=said failed=0
begin() { shift; [ "$1" != turns ] || shift; echo "$*"; }
part() { begin "$@"; touch said.0.said; }
finish() { :; }
"""
# words that are wrong, and what the script says
WRONG = {
    "tests/run nothing":
        "tests/run: there is no part nothing; HACKING.md names the parts\nstatus 2\n",
    "tests/run --help":
        "tests/run: there is no part --help; HACKING.md names the parts\nstatus 2\n",
    "tests/run page /bin/true 3/2": "there is no share 3/2\nstatus 1\n",
    "tests/run mutants /bin/true 0/4": "there is no share 0/4\nstatus 1\n",
    "bench/run none": "bench/run: there is no program none\nstatus 1\n",
    "bench/run /bin/true none": "bench/run: there is no program none\nstatus 1\n",
    "tests/run mutants /bin/true nothing": "there is no fault nothing\nstatus 1\n",
    "tests/run gate hole": "there is no hole; --names prints what there is\nstatus 1\n",
    "tests/run reference.parts hinderd":
        "there is no hinderd; --names prints what there is\nstatus 1\n",
    "tests/run tables /bin/true zone": "there is no zone; --names prints what there is\nstatus 1\n",
    "tests/run speed /bin/true crsh": "there is no crsh; --names prints what there is\nstatus 1\n",
    "tests/run reference.parts --names": "samples\nhindered\nstatuses\nstatus 0\n",
    "packaging/deb .":
        "packaging/deb: usage: packaging/deb BUILT FOLDER [LIBRARY]\nstatus 2\n",
    "packaging/deb . to lib more":
        "packaging/deb: usage: packaging/deb BUILT FOLDER [LIBRARY]\nstatus 2\n",
    "packaging/dist .":
        "packaging/dist: usage: packaging/dist BUILT FOLDER [LIBRARY]\nstatus 2\n",
    "packaging/dist . to lib more":
        "packaging/dist: usage: packaging/dist BUILT FOLDER [LIBRARY]\nstatus 2\n",
    "packaging/dist none to":
        "packaging/dist: this machine has no file none/sokoaudit, which 'rt run -- --help' in "
        "crates/sokoaudit makes\nstatus 3\n",
    "packaging/library": "packaging/library: usage: packaging/library FOLDER\nstatus 2\n",
    "packaging/page": "packaging/page: usage: packaging/page [--quick] FILE\nstatus 2\n",
    "packaging/native --quick arm64 /bin/true":
        "packaging/native: usage: packaging/native [--quick] windows|arm64 PROGRAM FOLDER\n"
        "status 2\n",
    "packaging/native mac /bin/true to":
        "packaging/native: the machines are windows and arm64\nstatus 2\n",
    "packaging/pictures none": "usage: packaging/pictures FOLDER\nstatus 1\n",
}
# what packaging/needs asks of apt-get, by whether a build server runs it as root, and by what can't
# be had; the commands sh and timeout are there
INSTALL = "-qq install -y --no-install-recommends"
NEEDS = (
    ("", "0", "none", ""),
    ("true", "1000", "none", ""),
    ("true", "0", "none", f"-qq update\n{INSTALL} one two\n"),
    ("true", "0", "one", f"-qq update\n{INSTALL} one two\n{INSTALL} one\n{INSTALL} two\n"),
)
# what a number in the name of a case of the benchmark counts: a column of bench/inputs.table
COLUMNS = {"levels": 1, "board": 2, "solutions": 3, "patterns": 4, "pairs": 4, "letters": 5}
GIVEN = {"HOME": "/a b", "PATH": "/usr/bin:/bin", "TERM": '"', "https_proxy": "$x"}


def counting(cases: Cases) -> None:
    """A case for each planted part, for the sum of two, and for what the table says."""
    for command, least, wanted in PLANTED:
        said = shell(RUN, "bash", str(least), "bash", "-c", command).splitlines()
        cases.same(f"at least {least}: {command}", wanted, said[-2])
        status = int(" 0 failed" not in wanted)
        cases.same(f"the status of: {command}", f"status {status}", said[-1])
    command = f"{BUSY}echo p: skipped: what: why; echo 2 passed, 0 failed, 1 skipped"
    line = shell(RUN, "bash", "2", "bash", "-c", command).splitlines()[-3]
    row = re.fullmatch(r"bash -c i=0; .* 2       0        1 +([\d.]+)  why", line)
    cases.holds("the table says seconds and reasons", row and float(row[1]) > 0.1, line)
    words = "echo", "crates/a/out/b", "crates/c/out/d", "2/3"
    line = shell(RUN, "bash", "0", *words).splitlines()[-3]
    cases.holds("and programs without their folders", line.startswith("echo b d 2/3 "), line)


def at_once(cases: Cases) -> None:
    """A case for each of the runs of several parts, and one for an interrupt."""
    source = f". {quote(TOP)}/tests/counts; lanes=2"
    for name, (lines, wanted) in AT_ONCE.items():
        os.mkdir(name)
        said = shell(f"{source}\n{lines}\nfinish", cwd=name).splitlines()
        printed = [it for it in said if re.fullmatch(r"\d+ passed, \d+ failed|three", it)]
        cases.same(name, wanted, "/".join(printed))
    # an interrupt ends the parts; what is in the background would ignore it
    ends = "begin 1 bash -c 'echo $$ >{0}; exec sleep 61'\n"
    waits = "(until [ -s one ] && [ -s two ]; do sleep 0.1; done; kill -INT $$) &\nawait"
    write("ends", f"{source}\n{ends.format('one')}{ends.format('two')}{waits}")
    ended = shell("bash ends >said 2>&1",  # what goes on keeps no pipe open
                  preexec_fn=lambda: signal.signal(signal.SIGINT, signal.SIG_DFL))
    cases.same("an interrupt", "status 130\n", ended)
    for it in ("one", "two"):
        left = shell(f"for it in {{1..99}}; do kill -0 $(cat {it}) || exit; sleep 0.1; done 2>&-")
        cases.same(f"it ends part {it}", "status 1\n", left)


def whole(cases: Cases) -> None:
    """Cases: the gate runs each part, each share of one, and what is timed; these are all tests
    and planted faults, and no two faults have the same name."""
    for name in (".ci/run", "tests/bare"):
        os.makedirs(os.path.dirname(name), exist_ok=True)
        write(name, read(f"{TOP}/{name}"))
    os.chmod("tests/bare", 0o755)
    write("tests/counts", STUB)
    os.mkdir("packaging")
    os.mkdir("bin")
    for name in ("packaging/sources", "packaging/needs", "packaging/build", "bin/rt"):
        os.symlink("/bin/true", name)
    plain = os.environ["PATH"]
    write("tests/__main__.py", "print('python3 -m tests')\n")
    shell("mkdir plain && ln -sf /usr/bin/* /bin/* plain; rm -f plain/rt")
    cases.same("without the toolchain the gate is 'python3 -m tests'",
               "python3 -m tests\nstatus 0\n", shell("PATH=plain bash .ci/run"))
    os.environ["PATH"] = f"{os.getcwd()}/bin:{plain}"
    usage = "usage: .ci/run; tests/run runs a part\nstatus 2\n"
    cases.same("an option begins no gate", usage, shell("bash .ci/run --help"))
    write("tests/failing.sh", "exit 1")
    cases.same("what counts no failure begins no gate", "status 1\n", shell("bash .ci/run"))
    write("tests/failing.sh", "")
    said = shell("bash .ci/run").splitlines()
    os.environ["PATH"] = plain
    begun = [it.split()[1:] for it in said if it.startswith("tests/run ")]
    heads = (re.match(r'"""tests/run (\w+)', read(it))
             for it in glob.glob(f"{TOP}/tests/*.py") + glob.glob(f"{TOP}/tests/*/__main__.py"))
    parts = {it[1] for it in heads if it}
    cases.same("the gate runs each part", str(sorted(parts)), str(sorted({it[0] for it in begun})))
    cases.same("and no part twice", "[]", str([it for it, n in Counter(said).items() if n > 1]))
    shares: Dict[str, List[str]] = defaultdict(list)
    for part, *words in begun:
        shares[part] += [it for it in words if re.fullmatch(r"\d/\d|timed", it)]
    for part in ("tools", "mutants", "page", "broken"):
        timed = ["timed"] * (part != "broken")
        count = len(shares[part]) - len(timed)
        wanted = [*(f"{it}/{count}" for it in range(1, count + 1)), *timed]
        cases.same(f"and each share of {part}", str(wanted), str(shares[part]))
    found = {f"{module}.{method}" for word in shares["tools"]
             for it in dealing.names_of(dealing.tests_of([word]))
             for *_, module, _, method in [it.split(".")]}
    wanted = [f"{os.path.basename(it)[:-3]}.{method}" for it in glob.glob(f"{TOP}/tests/tools/*.py")
              for method in re.findall(r"(?m)^    def (test_\w+)", read(it))]
    cases.same("the shares have all tests", str(sorted({*wanted})), str(sorted(found)))
    faults = [it.name for word in shares["mutants"] for it in mutants.picked([word])]
    cases.same("the shares have all faults", str(sorted(it.name for it in mutants.every_fault())),
               str(sorted(faults)))
    twice = [name for name, count in Counter(faults).items() if count > 1]
    cases.same("each fault has a name of its own", "[]", str(twice))


def without_toolchain(cases: Cases) -> None:
    """A case for each planted part of 'python3 -m tests', for its sum, for the words of a part, and
    for which parts these are."""
    parts = {part: needs for part, needs, _ in ALONE}
    printed = io.StringIO()
    with unittest.mock.patch.object(every, "PARTS", parts), \
            unittest.mock.patch.object(every, "command_of", lambda it: ["bash", "-c", it]), \
            contextlib.redirect_stdout(printed), contextlib.suppress(SystemExit):
        every.run_parts()
    said = [" ".join(it.split()) for it in printed.getvalue().splitlines()]
    for part, _, wanted in ALONE:
        first, *more = wanted.split("/")
        line = f"{part.split()[0]} {first}"
        cases.holds(f"python3 -m tests: {part}", line in said and
                    said[said.index(line) + 1:][:len(more)] == more, *said)
    cases.same("the sum", "21 passed, 8 failed, 4 skipped", said[-1])
    cases.holds("a part that lacks a command isn't begun", not os.path.exists("begun"))
    words = every.command_of("tables reference/sokoaudit made")
    cases.same("the command of a part", str(["tests.tables", f"{TOP}/reference/sokoaudit", "made"]),
               str(words[-3:]))
    gate = {*re.findall(r"(?m)^[^#\n]*\d .*tests/run (\w+)", read(f"{TOP}/.ci/run"))} - OF_THE_GATE
    named = {it.split()[0] for it in every.PARTS}
    cases.same("it has each part that needs no program",
               str(sorted({*gate, "failing", "reference.parts"})), str(sorted(named)))
    script = every.command_of("failing")
    cases.same("a part that is a script", str(["bash", f"{TOP}/tests/failing.sh"]),
               str(script[-2:]))


def variables(cases: Cases) -> None:
    """A case: of these variables those that a user's machine has are handed on."""
    more = {"PYTHONUNBUFFERED": "1", "LC_ALL": "C", "SOKOAUDIT": "x"}
    said = call([f"{TOP}/tests/bare", "env"], env={**GIVEN, **more}).output
    found = dict(line.split("=", 1) for line in decode(said).splitlines())
    cases.same("tests/bare", str(sorted(GIVEN.items())), str(sorted(found.items())))


def needs(cases: Cases) -> None:
    """A case for each time that packaging/needs may install packages."""
    os.mkdir("few")
    for name in ("sh", "timeout"):
        os.symlink(f"/usr/bin/{name}", f"few/{name}")
    for name, line in (("id", "echo $USER"), ("apt-get", 'echo "$@" >>asked; case "$@" in *'
                                                         "$LACKS*) exit 1 ;; esac")):
        write(f"few/{name}", f"#!/bin/sh\n{line}\n")
        os.chmod(f"few/{name}", 0o755)
    words = [f"{TOP}/packaging/needs", "timeout=coreutils", "none=one", "/none/none=two", "sh=dash"]
    for server, user, lacks, wanted in NEEDS:
        write("asked", "")
        said = run(words, env={"PATH": os.path.abspath("few"), "CI": server, "USER": user,
                               "LACKS": lacks})
        cases.same(f"asked, CI={server} USER={user} LACKS={lacks}", wanted, read("asked"))
        cannot = f"packaging/needs: cannot install {lacks}\n" if lacks in wanted else ""
        cases.same("and said", f"{cannot}status 0\n", said)


def inputs(cases: Cases) -> None:
    """A case for what the benchmark's cases have, and one for each number in their names. A list
    may have a line more, which covers the others."""
    made = bench_inputs.table()
    cases.same("bench/inputs.table", read(f"{TOP}/bench/inputs.table"), made)
    for line in made.splitlines()[2:]:
        name, *columns = line.split(" | ")
        for number, noun in re.findall(rf"(?<!of )\b([\d,]+) ({'|'.join(COLUMNS)})\b", name):
            more = int(columns[COLUMNS[noun] - 1]) - int(number.replace(",", ""))
            cases.holds(f"{name}: {number} {noun}", more in (0, int(noun == "patterns")), line)
        for board in re.findall(r"(?:board|levels?) of (\d+ by \d+)", name):
            cases.same(f"{name}: {board}", board, columns[COLUMNS["board"] - 1])


def wrong_words(cases: Cases) -> None:
    """A case for each line of words that are wrong."""
    for words, wanted in WRONG.items():
        script, *given = words.split()
        cases.same(words, wanted, run([f"{TOP}/{script}", *given]))


if __name__ == "__main__":
    every_part = (counting, at_once, whole, without_toolchain, variables, needs, inputs,
                  wrong_words)
    parts = {it.__name__: it for it in every_part}
    named = chosen(arguments("gate [FUNCTION..]"), [*parts])
    cases, _folder = Cases("gate"), enter_folder()
    for name in named:
        parts[name](cases)
    cases.finish()
