"""tests/run page PROGRAM [SHARE|timed|PAGE [PART..]]: gives sokoaudit.html, or PAGE, to a browser,
and compares what it says with what PROGRAM prints. Only the named parts run, or a share such as
2/3; the first share also makes the page anew. No share has what measures time: 'timed' runs that.
Ends in 'N passed, M failed'."""
import os
import random
import re
from functools import partial
from typing import Callable, Dict, List, Sequence

from bench.measured import Size, cases as bench_cases
from tests.page import answering, drawn, forms, hostile, late, sharing, using
from tests.page.comparing import HEADER, Comparison
from tests.page.driving import Tab
from tests.reference.fuzz import batches
from tests.runner import (NAMES, TOP, Cases, arguments, chosen, daily_seed, encode, enter_folder,
                          is_share, read, run, run_in_turn, share_of, write)
from tests.tables.rows import rows, text
from tests.tools import browser

SAMPLES = ("first", "every", "deadlocks", "exports")
TABLES = ("bytes", "certificates", "collections", "limits", "solutions", "words", "zones")
RANDOM, SEED = 2000, 7
NUMBER = 2000  # about as many cases has a share of two
KEPT = f"{TOP}/sokoaudit.html"
MADE_OF = re.compile(r"Made of the sources <code>(\w+)</code> by <code>(.*?)</code>")


def sample(name: str, folder: str = "samples") -> bytes:
    """The bytes of a sample."""
    return encode(read(f"{TOP}/{folder}/{name}"))


def samples(check: Comparison) -> None:
    """The samples, with made answers and maps."""
    for name in SAMPLES:
        check.audit(name, sample(f"{name}.xsb"), sample(f"{name}.answers"))
        check.stack(name)
        for number in range(1, 7):
            check.dead(name, number)
    check.audit("faulty", sample("faulty.xsb", "tests/samples"),
                sample("faulty.answers", "tests/samples"))
    for name in ("first", "deadlocks", "zones"):
        check.made(name, sample(f"{name}.xsb"))


def tables(check: Comparison) -> None:
    """The rows of the tables that are an audit of two files. None is drawn."""
    check.draws(False)
    for table in TABLES:
        for row in rows(table):
            if row["words"] == "audit levels answers" and "levels" in row and "answers" in row:
                levels, answers = encode(text(row["levels"])), encode(text(row["answers"]))
                # the page leaves out a mark before the header
                if answers[3:].startswith(b"sokoban-answers") and answers[:1] == b"\xef":
                    answers = answers[3:]
                # an empty field is no text; the page then reads the solutions below the levels
                if answers:
                    check.audit(f"{table}: {row['name']}", levels, answers, is_shown=False)


def random_cases(check: Comparison) -> None:
    """Random texts, whole and torn, of a fixed seed and of a new one each day. The torn ones aren't
    drawn."""
    for seed, count in ((SEED, RANDOM), (daily_seed(), 100)):
        cases.say(f"random texts of the seed {seed}")
        for i, (_, (levels, answers), form) in enumerate(batches(random.Random(seed), count)):
            if answers.startswith(b"sokoban-answers"):
                check.draws(form == "whole")
                check.audit(f"random {form} {i} of the seed {seed}", levels, answers)


def bench(check: Comparison) -> None:
    """The cases of the benchmark, at about a hundredth of their size."""
    os.symlink(check.program, "sokoaudit")
    for case in bench_cases(Size(is_small=True)):
        for file, line in (("levels", case.levels), ("answers", case.answers)):
            if line is not None:
                write(file, text(line))
        words = case.command.split()
        if words[1] == "audit":
            check.audit(case.name, encode(read("levels")), encode(read("answers")), is_shown=False)
            check.stack(case.name)
        elif words[1] == "make":
            check.made(case.name, encode(read("levels")))
            write("out", check.tab.saved("answers").decode("latin-1"))


def limits(check: Comparison) -> None:
    """The largest texts."""
    level = b"#####\n#@$.#\n#####\n"
    most = level + b"\n" * (33554432 - len(level))
    check.audit("33,554,432 bytes", most, HEADER + b"level 1\nsolution\nR\nend\n", is_shown=False)
    check.audit("33,554,433 bytes", most + b"\n", HEADER, is_shown=False)
    check.audit("10,000 levels", (level + b"\n") * 10000, HEADER + b"".join(
        b"level %d\nsolution\nR\nend\n" % i for i in range(1, 10001)))
    check.audit("10,001 levels", b"#\n\n" * 10001, HEADER, is_shown=False)


def made_anew() -> List[str]:
    """Compares the page in the repository with the one that its sources make here. Returns that one
    if it has to be tested too: a toolchain of another logic than the page names may make another.
    """
    sources, logic = MADE_OF.findall(read(KEPT))[0]
    make = f"{TOP}/packaging/page"
    cases.same("the sources that the page names", f"{sources}\nstatus 0\n",
               run([make, "--sources"]))
    if not cases.needs("rt", "the page made anew"):
        return []
    said = run_in_turn([make, "--quick", "made.html"])
    if said.endswith("status 3\n"):
        cases.skip("the page made anew", said.splitlines()[0])
    elif cases.holds("the page is made anew", said == "status 0\n", said):
        if f" {logic}\n" not in run(["rt", "version"]):
            return [os.path.abspath("made.html")]
        cases.holds("the page made anew has the same bytes", read(KEPT) == read("made.html"))
    return []


COMPARED: Sequence[Callable[[Comparison], None]] = (
    samples, hostile.texts, tables, random_cases, bench, limits)
# by whether their tab is painted: it is where something waits for a frame, or a user acts
USED: Dict[bool, Sequence[Callable[[Comparison, Tab], None]]] = {
    False: (*forms.UNPAINTED, *using.UNPAINTED, *late.UNPAINTED),
    True: (*using.PARTS, *late.PARTS, *drawn.PARTS, *sharing.PARTS, *answering.PARTS)}
TIMED = [part.__name__ for part in answering.PARTS]
UNTIMED = [it for it in (part.__name__ for part in (*COMPARED, *USED[False], *USED[True]))
           if it not in TIMED]


def test(page: str, wanted: Sequence[str]) -> None:
    """Tests a page in the browser: the parts with these names, first those whose tab isn't painted,
    as all that is compared."""
    for is_painted, used in USED.items():
        tab = Tab(is_painted)
        tab.page = page
        check = Comparison(cases, tab, program)
        parts: Dict[str, Callable[[], None]] = {
            **{part.__name__: partial(part, check) for part in COMPARED if not is_painted},
            **{part.__name__: partial(part, check, tab) for part in used}}
        for name in (it for it in parts if it in wanted):
            tab.start()
            tab.size(1280, 900)
            tab.fresh()
            try:
                parts[name]()
            except (TimeoutError, ValueError) as error:
                cases.holds(f"{name} runs to its end", False, str(error)[:2000])
            check.same(f"{name}: no error of a script", [], tab.errors)
        tab.close()


program, *named = arguments("page PROGRAM [SHARE|timed|PAGE [PART..]]")
share = named.pop(0) if is_share(named) or named == ["timed"] else ""
cases, _room = Cases("page"), enter_folder()
given = [os.path.abspath(it) for it in named[:1] if it != NAMES]
if not given and not cases.holds("sokoaudit.html is there", os.path.exists(KEPT)):
    cases.finish()
wanted = TIMED if share == "timed" else share_of(UNTIMED, share) if share else chosen(
    named[len(given):], [*UNTIMED, *TIMED])
if not browser.PROGRAM:
    cases.skip("sokoaudit.html in a browser", "there is no chromium", NUMBER)
else:
    test((given or [KEPT])[0], wanted)
for it in made_anew() if not given and share[:2] in ("", "1/") else ():
    if browser.PROGRAM:
        test(it, [*UNTIMED, *TIMED])
cases.finish()
