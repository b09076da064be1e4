"""Compares public calls over both types of sets: bits, which the program uses, and lists, which are
plain. What calls on a board, a solution or a list print is also compared with the reference, and so
is what calls print while a device fails."""
from typing import Set, Tuple

from tests.calls.devices import calls_on_devices
from tests.calls.expected import called, levels_after_letters, wide_levels
from tests.calls.naming import CALLED, calls_in, words
from tests.drawing import answered, listed
from tests.runner import Cases, encode, run_apart
from tests.tables.rows import rows, text

SINGLE_BOXES = "{70 #}/#@{66  }.#/#{57  }${10  }#/{70 #}"


def printed(program: str, *given: str) -> str:
    """What the program of the crate `calls` prints."""
    return run_apart([program, *given])[0]


def inputs() -> Tuple[Tuple[str, str, str], ...]:
    """The arguments of the calls: a name, the levels and the answers."""
    singles = [listed(f"{x},3 @ {seeds}" for x in range(2, 70) if x != gap)
               for gap in (0, 63, 64) for seeds in ("*", "2,2")]
    levels = [*wide_levels(), *((it["name"], it["levels"]) for table in ("made", "maps")
                                for it in rows(table) if "levels" in it)]
    return (*CALLED, *(("single boxes", SINGLE_BOXES, it) for it in singles),
            *((name, level, "") for name, level in levels))


def of_both_types(cases: Cases, program: str) -> None:
    """Each call prints the same over lists and bits, and what the reference prints if that has the
    call. Both coverages cover a start exactly if 'check' doesn't miss it."""
    compared: Set[str] = set()
    for name, *texts in inputs():
        said = {}
        for call in calls_in("layers"):
            said[call], by_lists = (printed(program, *words(it, call, *texts))
                                    for it in ("bits", "list"))
            cases.same(f"{call}, {name}: bits and lists", by_lists, said[call])
        cases.same(f"{name}: scan and index", said["scan"], said["index"])
        if said["index"].startswith("covers"):
            is_covered = said["index"].startswith("covers true")
            misses = said["check"].startswith("Err(Start)")
            cases.holds(f"{name}: the start", is_covered != misses, said["index"])
        given = [encode(it) for it in words("", "", *texts)[2:]]
        for call, wanted in called(*given).items() if all(it.isascii() for it in given) else ():
            found = said[call].partition("borrowed ")[0]
            cases.same(f"{call}, {name}: the reference", wanted, found)
            compared.add(call)
    cases.holds("the calls that the reference has", len(compared) == 18, *compared)


def after_letters(cases: Cases, program: str) -> None:
    """A level after a line of letters, at each offset in the blocks by which a text is searched."""
    for level in levels_after_letters():
        wanted = called(encode(level), b"")["read_board"]
        found = printed(program, "bits", "read_board", level, "").partition("borrowed ")[0]
        cases.same(f"{level}: the reference", wanted, found)


def writing(cases: Cases, program: str) -> None:
    """Lines of 70 letters, and devices that fail."""
    for count, lines in ((70, "r" * 70), (71, "r" * 70 + "/r")):
        found = printed(program, *words("bits", "write", "", answered("solution", "r" * count)))
        wanted = f"Ok(())\n{text(answered('solution', lines))}\nstatus 0\n"
        cases.same(f"write {count} letters", wanted, found)
    for *given, wanted in calls_on_devices():
        cases.same(f"{given[0]}, {given[1]}: the reference", wanted, printed(program, *given))
