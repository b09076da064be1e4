"""tests/run conformance PROGRAM [KIND..]: makes the conformance set, and runs PROGRAM on it, or on
the cases of some kinds. Without kinds, the module of sokoaudit.html runs on some too, each rule has
a pair of cases, and the runner finds what is wrong in other programs. Ends in 'N passed, M failed'.
"""
import re
from typing import Dict, Set

from tests.runner import TOP, Cases, arguments, chosen, enter_folder, run
from tests.tables.rows import rows

NUMBERS = re.compile(r"(?m)^(\d+) passed, (\d+) failed$")
KINDS = ["dead", "levels", "make", "patterns", "solutions", "text", "zones"]
# those with few cases
FEW = ["--kinds", "dead,make,text,zones"]
# commands of bash that are wrong in place of PROGRAM, and the kinds in which nothing is found
WRONG = {
    "exit 0": "",
    '"$0" "$@"; exit 2': "text",
    '"$0" "$@" 2>&-': "make zones",
    '"$0" "$@" | sed "s/level 1 /level 01 /"; exit ${PIPESTATUS[0]}': "dead make text",
}


def runs(cases: Cases, name: str, *words: str) -> None:
    """Adds the cases of a run of the set."""
    said = run(["set/run", *(["--first"] if cases.ends_first else []), *words])
    found = NUMBERS.search(said)
    if cases.holds(f"{name} runs to its end", found, *said.splitlines()[-20:]) and found:
        cases.add(int(found[1]), int(found[2]))
    for line in re.findall("(?m)^FAILED: .*", said):
        cases.say(line)


def pairs(cases: Cases) -> None:
    """A case for each rule of tests/tables/rules.table: it is kept by one case and broken by
    another."""
    ends: Dict[str, Set[str]] = {}
    for row in rows("rules"):
        rule, _, end = row["name"].partition(": ")
        if end:
            ends.setdefault(rule, set()).add(end.split(",")[0].split()[0])
    for rule, found in ends.items():
        cases.same(f"a pair of cases: {rule}", "broken kept", " ".join(sorted(found)))


def wrong(cases: Cases, program: str) -> None:
    """A case for each program that is wrong: the set finds it, in the kinds where it is."""
    for words, right in WRONG.items():
        said = run(["set/run", *FEW, "bash", "-c", words, program])
        found = re.findall(r"(?m)^(\w+): \d+ passed, 0 failed$", said)
        cases.same(f"a program that does: {words}", f"{right} status 1",
                   f"{' '.join(found)} {said.splitlines()[-1]}")


def main() -> None:
    """Runs the part."""
    program, *words = arguments("conformance PROGRAM [KIND..]")
    cases, kinds = Cases("conformance"), chosen(words, KINDS)
    with enter_folder():
        cases.succeeds("packaging/conformance", f"{TOP}/packaging/conformance", "set")
        runs(cases, "PROGRAM", "--kinds", ",".join(kinds), program)
        if not words:
            pairs(cases)
            wrong(cases, program)
            said = run(["set/run", "--kinds", "zones,none", program])
            cases.same("a kind that isn't there", "run: there is no kind none\nstatus 1\n", said)
            if cases.needs("node", "the module of the page"):
                runs(cases, "the module", *FEW, "node", f"{TOP}/tests/page/module.js",
                     f"{TOP}/sokoaudit.html")
    cases.finish()


if __name__ == "__main__":
    main()
