"""tests/run edits LOG: reads what 'rt ci' printed of the must-fail edits. Each file in
crates/*/must-fail has to be refused for what a contract says. 'rt ci' passes over edits that can't
be applied or compiled, and counts as refused those that only take away a name of a proof, or that
only meet a limit of the prover. These show nothing of a contract, so each is a failure here. Ends
in 'N passed, M failed'."""
import glob
import os
import re
import sys
from typing import List, Sequence, Tuple

from tests.runner import TOP, Cases, read

# a message that names a record goes on in a second line, where rt doesn't see that a name is gone
WEAK = re.compile(r"^rt: .*: (BAD EDIT: |refused, as it must be( \(only |: .* record `Rattle))")
# what rt prints, shortened, and whether the edit is weak
REFUSED = "must-fail play/stops.edit: refused, as it must be"
PLANTED = (
    ("must-fail play/stops.edit: BAD EDIT: its old text is not in src/state.rt", True),
    ("crates/play/must-fail/a/b.edit: BAD EDIT: an edit stands right in must-fail/", True),
    (f"{REFUSED} (only because a proof file names what the edit took away, ..): ..", True),
    (f"{REFUSED} (only by a limit of the prover, which gave no verdict, ..): ..", True),
    (f"{REFUSED}: ./proofs/run/Answers.antt:9:3: error: `ends`: record `Rattle.play.Run", True),
    (f"{REFUSED}: ./proofs/run/Answers.antt:9:3: error: `search`: no proof of `goal.ends", False),
    (f"{REFUSED}: note: src/run.rt:9:1: it is not proved that what the function ensures", False),
    ("ok; handles allowed: none; must-fail edits: 157 refused, 2 bad; every proof ..", False),
)


def weak(lines: List[str]) -> List[str]:
    """Returns the lines of edits that show nothing of a contract."""
    return [line for line in lines if WEAK.search(line)]


def is_refused(edit: str, lines: List[str]) -> bool:
    """Whether the lines say of an edit, named CRATE/NAME.edit, once, that it was refused."""
    begin = f"rt: must-fail {edit}: "
    said = [line for line in lines if line.startswith(begin)]
    return len(said) == 1 and said[0].startswith(f"{begin}refused, as it must be")


def main() -> None:
    """Runs the part."""
    if len(sys.argv) != 2 or not os.path.isfile(sys.argv[1]):
        sys.exit("usage: tests/run edits LOG; LOG is a file with what 'rt ci' printed")
    cases, (_, name) = Cases("edits"), REFUSED.partition(":")[0].split()
    for line, is_weak in PLANTED:
        cases.holds(line, bool(weak([f"rt: {line}"])) == is_weak)
    said: Sequence[Tuple[List[str], bool]] = (
        ([f"rt: {REFUSED}: .."], True), ([f"rt: {REFUSED}"] * 2, False),
        ([f"rt: must-fail {name}: NOT REFUSED: .."], False), ([], False))
    for lines, wanted in said:
        cases.holds(f"an edit is refused: {lines}", is_refused(name, lines) == wanted)
    lines = read(sys.argv[1]).splitlines()
    for line in weak(lines):
        cases.holds("an edit shows nothing of a contract", False, line)
    for file in sorted(glob.glob(f"{TOP}/crates/*/must-fail/*.edit")):
        _, crate, _, edit = file.rsplit("/", 3)
        cases.holds(f"{crate}/{edit} is refused", is_refused(f"{crate}/{edit}", lines))
    cases.finish()


if __name__ == "__main__":
    main()
