"""The calls that the program of the crate `calls` makes by name, and their arguments."""
import re
from typing import Dict, List

from tests.inputs import AUDITS, LEVELS, WHOLE_ANSWERS
from tests.runner import TOP, read
from tests.tables.rows import text

# the arguments of the calls: a name, the levels and the answers
CALLED = [*((name, level, "") for name, level in LEVELS.items()), *AUDITS,
          ("a whole run", "", WHOLE_ANSWERS)]


def calls_in(module: str) -> Dict[str, bool]:
    """The calls that a module of the crate makes, each with whether it allocates nothing."""
    code = read(f"{TOP}/crates/calls/src/{module}.rt")
    found = re.findall(r'"(\w+)"\)? => (?:return )?(frugal::)?', code)
    return {call: bool(frugal) for call, frugal in found}


def words(sets: str, call: str, levels: str, answers: str) -> List[str]:
    """The words of the program of the crate."""
    return [sets, call, text(levels).rstrip("\n"), text(answers).rstrip("\n")]
