"""Reads tables. The fields of a row are texts, each written in one line."""
import re
from typing import Any, Dict, Iterator, List

from tests.runner import TOP, decode, read

# the words of a run on its own levels and answers, without anything of a shell
PLAIN = r"(audit levels answers|make levels|dead levels [+\d]+)"
GIVEN = {"words": "audit levels answers", "version": 1, "output": "", "faults": "", "status": 0}


def text(line: str) -> str:
    """The text of a line of a table: '/' ends a line, {3 ab} is ababab, and Python's escapes are
    bytes. A '\\' at the end takes away the end of the last line."""
    ended = line.replace("/", "\n") + "\n" if line else ""
    data = ended.encode("latin-1").decode("unicode_escape").encode("latin-1")
    return re.sub(r"\{(\d+) ([^}]*)\}", lambda it: int(it[1]) * it[2], decode(data))


def rows(table: str) -> Iterator[Dict[str, Any]]:
    """The rows of TABLE.table, with the fields by their names. ' | ' separates the fields of a row,
    'name | ..' names the fields of the rows below it, and 'FIELD = ..' adds a field to each of
    them. A line that begins with four blanks continues the one before, and ';' begins a comment. A
    'record' is the record of level 1, and a 'line' its line in the report."""
    given: Dict[str, Any] = dict(GIVEN)
    names: List[str] = []
    for line in read(f"{TOP}/tests/tables/{table}.table").replace("\n    ", "").splitlines():
        fields = line.split(" | ")
        if fields[0] == "name":
            names = fields
        elif len(fields) > 1:
            assert len(fields) <= len(names), line
            yield _spelled({**given, **dict(zip(names, fields))})
        elif line and line[0] != ";":
            field, given[field] = line.split(" = ")


def _spelled(row: Dict[str, Any]) -> Dict[str, Any]:
    """A row with its answers and its output in full."""
    if "record" in row:
        header = f"sokoban-answers {row['version']}"
        row["answers"] = f"{header}/level 1/{row.pop('record')}/end"
    if "line" in row:
        said = row.pop("line")
        kinds = ("solved", "unsolvable", "refused", "missing")
        counts = " ".join(f"{it} {int(said.startswith(it))}" for it in kinds)
        row["output"] = f"level 1 {said}/total 1 {counts}"
        row["status"] = int(said[:7] in ("refused", "missing"))
    return row
