"""A collection as a table for spreadsheets, in CSV: a row for each level."""
import csv
import io
from typing import Any, Dict, List, Sequence

from . import forms, messages, report
from .levels import Level

COLUMNS = ("number", "title", "author", "status", "moves", "pushes", "boxes", "width", "height",
           "board", "file", "line", "reason")


def text(listed: Sequence[Level], lines: Sequence[report.Line], name: str,
         sources: Dict[int, Dict[str, Any]], mistakes: Dict[int, str]) -> bytes:
    """Returns the table of levels and their report lines in UTF-8. `sources` has the file and the
    line from which a level comes, by its number; by default that is its line in the file of this
    name. `mistakes` has the mistakes in answers by the numbers of their levels."""
    made = io.StringIO()
    writer = csv.writer(made, lineterminator="\n")
    writer.writerow(COLUMNS)
    for level, said in zip(listed, lines):
        source = sources.get(level.number, {"file": name, "line": level.line})
        why = messages.reason(level, said, mistakes.get(level.number, ""))
        writer.writerow(map(plain, _cells(level, said, source, why)))
    return made.getvalue().encode()


def plain(cell: Any) -> Any:
    """Returns a cell that doesn't begin like a formula, which a spreadsheet would run."""
    return "'" + cell if isinstance(cell, str) and cell[:1] in ("=", "+", "-", "@") else cell


def is_begun(data: bytes) -> bool:
    return data.startswith(",".join(COLUMNS).encode() + b"\n")


def _cells(level: Level, said: report.Line, source: Dict[str, Any], why: str) -> List[Any]:
    drawn = b"".join(level.rows)
    counts = said.counts[:2] or ("", "")
    # the words of a refusal and their sentence
    words = " ".join(said.words) + ": " if said.status == "refused" else ""
    return [level.number, level.title, level.author, said.status, *counts,
            drawn.count(b"$") + drawn.count(b"*"), max(map(len, level.rows)), len(level.rows),
            forms.form_of(level).digest, source["file"], source["line"],
            words + why]
