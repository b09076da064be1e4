"""Prints one web page of a collection, its answers and the report of their audit.

The page needs no network and no other file. It draws what the report says and decides nothing: what
counts is the report.

If the report isn't of these levels and answers, or is cut, the page says so in a bar at its top,
and the status is 1."""
import argparse
import base64
import hashlib
import json
import pkgutil
import re
import sys
from typing import Any, Dict, List, Optional, Sequence, Tuple

from .. import answers, levels, messages, mistakes, report, texts
from ..board import Board, board_of

_MARK = re.compile(r"@([A-Za-z.]+)@")
# how many rows and characters of a row are drawn; no legal level has more
_MOST_SIDE = 255
# the file and the line of a level, and what was left out of it
Source = Dict[str, Any]


def arguments(parser: argparse.ArgumentParser) -> None:
    parser.add_argument("levels", metavar="LEVELS", help="the levels file of the audit")
    parser.add_argument("answers", metavar="ANSWERS", help="the answers file of the audit")
    parser.add_argument("report", metavar="REPORT", help="the report of the audit")
    parser.epilog = "One of the files may be -, standard input."


def run(options: argparse.Namespace) -> int:
    """Prints the page, and returns 1 if the report isn't of the levels and answers."""
    if sys.stdout.isatty():
        raise texts.Stop("the page is for a browser, not for a terminal: add -o page.html")
    names = [options.levels, options.answers, options.report]
    files = [texts.read(name) for name in names]
    made, fault = written(files, [texts.shown(name) for name in names])
    sys.stdout.buffer.write(made)
    if fault:
        print(f"page: the report isn't of these levels and answers: {fault}", file=sys.stderr)
    return int(bool(fault))


def written(files: Sequence[bytes], names: List[str], above: str = "",
            sources: Optional[Dict[int, Source]] = None) -> Tuple[bytes, Optional[str]]:
    """Returns the page of levels, answers and report with some HTML above it, and why the report
    is of others, or None. `sources` has where the levels come from, by their numbers."""
    found = levels.read_within(files[0], names[0])
    read = report.read(files[2])
    records: Dict[int, answers.Record] = {}
    mistaken: Dict[int, str] = {}
    try:
        records = {record.level: record for record in answers.read(files[1], len(found)).records}
        fault = difference(found, records, read)
        mistaken = {} if fault else mistakes.of_reports(found, records.values(), read.lines)
    except answers.Fault as wrong:
        fault = f"answers line {wrong.line} {wrong.why}"
    # Letters and rows have one character for each byte.
    data = {"names": names, "fault": fault or "",
            "levels": [{"number": level.number, "line": level.line, "title": level.title,
                        "rows": [row[:_MOST_SIDE].decode("latin-1")
                                 for row in level.rows[:_MOST_SIDE]]} for level in found],
            "records": {number: {"kind": record.kind, "body": [
                [at, line.decode("latin-1")] for at, line in record.body]}
                        for number, record in records.items()},
            "verdicts": {line.level: {"status": line.status, "words": line.words, "line": line.text,
                                      **({"mistake": mistaken[line.level]}
                                         if line.level in mistaken else {})}
                         for line in read.lines},
            "sources": sources or {}}
    return _page_of(data, above), fault


# ---- does the report belong to the levels and answers?

def difference(found: Sequence[levels.Level], records: Dict[int, answers.Record],
               read: report.Report) -> Optional[str]:
    """Returns why a report isn't of these levels and answers, or None."""
    if fault := read.fault(len(found)):
        return fault
    for level, line in zip(found, read.lines):
        if not is_of(board_of(level), records.get(level.number), line):
            return f"its line '{line.text}' isn't what this level and its answer give"
    return None


def is_of(board: Board, record: Optional[answers.Record], line: report.Line) -> bool:
    """Returns whether a report line can be the one on a level and its record. Certificates aren't
    checked."""
    said = line.said
    if board.fault or said.startswith("refused board"):
        return said == f"refused board {board.fault}"
    if record is None or line.status == "missing":
        return record is None and said == "missing"
    if record.kind == "solution":
        replay = board.replay(record.letters)
        if replay.fault:
            return said == "refused " + replay.fault
        return said == (f"solved moves {replay.moves} pushes {replay.pushes} "
                        f"changes {replay.changes}")
    if said.startswith("refused line"):
        return any(str(number) == line.words[1] for number, _ in record.body)
    body = [text for _, text in record.body]
    is_zone = len(body) == 1 and body[0].startswith(b"zone ")
    size = f"zone {body[0].count(b',')}" if is_zone else f"patterns {len(body)}"
    return said in ("refused start", "unsolvable " + size)


# ---- the page

def part(name: str) -> str:
    """Returns a part of the page: a file of the viewer."""
    data = pkgutil.get_data("sokotool", f"viewer/{name}")
    assert data is not None
    return data.decode()


def skeleton() -> str:
    """Returns the page with each mark replaced by the part that it names, but without data."""
    return _MARK.sub(lambda mark: part(mark[1]).rstrip("\n") if "." in mark[1] else mark[0],
                     part("page.html")).replace("@WORDS@", words())


def _page_of(data: Dict[str, Any], above: str) -> bytes:
    """Returns the page of some data. It runs no script but those whose checksums its policy has."""
    page = skeleton()
    scripts = re.findall(r"<script(?: id=\"\w+\")?>(.*?)</script>", page + above, re.S)
    sums = [base64.b64encode(hashlib.sha256(it.encode()).digest()).decode() for it in scripts]
    # No text may end the block of the data: '<' is escaped.
    values = {"DATA": json.dumps(data).replace("<", "\\u003c"),
              "POLICY": " ".join(f"'sha256-{it}'" for it in sums)}
    page = _MARK.sub(lambda mark: values.get(mark[1], mark[0]), page)
    return page.replace("<body>\n", "<body>\n" + above, 1).encode("utf-8")


def words() -> str:
    """Returns what each refusal and each error means, and what to do, for the page's script."""
    return json.dumps({**messages.REFUSALS, **messages.ERRORS})
