"""Prints 'FILE line N: ..' for each line that an audit reads differently from what you meant.

That is a file without a level, a line that looks like a row but isn't one, a row in a comment, and
a level that doesn't have exactly one player or isn't closed by walls, as when an empty line tore
it.

Of an answers file it prints the first fault, and for each line of a certificate that an audit
refuses by itself the mistake: rows before columns, cells out of reading order, no blank beside @, a
blank beside a comma, and others. A file of levels before it has the boards."""
import argparse
import re
from itertools import islice
from typing import Iterator, List, Sequence, Tuple

from .. import answers, levels, mistakes, output, texts
from ..board import Board
from ..formats import level_rows

MOST_PRINTED = 1000
_OTHER, _ROW, _WALLS = range(3)
# lines with a wall that are no rows, and a line without one between two rows
_STRANGE = re.compile(b"%b|(?<=%b)%b(?=%b)" % tuple(
    bytes([it]) for it in (_WALLS, _ROW, _OTHER, _ROW)))
Warning = Tuple[int, str]


def arguments(parser: argparse.ArgumentParser) -> None:
    parser.add_argument("files", metavar="FILE", nargs="+",
                        help="a levels file, or an answers file after its levels; - is standard "
                             "input")


def run(options: argparse.Namespace) -> int:
    is_any, boards = False, b""
    for name in options.files:
        data = texts.read(name)
        if answers.is_begun(data):
            kinds = [_of_answers(data, boards)]
        else:
            data = boards = texts.unmarked(data)
            kinds = [_of_levels(data), _of_coding(data), _of_lines(texts.lines(data))]
        is_any = _warn_of(name, kinds) or is_any
    return int(is_any)


def _warn_of(name: str, kinds: Sequence[Iterator[Warning]]) -> bool:
    """Prints the warnings about a file, and returns whether there are any."""
    found: List[Warning] = []
    more = 0
    # the first warnings of each kind
    for kind in kinds:
        found += islice(kind, MOST_PRINTED)
        more += sum(1 for _ in kind)
    shown = texts.shown(name)
    said = [f"{shown} line {line}: {why}\n" for line, why in sorted(found)]
    if more:
        said.append(f"{shown}: {more} more warnings\n")
    output.put("".join(said).encode("utf-8", "replace"))
    return bool(found)


def _of_levels(data: bytes) -> Iterator[Warning]:
    listed = levels.read(data, levels.MOST_LEVELS + 1)
    for level in listed[:levels.MOST_LEVELS]:
        if doubt := Board(level).doubt:
            yield level.line, f"level {level.number} {doubt}"
    if len(listed) > levels.MOST_LEVELS:
        yield listed[-1].line, f"more than {levels.MOST_LEVELS} levels"
    if not listed:
        yield data.count(b"\n") + bool(data and not data.endswith(b"\n")), "no level in this file"


def _of_coding(data: bytes) -> Iterator[Warning]:
    if b"\0" in data or data.startswith((b"\xff\xfe", b"\xfe\xff")):
        yield 1, "no text of one byte a character; 'sokotool convert' reads UTF-16"
    elif b"\r" in data.replace(b"\r\n", b"\n"):
        yield 1, "a line that ends with CR alone, which 'sokotool convert' reads"


def _of_answers(data: bytes, boards: bytes) -> Iterator[Warning]:
    """Yields the first fault of an answers file and the mistakes in its certificates. `boards` has
    the levels, or nothing."""
    listed, text = levels.read(boards), texts.in_utf8(data)
    if text != data:
        yield 1, "a byte order mark, which an audit refuses and 'sokotool merge' takes away"
    try:
        found = answers.read_whole(text, len(listed) if boards else None)
    except answers.Fault as fault:
        yield fault.line, answers.advice(text, fault, len(listed))
        return
    for record in found.records:
        if record.kind == "unsolvable":
            level = listed[record.level - 1] if boards else None
            numbers, lines = zip(*record.body) if record.body else ((), ())
            yield from ((numbers[at], why) for at, why in mistakes.of_lines(
                lines, level, found.version).items())


def _kind_of(line: bytes) -> int:
    """Returns the kind of a line: a row to the auditor, another line with a wall, or neither."""
    return _ROW if levels.is_row(line) else _WALLS if b"#" in line else _OTHER


def _of_lines(lines: Sequence[bytes]) -> Iterator[Warning]:
    """Yields the lines that may be meant as rows and are none to the auditor, or the other way
    round."""
    decoded = list(map(texts.cached(texts.decoded), lines))
    kinds = bytes(map(texts.cached(_kind_of), lines))
    read, _, comments = level_rows.find(decoded, lambda *_: None)
    for match in _STRANGE.finditer(kinds):
        at = match.start()
        row = read[at]
        is_between = 0 < at < len(lines) - 1 and kinds[at - 1] == kinds[at + 1] == _ROW
        if row is None:
            why = level_rows.why_no_row(decoded[at], is_between)
        elif row.kind == "plain" and not row.lead:
            why = "blanks after a row that aren't spaces, so it isn't a row"
        else:
            why = "a coded or marked row, which 'sokotool convert' reads"
        if why:
            yield at + 1, why
    for first, end in comments:
        if (at := kinds.find(_ROW, first, end)) >= 0:
            yield at + 1, "a row in a comment, which an audit reads as a row of a level"
