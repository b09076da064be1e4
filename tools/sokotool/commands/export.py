"""Prints a collection in a form that other programs read: NAME.xsb with the solutions in
NAME.answers and in NAME.other.answers, if that is there. The forms are slc for readers of XML, sok
for JSoko and YASC, xsb with all but boards in comments, rle with each board run-length coded in one
line.

Titles and texts are kept. A solution is printed if it solves its level. Certificates stay in
NAME.answers, since no other program has a form for them.

What is printed is also read as 'sokotool convert' reads it. The status is 1 if a level, a title or
a solution would not come back, or if a solution was left out."""
import argparse
import os
import sys
from typing import Dict, Iterator, List, Sequence, Tuple

from .. import answers, levels, output, texts
from ..board import board_of
from ..builder import BOTH, Collection
from ..formats import exporting
from ..formats.exporting import Solution
from ..own_files import ANSWERS, OTHER
from ..sources import Export
from . import convert


# how many levels may have come in between when a text is read again
NEAR = 5


def arguments(parser: argparse.ArgumentParser) -> None:
    parser.add_argument("name", metavar="NAME", help="NAME.xsb and NAME.answers are read")
    parser.add_argument("--to", choices=sorted(exporting.FORMS), required=True, help="the form")


def run(options: argparse.Namespace) -> int:
    """Prints the collection, and reports how much of it there is."""
    for name in (options.name + end for end in (".xsb", ANSWERS, OTHER)):
        if options.output is not None and texts.same_file(options.output, name):
            raise texts.Stop(f"would write over {texts.shown(name)}")
    data = texts.read(options.name + ".xsb")
    found = levels.read_within(data, options.name + ".xsb")
    solutions, certificates, faults = solutions_of(options.name + ANSWERS, found)
    others, _, more = solutions_of(options.name + OTHER, found)
    faults += more
    head, entries = exporting.content_of(data, found, solutions, others)
    text = "".join(line + "\n" for line in exporting.FORMS[options.to](head, entries)).encode()
    faults += differences_of(entries, text)
    for line in faults:
        print(f"export: {line}", file=sys.stderr)
    output.put(text)
    left = f", {texts.count(certificates, 'certificate')} not exported" if certificates else ""
    print(f"export: {texts.count(len(found), 'level')}, "
          f"{texts.count(len(solutions) + len(others), 'solution')}{left}",
          file=sys.stderr)
    return int(bool(faults))


def solutions_of(name: str, found: List[levels.Level]
                 ) -> Tuple[Dict[int, Solution], int, List[str]]:
    """Returns the solutions in an answers file that solve their levels, by the numbers of these, if
    there is such a file, how many certificates there are, and what is wrong."""
    data = texts.read(name) if os.path.exists(name) else answers.text([])
    records = answers.read_text(name, data, len(found), rising=False).records
    solutions: Dict[int, Solution] = {}
    faults = []
    for record in (it for it in records if it.kind == "solution"):
        board = board_of(found[record.level - 1])
        is_played = board.player is not None
        why = board.replay(record.letters).fault if is_played else f"board {board.fault}"
        if why:
            faults.append(f"{texts.shown(name)} line {record.line}: not exported, as it is refused "
                          f"for level {record.level}: {why}")
        else:
            notes = [texts.decoded(line) for line in record.answer.comments]
            letters = record.letters.translate(None, b" \t\r").decode()
            solutions[record.level] = letters, notes
    certificates = sum(record.kind != "solution" for record in records)
    return solutions, certificates, faults


# ---- there and back

def read_back(text: bytes, best: str) -> List[exporting.Entry]:
    """Returns the levels of an exported text as convert or check reads them."""
    collection = Collection(best)
    convert.read_files(collection, [Export("-", lambda: text, False)])
    ((data, solved),) = collection.parts()
    found = levels.read(data)
    solutions, others = ({record.level: (record.letters.decode(), ())
                          for record in answers.read(text).records}
                         for text in (solved, collection.other_answers()))
    return exporting.content_of(data, found, solutions, others)[1]


def differences_of(entries: Sequence[exporting.Entry], text: bytes) -> Iterator[str]:
    """Yields what of a collection an exported text would not give back, in words."""
    best = BOTH if any(entry.other for entry in entries) else ""
    found, at = read_back(text, best), 0
    for number, entry in enumerate(entries, 1):
        near = [index for index in range(at, min(len(found), at + NEAR))
                if found[index].rows == entry.rows]
        if not near:
            yield f"level {number} is not the same when it is read again"
            continue
        back, at = found[near[0]], near[0] + 1
        if entry.title.split() != back.title.split():
            yield f"level {number}: its title is not the same when it is read again"
        if {entry.letters, entry.other} != {back.letters, back.other}:
            yield f"level {number}: its solution is not the same when it is read again"
    if len(found) > len(entries):
        yield f"there are {texts.count(len(found), 'level')} when it is read again"
