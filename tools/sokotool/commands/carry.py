"""Prints the answers file for NEW: each record of OLD's answers goes to the levels of NEW that have
its level's board. If the board was turned, mirrored or moved, so are the letters and cells of the
record.

Records whose board no level of NEW has are reported. So are levels that got several records; the
one of the most similar level is printed. The status is 1 if a record has no level."""
import argparse
import sys

from .. import answers, forms, levels, output, texts
from ..carrying import carried


def arguments(parser: argparse.ArgumentParser) -> None:
    parser.add_argument("old", metavar="OLD.xsb", help="the levels as they were")
    parser.add_argument("answers", metavar="OLD.answers", help="the answers to them")
    parser.add_argument("new", metavar="NEW.xsb", help="the levels as they are")


def run(options: argparse.Namespace) -> int:
    old, new = (levels.read_file(name) for name in (options.old, options.new))
    read = answers.read_file(options.answers, len(old))
    found = carried(read.records, forms.forms_of(old), forms.forms_of(new))
    lost = [record for record in read.records if record.level not in
            {read.records[at].level for several in found.values() for at, _ in several}]
    answers_name, new_name = map(texts.shown, (options.answers, options.new))
    said = [f"{answers_name} line {record.line}: no level of {new_name} has the board of level "
            f"{record.level}" for record in lost]
    for number, several in sorted(found.items()):
        if len(several) > 1:
            numbers = [str(read.records[at].level) for at, _ in several]
            said.append(f"level {number} has the board of levels {', '.join(numbers)}: the record "
                        f"of level {numbers[0]} is printed")
    for line in said:
        print(f"carry: {line}", file=sys.stderr)
    chosen = [several[0][1].record(number) for number, several in sorted(found.items())]
    output.put(answers.text(chosen, read.version))
    return int(bool(lost))
