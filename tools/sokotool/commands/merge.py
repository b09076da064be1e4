"""Prints the records of all answers files, in order of level.

Of several records for a level, the one of the first file is printed. The records of a file
needn't be in order here. Comments directly above a record and in it are kept; other comments are
dropped.

If a file isn't an answers file, its first wrong line is reported and nothing is printed."""
import argparse
from typing import Dict

from .. import answers, levels, output


def arguments(parser: argparse.ArgumentParser) -> None:
    parser.add_argument("answers", metavar="ANSWERS", nargs="+",
                        help="an answers file; - is standard input")


def run(options: argparse.Namespace) -> int:
    kept: Dict[int, answers.Record] = {}
    version = 1
    for name in options.answers:
        found = answers.read_file(name, levels.MOST_LEVELS, rising=False)
        version = max(version, found.version)
        for record in found.records:
            kept.setdefault(record.level, record)
    records = [record.text for _, record in sorted(kept.items())]
    output.put(answers.text(records, version))
    return 0
