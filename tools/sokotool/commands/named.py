"""Prints a report. After each level line it adds, tab-separated, where the level begins, as
'LEVELS:LINE', and the level's title. The title is what a line 'Title: ..' below the level says, or
otherwise the last line of text above it, in the same export, that has no key such as 'Author: ..'.
With --answers a refused line of the answers also gets its mistake, if that is a usual one.

With --json each level is an object on a line of its own, with the digest of its board, in a form
that docs/formats.md describes. With --csv each level is a row of a table for spreadsheets. The
status is 1 if the report is of other levels or isn't whole."""
import argparse
import json
import sys
from typing import Dict

from .. import answers, forms, levels, messages, mistakes, report, sheet, texts

# the version of the form of objects
VERSION = 1


def arguments(parser: argparse.ArgumentParser) -> None:
    parser.add_argument("levels", metavar="LEVELS", help="the levels file of the audit")
    parser.add_argument("report", metavar="REPORT",
                        help="the report of the audit; - is standard input")
    parser.add_argument("--answers", metavar="ANSWERS",
                        help="the answers file of the audit: say which mistakes it has")
    form = parser.add_mutually_exclusive_group()
    form.add_argument("--json", action="store_true", help="print an object for each level")
    form.add_argument("--csv", action="store_true", help="print a table with a row for each level")


def run(options: argparse.Namespace) -> int:
    found = levels.read_file(options.levels)
    data = texts.read(options.report)
    name = texts.shown(options.levels)
    said: Dict[int, str] = {}
    if options.answers:
        records = answers.read_file(options.answers, len(found)).records
        lines = [it for it in report.read(data).lines if it.level <= len(found)]
        said = mistakes.of_reports(found, records, lines)
    if options.csv:
        read = report.demanded(data, options.report, options.levels, len(found), 1)
        sys.stdout.buffer.write(sheet.text(found, read.lines, name, {}, said))
        return 0
    for text in map(texts.shown, texts.lines(data)):
        line = report.line_of(text)
        if line and line.level <= len(found):
            level, mistake = found[line.level - 1], said.get(line.level, "")
            print(_object(level, line, name, mistake) if options.json else "\t".join(
                [text, f"{name}:{level.line}", level.title, *[mistake] * bool(mistake)]))
        elif not options.json:
            print(text)
    report.demanded(data, options.report, options.levels, len(found), 1)
    return 0


def _object(level: levels.Level, line: report.Line, name: str, mistake: str) -> str:
    """Returns the object of a level in the file of this name."""
    is_refused = line.status == "refused"
    return json.dumps({"version": VERSION, **line.fields(), "file": name, "line": level.line,
                       "title": level.title, "board": forms.form_of(level).digest,
                       **({"reason": messages.reason(level, line, mistake)} if is_refused else {})})
