"""Prints the table of a contest: one collection, and an answers file from each entrant. Each file
is read and audited by itself, within limits of time and memory, so a bad file affects only its
entrant. A file that is no answers file is read as convert reads exports: its solutions are for the
levels with the same boards, titles or numbers.

Tab-separated rows have the level, the entrant, what the report says, and for solutions the moves,
pushes and changes. The solution of a level with the fewest moves is marked as best by moves; if
several have as few, the one with the fewest pushes. For best by pushes it is the other way round.
Equal ones are tied. An entrant whose file can't be audited has one row that says why. The standings
follow, with the moves and pushes of all solutions.

With --page a web page has a matrix of the levels by the entrants, the reason of each refusal with a
picture, sortable tables, and every answer to play. With --mail a folder gets a text for each
entrant. The status is 1 if a file couldn't be audited."""
import argparse
import os
import sys

from .. import contest_mails, contest_page, entrants, levels, output, sheet, texts
from ..contest import HEAD, STANDINGS_HEAD, Contest
from . import above_zero

SECONDS, MEGABYTES = 60, 1000
# how many lines are printed of what is left out of a file
MOST_SAID = 10


def arguments(parser: argparse.ArgumentParser) -> None:
    parser.add_argument("levels", metavar="LEVELS", help="the levels; - is standard input")
    parser.add_argument("entrants", metavar="ENTRANT.answers", nargs="+",
                        help="the answers of an entrant, who is named after the file, or an export "
                             "with solutions")
    parser.add_argument("--page", metavar="FILE", help="write a web page with tables and answers")
    parser.add_argument("--mail", metavar="FOLDER",
                        help=f"write a text for each entrant, ENTRANT{contest_mails.END}")
    parser.add_argument("--seconds", metavar="S", type=above_zero(float), default=SECONDS,
                        help="end the reading of a file, or its audit, after S seconds "
                             f"(default {SECONDS})")
    parser.add_argument("--memory", metavar="MB", type=above_zero(int), default=MEGABYTES,
                        help="limit the reading of a file, or its audit, to MB megabytes of memory "
                             f"(default {MEGABYTES})")


def run(options: argparse.Namespace) -> int:
    if "-" in options.entrants:
        raise texts.Stop("an entrant is named after a file, so - is none")
    data = texts.read(options.levels)
    found = levels.read_within(data, options.levels)
    limits = entrants.Limits(options.seconds, options.memory)
    every = []
    for entrant in entrants.audited(data, found, options.entrants, limits):
        every.append(entrant)
        for said in entrant.said[:MOST_SAID]:
            print(f"table: {said}", file=sys.stderr)
        if more := len(entrant.said[MOST_SAID:]):
            print(f"table: {entrant.name}: {texts.count(more, 'more message')}", file=sys.stderr)
    contest = Contest(found, every)
    files = [(options.page, contest_page.text(contest, options.levels))] if options.page else []
    if options.mail:
        files += contest_mails.written(contest, options.levels, options.mail)
        _make_folder(options.mail)
        given = {it for name in options.entrants for it in texts.identities(name)}
        for name, _ in files:
            if not given.isdisjoint(texts.identities(name)):
                raise texts.Stop(f"would write over {texts.shown(name)}")
    output.write_files(files)
    for row in (HEAD, *contest.rows(), (), STANDINGS_HEAD, *contest.standings()):
        print(*map(sheet.plain, row), sep="\t")
    return int(any(entrant.fault for entrant in every))


def _make_folder(name: str) -> None:
    """Makes a folder, unless it is there."""
    try:
        os.makedirs(name, exist_ok=True)
    except OSError as error:
        raise texts.Stop(f"cannot write {texts.shown(name)}: {error.strerror}") from None
