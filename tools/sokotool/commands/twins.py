"""Prints duplicates: each level with the layout of an earlier one, also if it is turned, mirrored,
moved or framed. The tab-separated columns of a line are the level, where it begins, the first level
with this layout, where that begins, how the first is turned into the later, and the titles and the
authors of the two. With several files it shows which levels of a collection are in another one.

The status is 1 if something is printed."""
import argparse

from .. import forms, levels, texts


def arguments(parser: argparse.ArgumentParser) -> None:
    parser.add_argument("levels", metavar="LEVELS", nargs="+",
                        help="a levels file; - is standard input")


def run(options: argparse.Namespace) -> int:
    found = []
    for name in options.levels:
        if not (several := levels.read_file(name)):
            raise texts.Stop(f"{texts.shown(name)} has no level")
        found += [(texts.shown(name), level) for level in several]
    duplicates = forms.duplicates_of(forms.forms_of(level for _, level in found))
    for later, first, turn in duplicates:
        both = [found[later], found[first]]
        print(*(f"level {level.number}\t{name}:{level.line}" for name, level in both), turn.words,
              *(level.title for _, level in both), *(level.author for _, level in both), sep="\t")
    return int(bool(duplicates))
