"""Prints what changed from one report on a collection to another. Levels are matched by their
boards, also turned or moved ones, and levels whose board changed by title or position.

A line has the kind of the change, the level, and what is new. With --json each change is an object
on a line of its own, and --page writes a web page with the boards before and after. The status is 1
if something changed."""
import argparse
import html
import json
import re
from typing import Iterator, Sequence

from .. import changes, forms, levels, output, report, texts

_STYLE = """
body { font: 16px/1.5 system-ui, sans-serif; margin: 2rem auto; max-width: 60rem;
       padding: 0 1rem; color: #1c1b1a; background: #fbfaf7; color-scheme: light dark }
section { border-top: 1px solid #8884; padding: 1rem 0 }
h2 { font-size: 1.1rem; margin: 0 }
p { margin: .2rem 0 }
figure { display: inline-block; margin: .5rem 1.5rem 0 0; vertical-align: top }
figcaption { font-size: .85rem; opacity: .8 }
svg { max-width: 100%; height: auto; background: #efe8da }
.wall { fill: #57534c } .goal { fill: #b3261e } .box { fill: #c88b2a } .player { fill: #1f5fae }
@media (prefers-color-scheme: dark) { body { color: #eee; background: #1b1a19 } }
"""
# the pixels of a cell, and of a board at most
_CELL, _MOST = 16, 480
_KINDS = {".": "goal", "$": "box", "*": "box goal", "@": "player", "+": "player goal"}


def arguments(parser: argparse.ArgumentParser) -> None:
    parser.add_argument("old", metavar="OLD.xsb", help="the levels as they were")
    parser.add_argument("old_report", metavar="OLD.report", help="the report on them")
    parser.add_argument("new", metavar="NEW.xsb", help="the levels as they are")
    parser.add_argument("new_report", metavar="NEW.report", help="the report on them")
    parser.add_argument("--json", action="store_true", help="print an object for each change")
    parser.add_argument("--page", metavar="FILE",
                        help="also write a page with the boards before and after to this file")


def run(options: argparse.Namespace) -> int:
    old = state(options.old, options.old_report)
    new = state(options.new, options.new_report)
    found = changes.changes(old, new)
    if options.page:
        names = [texts.shown(options.old), texts.shown(options.new)]
        output.write_files([(options.page, page_of(old, new, found, names))])
    objects = (json.dumps({"change": it.kind, "level": it.level or None, "was": it.was or None,
                           "title": it.title, "words": it.words}) for it in found)
    for line in objects if options.json else lines(found):
        print(line)
    return int(bool(found))


def state(levels_name: str, report_name: str) -> changes.Snapshot:
    found = levels.read_file(levels_name)
    read = report.demanded(texts.read(report_name), report_name, levels_name, len(found))
    return changes.Snapshot(found, forms.forms_of(found), read.lines)


def lines(found: Sequence[changes.Change]) -> Iterator[str]:
    """Yields changes as lines. Consecutive levels that were renumbered alike share a line."""
    for several in changes.runs(found):
        first, last = several[0], several[-1]
        if len(several) > 1:
            yield f"renumbered levels {first.number}-{last.number}: formerly {first.was}-{last.was}"
        else:
            title = "\t" + first.title if first.title else ""
            yield f"{first.kind} level {first.number}: {first.words}{title}"


# ---- the page

def page_of(old: changes.Snapshot, new: changes.Snapshot, found: Sequence[changes.Change],
            names: Sequence[str]) -> bytes:
    """Returns the page of these changes between two states, whose levels have these names. It needs
    no network, no script and no other file."""
    by_level = texts.grouped((change.level or -change.was, change) for change in found)
    parts = "\n".join(_section(old, new, several, names) for several in by_level.values())
    title = html.escape(f"{names[0]} and {names[1]}")
    said = "" if found else "<p>Nothing changed.</p>"
    return (f'<!DOCTYPE html>\n<html lang="en"><head><meta charset="utf-8">\n<title>{title}</title>'
            '<meta name="viewport" content="width=device-width">\n'
            f"<style>{_STYLE}</style></head>\n<body><h1>{title}</h1>\n{said}{parts}\n"
            "</body></html>\n").encode()


def _section(old: changes.Snapshot, new: changes.Snapshot, several: Sequence[changes.Change],
             names: Sequence[str]) -> str:
    """Returns the changes of one level, with its board before and now, once if it is the same."""
    first = several[0]
    title = f": {first.title}" if first.title else ""
    number = f"level {first.level}" if first.level else f"formerly level {first.was}"
    lines = "".join(f"<p>{html.escape(f'{it.kind}: {it.words}')}</p>" for it in several)
    both = [(state.levels[at - 1], name) for state, at, name in (
        (old, first.was, names[0]), (new, first.level, names[1])) if at]
    shown = both[1:] if len({tuple(level.rows) for level, _ in both}) < len(both) else both
    figures = "".join(_figure(level, name) for level, name in shown)
    return f"<section><h2>{html.escape(number + title)}</h2>{lines}{figures}</section>"


def _figure(level: levels.Level, name: str) -> str:
    width, height = max(map(len, level.rows)), len(level.rows)
    side = max(1, min(_CELL, _MOST // max(width, height)))
    drawn = "".join(shape for row, cells in enumerate(level.rows) for shape in _shapes(row, cells))
    caption = html.escape(f"{name} line {level.line}")
    return (f'<figure><svg width="{width * side}" height="{height * side}" '
            f'viewBox="0 0 {width} {height}" role="img" aria-label="{caption}">{drawn}</svg>'
            f"<figcaption>{caption}</figcaption></figure>")


def _shapes(row: int, cells: bytes) -> Iterator[str]:
    """Yields the shapes of a row. Cells of walls beside each other are one. A goal comes last, so
    that it is seen on a box."""
    for match in re.finditer("#+|[^#]", cells.decode("latin-1")):
        at, count = match.start(), len(match[0])
        if match[0][0] == "#":
            yield f'<rect class="wall" x="{at}" y="{row}" width="{count}" height="1"/>'
        for kind in _KINDS.get(match[0], "").split():
            x, y = at + .5, row + .5
            if kind == "box":
                yield f'<rect class="box" x="{x - .4}" y="{y - .4}" width=".8" height=".8"/>'
            else:
                radius = .35 if kind == "player" else .15
                yield f'<circle class="{kind}" cx="{x}" cy="{y}" r="{radius}"/>'
