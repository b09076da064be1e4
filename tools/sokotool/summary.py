"""The summary of a check, which fits a screen."""
import sys
from collections import Counter
from typing import Dict, Iterator, List, Sequence

from . import auditor, changes, forms, levels, messages, own_files, report, texts
from .check_run import Run, State
from .outcomes import FULL, ILLEGAL, LATE, LONG, MEMORY, NOTHING, Outcomes

MOST_PROBLEMS = 8
MOST_LINES = 5
MOST_ITEMS = 4
_NAMES = {"solved": "newly solved", "unsolvable": "newly unsolvable", "changed": "another board",
          "other": "otherwise answered"}
# the outcomes without an answer in words
_OUTCOMES = {LATE: "stopped", FULL: "gave up with full tables", MEMORY: "gave up out of memory",
             LONG: "too long", ILLEGAL: "not legal", NOTHING: "without an answer"}


def lines(run: Run, state: State, problems: Sequence[str]) -> Iterator[str]:
    """Yields the lines of the summary. The problems are what was left out or is wrong."""
    now, name = state.now, texts.shown(run.name)
    count = {status: sum(line.status == status for line in now.lines)
             for status in ("solved", "unsolvable", "refused", "missing")}
    yield f"{name}: {texts.count(len(now.lines), 'level')}, " + ", ".join(
        f"{number} {status}" for status, number in count.items())
    if run.program.is_reference and not auditor.is_quiet():
        yield auditor.REFERENCE_NOTE
    yield from _some("problem: ", problems, MOST_PROBLEMS)
    yield from _some("not read: ", [
        f"{texts.shown(file)} seems to be another version: take over what it has, and remove it"
        for file in own_files.versions(run.name)])
    sources = run.conversion.origins.sources(state.merged.written.places)
    places = {number: str(place) for number, (place, _) in sources.items()}
    mistakes = state.mistakes()
    yield from _some("no answer: ", [
        (places.get(level.number) or f"{name}.xsb line {level.line}") + ": "
        + _unanswered(level, line, mistakes.get(level.number, ""))
        for level, line in zip(now.levels, now.lines) if not line.is_answered])
    yield from searched(state.unanswered(), state.former.memory.outcomes, run.outcomes)
    found = changes.changes(run.before, now) if run.before else []
    yield from changed(found)
    edited = [number for number, form in enumerate(now.forms, 1)
              if number in state.merged.edited or form.key in run.edited]
    if edited:
        yield f"edited by hand: {_numbered(edited)}"
    elif run.before and not found:
        yield "nothing changed since the last time"
    if others := list(state.pool.others):
        yield f"with fewer pushes in {name}.other.answers: {_numbered(others)}"
    if kept := state.left.reasons(now.forms):
        yield f"kept in {name}.kept.xsb: " + ", ".join(kept)
    yield from _some("twins: ", _twins(now.forms, {
        number: texts.shown(place.file) for number, (place, _) in sources.items()}))
    if run.written:
        names = [name + end for end in own_files.LISTED if end in run.written]
        if sys.stdout.isatty() and own_files.PAGE in run.written:
            names[0] += " (open it in a browser)"
        yield "wrote: " + ", ".join(names)


def _twins(listed: Sequence[forms.Form], files: Dict[int, str]) -> List[str]:
    """Returns lines about the levels that equal earlier ones: a line for two files that have many
    levels in common, as copies have, and otherwise one for each level. `files` has the exports of
    levels by their numbers."""
    sizes = Counter(files.values())
    found = texts.grouped(((files.get(later + 1), files.get(first + 1)), (later, first, turn))
                          for later, first, turn in forms.duplicates_of(listed))
    said = []
    for (one, other), several in found.items():
        count = len(several)
        if one and other and one != other and 1 < count >= min(sizes[one], sizes[other]) / 2:
            inner, outer = (one, other) if sizes[one] <= sizes[other] else (other, one)
            which = f"all {count}" if count == sizes[inner] else f"{count} of the {sizes[inner]}"
            said.append(f"{which} levels of {inner} are in {outer} too")
        else:
            said += [f"level {later + 1} is level {first + 1}, {turn.words}"
                     for later, first, turn in several]
    return said


def _unanswered(level: levels.Level, line: report.Line, mistake: str) -> str:
    """Returns what the report says of a level without an answer and why, and its title."""
    why = messages.reason(level, line, mistake) if line.status == "refused" else ""
    return f"{': '.join(filter(None, (line.text, why)))}\t{level.title}".rstrip()


def _some(head: str, items: Sequence[str], most: int = MOST_LINES) -> Iterator[str]:
    """Yields a few items with a head, and how many more there are."""
    shown = len(items) if len(items) <= most else most - 1
    for item in items[:shown]:
        yield head + item
    if items[shown:]:
        yield f"{head}and {len(items) - shown} more"


def searched(forms: Sequence[forms.Form], known: Outcomes, new: Outcomes) -> Iterator[str]:
    """Yields a line for each way in which levels without an answer were searched by earlier runs,
    with their outcomes."""
    ways = texts.grouped((way, outcome) for form in forms
                         for way, outcome in known.get(form.digest, {}).items()
                         if way not in new.get(form.digest, {}))
    for way, several in sorted(ways.items()):
        words = Counter(_OUTCOMES.get(what, "an answer that is lost") for what, _ in several)
        were = "was" if len(several) == 1 else "were"
        by = "" if way == "find" else f" by the {way}"
        yield (f"{texts.count(len(several), 'level')} {were} searched before{by}, up to "
               f"{max(seconds for _, seconds in several):g} s each: "
               + ", ".join(f"{count} {said}" for said, count in words.items()))


def changed(found: Sequence[changes.Change]) -> Iterator[str]:
    """Yields a line for each kind of change."""
    runs = texts.grouped((run[0].kind, run) for run in changes.runs(found))
    for kind, several in sorted(runs.items(), key=lambda it: changes.KINDS.index(it[0])):
        if kind in ("inserted", "solved", "unsolvable", "changed"):
            said = _numbered([run[0].level for run in several])
        else:
            more = len(several) - MOST_ITEMS
            tail = [f"and {more} more"] if more > 0 else []
            said = "; ".join([*map(_item, several[:MOST_ITEMS]), *tail])
        yield f"{_NAMES.get(kind, kind)}: {said}"


def _item(run: Sequence[changes.Change]) -> str:
    """Returns a run of changes in words."""
    first = run[0]
    if first.kind != "renumbered":
        return f"level {first.number} ({first.words})"
    was = changes.ranges([change.was for change in run])
    return f"{_numbered([change.level for change in run])} (formerly {was})"


def _numbered(numbers: Sequence[int]) -> str:
    """Returns levels by their numbers."""
    return ("level " if len(numbers) == 1 else "levels ") + changes.ranges(numbers)
