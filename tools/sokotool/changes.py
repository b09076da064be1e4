"""What changed from one state of a collection to another: levels are matched by their boards, and
the others by title or position."""
from itertools import groupby
from typing import (Callable, Dict, Hashable, Iterable, Iterator, List, NamedTuple, Optional,
                    Sequence, Tuple)

from . import forms, texts
from .level_texts import Block
from .levels import Level
from .report import Line

# names one of several forms by its index
Name = Callable[[Sequence[forms.Form], int], Hashable]


class Match(NamedTuple):
    """A level before and now, by its indices from 0, and how its board was turned; `turn` is None
    if the level has another board now."""

    old: int
    new: int
    turn: Optional[forms.Turn]


class Snapshot(NamedTuple):
    """The levels of a collection, their forms, their report lines, and their blocks of text, where
    these are known."""

    levels: Sequence[Level]
    forms: Sequence[forms.Form]
    lines: Sequence[Line] = ()
    blocks: Sequence[Block] = ()


class Change(NamedTuple):
    """A change: its kind, the level's number now and before (0 if there is no such level), its
    title, and the change in words."""

    kind: str
    level: int
    was: int
    title: str
    words: str

    @property
    def number(self) -> int:
        """The number of the level, or the former one if it was removed."""
        return self.level or self.was


# The kinds of changes, in the order in which a level's changes are reported.
KINDS = ("inserted", "removed", "renumbered", "turned", "changed", "solved", "unsolvable", "lost",
         "better", "worse", "other")


class _Pairs:
    """Pairs of indices in two lists of forms. An index is in one pair at most."""

    def __init__(self, old: Sequence[forms.Form], new: Sequence[forms.Form]) -> None:
        self.forms = old, new
        self.of_new: Dict[int, int] = {}
        self.old, self.new = set(range(len(old))), set(range(len(new)))

    def add(self, old: int, new: int) -> None:
        self.of_new[new] = old
        self.old.remove(old)
        self.new.remove(new)

    def match(self, name: Name) -> None:
        """Pairs the unpaired indices with the same name, in order. None is no name."""
        old, new = self.forms
        waiting = texts.grouped((name(old, index), index)
                                for index in sorted(self.old, reverse=True))
        for index in sorted(self.new):
            named = name(new, index)
            if named is not None and waiting.get(named):
                self.add(waiting[named].pop(), index)

    def match_forms(self) -> None:
        """Pairs levels with the same board, first those that aren't turned."""
        self.match(lambda forms, index: (forms[index].key, forms[index].turn[:4]))
        self.match(lambda forms, index: forms[index].key)

    def found(self) -> List[Match]:
        """Returns the pairs as matches, in order of the new levels."""
        both = [(was, now, self.forms[0][was], self.forms[1][now])
                for now, was in sorted(self.of_new.items())]
        return [Match(was, now, old.turn_to(new) if old.key == new.key else None)
                for was, now, old, new in both]


def matches_of_forms(old: Sequence[forms.Form], new: Sequence[forms.Form]) -> List[Match]:
    """Returns the levels that have the same board, in order of the new ones. If several have it,
    levels that aren't turned are matched first."""
    pairs = _Pairs(old, new)
    pairs.match_forms()
    return pairs.found()


def _with_boards(beside: Sequence[int]) -> Name:
    """Returns a function that names a level by its board, its title, and the boards of some levels
    beside it, by which levels with the same board are told apart."""
    def name(forms: Sequence[forms.Form], index: int) -> Hashable:
        near = [forms[index + step].key if 0 <= index + step < len(forms) else None
                for step in beside]
        return (forms[index].key, forms[index].level.title, *near)
    return name


def matches(old: Snapshot, new: Snapshot, known: Iterable[Tuple[int, int]] = ()
            ) -> List[Match]:
    """Returns the levels that are the same, in order of the new ones. Of some it is known, by
    indices before. A level that has another board now is found by its title, or otherwise by the
    level before it if it has no title.
    """
    pairs = _Pairs(old.forms, new.forms)
    for was, now in known:
        pairs.add(was, now)
    for beside in ((-1, 1), (-1,), (1,), ()):
        pairs.match(_with_boards(beside))
    pairs.match_forms()
    pairs.match(lambda forms, index: forms[index].level.title or None)
    for index in sorted(pairs.new):
        before = pairs.of_new.get(index - 1, -1 if index == 0 else None)
        if before is not None and before + 1 in pairs.old and not (
                old.levels[before + 1].title and new.levels[index].title):
            pairs.add(before + 1, index)
    return pairs.found()


def changes(old: Snapshot, new: Snapshot) -> List[Change]:
    """Returns what changed, in order of the new levels; levels that were removed come last."""
    found: List[Change] = []
    by_new = {match.new: match for match in matches(old, new)}
    for index, level in enumerate(new.levels):
        if index in by_new:
            found += _of_pair(old, new, by_new[index])
        else:
            found.append(Change("inserted", level.number, 0, level.title, new.lines[index].said))
    kept = {match.old for match in by_new.values()}
    return found + [Change("removed", 0, level.number, level.title, old.lines[index].said)
                    for index, level in enumerate(old.levels) if index not in kept]


def _of_pair(old: Snapshot, new: Snapshot, match: Match) -> Iterator[Change]:
    now, was = new.lines[match.new], old.lines[match.old]
    title = new.levels[match.new].title

    def change(kind: str, words: str) -> Change:
        return Change(kind, now.level, was.level, title, words)

    if now.level != was.level:
        yield change("renumbered", f"formerly {was.level}")
    if match.turn is None:
        yield change("changed", "another board")
    elif not match.turn.is_upright:
        yield change("turned", match.turn.words)
    if now.said != was.said:
        yield change(_kind_of(now, was), f"{now.said}, formerly {was.said}")


def _kind_of(now: Line, was: Line) -> str:
    """Returns the kind of a change from one report line of a level to another."""
    if now.is_answered != was.is_answered:
        return now.status if now.is_answered else "lost"
    if now.status != "solved" or was.status != "solved":
        return "other"
    more = [one - other for one, other in zip(now.counts[:2], was.counts[:2])]
    if any(more) and max(more) <= 0:
        return "better"
    return "worse" if any(more) and min(more) >= 0 else "other"


def runs(found: Sequence[Change]) -> List[List[Change]]:
    """Returns changes in runs: consecutive levels that were renumbered alike are one run."""
    runs: List[List[Change]] = []
    last: Dict[str, List[Change]] = {}
    for change in found:
        run = last.get(change.kind)
        if run and change.kind == "renumbered" and (change.number, change.was) == (
                run[-1].number + 1, run[-1].was + 1):
            run.append(change)
        else:
            runs.append([change])
            last[change.kind] = runs[-1]
    return runs


def ranges(numbers: Sequence[int]) -> str:
    """Returns rising numbers as text, consecutive ones as `4-9`."""
    # Consecutive numbers are equally far from their indices.
    runs = [[number for _, number in run] for _, run in groupby(
        enumerate(numbers), lambda it: it[1] - it[0])]
    return ", ".join(f"{run[0]}-{run[-1]}" if len(run) > 1 else str(run[0]) for run in runs)
