"""Shortens closed lists: leaves out boxes that patterns don't need, then patterns that nothing
leads to."""
from collections import deque
from itertools import combinations
from math import comb
from typing import Dict, List, Optional, Sequence, Tuple

from .. import texts
from .budget import Budget
from .closed import Pattern, Patterns, pushes_out
from .rooms import Room, bits, count

MOST_SUBSETS = 150


class Cover:
    """A list, in which the patterns that cover a state are looked up by their boxes."""

    def __init__(self, patterns: Patterns, sizes: Sequence[int]):
        self.patterns, self.sizes = patterns, sizes
        self.sizes_below = texts.cached(self._sizes_below)

    def boxes(self, boxes: int, player: int, pushed: int) -> int:
        """Returns the boxes of a pattern that covers the state after a push, or no cell. Patterns
        of few boxes are looked up first."""
        patterns = self.patterns
        if patterns.get(pushed, 0) & player:
            return pushed
        others = list(bits(boxes ^ pushed))
        for size in self.sizes_below(len(others) + 1):
            for some in combinations(others, size - 1):
                few = sum(some, pushed)
                if patterns.get(few, 0) & player:
                    return few
        return boxes if patterns.get(boxes, 0) & player else 0

    def _sizes_below(self, most: int) -> List[int]:
        """Returns the numbers of boxes that patterns have, from 2 to below `most`, for which few
        subsets have to be looked up."""
        return [size for size in self.sizes
                if 1 < size < most and comb(most - 1, size - 1) <= MOST_SUBSETS]


def shorten(room: Room, patterns: Patterns, start: int, budget: Budget) -> Patterns:
    """Returns a closed list that is no longer than this one, the shortest that was found when the
    time was over."""
    while True:
        wider = with_fewer_boxes(room, patterns, budget)
        fewer = needed(room, wider, start, budget) if wider else None
        if not fewer or weight(fewer) >= weight(patterns):
            return patterns
        patterns = fewer


def weight(patterns: Patterns) -> Tuple[int, int]:
    """Returns the number of patterns and of their boxes."""
    return len(patterns), sum(map(count, patterns))


def sizes_of(patterns: Patterns) -> List[int]:
    """Returns the numbers of boxes that patterns have, in order."""
    return sorted(set(map(count, patterns)))


def with_fewer_boxes(room: Room, patterns: Patterns, budget: Budget) -> Optional[Patterns]:
    """Returns a list with the most patterns of one box less that are closed with it; None if the
    time is over.

    All patterns of one box less are added at first. Then those are dropped from which a push leads
    out of the list, until there are none.
    """
    tries: Optional[List[Pattern]] = None
    kept = tries_of(room, patterns, budget)
    wider = dict(patterns)
    for boxes, part in kept:
        wider[boxes] = wider.get(boxes, 0) | part
    cover = Cover(wider, sizes_of(wider))
    while tries is None or len(kept) < len(tries):
        tries, kept = kept, []
        for boxes, part in tries:
            if budget.is_late():
                return None
            if all(cover.boxes(*state) for state in pushes_out(room, boxes, part)):
                kept.append((boxes, part))
            else:
                wider[boxes] &= ~part
    return wider


def tries_of(room: Room, patterns: Patterns, budget: Budget) -> List[Pattern]:
    """Returns the patterns of one box less, with the player in one part of the room, that a list
    doesn't have; some of them if the time is over."""
    tries: Dict[Pattern, None] = {}
    for boxes, region in patterns.items():
        if budget.is_late():
            break
        for box in bits(boxes):
            few = boxes ^ box
            if few & ~room.goals:
                more = room.flood(region, room.cells & ~few) & ~patterns.get(few, 0)
                tries.update(((few, part), None) for part in room.parts(more))
    return list(tries)


def needed(room: Room, patterns: Patterns, start: int, budget: Budget) -> Optional[Patterns]:
    """Returns the patterns that the start leads to, of few boxes if several cover a state; None if
    the time is over."""
    cover = Cover(patterns, sizes_of(patterns))
    taken = Cover({}, cover.sizes)
    # the boxes of a least pattern that covers the start
    first = min((boxes for boxes in patterns
                 if not boxes & ~start and patterns[boxes] & room.player),
                key=lambda boxes: (count(boxes), boxes))
    work = deque([(first, room.player)])
    while work:
        boxes, player = work.popleft()
        if taken.patterns.get(boxes, 0) & player:
            continue
        if budget.is_late():
            return None
        part = room.flood(player, room.cells & ~boxes)
        taken.patterns[boxes] = taken.patterns.get(boxes, 0) | part
        for state in pushes_out(room, boxes, part):
            if not taken.boxes(*state):
                work.append((cover.boxes(*state), state[1]))
    return taken.patterns
