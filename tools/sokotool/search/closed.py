"""Closed lists of patterns: a pattern covers the result of each push out of a pattern.

A list maps the boxes of its patterns to the cells where the player may be. Both are masks.
"""
from collections import deque
from typing import Dict, Iterable, Iterator, Optional, Tuple

from .deadlocks import Known
from .rooms import Room, bits

MOST_PATTERNS = 65_536
Patterns = Dict[int, int]
Pattern = Tuple[int, int]


def pushes_out(room: Room, boxes: int, region: int) -> Iterator[Tuple[int, int, int]]:
    """Yields for each push out of a pattern the boxes after it, the player's cell then, and the new
    cell of the pushed box."""
    empty = room.cells & ~boxes
    for shift in 1, room.width:
        for box in bits(boxes & region << shift & empty >> shift):
            yield boxes ^ box ^ box << shift, box, box << shift
        for box in bits(boxes & region >> shift & empty << shift):
            yield boxes ^ box ^ box >> shift, box, box >> shift


class Lost:
    """The states that are known to be lost: by one box, by two, by frozen boxes, or by the
    positions of a play."""

    def __init__(self, known: Known, seen: Iterable[Pattern] = ()):
        self.known, self.room, self.seen = known, known.room, dict(seen)

    def at_start(self, boxes: int) -> Optional[Pattern]:
        """Returns the boxes and the player's cells of a pattern that covers the start, or None if
        these boxes aren't known to be lost."""
        player = self.room.player
        alone = (box for box in bits(boxes) if self.known.is_lost_alone(box, player))
        some = next(alone, 0) or self.known.lost_pair(boxes, player)
        return self._pattern(some, player) if some else self._of_several(boxes, player)

    def after_push(self, boxes: int, player: int, pushed: int) -> Pattern:
        """Returns the boxes and the player's cells of a pattern that covers a lost state to which a
        push led."""
        direction = self.known.direction(player, pushed)
        if not direction.live & pushed:
            return self._pattern(pushed, player)
        if others := boxes & direction[pushed.bit_length() - 1]:
            return self._pattern(pushed | others & -others, player)
        found = self._of_several(boxes, player)
        assert found
        return found

    def _of_several(self, boxes: int, player: int) -> Optional[Pattern]:
        """Returns a pattern of the play's boxes, or of frozen boxes, or None."""
        if self.seen.get(boxes, 0) & player:
            return self._pattern(boxes, player)
        frozen = self._few_frozen(self.known.frozen(boxes))
        return (frozen, self.room.cells ^ frozen) if frozen else None

    def _pattern(self, boxes: int, player: int) -> Pattern:
        """Returns the pattern of these boxes, with the cells that the player reaches among them."""
        return boxes, self.room.flood(player, self.room.cells & ~boxes)

    def _few_frozen(self, frozen: int) -> int:
        """Returns a least set of these frozen boxes that is frozen and not all on goals, or no
        cell."""
        off_goals = ~self.room.goals
        for box in bits(frozen):
            fewer = self.known.frozen(frozen & ~box)
            if frozen & box and fewer & off_goals:
                frozen = fewer
        return frozen if frozen & off_goals else 0


def list_of(lost: Lost, boxes: int) -> Optional[Patterns]:
    """Returns the closed list of the patterns that the start leads to, each with only the boxes
    that make it lost; None if it grows too long."""
    room = lost.room
    first = lost.at_start(boxes)
    assert first
    patterns, work = dict([first]), deque([first])
    while work:
        for after, player, pushed in pushes_out(room, *work.popleft()):
            if (patterns.get(after, 0) | patterns.get(pushed, 0)) & player:
                continue
            boxes, part = lost.after_push(after, player, pushed)
            if not patterns.get(boxes, 0) & player:
                patterns[boxes] = patterns.get(boxes, 0) | part
                work.append((boxes, part))
        if len(patterns) > 2 * MOST_PATTERNS:
            return None
    return patterns
