"""Plays some boxes of a room, with the others taken away: a best-first search of all positions that
aren't known to be lost. The pushes of a play become letters."""
from typing import Dict, Iterable, List, NamedTuple, Optional, Tuple

from .budget import Budget
from .deadlocks import Direction, Known
from .rooms import Room, bits

SOLVED, LOST, STOPPED = "solved", "lost", "stopped"
PENALTY = 8  # what a box on a cell of a box that isn't played adds to an estimate


class Position(NamedTuple):
    """Boxes, the cells that the player reaches, an estimate of the pushes to go, and the push that
    led here from another position.

    The estimate is the sum of the boxes' distances to a goal, which is a lower bound, and PENALTY
    for each box on a cell of one that isn't played.
    """

    boxes: int
    region: int
    estimate: int
    before: Optional["Position"] = None
    box: int = 0
    to: int = 0


class Play:
    """The positions of chosen boxes that pushes lead to. `seen` has the cells of the player in
    them, by the boxes.

    `buckets` has the waiting positions by their estimates; bucket `lowest` is expanded first.
    """

    def __init__(self, known: Known, chosen: int, others: int, budget: Budget):
        self.known, self.room, self.budget = known, known.room, budget
        self.chosen, self.others = chosen, others
        self.off_goals, self.distances = ~self.room.goals, known.distances
        self.seen: Dict[int, int] = {}
        self.buckets: List[List[Position]] = []
        self.lowest = self.positions = 0
        self.solved: Optional[Position] = None

    def run(self, most: int) -> str:
        """Returns how the play ended: all boxes on goals, every position expanded, or stopped after
        `most` positions."""
        most = min(most, self.room.most_masks)
        region = self.room.flood(self.room.player, self.room.cells & ~self.chosen)
        self.seen[self.chosen] = region
        estimate = sum(self.distances[box.bit_length() - 1] for box in bits(self.chosen))
        self._add(Position(self.chosen, region, estimate))
        while not self.solved and self.positions <= most and not self.budget.is_late():
            while not self.buckets[self.lowest]:
                self.lowest += 1
                if self.lowest == len(self.buckets):
                    return LOST
            self._expand(self.buckets[self.lowest].pop())
        return SOLVED if self.solved else STOPPED

    def _add(self, position: Position) -> None:
        """Puts a position into its bucket, and notes one that has every box on a goal."""
        if not position.boxes & self.off_goals:
            self.solved = position
        self.positions += 1
        buckets, estimate = self.buckets, position.estimate
        while len(buckets) <= estimate:
            buckets.append([])
        buckets[estimate].append(position)
        if estimate < self.lowest:
            self.lowest = estimate

    def _expand(self, position: Position) -> None:
        """Makes each push of a position."""
        boxes, region = position.boxes, position.region
        empty = ~boxes
        for shift, ahead, back in self.known.axes:
            for box in bits(boxes & region << shift & (ahead.live & empty) >> shift):
                self._push(position, box, box << shift, ahead)
            for box in bits(boxes & region >> shift & (back.live & empty) << shift):
                self._push(position, box, box >> shift, back)

    def _push(self, position: Position, box: int, to: int, direction: Direction) -> None:
        """Adds the result of a push if it is new and not known to be lost."""
        boxes = position.boxes ^ box ^ to
        seen = self.seen.get(boxes, 0)
        if seen & box or boxes & direction[to.bit_length() - 1] or self._is_frozen(boxes, to):
            return
        region = self._region(position.region, boxes, box, to)
        self.seen[boxes] = seen | region
        distances = self.distances
        estimate = position.estimate + distances[to.bit_length() - 1]
        estimate -= distances[box.bit_length() - 1]
        if to & self.others:
            estimate += PENALTY
        if box & self.others:
            estimate -= PENALTY
        self._add(Position(boxes, region, estimate, position, box, to))

    def _is_frozen(self, boxes: int, to: int) -> bool:
        """Returns whether some boxes are frozen and not all on goals; only those are found that the
        pushed box is one of."""
        for pair in self.known.push_axes(to):
            if not boxes & pair:
                return False
        return bool(self.known.frozen(boxes) & self.off_goals)

    def _region(self, before: int, boxes: int, box: int, to: int) -> int:
        """Returns the cells that the player reaches after a push. Most pushes neither open nor
        close a way, and need no flood."""
        room = self.room
        free = room.cells & ~boxes
        region = before & ~to | box
        if to & before:
            arcs = room.arcs(to, free)
            if len(arcs) > 1:
                region = room.cut(region, box, arcs)
        if room.near(box) & free & ~region:
            region = room.flood(region, free)
        return region

    def plan(self) -> List[Tuple[int, int]]:
        """Returns the pushes that bring all boxes to goals, as the places of a box before and after
        each."""
        position, plan = self.solved, []
        while position and position.before:
            plan.append((position.box.bit_length() - 1, position.to.bit_length() - 1))
            position = position.before
        return plan[::-1]


def letters_of(room: Room, plan: Iterable[Tuple[int, int]]) -> bytes:
    """Returns the letters of a plan that brings all boxes of a room to goals: its pushes with the
    steps of the player between them."""
    names = {step: name for name, step in room.board.steps.items()}
    boxes = {box.bit_length() - 1 for box in bits(room.boxes)}
    player, letters = room.player.bit_length() - 1, []
    for box, to in plan:
        letters.append(_walk(room, boxes, (player, 2 * box - to), names))
        letters.append(names[to - box].upper())
        boxes.remove(box)
        boxes.add(to)
        player = box
    return "".join(letters).encode()


def _walk(room: Room, boxes: Iterable[int], way: Tuple[int, int], names: Dict[int, str]) -> str:
    """Returns the letters of a shortest walk from one place to another."""
    start, end = way
    before, work = {start: start}, [start]
    for place in work:
        if place == end:
            break
        for near in (place + step for step in names):
            if near >= 0 and room.cells >> near & 1 and near not in boxes and near not in before:
                before[near] = place
                work.append(near)
    found = []
    while end != start:
        found.append(names[end - before[end]])
        end = before[end]
    return "".join(reversed(found))
