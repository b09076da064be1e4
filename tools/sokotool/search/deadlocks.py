"""The deadlocks of a room that need no play: boxes that are lost alone, pairs that are lost
together, and frozen boxes.

Boxes are lost if they can't all reach goals with no other box in the room. That may depend on which
side of them the player is.
"""
from collections import deque
from itertools import combinations
from typing import Dict, List, Tuple

from .budget import Budget
from .rooms import Room, bits, mask_of

MOST_PAIRS = 200_000
# two boxes and a part of the room, as masks
Pair = Tuple[int, int, int]


class Direction(Dict[int, int]):
    """A direction to push in. As a dictionary it maps a place to the boxes with which a box is lost
    that was just pushed there.

    `live` has the cells to which a box can be pushed without being lost alone.
    """

    def __init__(self, known: "Known", shift: int):
        super().__init__()
        self.known, self.shift = known, shift
        self.live = 0

    def back(self, bit: int) -> int:
        """Returns the cell one step back from a cell."""
        return bit >> self.shift if self.shift > 0 else bit << -self.shift

    def __missing__(self, place: int) -> int:
        """Finds the boxes with which a box is lost on a place. Keys are places because the hashes
        of masks collide too often."""
        to = 1 << place
        player = self.back(to)
        pairs = self.known.pairs.get(place, {})
        safe = mask_of([other for other, cells in pairs.items() if cells & player])
        self[place] = self.known.paired & ~to & ~safe
        return self[place]


class Known:
    """The deadlocks of one and two boxes of a room.

    `distances` has, for each place from which a box alone can reach a goal, the fewest pushes to
    one. `pairs` has, by the places of two boxes, the cells of the player with which they aren't
    lost. `paired` has the cells of all boxes in `pairs` once that is complete, and none before.
    """

    def __init__(self, room: Room):
        self.room = room
        self.axes = [(shift, Direction(self, shift), Direction(self, -shift))
                     for shift in (1, room.width)]
        self.directions = {way.shift: way for _, *both in self.axes for way in both}
        inside = set(room.places)
        self.beside = {at: [at + shift for shift in self.directions if at + shift in inside]
                       for at in room.places}
        self.block, self.order = blocks_of(self.beside, room.places[0])
        self.distances: Dict[int, int] = {}
        self._find_live()
        self.pairs: Dict[int, Dict[int, int]] = {}
        self.paired = 0
        self._push_axes: Dict[int, List[int]] = {}

    def side(self, box: int, player: int) -> Tuple[int, int]:
        """Returns the side of a box on which the player is: the same for two cells if the player
        can walk from one to the other around the box."""
        return box, self.block[max(box, player, key=self.order.__getitem__)]

    def _find_live(self) -> None:
        """Finds the sides of boxes that aren't lost alone, by pulls from the goals: a breadth-first
        search."""
        goals = [at for at in self.room.places if self.room.goals >> at & 1]
        self.distances = dict.fromkeys(goals, 0)
        live = {self.side(at, near): None for at in goals for near in self.beside[at]}
        todo = deque(live)
        while todo:
            box, block = todo.popleft()
            for shift in self.directions:
                before, player = box - shift, box - 2 * shift
                if (before not in self.beside[box] or player not in self.beside[before]
                        or self.side(box, before)[1] != block):
                    continue
                side = self.side(before, player)
                if side not in live:
                    live[side] = None
                    todo.append(side)
                    self.distances.setdefault(before, self.distances[box] + 1)
        for shift, direction in self.directions.items():
            direction.live = mask_of([at for at in self.beside if at - shift in self.beside[at]
                                      and self.side(at, at - shift) in live])

    def direction(self, player: int, box: int) -> Direction:
        """Returns the direction from the player to a box next to it."""
        return self.directions[box.bit_length() - player.bit_length()]

    def is_lost_alone(self, box: int, player: int) -> bool:
        """Returns whether a box is lost with the player on a cell of the room."""
        free = self.room.cells ^ box
        return any(not direction.live & box
                   and self.room.flood(direction.back(box) & free, free) & player
                   for direction in self.directions.values())

    def find_pairs(self, budget: Budget) -> None:
        """Finds the pairs that aren't lost, by pulls from the goals, unless there are too many or
        it takes too long."""
        if len(self.distances) * (len(self.distances) - 1) // 2 > MOST_PAIRS:
            return
        self.pairs = {at: {} for at in self.distances}
        todo = []
        for box, other in combinations(bits(self.room.goals), 2):
            for part in self.room.parts(self.room.cells ^ (box | other)):
                self._note_pair(box, other, part)
                todo.append((box, other, part))
        while todo:
            box, other, part = todo.pop()
            self._pull(box, other, part, todo)
            self._pull(other, box, part, todo)
            if budget.is_late():
                return
        self.paired = mask_of(list(self.distances))

    def _note_pair(self, box: int, other: int, part: int) -> None:
        """Notes that two boxes aren't lost if the player is in a part of the room."""
        one, two = box.bit_length() - 1, other.bit_length() - 1
        self.pairs[one][two] = self.pairs[two][one] = self.pairs[one].get(two, 0) | part

    def _pull(self, box: int, other: int, part: int, todo: List[Pair]) -> None:
        """Notes the positions of two boxes from which one push of the first leads to this one."""
        known = self.pairs[other.bit_length() - 1]
        for direction in self.directions.values():
            before = direction.back(box)
            player = direction.back(before)
            if not before & part & direction.live or not player & self.room.cells & ~other:
                continue
            if not known.get(before.bit_length() - 1, 0) & player:
                region = self._part_of_pair(before, other, player)
                self._note_pair(before, other, region)
                todo.append((before, other, region))

    def _part_of_pair(self, box: int, other: int, player: int) -> int:
        """Returns the cells that the player reaches with two boxes in the room."""
        room = self.room
        free = room.cells ^ (box | other)
        if room.is_joined(other, room.cells ^ other) and room.is_joined(box, free):
            return free
        return room.flood(player, free)

    def lost_pair(self, boxes: int, player: int) -> int:
        """Returns two of the boxes that are lost together, or no cell."""
        if self.paired:
            for box, other in combinations(bits(boxes), 2):
                pairs = self.pairs.get(box.bit_length() - 1, {})
                if not pairs.get(other.bit_length() - 1, 0) & player:
                    return box | other
        return 0

    def push_axes(self, box: int) -> List[int]:
        """Returns the pairs of cells on opposite sides of a box between which it could be pushed,
        without being lost alone, if both were empty."""
        if (pairs := self._push_axes.get(box.bit_length())) is None:
            if len(self._push_axes) > self.room.most_masks // 8:
                self._push_axes.clear()
            pairs = self._push_axes[box.bit_length()] = []
            cells = self.room.cells
            for shift, ahead, back in self.axes:
                above, below = box << shift & cells, box >> shift & cells
                if above and below and (above & ahead.live or below & back.live):
                    pairs.append(above | below)
        return pairs

    def frozen(self, boxes: int) -> int:
        """Returns the largest frozen set of the boxes: each can be pushed only to where it is lost
        alone, if at all."""
        while True:
            empty = self.room.cells & ~boxes
            movable = 0
            for shift, ahead, back in self.axes:
                movable |= empty << shift & (empty & ahead.live) >> shift
                movable |= empty >> shift & (empty & back.live) << shift
            if not boxes & movable:
                return boxes
            boxes &= ~movable


def blocks_of(beside: Dict[int, List[int]], first: int) -> Tuple[Dict[int, int], Dict[int, int]]:
    """Returns two numbers for each place: of the block of its edge to the place before it in a
    depth-first walk, and in that walk.

    A block is a biconnected component: a largest part of the room that no single box disconnects.
    An edge is in the block of its later place.
    """
    order, before = walk(beside, first)
    low: Dict[int, int] = {}
    for at in reversed(list(order)):
        near = [to for to in beside[at] if to != before[at]]
        reached = [low[to] if before[to] == at else order[to] for to in near]
        low[at] = min([order[at], *reached])
    block = {first: first}
    for at in order:
        if at != first:
            block[at] = at if low[at] >= order[before[at]] else block[before[at]]
    return block, order


def walk(beside: Dict[int, List[int]], first: int) -> Tuple[Dict[int, int], Dict[int, int]]:
    """Walks depth first. Returns the number of each place in the order of the walk, and the place
    from which it was entered, -1 for the first one."""
    order, before = {first: 0}, {first: -1}
    path = [(first, iter(beside[first]))]
    while path:
        at, rest = path[-1]
        for to in rest:
            if to not in order:
                order[to], before[to] = len(order), at
                path.append((to, iter(beside[to])))
                break
        else:
            path.pop()
    return order, before
