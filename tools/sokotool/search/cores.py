"""Looks for cores: a core is a few boxes of a room that can never all reach goals.

The first set is one box, played alone. If all boxes of a set reach goals, a box that is in the way
of that play joins the set, and so on. If they can't, each box of the set is left out in turn, and
stays out if the others still can't.
"""
from itertools import combinations
from typing import Dict, Iterator, List, Optional, Sequence, Tuple

from .budget import Budget
from .deadlocks import Known
from .plays import LOST, SOLVED, Play
from .rooms import bits, count

NEAR = 6
LIMITS = 500, 2_000, 8_000, 32_000, 131_072, 262_144


class Cores:
    """A search of a room. `solution` is the plan of a play that has brought all of its boxes to
    goals, if there was one."""

    def __init__(self, known: Known, budget: Budget):
        self.known, self.room, self.budget = known, known.room, budget
        self.plans: Dict[int, List[Tuple[int, int]]] = {}
        self.tried: Dict[int, int] = {}
        self.solution: Optional[List[Tuple[int, int]]] = None

    def search(self) -> Optional[Play]:
        """Returns a play that shows some boxes to be lost, or None."""
        for most, play in self._plays():
            if play:
                return self._shrink(play, most)
            if self.solution or self.budget.is_late() or len(self.tried) > self.room.most_masks:
                break
        return None

    def _plays(self) -> Iterator[Tuple[int, Optional[Play]]]:
        """Yields the plays of sets that are lost, and None for other sets. The limit of positions
        is small at first, then larger."""
        for most in LIMITS:
            for box in bits(self.room.boxes):
                yield most, self._grow(box, most, True)
            if most == LIMITS[0]:
                for chosen in self._triples():
                    play, end = self._play(chosen, 0, most)
                    yield most, play if end == LOST else None
            for box in bits(self.room.boxes):
                yield most, self._grow(box, most, False)

    def _triples(self) -> Iterator[int]:
        """Yields each box with two others near it."""
        for box in bits(self.room.boxes):
            near = box
            for _ in range(NEAR):
                if count(near & self.room.boxes) <= NEAR:
                    near |= self.room.near(near)
            for pair in combinations(bits(near & self.room.boxes ^ box), 2):
                yield box | pair[0] | pair[1]

    def _grow(self, chosen: int, most: int, is_last: bool) -> Optional[Play]:
        """Plays a set of boxes, with one box more each time that all reach goals. Returns a play of
        boxes that are lost, or None.

        The new box is the last or the first one in the way of the play before.
        """
        while not self.budget.is_late():
            play, end = self._play(chosen, self.room.boxes ^ chosen, most)
            if end == LOST:
                return play
            if chosen not in self.plans:
                return None
            if chosen == self.room.boxes:
                self.solution = self.plans[chosen]
                return None
            chosen |= self._hindering(chosen, is_last) or self._nearest(chosen)
        return None

    def _play(self, chosen: int, others: int, most: int) -> Tuple[Optional[Play], str]:
        """Plays a set of boxes, unless it was played before. Returns the play and how it ended."""
        if chosen in self.plans or self.tried.get(chosen, 0) >= most:
            return None, ""
        play = Play(self.known, chosen, others, self.budget)
        end = play.run(most)
        self.tried[chosen] = most
        if end == SOLVED:
            self.plans[chosen] = play.plan()
        return play, end

    def _shrink(self, play: Play, most: int) -> Play:
        """Leaves out each box in turn if the others are lost without it. Returns the play of the
        boxes that are left."""
        for box in bits(play.chosen):
            less = play.chosen ^ box
            if less and not self.budget.is_late():
                fewer, end = self._play(less, 0, most)
                if fewer and end == LOST:
                    play = fewer
        return play

    def _hindering(self, chosen: int, is_last: bool) -> int:
        """Returns the first box in the way of the plan of these boxes, or no cell."""
        others = self.room.boxes ^ chosen
        player, moved, hindering = self.room.player, chosen, 0
        for place, ahead in self.plans[chosen]:
            target, box, to = 1 << 2 * place - ahead, 1 << place, 1 << ahead
            if player != target:
                if layers := self._layers(player, target, moved, others):
                    wanted = layers[-1:] if is_last else layers
                    hindering = self._on_path(target, wanted, moved | others)
            hindering = hindering or to & others
            if hindering or self.budget.is_late():
                return hindering
            moved ^= box ^ to
            player = box
        return 0

    def _layers(self, player: int, target: int, moved: int, others: int) -> List[int]:
        """Returns the boxes among the others that the player comes to past no other box, past one,
        and so on, until the target cell is reached."""
        free = self.room.cells & ~(moved | others)
        reached, layers = self.room.flood(player, free), []
        while not target & reached:
            layers.append(self.room.near(reached) & others & ~reached)
            reached = self.room.flood(reached | layers[-1], free | reached | layers[-1])
        return layers

    def _on_path(self, target: int, layers: Sequence[int], boxes: int) -> int:
        """Returns a box of the first layer on a path to the target through a box of each."""
        free = self.room.cells & ~boxes
        for layer in reversed(layers):
            if not target & layer:
                target = self.room.near(self.room.flood(target, free | target)) & layer
                target &= -target
        return target

    def _nearest(self, chosen: int) -> int:
        """Returns the box that is the fewest steps from some boxes if all others are ignored."""
        others = self.room.boxes ^ chosen
        around = chosen
        while not around & others:
            around |= self.room.near(around)
        return around & others & -(around & others)
