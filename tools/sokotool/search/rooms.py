"""The room of a board as the bits of integers, so that a few operations flood it or find every
push.

A set of cells is an integer with a bit for each cell, in reading order. A row is as long as a
board's stride, so a step adds a fixed number to a bit's place, and no step leads from one row into
the next.
"""
from typing import Collection, Dict, Iterable, Iterator, List, Tuple

from ..board import Board

MOST_SPREADS = 200
MOST_DETOUR = 8
MOST_BYTES = 400_000_000


class Room:
    """The cells that the player could reach if there were no boxes, with the goals and boxes among
    them.

    `most_masks` limits the size of tables whose entries have a mask or two.
    """

    def __init__(self, board: Board):
        self.board = board
        self.width = board.stride
        self.low = min(board.room)
        self.places = sorted(place - self.low for place in board.room)
        self.cells = mask_of(self.places)
        self.goals = self.mask(board.goals & board.room)
        self.boxes = self.mask(board.boxes & board.room)
        self.player = 0 if board.player is None else self.mask([board.player])
        self.most_masks = MOST_BYTES // (self.cells.bit_length() + 500)
        self.corners: Dict[int, Tuple[int, int, Dict[int, List[int]]]] = {}

    def mask(self, places: Iterable[int]) -> int:
        """Returns the mask of places of the board."""
        return mask_of([place - self.low for place in places])

    def cell(self, bit: int) -> Tuple[int, int]:
        return self.board.cell(bit.bit_length() - 1 + self.low)

    def near(self, mask: int) -> int:
        """Returns the cells next to the cells of a mask."""
        width = self.width
        return (mask << 1 | mask >> 1 | mask << width | mask >> width) & self.cells

    def flood(self, start: int, free: int) -> int:
        """Returns the free cells that are connected to the start, which is free itself."""
        width = self.width
        for _ in range(MOST_SPREADS):
            more = (start | start << 1 | start >> 1 | start << width | start >> width) & free
            if more == start:
                return more
            start = more
        return self.trace(start, free)

    def trace(self, start: int, free: int) -> int:
        """Floods cell by cell, which is faster along winding corridors."""
        is_free = bytearray(bin(free)[:1:-1].encode() + b"0" * self.width)
        found = [place for place, digit in enumerate(bin(start)[:1:-1]) if digit == "1"]
        for place in found:
            is_free[place] = 48
        for place in found:
            for near in place - 1, place + 1, place - self.width, place + self.width:
                if near >= 0 and is_free[near] == 49:
                    is_free[near] = 48
                    found.append(near)
        return mask_of(found)

    def parts(self, free: int) -> Iterator[int]:
        """Yields the connected parts of some cells, in the order of their first cells."""
        while free:
            part = self.flood(free & -free, free)
            yield part
            free ^= part

    def arcs(self, bit: int, free: int) -> List[int]:
        """Returns the free cells next to a cell, grouped by the free cells around it that connect
        them."""
        if (corner := self.corners.get(bit.bit_length())) is None:
            row = bit | bit << 1 | bit >> 1
            ring = (row | row << self.width | row >> self.width) & self.cells & ~bit
            if len(self.corners) > self.most_masks // 8:
                self.corners.clear()
            corner = self.corners[bit.bit_length()] = ring, self.near(bit), {}
        ring, near, known = corner
        ring &= free
        if (arcs := known.get(ring)) is None:
            arcs = known[ring] = [part & near for part in self.parts(ring) if part & near]
        return arcs

    def is_joined(self, bit: int, free: int) -> bool:
        """Returns true only if the free cells next to a cell are connected; false proves nothing,
        since only a few steps are tried."""
        arcs = self.arcs(bit, free)
        if len(arcs) < 2:
            return True
        start, ends = arcs[0], sum(arcs[1:])
        for _ in range(MOST_DETOUR):
            start |= self.near(start) & free
            if not ends & ~start:
                return True
        return False

    def cut(self, region: int, player: int, arcs: Iterable[int]) -> int:
        """Returns the part of a region where the player is, after a box was pushed to a cell of it
        with these arcs next to it.

        It floods from the player and from an arc in turn, until they meet or one of them can't
        grow.
        """
        width = self.width
        for arc in arcs:
            while not arc & player:
                more = player | player << 1 | player >> 1 | player << width | player >> width
                more &= region
                if more == player:
                    return player
                player = more
                more = (arc | arc << 1 | arc >> 1 | arc << width | arc >> width) & region
                if more == arc:
                    region ^= arc
                    break
                arc = more
        return region


def bits(mask: int) -> Iterator[int]:
    """Yields the bits of a mask in order, each as a mask."""
    while mask:
        bit = mask & -mask
        yield bit
        mask ^= bit


def count(mask: int) -> int:
    """Returns the number of cells of a mask."""
    return bin(mask).count("1")


def mask_of(places: Collection[int]) -> int:
    """Returns the mask with bits at these places."""
    octets = bytearray(max(places, default=0) // 8 + 1)
    for place in places:
        octets[place // 8] |= 1 << place % 8
    return int.from_bytes(octets, "little")
