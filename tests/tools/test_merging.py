"""What a keeper typed, merged with the exports: what holds of all collections, on random ones."""
import random
import unittest
from typing import List, Sequence

from sokotool import level_texts
from sokotool.level_texts import Block
from sokotool.changes import Snapshot
from sokotool.merging import Written, collection, merged

COUNT = 500


class Drawn:
    """Random collections of corridors, many of them with the same board, and text between."""

    def __init__(self, seed: int) -> None:
        self.chance = random.Random(seed)

    def rows(self) -> List[str]:
        row = "#@" + " " * self.chance.randrange(6) + "$ .#"
        row = row[::-1] if self.chance.random() < .3 else row
        return ["#" * len(row), row, "#" * len(row)]

    def lines(self) -> List[str]:
        return [self.chance.choice(("Title: t{}", "Author: a{}", "; c{}", "word{}", "")).format(
            self.chance.randrange(99)) for _ in range(self.chance.randrange(4))]

    def text(self) -> bytes:
        found = self.lines()
        for _ in range(self.chance.randrange(1, 5)):
            found += ["", *self.rows(), *self.lines()]
        return ("\n".join(found) + "\n").encode()

    def collection(self) -> Snapshot:
        return collection(level_texts.read(self.text()))


def words_of(several: Sequence[Block]) -> List[bytes]:
    """The lines of text."""
    return sorted(line for block in several for part in (block.above, block.below)
                  for line in part if line)


class Laws(unittest.TestCase):
    def test_blocks_are_all_of_a_text(self) -> None:
        drawn = Drawn(1)
        for _ in range(COUNT):
            data = drawn.text()
            self.assertEqual(level_texts.text(level_texts.read(data)), data)

    def test_what_nobody_edited_is_the_exports(self) -> None:
        drawn = Drawn(2)
        for _ in range(COUNT):
            before, exports = drawn.collection(), drawn.collection()
            found = merged(Written(before), before, exports, [])
            self.assertEqual(level_texts.text(found.written.collection.blocks),
                             level_texts.text(exports.blocks))

    def test_no_line_is_lost(self) -> None:
        """Each line that was typed is in the collection, or is kept for a level that is away."""
        drawn = Drawn(3)
        for _ in range(COUNT):
            before, mine = drawn.collection(), drawn.collection()
            found = merged(Written(before), mine, before, [])
            there = {*words_of(found.written.collection.blocks),
                     *words_of([block for _, block in found.away])}
            typed = {*words_of(mine.blocks)} - {*words_of(before.blocks)}
            self.assertEqual(typed - there, set(), level_texts.text(mine.blocks).decode())

    def test_what_was_merged_stays(self) -> None:
        """Nothing changes if nobody types and the exports stay, also if they were others before."""
        drawn = Drawn(4)
        for _ in range(COUNT):
            before, typed, exports = drawn.collection(), drawn.collection(), drawn.collection()
            for several in (before, exports):
                once = merged(Written(before), typed, several, []).written
                mine = collection(level_texts.read(level_texts.text(once.collection.blocks)))
                again = merged(once, mine, several, []).written
                self.assertEqual(level_texts.text(again.collection.blocks).decode(),
                                 level_texts.text(once.collection.blocks).decode())
                self.assertEqual(again.places, once.places)

    def test_what_was_typed_goes_with_its_level(self) -> None:
        """Wherever the exports have it now; what was removed stays away."""
        drawn = Drawn(5)
        for _ in range(COUNT):
            lengths = drawn.chance.sample(range(9), drawn.chance.randrange(1, 6))
            blocks = [Block((), (b"#" * (it + 6), b"#@" + b" " * it + b"$ .#", b"#" * (it + 6)),
                            (b"Title: %d" % it, b"; gone")) for it in lengths]
            shuffled = drawn.chance.sample(blocks, len(blocks))
            mine = [it._replace(below=(it.below[0], b"; typed at %d" % len(it.rows[0])))
                    for it in blocks]
            found = merged(Written(collection(blocks)), collection(mine), collection(shuffled), [])
            self.assertEqual(
                [[it for it in block.below if it] for block in found.written.collection.blocks],
                [[it.below[0], b"; typed at %d" % len(it.rows[0])] for it in shuffled])
