"""Makes a case that differs smaller while it still differs, and keeps it."""
import argparse
import os
from typing import Callable, List, Sequence, TypeVar

from tests.reference import noise
from tests.reference.cases import Case
from tests.reference.comparing import Comparison
from tests.reference.noise import Pair

Item = TypeVar("Item")

TRIES = 2000


def smaller(items: List[Item], fails: Callable[[List[Item]], bool]) -> List[Item]:
    """Leaves out items, many at a time and then one by one, while the rest still fails."""
    size = max(1, len(items) // 2)
    while True:
        at = 0
        while at < len(items):
            rest = items[:at] + items[at + size:]
            if fails(rest):
                items = rest
            else:
                at += size
        if size == 1:
            return items
        size //= 2


def reduced(cases: Sequence[Case], pair: Pair, comparison: Comparison) -> Pair:
    """The smallest pair of texts found that differs. Leaves out cases, if their plain texts differ
    too, and then lines and words."""
    tries = [0]

    def differs(some: Pair) -> bool:
        tries[0] += 1
        return tries[0] < TRIES and bool(comparison.of(some, maps=3))

    if differs(noise.plain(cases)):
        cases = smaller(list(cases), lambda some: bool(some) and differs(noise.plain(some)))
        pair = noise.plain(cases)
    for cut in (b"\n", b" "):
        pair = by_parts(pair, cut, differs)
    return simpler_rows(pair, differs)


def by_parts(pair: Pair, cut: bytes, differs: Callable[[Pair], bool]) -> Pair:
    """Leaves out lines or words of the answers, and lines of the levels."""
    levels, answers = pair
    parts = smaller(answers.split(cut), lambda some: differs((levels, cut.join(some))))
    answers = cut.join(parts)
    if cut == b"\n":
        lines = smaller(levels.split(cut), lambda some: differs((cut.join(some), answers)))
        levels = cut.join(lines)
    return levels, answers


def simpler_rows(pair: Pair, differs: Callable[[Pair], bool]) -> Pair:
    """Replaces other characters of the levels by walls or floor, one by one."""
    levels, answers = pair
    for at in range(len(levels)):
        if levels[at:at + 1] in b"@$*.+ ":
            for byte in (b"#", b" "):
                other = levels[:at] + byte + levels[at + 1:]
                if other != levels and differs((other, answers)):
                    levels = other
                    break
    return levels, answers


def keep(arguments: argparse.Namespace, pair: Pair, comparison: Comparison) -> str:
    """Writes the two texts. Returns the difference and the commands that show it."""
    os.makedirs(arguments.keep, exist_ok=True)
    names = [os.path.join(arguments.keep, "%d.%s" % (arguments.seed, end))
             for end in ("xsb", "answers")]
    for name, text in zip(names, pair):
        with open(name, "wb") as file:
            file.write(text)
    found = comparison.of(pair, maps=3) or "nothing: the difference does not occur again"
    command, level = (found.split() + [""])[:2]
    words = {"make": names[0], "dead": "%s %s" % (names[0], level)}.get(command, " ".join(names))
    command = command if command in ("make", "dead") else "audit"
    parts = found, arguments.program, command, words, command, words
    return "reduced: %s\n  %s %s %s\n  reference/sokoaudit %s %s" % parts
