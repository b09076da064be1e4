"""What a check keeps although the collection has no place for it: NAME.kept.xsb and
NAME.kept.answers.

That is an answer whose board is away or for which there is a better one, and text that was typed
for a level that is away. Each has its level in NAME.kept.xsb, after a comment that says whence it
came.
"""
import re
from collections import Counter
from typing import List, NamedTuple, Optional, Sequence, Set, Tuple

from . import answers, changes, forms, level_texts, merging, texts
from .level_texts import Block

_HEAD = b"; kept"
_WRITTEN = re.compile(rb"; kept(?: from level \d+)?(?:, (.*))?", re.S)


class Entry(NamedTuple):
    """The comment of a kept thing, its level with typed text, and its answer."""

    head: bytes
    block: Block
    record: Optional[answers.Record] = None

    @property
    def has_text(self) -> bool:
        """Whether text was typed for the level."""
        return bool(self.block.above or self.block.below)

    def stays(self, titles: Set[bytes]) -> bool:
        """Returns whether the comment or the text says something else than one of these titles.
        Then it stays, although there is no answer any more."""
        written = _WRITTEN.fullmatch(self.head)
        said = written[1] if written else self.head
        return self.has_text or bool(said) and said not in titles


class Kept(NamedTuple):
    """Kept things, the lines after the last answer, and the lines of a file without a level."""

    entries: List[Entry]
    rest: List[bytes]
    alone: level_texts.Lines = ()

    def collection(self) -> changes.Snapshot:
        return merging.collection([entry.block for entry in self.entries])

    def records(self) -> List[answers.Record]:
        """Returns the answers, numbered by the places of the levels from 1."""
        return [entry.record._replace(level=number) for number, entry in enumerate(self.entries, 1)
                if entry.record]

    def reasons(self, forms: Sequence[forms.Form]) -> List[str]:
        """Returns how many things are kept, and why. The forms are those of the collection."""
        keys = {form.key for form in forms}
        count = Counter(form.key in keys for entry, form in zip(
            self.entries, self.collection().forms) if entry.record)
        typed = [entry for entry in self.entries if entry.has_text]
        alone = [entry for entry in self.entries
                 if entry.head and not (entry.record or entry.has_text)]
        found = [(count[False], "answer", "of levels that are away"),
                 (count[True], "answer", "for which there are better ones"),
                 (len(typed), "text", "of levels that are away"),
                 (len(alone), "comment", "of levels that are back")]
        return [f"{texts.count(number, noun)} {why}" for number, noun, why in found if number]

    def files(self) -> Tuple[Optional[bytes], Optional[bytes]]:
        """Returns the contents of both files: None if there is nothing to keep."""
        listed = [entry.block._replace(above=(entry.head or _HEAD, *entry.block.above),
                                       below=(*_trimmed(entry.block.below), b""))
                  for entry in self.entries]
        records = [answers.spelled(record.apart) + record.text for record in self.records()]
        text = answers.spelled(self.alone) + level_texts.text(listed)
        has_answers = self.records() or any(self.rest)
        return (text if text.strip() else None,
                answers.text(records) + answers.spelled(self.rest) if has_answers else None)


def read(levels_text: bytes, found: answers.Answers) -> Kept:
    """Returns what two files have. A level with several answers is there several times."""
    records = texts.grouped((record.level, record) for record in found.records)
    entries = []
    for number, block in enumerate(level_texts.read(levels_text, _cut), 1):
        heads = [at for at, line in enumerate(block.above) if line.startswith(_HEAD)]
        at = heads[0] if heads else len(block.above)
        head = b"".join(block.above[at:at + 1])
        block = block._replace(above=block.above[:at] + block.above[at + 1:],
                               below=_trimmed(block.below))
        several = records.get(number, [])
        entries.append(Entry(head, block, several[0] if several else None))
        entries += [Entry(head, Block((), block.rows, ()), other) for other in several[1:]]
    return Kept(entries, found.rest, () if entries else tuple(texts.lines(levels_text)))


def head_of(number: int, title: str) -> bytes:
    """Returns the comment of a thing that came from a level."""
    return _HEAD + f" from level {number}".encode() + (f", {title}".encode() if title else b"")


def _trimmed(lines: level_texts.Lines) -> level_texts.Lines:
    """Returns lines without the empty ones at the end."""
    while lines and not lines[-1]:
        lines = lines[:-1]
    return lines


def _cut(gap: Sequence[bytes]) -> int:
    """Returns how many lines between two levels belong to the upper one: those before the comment
    of the lower one, which is written after an empty line. What was typed for either may begin in
    the same way."""
    heads = ([at for at, line in enumerate(gap) if _WRITTEN.fullmatch(line)]
             or [at for at, line in enumerate(gap) if line.startswith(_HEAD)])
    apart = [at for at in heads if at and not gap[at - 1]]
    return (apart or heads)[-1] if heads else level_texts.cut(gap)
