"""What the exports give, with a digest of all that was read. NAME.memory has it, so exports that
didn't change aren't converted again."""
import contextlib
import functools
import json
import pkgutil
from itertools import groupby
from typing import Any, Callable, Dict, Iterable, List, NamedTuple, Optional, Sequence

from . import __path__, answers, sources, texts
from .changes import Snapshot
from .level_texts import Block, packed, unpacked
from .merging import Written, collection
from .origins import Origins, Place, Problem


class Conversion(NamedTuple):
    """The digest of the exports; their levels with their texts, and their answers by the numbers of
    the levels; where each level comes from and what was left out; and notes of what was read with a
    change."""

    digest: str
    exports: Snapshot
    records: Sequence[answers.Record]
    origins: Origins
    notes: List[Problem]

    def data(self, written: Written, answered: Iterable[answers.Answer]) -> Any:
        """Returns this for a JSON file, or None if the digest isn't known. The files are named as
        they are published. What was written isn't there again: of a level that has its text in the
        collection there is nothing, and of an answer that is in NAME.answers its digest."""
        if not self.digest:
            return None
        known = {*answered}
        levels = {number: packed(block) for number, (block, there) in enumerate(
            zip(self.exports.blocks, _written(written, len(self.exports.blocks))))
                  if there is None or block[:3] != there[:3]}
        files = groupby(self.origins.levels, lambda place: place.published)
        return {"digest": self.digest, "levels": levels,
                "answers": [[it.level, _digest(it.answer) if it.answer in known
                             else it.answer.record(1).decode("utf-8", "surrogateescape")]
                            for it in self.records],
                "places": [[name, [place.line for place in places]] for name, places in files],
                "problems": [[place[1:], why] for place, why in self.origins.problems],
                "notes": [[place[1:], why] for place, why in self.notes]}


def _written(written: Written, count: int) -> List[Optional[Block]]:
    """Returns the blocks of a collection in the places that they have in the exports."""
    found: List[Optional[Block]] = [None] * count
    for place, block in zip(written.places, written.collection.blocks):
        if place is not None and place < count:
            found[place] = block._replace(typed=frozenset())
    return found


def _digest(answer: answers.Answer) -> str:
    return texts.digest(answer.record(1))


class Reading:
    """Exports, which may be read more than once, and digests of what was read last. `how` has all
    other things on which their conversion depends."""

    def __init__(self, listed: Sequence[sources.Export], *how: Any) -> None:
        self.listed = [export._replace(read=self._reader(export)) for export in listed]
        self._names = sources.published([export.name for export in listed])
        self._how = [code(), *how]
        self._digests: Dict[str, str] = {}

    def _reader(self, export: sources.Export) -> Callable[[], bytes]:
        def read() -> bytes:
            data = export.read()
            levels = sources.levels_of(export, self.listed) if answers.is_begun(data) else None
            if levels is None or levels in self.listed:
                self._digests[export.name] = texts.digest(data)
            return data
        return read

    def digest(self) -> str:
        """Returns the digest of all that was read, or "" if something else counts too: standard
        input, a file that can't be read, or levels that aren't listed."""
        if any(it.name == "-" or it.name not in self._digests for it in self.listed):
            return ""
        read = [(it.is_found, self._names[it.name], self._digests[it.name])
                for it in self.listed]
        return texts.digest(json.dumps([self._how, read]).encode())

    def remembered(self, data: Any, written: Written, answered: Iterable[answers.Answer]
                   ) -> Optional[Conversion]:
        """Returns a conversion that was remembered, if it is of these exports as they are now, and
        the collection and its answers still have what they had of it."""
        names = {published: name for name, published in self._names.items()}

        def place(published: str, line: int) -> Place:
            return Place(names.get(published, published), published, line)

        def problems(kind: str) -> List[Problem]:
            return [(place(*it), why) for it, why in data[kind]]

        if not data or any(it.name == "-" for it in self.listed):
            return None
        with contextlib.suppress(texts.Stop, KeyError, TypeError, ValueError, AttributeError,
                                 answers.Fault):
            for export in self.listed:
                export.read()
            sources.close()
            if self.digest() == data["digest"]:
                origins = [place(name, line) for name, lines in data["places"] for line in lines]
                blocks = _written(written, len(origins))
                for number, block in data["levels"].items():
                    blocks[int(number)] = unpacked(block)
                whole = [block for block in blocks if block]
                known = {_digest(it): it for it in answered}
                records = [answers.Record(level, known[it] if it in known else answers.answer_of(
                    it.encode("utf-8", "surrogateescape")), 0, []) for level, it in data["answers"]]
                return Conversion(
                    data["digest"], collection(whole), records,
                    Origins(origins, problems("problems")), problems("notes")
                ) if len(whole) == len(blocks) else None
        return None


@functools.lru_cache(maxsize=None)
def code() -> str:
    """Returns a digest of the modules that read exports and write files."""
    names = [f"{folder}/{module.name}.py"[1:] for folder in ("", "/commands", "/formats")
             for module in pkgutil.iter_modules([path + folder for path in __path__])
             if not module.ispkg]
    return texts.digest(b"".join(pkgutil.get_data("sokotool", name) or b"" for name in names))
