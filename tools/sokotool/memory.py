"""The file NAME.memory: what a check remembers until the next one."""
import json
from functools import lru_cache
from types import MappingProxyType
from typing import Any, Dict, List, Mapping, NamedTuple, Optional, Sequence, Tuple

from . import answers, texts
from .forms import Form, form_of
from .level_texts import packed, packed_rows, unpacked, unpacked_rows
from .levels import Level
from .merging import Written, collection
from .outcomes import Outcomes


# an answer that was found and has no place yet, with the form of its level
Find = Tuple[Form, answers.Answer]


class Memory(NamedTuple):
    """What the last check wrote, the outcomes of searches, digests of the answers that were
    computed, and what was found and isn't in NAME.answers. `exports` has the conversion of the
    exports, and `made` digests: of the page and what it is made of, of the table, and of answers
    that were all accepted.
    """

    written: Written
    outcomes: Outcomes
    computed: List[str]
    found: Sequence[Find] = ()
    exports: Any = None
    made: Mapping[str, str] = MappingProxyType({})


def read(data: Optional[bytes], name: str) -> Memory:
    """Returns what a file of this name says, or an empty memory if there is none."""
    if data is None:
        return Memory(Written(collection([])), Outcomes({}), [])
    try:
        found = _parsed(data)
        return found._replace(outcomes=Outcomes(
            {board: {**ways} for board, ways in found.outcomes.items()}))
    except (ValueError, TypeError, KeyError, AttributeError, IndexError, answers.Fault):
        raise texts.Stop(_why_damaged(data, name)) from None


@lru_cache(maxsize=1)
def _parsed(data: bytes) -> Memory:
    found: Any = json.loads(data)
    written = Written(collection([unpacked(it) for it in found["levels"]]),
                      found.get("places", []), found.get("sources", []), bool(found["ordered"]))
    return Memory(written, Outcomes(
        {board: {way: (what, seconds) for way, (what, seconds) in ways.items()}
         for board, ways in found["searched"].items()}), found["computed"],
                  [(form_of(Level(1, list(unpacked_rows(rows)), 1)),
                    answers.answer_of(record.encode()))
                   for rows, record in found.get("found", [])],
                  found.get("exports"), dict(found.get("made", {})))


def _why_damaged(data: bytes, name: str) -> str:
    """Returns what to do about a file that can't be read."""
    shown = texts.shown(name)
    if texts.conflict(data):
        return (f"{shown} has marks of a merge in git: take either version, by "
                f"'git checkout --ours {shown}', and then run check")
    return f"{shown} is damaged: remove it"


def text(memory: Memory) -> bytes:
    """Returns the bytes of the file."""
    data: Dict[str, Any] = {
        "levels": [packed(block) for block in memory.written.collection.blocks],
        "places": memory.written.places, "sources": memory.written.sources,
        "ordered": memory.written.is_ordered, "searched": memory.outcomes,
        "computed": memory.computed, "exports": memory.exports, "made": {**memory.made}}
    if memory.found:
        data["found"] = [[packed_rows(form.level.rows), answer.record(1).decode()]
                         for form, answer in memory.found]
    return _spread(data).encode() + b"\n"


def _spread(data: Any, depth: int = 2) -> str:
    """Returns JSON with a line for each item of some depth. An indent would take three times as
    long, since Python has no fast encoder for it."""
    if depth and isinstance(data, dict) and data:
        return "{\n" + ",\n".join(f"{json.dumps(name)}: {_spread(data[name], depth - 1)}"
                                  for name in sorted(data)) + "\n}"
    if depth and isinstance(data, list) and data:
        return "[\n" + ",\n".join(_spread(it, depth - 1) for it in data) + "\n]"
    return json.dumps(data, sort_keys=True)
