"""Brings what a keeper typed into a collection together with what its exports have now.

What was typed is what differs from the text that the last check wrote. It wins over the exports,
and goes with its level when that gets another number.
"""
from typing import Dict, Hashable, List, NamedTuple, Optional, Sequence, Set, Tuple

from . import changes, forms, levels, texts
from .level_texts import ABOVE, BELOW, LEVEL, Block, separated, text
from .changes import Snapshot


class Written(NamedTuple):
    """What a check wrote: the collection, for each level its index in the exports then, or None,
    digests of the levels of the exports with their texts, and whether the keeper chose the order.
    """

    collection: Snapshot
    places: Sequence[Optional[int]] = ()
    sources: Sequence[str] = ()
    is_ordered: bool = False


class Merged(NamedTuple):
    """The new collection as it is written, with the indices of its levels in the exports; the typed
    texts that have no level now, each with the index that its level had; the indices in `stored` of
    texts that are back; and the numbers of the levels that were edited since the last check."""

    written: Written
    away: List[Tuple[int, Block]]
    back: Set[int]
    edited: List[int]


def collection(blocks: Sequence[Block]) -> Snapshot:
    """Returns a collection of these blocks, with an empty line between levels without text."""
    apart = separated(blocks)
    found = levels.read(text(apart))
    return Snapshot(found, forms.forms_of(found), (), apart)


def merged(written: Written, mine: Snapshot, exports: Snapshot, stored: Sequence[Block]
           ) -> Merged:
    """Merges a collection as the last check wrote it, as it is now, and as the exports have it.
    `stored` has typed texts of levels that were away."""
    was = {match.new: match.old
           for match in changes.matches_of_forms(written.collection.forms, mine.forms)}
    order = [was[index] for index in range(len(mine.blocks)) if index in was]
    is_ordered = written.is_ordered or order != sorted(order)
    marked, fresh = _marked(written.collection.blocks, mine.blocks, was)
    sources = [texts.digest(text([block])) for block in exports.blocks]
    # the indices in the exports by those now; a typed level is found by its board alone
    level_of = {match.old: match.new
                for match in changes.matches(mine, exports, _paired(written, was, sources))
                if match.turn is not None or LEVEL not in marked[match.old].typed}
    index_of = {now: old for old, now in level_of.items()}
    found: Dict[Hashable, Block] = {
        now: _over(block, marked[index_of[now]]) if now in index_of else block
        for now, block in enumerate(exports.blocks)}
    away = []
    for index, block in enumerate(marked):
        if index not in level_of and LEVEL in block.typed:
            found["own", index] = block
        elif index not in level_of and block.typed:
            away.append((index, block._replace(above=block.above if ABOVE in block.typed else (),
                                               below=block.below if BELOW in block.typed else ())))
    back = _take_back(found, stored, exports.forms, set(index_of))
    names: List[Hashable] = [level_of.get(index, ("own", index)) for index in range(len(marked))]
    ours, theirs = [name for name in names if name in found], list(range(len(exports.blocks)))
    placed = _placed(ours, theirs) if is_ordered else _placed(theirs, ours)
    new = {names[index] for index in fresh}
    edited = [number for number, name in enumerate(placed, 1) if found[name].typed and name in new]
    places = [name if isinstance(name, int) else None for name in placed]
    made = Written(collection([found[name] for name in placed]), places, sources, is_ordered)
    return Merged(made, away, back, edited)


def _marked(written: Sequence[Block], mine: Sequence[Block], was: Dict[int, int]
            ) -> Tuple[List[Block], Set[int]]:
    """Returns the blocks as they are now, with what of them was typed, and the indices of those
    that were edited since the last check. `was` has the indices before by those now."""
    before = [written[was[index]] if index in was else Block((), (), (), frozenset([LEVEL]))
              for index in range(len(mine))]
    found = [block._replace(rows=now.rows) for block, now in zip(before, mine)]
    fresh = set(range(len(mine))) - set(was)
    for at in range(len(mine) + 1):
        now = (mine[at - 1].below if at else ()) + (mine[at].above if at < len(mine) else ())
        then = (before[at - 1].below if at else ()) + (before[at].above if at < len(mine) else ())
        if now == then or not then and now == (b"",):
            continue
        if at:
            upper = found[at - 1]
            found[at - 1] = upper._replace(below=mine[at - 1].below, typed=upper.typed | {BELOW})
            fresh.add(at - 1)
        if at < len(mine):
            lower = found[at]
            found[at] = lower._replace(above=mine[at].above, typed=lower.typed | {ABOVE})
            fresh.add(at)
    return found, fresh


def _paired(written: Written, was: Dict[int, int], sources: Sequence[str]
            ) -> List[Tuple[int, int]]:
    """Returns the indices now, each with that in the exports, as the last check paired them, for
    levels whose text in the exports is the same. Otherwise duplicates could change places."""
    waiting = texts.grouped((source, at) for at, source in reversed(list(enumerate(sources))))
    place_of = {place: waiting[source].pop() for place, source in enumerate(written.sources)
                if waiting.get(source)}
    now = {old: place_of[place] for old, place in enumerate(written.places) if place in place_of}
    return [(index, now[old]) for index, old in was.items() if old in now]


def _over(block: Block, typed: Block) -> Block:
    """Returns a block of the exports with the typed text of another one. Empty lines alone are no
    text."""
    if ABOVE in typed.typed and any(typed.above + block.above) and typed.above != block.above:
        block = block._replace(above=typed.above, typed=block.typed | {ABOVE})
    if BELOW in typed.typed and any(typed.below + block.below) and typed.below != block.below:
        block = block._replace(below=typed.below, typed=block.typed | {BELOW})
    return block


def _take_back(found: Dict[Hashable, Block], stored: Sequence[Block],
               theirs: Sequence[forms.Form], known: Set[int]) -> Set[int]:
    """Gives stored texts to levels that have their boards again. Returns the indices of the texts.
    `known` has the indices of levels that were there before."""
    back = set()
    by_key = texts.grouped((form.key, index) for index, form in enumerate(theirs))
    for at, form in enumerate(collection(stored).forms):
        free = [index for index in by_key.get(form.key, ()) if index not in known]
        if free and (stored[at].above or stored[at].below):
            known.add(free[0])
            kinds = frozenset(kind for kind, part in ((ABOVE, stored[at].above),
                                                      (BELOW, stored[at].below)) if part)
            found[free[0]] = _over(found[free[0]], stored[at]._replace(typed=kinds))
            back.add(at)
    return back


def _placed(order: Sequence[Hashable], others: Sequence[Hashable]) -> List[Hashable]:
    """Returns names in an order. The names that only `others` has come after the names that they
    follow there."""
    known = set(order)
    after: Dict[Optional[Hashable], List[Hashable]] = {None: []}
    last: Optional[Hashable] = None
    for name in others:
        if name in known:
            last = name
        else:
            after.setdefault(last, []).append(name)
    return after[None] + [it for name in order for it in [name, *after.get(name, [])]]
