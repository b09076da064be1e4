"""A text for each entrant of a contest, to mail: the place, and of each level what the answer is,
and why one is refused, with the position there."""
import os
import re
import textwrap
from typing import Dict, Iterator, List, Sequence, Tuple

from . import messages, output, system, texts
from .board import board_of
from .contest import STANDINGS_HEAD, Contest, Refusal, Row
from .entrants import Entrant

END = ".result.txt"
_WIDTH = 76


def written(contest: Contest, name: str, folder: str) -> List[output.File]:
    """Returns the texts by the names of their files in a folder. `name` is that of the levels."""
    refused = {(it.entrant.name, it.level.number): it for it in contest.refusals()}
    standings = {row[1]: row for row in contest.standings()}
    names: Dict[str, Entrant] = {}
    for entrant in contest.entrants:
        stem = re.sub(r"[^\w.+-]+", "-", entrant.name).strip("-.") or "entrant"
        stem = f"_{stem}" if system.is_device(stem) else stem
        others = (stem, *(f"{stem}-{number}" for number in range(2, len(contest.entrants) + 2)))
        names[next(it for it in others if it not in names)] = entrant
    return [(os.path.join(folder, stem + END), "".join(f"{line}\n" for line in [
        f"Contest {texts.shown(os.path.basename(name))}, entrant {entrant.name}",
        *_lines(contest, entrant, standings[entrant.name], refused)]).encode())
            for stem, entrant in names.items()]


def _lines(contest: Contest, entrant: Entrant, standing: Row,
           refused: Dict[Tuple[str, int], Refusal]) -> Iterator[str]:
    if entrant.fault:
        yield f"The file could not be audited: {entrant.fault}"
        yield from _wrapped(messages.of_fault(entrant.fault))
    else:
        of = dict(zip(STANDINGS_HEAD, standing))
        yield (f"Place {of['place']}: {of['solved']} solved, {of['unsolvable']} unsolvable, "
               f"{of['refused']} refused, {of['missing']} missing; {of['moves']} moves and "
               f"{of['pushes']} pushes in all")
    if entrant.said:
        yield from ["", "What was left out or changed in the file:",
                    *(f"  {said}" for said in entrant.said)]
    for level, line in zip(contest.levels, entrant.lines):
        marks = [f", {mark} by {way}" for mark, way in zip(
            contest.marks(level.number, entrant.name), ("moves", "pushes")) if mark]
        title = f"Level {level.number}, {level.title}".rstrip(" ,")
        yield from ["", f"{title}: {line.said}{''.join(marks)}"]
        if refusal := refused.get((entrant.name, level.number)):
            yield from _wrapped(refusal.why())
            yield from (f"    {it}" for it in _picture(refusal))
        elif line.status == "refused":
            yield from _wrapped(messages.advice(level, line))


def _wrapped(text: str) -> Sequence[str]:
    return [f"  {line}" for line in textwrap.wrap(text, _WIDTH)]


def _picture(refusal: Refusal) -> List[str]:
    """Returns the position in which letters are refused, or the line of a certificate that is."""
    _, level, line, record = refusal
    if line.words[0] == "line":
        return [texts.shown(it)[:_WIDTH] for number, it in record.body
                if str(number) == line.words[1]]
    if record.kind != "solution" or line.words[0] == "board":
        return []
    board = board_of(level)
    replay = board.replay(record.letters)
    return board.drawn(replay.boxes, replay.player)
