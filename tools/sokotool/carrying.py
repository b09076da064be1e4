"""Takes answers over to levels with other numbers: those that have the same board, perhaps turned,
mirrored or moved."""
import re
from typing import Dict, List, Sequence, Tuple

from . import answers, changes, forms, texts

_CELLS = rb"([0-9]{1,5},[0-9]{1,5}(?: [0-9]{1,5},[0-9]{1,5})*)"
_LINE = re.compile(rb"pattern %b @ (?:\*|%b)|zone %b" % (_CELLS, _CELLS, _CELLS))
_CELL = re.compile(rb"([0-9]{1,5}),([0-9]{1,5})")


def carried(records: Sequence[answers.Record], old: Sequence[forms.Form],
            new: Sequence[forms.Form]) -> Dict[int, List[Tuple[int, answers.Answer]]]:
    """Returns the answers that each new level gets, by its number, each with the index of its
    record. If it gets several, the one of the level that it was comes first."""
    before = {match.new: match.old for match in changes.matches_of_forms(old, new)}
    by_key = texts.grouped((form.key, index) for index, form in enumerate(new))
    found = texts.grouped((index + 1, (at, turned(record.answer, form, new[index])))
                          for at, record in enumerate(records)
                          for form in [old[record.level - 1]]
                          for index in by_key.get(form.key, ()))
    for number, several in found.items():
        several.sort(key=lambda one: records[one[0]].level - 1 != before.get(number - 1))
    return found


def turned(answer: answers.Answer, old: forms.Form, new: forms.Form) -> answers.Answer:
    """Returns an answer to a level for another level with the same board. Cells that don't count
    are left out, since they may be walls there, unless the rows are the same."""
    if old.level.rows == new.level.rows:
        return answer
    turn = old.turn_to(new)
    return answer.changed(lambda line: [turn.letters(line)] if answer.kind == "solution"
                          else _turned_line(line, old, turn))


def _turned_line(line: bytes, old: forms.Form, turn: forms.Turn) -> List[bytes]:
    """Returns a line of a certificate for the new board. Floor that doesn't count may be wall
    there: a zone doesn't need it, and no reachable state has a box there. Lines that aren't of the
    grammar stay unchanged."""
    match = _LINE.fullmatch(line)
    parts = match.groups(b"") if match else ()
    if not parts or any(answers.cells(_cells_of(part)) != part for part in parts):
        return [line]
    boxes, seeds, zone = map(_cells_of, parts)
    if zone:
        kept = [turn.cell(cell) for cell in zone if not old.is_outside(cell)]
        return [b"zone " + answers.cells(kept)] if kept else [line]
    if any(old.is_outside(box) for box in boxes):
        return []
    around = answers.cells(map(turn.cell, seeds)) if seeds else b"*"
    return [b"pattern %b @ %b" % (answers.cells(map(turn.cell, boxes)), around)]


def _cells_of(text: bytes) -> List[forms.Cell]:
    return [(int(x), int(y)) for x, y in _CELL.findall(text)]
