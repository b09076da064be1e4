"""The words of a report and the errors of the program, each with what it means and what to do.

docs/messages.md has the same table, and the pages show its sentences. A key is what a report says
after the level's number, without the numbers and cells in it, or an error without its line.
"""
import re
from typing import Dict, Tuple

from . import report, texts
from .levels import Level

# by words: the meaning, and the cure
REFUSALS: Dict[str, Tuple[str, str]] = {
    "board size": ("The level has more than 255 columns or rows.",
                   "Cut the empty rows and columns around it."),
    "board player": ("The level doesn't have exactly one player, @ or +.",
                     "Look for an empty line within the level, which makes two levels of it."),
    "board box": ("The level has no box, $ or *.", "Check whether text is read as a level."),
    "board goals": ("The level has more boxes than goals.",
                    "Look for a missing row, or for a goal under a box that should be *."),
    "board open": ("The player could walk out of the level.",
                   "Look for a missing wall, a tab, or a row that was cut off."),
    "line syntax": ("The line isn't a pattern or a zone.",
                    "Write a cell as column,row without a space, the cells in reading order, and a "
                    "space on each side of @; sokotool warn names the mistake."),
    "line count": ("The list has more than 65,536 patterns.", "Write fewer or smaller patterns."),
    "line board": ("The line names a cell off the board.",
                   "Count columns and rows from 1, with the walls, and write the column before the "
                   "row."),
    "line wall": ("The line puts a box, or a cell of the zone, on a wall.",
                  "Check whether rows come before columns, or are counted from 0."),
    "line seed": ("The line puts the player outside the room or on a box of the pattern.",
                  "Name a cell that the player can reach."),
    "line goals": ("Every box of the pattern is on a goal, so the pattern may be solved.",
                   "Name at least one box that is off the goals."),
    "line push": ("No pattern of the list covers the result of this push.",
                  "Add a pattern for the result, or name the player's side in this line."),
    "line leak": ("A push takes a box out of the zone.", "Add the cell that the box goes to."),
    "line fits": ("The zone has no more boxes than goals.",
                  "Widen the zone to more boxes, or look for another reason."),
    "start": ("No pattern of the list covers the start of the level.",
              "Add a pattern whose boxes are there at the start, with the player in its region."),
    "move letter": ("The letter is none of l u r d L U R D.",
                    "Remove it, or let sokotool convert read the file."),
    "move wall": ("The step goes into a wall.", "Check whether the answer is of another level."),
    "move blocked": ("The box can't be pushed, because a wall or a box is behind it.",
                     "Check whether the answer is of another level, or lacks a letter."),
    "move case": ("A push is a capital letter, and a step without a push a small one.",
                  "Let sokotool convert write the letters in the right case."),
    "unsolved": ("The letters end with boxes off the goals.",
                 "Check whether the end of the solution was cut off."),
}
VERDICTS: Dict[str, Tuple[str, str]] = {
    "solved": ("The letters solve the level, with exactly these counts.", ""),
    "unsolvable": ("No list of moves, of any length, solves the level.", ""),
    "missing": ("The level is legal and has no answer.",
                "Add one, or let sokotool check search for it."),
}
ERRORS: Dict[str, Tuple[str, str]] = {
    "cannot read levels": ("The file of levels can't be opened or read.",
                           "Check its name and its permissions."),
    "cannot read answers": ("The file of answers can't be opened or read.",
                            "Check its name and its permissions."),
    "cannot write": ("Writing to standard output failed.",
                     "Check whether the disk is full or the reader has ended."),
    "levels too long": ("The file has more than 33,554,432 bytes.", "Split the collection."),
    "answers too long": ("The file has more than 33,554,432 bytes.", "Split the collection."),
    "too many levels": ("The file has more than 10,000 levels.", "Split the collection."),
    "answers header": ("The first line isn't 'sokoban-answers 1' or 'sokoban-answers 2'.",
                       "Check whether the files are swapped, or the file begins with a byte order "
                       "mark."),
    "answers level": ("The line should be 'level' and a number from 1.",
                      "Begin each record with such a line."),
    "answers order": ("The number isn't above the number of the record before.",
                      "Sort the records, or let sokotool merge do it."),
    "answers unknown": ("The collection has fewer levels than this number.",
                        "Check whether the answers are of another collection."),
    "answers kind": ("The line should be 'solution' or 'unsolvable'.",
                     "Write one of these words after the level line."),
    "answers unclosed": ("The file ends inside a record.", "Add the line 'end'."),
    "no such level": ("The collection has fewer levels.", "Count the levels from 1."),
    "out of memory": ("The system refused memory.", "Raise the limit, or split the collection."),
    "words not in UTF-8": ("An argument isn't valid UTF-8.", "Rename the file."),
}


def reason(level: Level, said: report.Line, mistake: str = "") -> str:
    """Returns in a sentence why a level is refused or has no answer, with the numbers of its board
    and the mistake in its answer, or "" for an answered level."""
    if said.status == "missing":
        return VERDICTS["missing"][0]
    key = _key(said)
    here = f" Here: {mistake}." if mistake else ""
    return REFUSALS[key][0] + _numbers(level, key) + here if key in REFUSALS else ""


def advice(level: Level, said: report.Line, mistake: str = "") -> str:
    """Returns the reason, and what to do."""
    return " ".join([reason(level, said, mistake), *REFUSALS.get(_key(said), ())[1:]]).strip()


def of_fault(fault: str) -> str:
    """Returns what a fault of the program means, and what to do, or ""."""
    return " ".join(ERRORS.get(re.sub(r" line \d+", "", fault), ()))


def _key(said: report.Line) -> str:
    """Returns the words of a refusal without its numbers and cells."""
    fields = said.fields()
    return " ".join(filter(None, (fields.get("refused"), fields.get("why"))))


def _numbers(level: Level, key: str) -> str:
    """Returns the numbers for which a board is refused."""
    drawn = b"".join(level.rows)

    def counted(kinds: bytes, noun: str) -> str:
        return texts.count(sum(drawn.count(kind) for kind in kinds), noun)
    if key == "board goals":
        return f" It has {counted(b'$*', 'box')} and {counted(b'.*+', 'goal')}."
    return f" It has {counted(b'@+', 'player')}." if key == "board player" else ""
