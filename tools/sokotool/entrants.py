"""The entrants of a contest: what each has sent, read and audited within limits, so that a file
costs only its entrant."""
import os
import sys
import tempfile
from functools import cached_property
from typing import Callable, Dict, Iterator, List, NamedTuple, Sequence, Tuple

from . import answers, auditor, builder, confined, forms, levels, output, report, sources, texts
from .board import board_of
from .carrying import carried
from .commands import convert
from .origins import Place


class Limits(NamedTuple):
    """The seconds and the megabytes that the reading of a file may take, and its audit again."""

    seconds: float
    megabytes: int


class Read(NamedTuple):
    """The answers in an entrant's file, and what is left out or wrong there."""

    answers: bytes
    said: List[str]


class Entrant:
    """An entrant: the name, the answers, their report lines, or the reason why there are none, and
    what is left out of the file."""

    def __init__(self, name: str, read: Read, lines: Sequence[report.Line], fault: str) -> None:
        self.name, self.answers, self.said = name, *read
        self.lines, self.fault = lines, fault

    @cached_property
    def records(self) -> Dict[int, answers.Record]:
        """The answers by the numbers of their levels; none of a file that couldn't be audited."""
        return {} if self.fault else {it.level: it for it in answers.read(self.answers).records}


def audited(data: bytes, found: Sequence[levels.Level], files: Sequence[str], limits: Limits
            ) -> Iterator[Entrant]:
    """Yields the entrants, each file audited by itself. `data` has the levels."""
    program = auditor.find()
    if program.is_reference and not auditor.is_quiet():
        print(f"table: {auditor.REFERENCE_NOTE}", file=sys.stderr)
    with tempfile.TemporaryDirectory() as folder:
        path, given = (os.path.join(folder, name) for name in ("levels", "answers"))
        output.write_files([(path, data)])
        for name, file in zip(names_of(files), files):
            try:
                mine = Read(*confined.result(_read, file, found, **limits._asdict()))
            except texts.Stop as stop:
                yield Entrant(name, Read(b"", []), [], str(stop))
                continue
            output.write_files([(given, mine.answers)])
            ran = program.run("audit", path, given, **limits._asdict())
            read = report.read(ran.out)
            fault = read.fault(len(found)) and (ran.fault or "no report")
            yield Entrant(name, mine, [] if fault else read.lines, fault or "")


def names_of(files: Sequence[str]) -> List[str]:
    """Returns the names of entrants: the names of their files, or whole paths if two are equal."""
    paths = [name[:-8] if name.endswith(".answers") else name for name in files]
    for names in ([os.path.basename(path) for path in paths], paths, files):
        if len(set(names)) == len(names):
            break
    return [texts.shown(name) for name in names]


# ---- what an entrant has sent

def _read(file: str, found: Sequence[levels.Level]) -> Read:
    """Returns the answers of an entrant's file for these levels: as they are there, or from an
    export."""
    data = texts.read(file)
    said: List[str] = []

    def say(place: Place, why: str, _: bool = True) -> None:
        if place.file == file:
            said.append(place.said(why))

    if answers.is_begun(data):
        return Read(_sorted(texts.in_utf8(data), found,
                            lambda line, why: say(Place(file, file, line), why)), said)

    # only the boards and titles, for solutions may be beside the levels
    bare = b"".join(b"\n".join([b"Title: " + level.title.encode(), *level.rows, b"", b""])
                    for level in found)
    collection = builder.Collection(builder.MOVES, True, "", say)
    convert.read_files(collection, [sources.Export("levels", lambda: bare, False),
                                    sources.Export(file, lambda: data, False)])
    old: List[levels.Level] = []
    read: List[answers.Record] = []
    for text, written in collection.parts():
        first = len(old)
        old += levels.read(text)
        read += [it._replace(level=first + it.level) for it in answers.read(written).records]
    kept = carried(read, forms.forms_of(old), forms.forms_of(found))
    if not kept:
        raise texts.Stop("; ".join([
            "no answers file, and no solution of these levels is read in it", *said[:1]]))
    best = {number: min((it for _, it in several), key=lambda it: len(it.letters))
            for number, several in kept.items()}
    return Read(answers.text([it.record(number) for number, it in sorted(best.items())]), said)


def _sorted(data: bytes, found: Sequence[levels.Level], say: Callable[[int, str], None]) -> bytes:
    """Returns an answers file as it is if its records are in order, and otherwise sorted: of
    several for a level the best one, and none of a level that isn't there. The audit reports all
    other faults."""
    try:
        answers.read(data, len(found))
        return data
    except answers.Fault:
        pass
    try:
        read = answers.read(data, rising=False)
    except answers.Fault:
        return data
    known = [it for it in read.records if it.level <= len(found)]
    lines = texts.lines(data)
    for record in read.records:
        if record.level > len(found):
            say(record.line, f"there is no {texts.shown(lines[record.line - 1])}: this record "
                "doesn't count")
    line = next((two.line for one, two in zip(known, known[1:]) if two.level <= one.level), 0)
    if line:
        say(line, "the records aren't in order, or several are for a level: they count as if they "
            "were sorted, the best one of each level")
    by_level = texts.grouped((it.level, it) for it in known)
    return answers.text([min(several, key=lambda it: _rank(it, found[level - 1])).text
                         for level, several in sorted(by_level.items())], read.version)


def _rank(record: answers.Record, level: levels.Level) -> Tuple[int, int, int]:
    """Orders the records of a level: solutions that solve it, by their counts, before all others.
    """
    board = board_of(level)
    if record.kind != "solution" or board.player is None:
        return (1, 0, 0)
    replay = board.replay(record.letters)
    return (2 if replay.fault else 0, replay.moves, replay.pushes)
