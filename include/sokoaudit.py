"""Verdicts on Sokoban levels from Python, by the library libsokoaudit.so.

sokoaudit.h explains each call, status and number. A text is bytes, or a string, which is passed as
UTF-8. The library is the one next to this file, or else the one that the system finds. It needs
Linux and a processor of x86-64-v2; on others the import fails, with OSError.

>>> found = judge("#####\\n#@$.#\\n#####", Kind.SOLUTION, "R")
>>> found.status.name, found.moves, words(found)
('SOLVED', 1, 'solved moves 1 pushes 1 changes 1')
"""
import ctypes
import enum
import operator
import os
import typing

VERSION = "0.3.0-dev"
Status = enum.IntEnum("Status", """SOLVED UNSOLVABLE_PATTERNS UNSOLVABLE_ZONE
    REFUSED_BOARD REFUSED_MOVE REFUSED_UNSOLVED REFUSED_LINE REFUSED_START REFUSED_PUSH
    REFUSED_LEAK REFUSED_FITS MISSING""")
Why = enum.IntEnum(
    "Why", "SIZE PLAYER BOX GOALS OPEN LETTER WALL BLOCKED CASE SYNTAX COUNT BOARD SEED")
Kind = enum.IntEnum("Kind", "SOLUTION CERTIFICATE")


class Line(typing.NamedTuple):
    """The verdict on a level. A field that means nothing is None, 0 or ''."""
    status: Status
    why: typing.Optional[Why]
    moves: int
    pushes: int
    changes: int
    patterns: int
    cells: int
    boxes: int
    number: int
    line: int
    column: int
    row: int
    direction: str


class Span(typing.NamedTuple):
    """Where a level is in its text: from byte `at` to before byte `end`, from 0."""
    at: int
    end: int


class Record(typing.NamedTuple):
    """Where a record is in its text: its level and kind, the line with which its body begins, from
    1, and from 0 the bytes where it begins, where its body begins and ends, and where it ends."""
    level: int
    kind: Kind
    line: int
    at: int
    body: int
    body_end: int
    end: int


class Counts(typing.NamedTuple):
    """How many levels there are, and how many of each kind."""
    levels: int
    solved: int
    unsolvable: int
    refused: int
    missing: int


class Fault(Exception):
    """Why there is no result: the number in sokoaudit.h, a line of the answers or 0, and words."""
    def __init__(self, number, line, text):
        super().__init__(text)
        self.number, self.line = number, line


class _Line(ctypes.Structure):
    _fields_ = [(name, ctypes.c_uint64) for name in Line._fields]


class _Span(ctypes.Structure):
    _fields_ = [(name, ctypes.c_size_t) for name in Span._fields]


class _Record(ctypes.Structure):
    _fields_ = [(name, ctypes.c_size_t) for name in Record._fields]


class _Outcome(ctypes.Structure):
    _fields_ = [(name, ctypes.c_size_t)
                for name in ("bytes", *Counts._fields, "records", "fault", "line")]


_BESIDE = os.path.join(os.path.dirname(os.path.abspath(__file__)), "libsokoaudit.so")
_LIBRARY = ctypes.CDLL(_BESIDE if os.path.exists(_BESIDE) else "libsokoaudit.so")
_TEXT, _BUFFER = (ctypes.c_char_p, ctypes.c_size_t), (ctypes.c_void_p, ctypes.c_size_t)
_OUTCOME = ctypes.POINTER(_Outcome)
for _name, _types in {
        "judge": (*_TEXT, ctypes.c_uint32, *_TEXT, ctypes.POINTER(_Line)),
        "lines": (*_TEXT, *_TEXT, *_BUFFER, _OUTCOME),
        "levels": (*_TEXT, *_BUFFER),
        "records": (*_TEXT, ctypes.c_size_t, *_BUFFER, _OUTCOME),
        "audit": (*_TEXT, *_TEXT, *_BUFFER, _OUTCOME),
        "make": (*_TEXT, *_BUFFER, _OUTCOME),
        "dead": (*_TEXT, ctypes.c_size_t, *_BUFFER, _OUTCOME),
        "fault_text": (_OUTCOME, *_BUFFER)}.items():
    getattr(_LIBRARY, f"sokoaudit_{_name}").argtypes = _types
_LIBRARY.sokoaudit_fault_text.restype = _LIBRARY.sokoaudit_levels.restype = ctypes.c_size_t
_FAULT = 2
_WORDLESS = {17: "the body has a line 'end'", 18: "no such kind"}


def _bytes(text):
    """The bytes of a text."""
    if not isinstance(text, (bytes, bytearray, memoryview, str)):
        raise TypeError(f"a text is bytes or str, not {type(text).__name__}")
    return text.encode() if isinstance(text, str) else bytes(text)


def _given(*texts):
    """The arguments of a call: a pointer to each text, and its length."""
    for text in map(_bytes, texts):
        yield from (text, len(text))


def _check(status, outcome):
    """Raises the fault of an outcome."""
    if status == _FAULT:
        text = ctypes.create_string_buffer(64)
        length = _LIBRARY.sokoaudit_fault_text(ctypes.byref(outcome), text, 64)
        said = _WORDLESS.get(outcome.fault) or text.raw[:length].decode()
        raise Fault(outcome.fault, outcome.line, said)


def _text(call, *given):
    """The text that a call writes, and its outcome."""
    outcome, space = _Outcome(bytes=1 << 16), 0
    while outcome.bytes > space:
        space = outcome.bytes
        buffer = ctypes.create_string_buffer(space)
        _check(call(*given, buffer, space, ctypes.byref(outcome)), outcome)
    return buffer.raw[:outcome.bytes], outcome


def _line(entry: ctypes.Structure) -> Line:
    """The verdict in an entry."""
    values = {name: getattr(entry, name) for name in Line._fields}
    status, *_, direction = Line._fields
    values[status] = Status(values[status])
    values["why"] = Why(values["why"]) if values["why"] else None
    values[direction] = chr(values[direction]).strip("\0")
    return Line(**values)


def _counts(outcome):
    return Counts(*(getattr(outcome, name) for name in Counts._fields))


def judge(level, kind, body):
    """The verdict on one level with the body of one record; its line counts in the body."""
    entry = _Line()
    fault = _LIBRARY.sokoaudit_judge(*_given(level), operator.index(kind), *_given(body),
                                     ctypes.byref(entry))
    _check(_FAULT if fault else 0, _Outcome(fault=fault))
    return _line(entry)


def lines(levels, answers):
    """The verdict on each level of a collection, in order: a list of Line, and the Counts."""
    outcome, space = _Outcome(), min(10000, _bytes(levels).count(b"\n") // 2 + 1)
    entries = (_Line * space)()
    given = (*_given(levels, answers), entries, space, ctypes.byref(outcome))
    _check(_LIBRARY.sokoaudit_lines(*given), outcome)
    return [_line(it) for it in entries[:outcome.levels]], _counts(outcome)


def spans(levels):
    """Where the levels of a text are, in order: a list of Span."""
    count = _LIBRARY.sokoaudit_levels(*_given(levels), (_Span * 0)(), 0)
    entries = (_Span * count)()
    _LIBRARY.sokoaudit_levels(*_given(levels), entries, count)
    return [Span(it.at, it.end) for it in entries]


def records(answers, levels=ctypes.c_size_t(-1).value):
    """Where the records of answers to this number of levels are, in order: a list of Record."""
    outcome, space = _Outcome(records=1 << 8), 0
    while outcome.records > space:
        space = outcome.records
        entries = (_Record * space)()
        given = (*_given(answers), operator.index(levels), entries, space, ctypes.byref(outcome))
        _check(_LIBRARY.sokoaudit_records(*given), outcome)
    return [Record(it.level, Kind(it.kind), it.line, it.at, it.body, it.body_end, it.end)
            for it in entries[:outcome.records]]


def audit(levels, answers):
    """The report, as bytes, and the Counts."""
    report, outcome = _text(_LIBRARY.sokoaudit_audit, *_given(levels, answers))
    return report, _counts(outcome)


def make(levels):
    """Made answers, as bytes, and the number of their records."""
    answers, outcome = _text(_LIBRARY.sokoaudit_make, *_given(levels))
    return answers, outcome.records


def dead(levels, number):
    """The map of a level, from 1, with its dead squares, as bytes."""
    return _text(_LIBRARY.sokoaudit_dead, *_given(levels), operator.index(number))[0]


def words(line):
    """What the report line says after 'level N'."""
    kind, _, what = line.status.name.lower().partition("_")
    why = line.why.name.lower() if line.why else ""
    place = f"{line.column},{line.row} {line.direction}"
    what = {
        "solved": f"moves {line.moves} pushes {line.pushes} changes {line.changes}",
        "patterns": f"patterns {line.patterns}", "zone": f"zone {line.cells}",
        "board": f"board {why}", "move": f"move {line.number} {why}",
        "unsolved": f"unsolved {line.boxes}", "line": f"line {line.line} {why}", "start": "start",
        "push": f"line {line.line} push {place}", "leak": f"line {line.line} leak {place}",
        "fits": f"line {line.line} fits", "missing": "",
    }[what or kind]
    return f"{kind} {what}".strip()
