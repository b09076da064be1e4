"""The rows of levels that a line of text has, in any dress, made plain.

- plain     only the auditor's characters, and a wall
- coded     run-length coded (4#, 3(ab)), or in letters (b B p P o)
- joined    the rows of a level in one line, between other words, as in a table or a string
- marked    floor outside the walls as ~ x ^
- dressed   between tags and the like
- string    a row in a string of a program, or as the value of a key
- beside    a row with a quote, a comma or a remark beside it

Each may be indented by tabs, or quoted by '>' as in mail. The lines beside them decide which are
levels: see `level_rows`.
"""
import re
from typing import List, NamedTuple, Optional, Sequence, Tuple

from .. import levels
from ..levels import BOXES, GOALS, LETTERS, PLAYERS, ROW
from . import coding, markup

WIDEST = levels.LARGEST_SIDE
FEWEST_ROWS = 3
# no longer line has one row, and none has a level
LONGEST, LONGEST_JOINED = 20_000, 1 << 20
# marks of the floor outside the walls
OUTER = "~x^"
_CELL = ROW + "0-9bBpPo()"
_MAY_BE = re.compile("[#&\uff03\u2588]")
_PLAIN, _CELLS, _MARKED = (re.compile(f"[{cells}]*") for cells in (ROW, _CELL, ROW + OUTER))
_LEAD = re.compile(r"(?:\t+|: (?=[-_ ]*#)|(?:> ?)+)?")
# what parts the rows of a level that is in one line
_ENDS = "|", "\\n", '","', '", "', "','", "', '", "/", "!"
_THINGS = frozenset(PLAYERS + BOXES + GOALS)
_TITLE = re.compile(r"""["'](?:title|name)["']\s*:\s*(?:"([^"]+)"|'([^']+)')""", re.I)
_KEY = re.compile(r"""(["'])\w+\1\s*:""")
_KEY_BEFORE = re.compile(r"""[^\w"'`]*(["'])\w+\1\s*:[^\w"'`]*""")
_KEYED = re.compile(rf"[A-Za-z]\w{{0,15}} ?= ?([{ROW}]*#[{ROW}]*)")
_BETWEEN_ROWS = re.compile(r"""[^\w({\["'`]*[rbfuRBFU]?""")
_QUOTES = "\"'`"


class Row(NamedTuple):
    """A line that may be a row, or several rows of a level, with an empty one between two levels.
    `lead` is what is in front of it, which the rows of a level have in common. `goes_on` joins it
    to the next line, and `begins` and `ends` part it from others. `titles`, one for each
    level, and `rest` are what is beside it."""

    kind: str
    rows: Tuple[str, ...]
    lead: str = ""
    goes_on: bool = False
    begins: bool = False
    ends: bool = False
    titles: Tuple[str, ...] = ()
    rest: str = ""

    @property
    def are_walls(self) -> bool:
        """Whether it has only walls and floor, as the first and last row of a level."""
        return not any(_THINGS.intersection(row) for row in self.rows)

    def goes_with(self, after: "Row") -> bool:
        """Returns whether the row of the next line may be one of the same level."""
        return self.lead == after.lead and not self.ends and not after.begins and (
            self.goes_on or "joined" not in (self.kind, after.kind))


def is_plain(line: str) -> bool:
    """Returns whether the auditor reads a line as a row."""
    return "#" in line and bool(_PLAIN.fullmatch(line))


def row_of(line: str, is_bare: bool = False) -> Optional[Row]:
    """Returns the row that a line may be, or None. A bare one has lost its dress."""
    if not _MAY_BE.search(line) or line.lstrip().startswith("::"):
        return None
    if is_plain(line):
        return Row("plain", (line,))
    if len(line) > LONGEST:
        return _joined(line) if len(line) <= LONGEST_JOINED else None
    lead = _LEAD.match(line)[0]  # type: ignore[index]
    core = line[len(lead):].rstrip(" \t")
    if is_plain(core):
        return Row("plain", (core,), lead)
    if "#" in core and _CELLS.fullmatch(core):
        spelled = _spelled([core])
        return Row("coded", spelled, lead) if spelled else None
    if "#" in core and core.endswith("|") and not core.startswith("|"):
        spelled = _spelled([part for part in core.split("|") if part])
        if spelled:
            return Row("joined", spelled, lead, goes_on=True)
    if "#" in core and _MARKED.fullmatch(core):
        return Row("marked", (core,), lead)
    found = _string(core) or _keyed(core) or _cell(core) or _beside(core)
    if found:
        return found
    bare = line if is_bare else markup.narrow(markup.untagged(line))
    if bare == line:
        return _joined(core)
    found = row_of(bare, True)
    return found._replace(kind="dressed") if found and found.kind == "plain" else found


def _spelled(parts: Sequence[str]) -> Optional[Tuple[str, ...]]:
    """Returns the rows that coded parts of a line are, written out, or None."""
    line = "|".join(parts)
    if not _CELLS.fullmatch(line.replace("|", "")):
        return None
    # A row has no blank beside a number, and no number after a wall if there is nothing else.
    if re.search("[0-9]", line) and (
            " " in line.strip(" ") or re.search("(?<![0-9])[01](?![0-9])|(?<![0-9])0", line)):
        return None
    if not line.strip("#0123456789") and re.search("#[0-9]", line):
        return None
    try:
        text = coding.expand(line, WIDEST * (WIDEST + 1))
    except coding.Wrong:
        return None
    found = tuple(row.rstrip() for row in text.translate(LETTERS).split("|") if row.strip())
    is_level = all(map(_is_enclosed, found)) and max(map(len, found), default=0) > 2
    return found if is_level else None


def _is_enclosed(row: str) -> bool:
    core = row.strip("-_ ")
    return len(row) <= WIDEST and core.startswith("#") and core.endswith("#")


def _joined(line: str) -> Optional[Row]:
    """Returns the levels within one line, as in a table, between other words."""
    line = line.replace("\\r\\n", "\\n")
    for mark in _ENDS:
        if line.count(mark) < FEWEST_ROWS - 1:
            continue
        found, around = _levels_within(line.split(mark), mark)
        if found:
            titles, rest = _words_of(around)
            return Row("joined", tuple(found), titles=titles, rest=rest)
    return None


def _levels_within(parts: List[str], mark: str) -> Tuple[List[str], List[str]]:
    """Returns the rows of the levels in the parts of a line, with an empty one between two levels,
    and the text around each."""
    found: List[str] = []
    around: List[List[str]] = [[]]
    first = 0
    while first < len(parts):
        last, begin = first + 1, _cells_at_end(parts[first])
        while "#" in begin and last < len(parts) - 1 and "#" in parts[last] and (
                _CELLS.fullmatch(parts[last])):
            last += 1
        end = _CELLS.match(parts[last])[0] if last < len(parts) else ""  # type: ignore[index]
        # a cell of a table has a blank on both sides
        is_cell = first > 0 and begin == parts[first] and begin[:1] == end[-1:] == " "
        some = [it for it in (begin[is_cell:], *parts[first + 1:last], end) if "#" in it]
        spelled = _spelled(some) if len(some) >= FEWEST_ROWS and "#" in begin else None
        if spelled:
            around[-1].append(parts[first][:len(parts[first]) - len(begin)])
            around.append([])
            found += ["", *spelled] if found else spelled
            if "#" in end:
                parts[last] = parts[last][len(end):]
        else:
            around[-1] += [mark.join(parts[first:last]), mark * (last < len(parts))]
        first = last
    return found, [*map("".join, around)]


def _cells_at_end(text: str) -> str:
    """Returns the characters of a row at the end of a text. A blank after other words is none."""
    cells = text[len(text.rstrip("-#@+$*._ 0123456789bBpPo()")):]
    before = text[:len(text) - len(cells)]
    if before.rstrip()[-1:] in _QUOTES:
        return cells
    return cells.rpartition(" ")[2] if re.search("[0-9]", cells) else cells.lstrip(" ")


def _words_of(around: Sequence[str]) -> Tuple[Tuple[str, ...], str]:
    """Returns what is beside the levels in a line, given the text around each: their titles, if
    keys name them or a field of a table has one, and the text that is kept."""
    keyed = [[*_TITLE.finditer(it)] for it in around]
    # the title of a level is above it, or below it if none is above the first one
    its = range(len(around) - 1) if keyed[0] else range(1, len(around))
    named = {at: keyed[at][-1 if keyed[0] else 0] for at in its if keyed[at]}
    rest = " ".join(it.replace(named[at][0], "", 1) if at in named else it
                    for at, it in enumerate(around)).strip()
    if named:
        return tuple(named[at][1] or named[at][2] if at in named else "" for at in its), rest
    if len(around) > 2:
        return (), rest
    before = "" if _may_precede(around[0].rstrip(_QUOTES)) else around[0]
    fields = [it.strip() for it in re.split("[\t;,|]", f"{before}\t{around[1]}")]
    words = [it for it in fields if re.search(r"[^\W\d_]", it) and not _KEY.match(it)
             and re.sub("[0-9()lurdLURD \t\"'`]", "", it)]
    # of several fields the one in quotes
    if len(words) > 1:
        words = [it for it in words if it[0] == it[-1] and it[0] in _QUOTES]
    title = words[0].strip(" \t\"'`") if len(words) == 1 else ""
    if not title or re.search("[:={}<>()\\[\\]]", title):
        return (), rest
    return (title,), rest.replace(title, "", 1)


def _keyed(core: str) -> Optional[Row]:
    """Returns the row that a line has as the value of a key, such as L01=#####."""
    match = _KEYED.fullmatch(core)
    return Row("string", (match[1],), "=") if match else None


def _string(core: str) -> Optional[Row]:
    """Returns the row that a line has as a string, whose mark is its lead."""
    at = max(map(core.rfind, _QUOTES))
    if at < 0 or re.search(r"\w", core[at:]):
        return None
    first = core.rfind(core[at], 0, at)
    row = re.sub(r"(?:\\r)?(?:\\n)?\Z", "", core[first + 1:at])
    if first < 0 or not is_plain(row) or not _may_precede(core[:first]):
        return None
    return Row("string", (row,), core[at], begins=not _BETWEEN_ROWS.fullmatch(core[:first]),
               ends=any(it in core[at:] for it in "])};"))


def _may_precede(text: str) -> bool:
    """Returns whether a text may be before a string with a row: punctuation, the mark of a list, a
    name with its value, or a key; but no comment."""
    text = text.strip()
    if text.startswith((";", "#", "//")):
        return False
    for it in (text, text[:-1] if text[-1:] in "rbfuRBFU" else text):
        if not re.search(r"[\w\"'`]", it) or _KEY_BEFORE.fullmatch(it):
            return True
        if it.rstrip()[-1:] in tuple("=:({[") and not any(mark in it for mark in _QUOTES):
            return True
    return False


def _cell(core: str) -> Optional[Row]:
    """Returns the first or the last row of a level in a cell of a table, with what is beside it."""
    before, mark, after = core.partition('"')
    if '"' in after or not mark:
        return None
    if is_plain(after) and before[-1:] in tuple("\t,;") + ("",):
        titles, rest = _words_of([before, ""])
        return Row("plain", (after,), begins=True, titles=titles, rest=rest)
    if is_plain(before) and (not after or after[0] in "\t,;"):
        return Row("plain", (before,), ends=True, rest=after)
    return None


def _beside(core: str) -> Optional[Row]:
    """Returns a row with a mark or a remark beside it."""
    begin = len(core) - len(core.lstrip(" \t"))
    begin = begin + 1 if core[begin:begin + 1] in ('"', "'", "|", "`") else 0
    run = _PLAIN.match(core, begin)[0]  # type: ignore[index]
    end = run.rfind("#") + 1
    row, after = run[:end], (run[end:] + core[begin + len(run):])
    if not row.strip("-_ ").startswith("#") or row.count("#") < 2:
        return None
    rest = after.lstrip("-_ ")
    if re.fullmatch(r"(?:\\n)?[\"'|`]?[,;\\]*", rest):
        return Row("beside", (row,))
    if after[:1].isspace() and re.match(r"<|;|//|\(|!|\u2190", rest):
        return Row("beside", (row,))
    return None
