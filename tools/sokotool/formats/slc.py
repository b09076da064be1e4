"""Reads SLC files, in which a level is <Level Id=".."> and each row <L>, as lines of plain text."""
import codecs
import contextlib
import re
from typing import Dict, List, Optional, Tuple
from xml.parsers import expat

from .. import levels

# Web pages and other files of XML may begin alike.
_HEAD = re.compile(r"\s*<(?:\?xml|!--|!DOCTYPE|SokobanLevels)", re.I)
_ENCODING = re.compile(rb"""\s*<\?xml\s[^>]*?encoding\s*=\s*["']([\w.:-]+)["']""")
_LEVEL = re.compile(r"<(?:[\w.-]+:)?Level\b", re.I)
# parts of a file that a comment takes out of it
_IN_FILE = re.compile(r"</?(?:SokobanLevels|LevelCollection|Level|L|Solution)(\s[^<>=]*=[^<>]*)?>",
                      re.I)
_KEYS = {"title": "Collection", "url": "URL"}
# attributes with the size of a level or a collection, which its rows show
_SIZES = {"width", "height", "maxwidth", "maxheight"}
_ROWS = {"l", "row"}
# a line and its number
Line = Tuple[int, str]


def is_slc(text: str) -> bool:
    return bool(_HEAD.match(text) and _LEVEL.search(text))


def _is_solution(tag: str) -> bool:
    return "solution" in tag or tag == "lurd"


class _Reader:
    """The parser's callbacks. Keeps the rows, the texts and the solutions of the open level, and
    the text of the open element."""

    def __init__(self, parser: expat.XMLParserType) -> None:
        self.parser = parser
        self.lines: List[Line] = []
        # the titles of levels by their first lines
        self.titles: Dict[int, str] = {}
        self.rows: Optional[List[Line]] = None
        self.said: List[Line] = []
        self.solutions: List[Line] = []
        self.title, self.text, self.line = "", [""], 0

    def start(self, tag: str, attributes: Dict[str, str]) -> None:
        """Begins an element, after text before it that is in no element of its own."""
        self._stray()
        tag = tag.rpartition(":")[2].lower()
        if tag == "level":
            self.end_level()
            self.rows, self.title = [], ""
        for name, value in attributes.items():
            key = name.rpartition(":")[2]
            if key.lower() in ("id", "title", "name") and tag == "level" and not self.title:
                self.title = value
            elif _is_solution(key.lower()):
                self._solution(value)
            elif key.lower() not in _SIZES and not name.startswith("xml") and tag not in _ROWS:
                self._say(key, value)
        self.text, self.line = [], self.parser.CurrentLineNumber

    def data(self, text: str) -> None:
        self.text.append(text)

    def comment(self, text: str) -> None:
        """Takes a comment of the file, which may have a solution."""
        for line in text.split("\n"):
            if line.strip() and not _IN_FILE.search(line):
                self._add("; " + line.strip())

    def end(self, tag: str) -> None:
        tag, text = tag.rpartition(":")[2], "".join(self.text)
        self.text = []
        lines = [it for it in text.split("\n") if it.strip()]
        if self.rows is not None and tag.lower() not in _ROWS and lines and all(
                levels.is_row(it.rstrip().encode("utf-8", "replace")) for it in lines):
            self.rows += [(self.line + at, it.rstrip()) for at, it in enumerate(text.split("\n"))
                          if it.strip()]
        elif tag.lower() in _ROWS and self.rows is not None:
            row = re.sub(r"[\r\n]+", "", text).rstrip()
            self.rows += [(self.line, row)] if row or self.rows else []
        elif tag.lower() == "level":
            self.text = [text]
            self._stray()
            self.end_level()
        elif text.strip() and _is_solution(tag.lower()):
            self._solution(text)
        elif text.strip():
            self._say(tag, text)

    def _solution(self, text: str) -> None:
        self.solutions.append((self.parser.CurrentLineNumber, "".join(text.split())))
        if self.rows is None:
            self._put_solutions()

    def _say(self, key: str, text: str) -> None:
        key = _KEYS.get(key.lower(), key[:1].upper() + key[1:])
        for line in text.split("\n"):
            if line.strip():
                said = " ".join(line.split())
                self._add("; " + said if key == "Description" else f"{key}: {said}")

    def _add(self, line: str) -> None:
        (self.lines if self.rows is None else self.said).append(
            (self.parser.CurrentLineNumber, line))

    def _stray(self) -> None:
        """Keeps text that is in no element of its own, perhaps rows."""
        text, self.text = "".join(self.text), []
        for at, line in enumerate(text.split("\n"), self.line or 1):
            if line.strip() and "#" in line and self.rows is not None:
                self.rows.append((at, line))
            elif line.strip():
                self._add("; " + line.strip())
        self.line = self.parser.CurrentLineNumber

    def end_level(self) -> None:
        """Adds the level that is open: its rows, its title, its texts and its solutions."""
        drawn, title = self.rows, " ".join(self.title.split())
        self.rows, self.title = None, ""
        if drawn is None:
            return
        line = self.parser.CurrentLineNumber
        while drawn and not drawn[-1][1]:
            drawn.pop()
        for at, (_, row) in enumerate(drawn):
            if row and (at == 0 or not drawn[at - 1][1]):
                self.titles[len(self.lines) + at] = title
        self.lines += drawn
        if title and not drawn:
            self.lines.append((line, "; " + title))
        self.lines += self.said
        self._put_solutions()
        self.said = []

    def _put_solutions(self) -> None:
        for number, text in self.solutions:
            self.lines += [(number, "Solution"), (number, text)]
        self.solutions = []


class _Refused(Exception):
    pass


def _refuse(*_: object) -> None:
    raise _Refused


def encoding_of(data: bytes) -> str:
    """Returns the encoding that a file of XML names, or "" if it names none that it can be in."""
    with contextlib.suppress(LookupError, ValueError):
        if match := _ENCODING.match(data):
            name = codecs.lookup(match[1].decode()).name
            # Windows calls its own encoding so.
            name = "cp1252" if name == "iso8859-1" else name
            data.decode(name)
            return name
    return ""


def lines_of(text: str) -> Tuple[List[Line], Dict[int, str], Optional[Line]]:
    """Returns the lines of a file as far as it can be read, the titles of its levels by their first
    lines, and where and why it can't be read further, if so."""
    # Python's parser knows few encodings, and ends in errors of its own at others.
    parser = expat.ParserCreate("utf-8")
    reader = _Reader(parser)
    parser.StartElementHandler, parser.EndElementHandler = reader.start, reader.end
    parser.CharacterDataHandler, parser.CommentHandler = reader.data, reader.comment
    # Entities that a file declares can expand without bounds.
    parser.EntityDeclHandler = _refuse
    fault: Optional[Line] = None
    try:
        parser.Parse(text.encode("utf-8", "replace"), True)
    except expat.ExpatError as error:
        why = expat.errors.messages[error.code]
        fault = error.lineno, f"cannot be read on from here: {why}"
    except _Refused:
        fault = (parser.CurrentLineNumber,
                 "cannot be read on from here: the file declares an entity")
    reader.end_level()
    return reader.lines, reader.titles, fault
