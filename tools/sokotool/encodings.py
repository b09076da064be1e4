"""Guesses the encoding of lines that aren't UTF-8, by which bytes are usual in each encoding.

The page has the same table (`tools/page/files.js`).
"""
import contextlib
import re
from typing import Dict, Iterator, Match, NamedTuple

CP1252 = "Windows-1252"
# the bytes that are looked at
MOST = 1 << 16
# how good the best encoding has to be, and how much better than Windows-1252
_LEAST, _MARGIN = 0.5, 0.05
# how much characters of two bytes count, since pairs of letters of one byte are often such too, and
# words in capitals, since those are small letters in another encoding
_PAIRS, _CAPITALS = 0.93, 0.9
# ASCII letters, those of western Europe, and signs that are beside no letter
_ASCII, _LATIN = "A-Za-z", "\xc0-\xd6\xd8-\xf6\xf8-\xff"
_SIGNS = "\x80\x85\x91-\x97\x99\xa1-\xa3\xa7\xa9\xab\xae\xb0-\xb3\xb7\xbb-\xbf\xd7"
_END, _BEGIN = (f"(?{it}[{_ASCII}\xc0-\xff])" for it in ("!", "<!"))


class _Form(NamedTuple):
    """An encoding: Python's name for it, how much its characters count, which bytes are usual,
    which are less so, and which others are a character."""

    codec: str
    part: float
    usual: str
    other: str = "(?!)"
    rare: str = "(?!)"

    def found(self, text: str) -> Iterator[Match[str]]:
        """Returns the characters of a text beyond ASCII. Only a text that needs it compiles this.
        """
        return re.finditer(f"({self.usual})|({self.other})|{self.rare}|[\x80-\xff]", text)


def _european(letters: str, signs: str) -> str:
    """Returns the usual bytes where most letters of words are ASCII: one or two letters beside
    those, or alone, and signs."""
    few = f"[{letters}\x92]{{1,2}}"
    return (f"(?<=[{_ASCII}])(?:{few}(?![\x80-\xff])|\x94(?![{_ASCII}]))"
            f"|(?<![\x80-\xff]){few}(?=[{_ASCII}])"
            f"|{_BEGIN}[{letters}{signs}]{{1,2}}{_END}|(?<![{_ASCII}])[{signs}]")


def _cyrillic(capitals: str, small: str) -> Dict[str, str]:
    """Returns the usual bytes where a word has a capital at most at its beginning, and those of
    words in capitals."""
    return {"usual": f"{_BEGIN}[{capitals}]?[{small}]+{_END}|[\x84\x85\x91-\x97\xab\xb9\xbb]{_END}",
            "other": f"{_BEGIN}[{capitals}]{{2,}}{_END}"}


# by the names that people know, in the order in which equal guesses count
_FORMS: Dict[str, _Form] = {
    CP1252: _Form("cp1252", 1, _european(_LATIN, _SIGNS)),
    "Windows-1251": _Form("cp1251", 1, **_cyrillic("\xc0-\xdf\xa8\xaa\xaf\xb2",
                                                   "\xe0-\xff\xb3\xb8\xba\xbf")),
    "KOI8-R": _Form("koi8-r", 1, **_cyrillic("\xe0-\xff\xb3", "\xc0-\xdf\xa3")),
    "GB18030": _Form("gb18030", _PAIRS, "[\xa1-\xa3\xb0-\xd7][\xa1-\xfe]",
                     rare="[\x81-\xfe][0-9@-~\x80-\xfe]"),
    "EUC-JP": _Form("euc-jp", _PAIRS, "[\xa1\xa3-\xa5\xb0-\xcf][\xa1-\xfe]",
                    rare="[\xa1-\xfe][\xa1-\xfe]"),
    "Big5": _Form("big5hkscs", _PAIRS, "[\xa1-\xc6][@-~\xa1-\xfe]",
                  rare="[\x81-\xfe][@-~\xa1-\xfe]"),
    "Shift-JIS": _Form("cp932", _PAIRS, "[\x81-\x83\x88-\x97][@-~\x80-\xfc]", "[\xa6-\xdf]{2,}",
                       "[\x81-\x9f\xe0-\xfc][@-~\x80-\xfc]"),
    "CP437": _Form("cp437", 1, _european("\x80-\xa5\xe1", "\xab-\xae\xf1\xf8\xfd"))}
# what a text of characters of two bytes has somewhere, since not all are alone between ASCII
_TOGETHER = re.compile("[\x80-\xff]{2}")
CODECS = {name: form.codec for name, form in _FORMS.items()}


def guessed(data: bytes) -> str:
    """Returns the encoding in which the most bytes of a text are usual: Windows-1252 if they are in
    no other one."""
    found = {name: _score(data[:MOST], name) for name in _FORMS}
    best = max(found, key=lambda name: found[name])
    return best if found[best] >= max(_LEAST, found[CP1252] + _MARGIN) else CP1252


def decoded(line: bytes, name: str) -> str:
    """Returns a line in an encoding, or byte for byte where it can't be in that one."""
    for codec in (CODECS.get(name, name), "cp1252"):
        with contextlib.suppress(UnicodeDecodeError):
            return line.decode(codec)
    return line.decode("latin-1")


def _score(data: bytes, name: str) -> float:
    """Returns how usual the bytes of a text beyond ASCII are in an encoding: from 0 to 1."""
    good = total = 0.0
    text, form = data.decode("latin-1"), _FORMS[name]
    if form.part == _PAIRS and not _TOGETHER.search(text):
        return 0
    for match in form.found(text):
        size = len(match[0])
        total += size
        good += size if match[1] else size * _CAPITALS if match[2] else 0
    return form.part * good / total if total else 0
