"""Letters of solutions in lines of text: alone in a line, or among words."""
import re
from typing import Callable, List, NamedTuple, Optional, Tuple

from . import coding, markup

# what may be between letters: blanks, commas, quotes and the like
BETWEEN = " \t,;.'\"`*-"
WIDE = "arrows or wide characters"
# longer lines are searched for letters only if they have nothing else
LONGEST = 20_000
_WORD = "lurdLURD0123456789"
_RUN = re.compile(rf"[{_WORD}(){BETWEEN}]+")
# a mail may end a line by '=' that goes on in the next one
_ALONE = re.compile(rf"[0-9(){BETWEEN}]*[lurdLURD][{_WORD}(){BETWEEN}]*=?")
_PURE = re.compile(rf"[lurdLURD](?:[lurdLURD{BETWEEN}]*[lurdLURD])?")
_FRONT = re.compile(r"[>;\s|]*(?:[\[(]?[0-9]+[.):\]]\s+)?")
# a search skips fast to the first digit, since each way begins with that
_LOOSE_NUMBER = re.compile(
    rf"[0-9](?:(?<![\w(].)[0-9]*(?=[{BETWEEN}]|$)|(?<!\w.)[0-9]*(?=[,;]))")
# one of several strings with letters in a line
_STRING = re.compile("[\"'`]([lurdLURD0-9()]+)[\"'`]")
_NUMBERED = re.compile(r"[>;\s|#(\[]*[0-9]+(?:[.):\];,|=]+\s*|\s+)(?=[lurdLURD(0-9\"'`])")
_NO_BETWEEN = str.maketrans("", "", BETWEEN)
_LETTER = re.compile("[lurdLURD]")
# so many letters are no part of a word, whatever is beside them
_MANY = 8
# the name of the notation: before letters in it, and as a key
_NAME, _NAME_KEY = re.compile(r"\W*LURD\W+(?=\w)"), re.compile(r"\blurd(?=\s*[:=])", re.I)

# the words of headings, and how one is known that can be nothing else
_HEAD = re.compile(
    r"solution|lurd\s*[:=;#(\[0-9]|\bmoves(?:\s*#?[0-9]+)?(?:\s*[:=]|\s+is\b)\s*[lurd]"
    r"|answer\s*[:=]|\bsoln?\b|l(?:\u00f6|oe)sung|soluci|solu[c\u00e7]|soluzione|oplossing"
    r"|l\u00f6sning|\u0440\u0435\u0448\u0435\u043d\u0438|\u7b54\u6848|\u7b54\u3048|\u89e3", re.I)
_FIRST_WORDS = {"best", "shortest", "optimal", "optimized", "first", "second", "other", "my",
                "move", "moves", "push", "pushes"}
_PLAIN_HEAD = re.compile(r"((?:[A-Za-z]+ ){0,2})(?:solution(?![A-Za-z])|lurd(?=\s*[:=]))(.*)",
                         re.I | re.S)
_PLAIN_WORDS = _FIRST_WORDS | {"solution", "solutions", "lurd", "box", "boxes", "change", "changes",
                               "line", "lines", "m", "p", "and", "with", "in", "of", "no", "nr"}
_ANY_WORD = re.compile(r"[^\W\d_]+")
_REMARK = re.compile(r"solution\s+(?:comment|date|author|time)s?\s*[:=]", re.I)
_KEY = re.compile(r"[\w -]{1,30}[:=]")
_SAVED = re.compile(r"(?:snap\s?shot|saved?(?:\s?game)?|session|reverse|undo|history)(?![a-z])",
                    re.I)
_DRESS = re.compile(r"[\W\d_]*")
# keys before names, which may have letters that are words
_TITLE = re.compile(r"title\s*:", re.I)
_NAMES = re.compile(r"(?:name|authors?|by|copyright|collection|set)\b", re.I)
# other names of the four steps: the keys of a number pad, the points of the compass, and the keys
# of many games
_ALPHABETS = [(words, re.compile(rf"[{keys}][{keys}\s,;.-]*", re.I),
               {ord(key): letter for key, letter in zip(keys, "udlr")})
              for words, keys in (("the keys of a number pad", "8246"),
                                  ("points of the compass", "nswe"),
                                  ("the keys W, A, S and D", "wsad"))]


class Said(NamedTuple):
    """What a line says of solutions: its letters, if it has nothing else but a number in front, and
    in which unusual form they are; the letters among words; those after a heading in another
    alphabet, and its name; whether it is a heading, and one that can be nothing else; a saved game;
    and whether its letters are at its end."""

    alone: str = ""
    odd: str = ""
    among: Tuple[str, ...] = ()
    other: Tuple[str, str] = ("", "")
    is_head: bool = False
    is_plain_head: bool = False
    is_saved: bool = False
    is_remark: bool = False
    is_key: bool = False
    ends_in_letters: bool = False
    has_colon: bool = False
    is_numbered: bool = False
    is_name: bool = False


# `said_in`, perhaps with what it has returned before
SaidIn = Callable[[str], Optional[Said]]


def _bare(line: str) -> str:
    """Returns a line without dress, and without a quote or a number in front."""
    return _FRONT.sub("", markup.bare(line) or line, 1)


def are_alone(line: str) -> bool:
    """Returns whether a line is letters, run-length coded or not, perhaps quoted or numbered."""
    line = _bare(line)
    return not _NAME.match(line) and bool(_ALONE.fullmatch(line))


def packed(line: str) -> str:
    """Returns the letters of a line that has nothing else, without blanks and the like."""
    return _packed(_bare(line))


def _packed(bare: str) -> str:
    text = _LOOSE_NUMBER.sub(" ", bare).rstrip("= \t")
    return re.sub(r"\([\s0-9]*\Z", "", text).translate(_NO_BETWEEN)


def among_words(line: str) -> List[str]:
    """Returns the longest sequences of letters in a line, each of which may be a solution."""
    return _among(markup.bare(line))


def _among(line: str) -> List[str]:
    strings = [it for it in _STRING.findall(line) if _LETTER.search(it)]
    found: List[str] = strings if len(strings) > 1 else []
    for match in _RUN.finditer(line):
        text, (first, end) = match.group(), match.span()
        if first and line[first - 1].isalnum():
            text = _without_word(text, text.lstrip(_WORD))
        if end < len(line) and line[end].isalnum():
            text = _without_word(text, text.rstrip(_WORD))
        if _LETTER.search(text):
            found += _sequences(text)
            name = _NAME.match(text)
            found += _sequences(text[name.end():]) if name else []
    return found


def _without_word(text: str, rest: str) -> str:
    """Returns the rest of a text whose letters at one end may be a part of a word. In a text that
    was read in a wrong encoding, letters may stand beside a sign's second byte."""
    many = len(_LETTER.findall(text)) - len(_LETTER.findall(rest)) >= _MANY
    return text if many else rest


def _sequences(text: str) -> List[str]:
    whole = _packed(text)
    try:
        coding.expand(whole, 1 << 25)
    except coding.TooLong:
        pass
    except coding.Wrong:
        return [found.translate(_NO_BETWEEN) for found in _PURE.findall(text)]
    return [whole] if _LETTER.search(whole) else []


def said_in(line: str) -> Optional[Said]:
    """Returns what a line says of solutions, or None if it is blank."""
    if not line or line.isspace():
        return None
    bare = _bare(line)
    odd = WIDE if markup.has_arrows(line) else ""
    if _ALONE.fullmatch(bare) and not _NAME.match(bare):
        parts = [it for it in map(_packed, _LOOSE_NUMBER.split(bare)) if len(it) > 1]
        parts = parts if len(parts) > 1 else _STRING.findall(bare)
        if len(parts) < 2:
            return Said(alone=_packed(bare), odd=odd, is_numbered=bool(_NUMBERED.match(line)))
        return Said(odd=odd, among=tuple(dict.fromkeys([_packed(bare), *parts])), is_key=True,
                    ends_in_letters=True)
    other = _steps(bare.strip())
    if len(bare) > LONGEST:
        return Said()
    core = _DRESS.sub("", bare, 1)
    if _TITLE.match(core):
        return Said(is_key=True)
    is_head = bool(_HEAD.search(bare))
    is_remark = bool(_REMARK.search(bare))
    among = tuple(dict.fromkeys(_among(_NAME_KEY.sub(" ", bare))))
    tail = re.split("[:=]", bare)[-1].strip()
    steps = _steps(tail) if is_head and not is_remark and not _ALONE.fullmatch(tail) else ("", "")
    end = bare.rstrip(" \t,.'\"`*\\-;")
    return Said(alone=other[0], odd=other[1] or odd, among=among, other=steps,
                is_head=is_head and not is_remark, is_plain_head=_is_plain_head(core),
                is_saved=bool(_SAVED.match(core)), is_remark=is_remark,
                is_key=bool(_KEY.match(bare)), is_name=bool(_NAMES.match(core)),
                ends_in_letters=bool(among) and end.endswith(among[-1][-1:]),
                has_colon=":" in bare or "=" in bare)


def _steps(text: str) -> Tuple[str, str]:
    """Returns the letters of a line in another alphabet, and the name of that, or twice ""."""
    for words, form, names in _ALPHABETS:
        if form.fullmatch(text):
            return "".join(c for c in text.lower().translate(names) if c in "lurd"), words
    return "", ""


def _is_plain_head(core: str) -> bool:
    """Returns whether a line without marks and numbers in front can only be the heading of a
    solution."""
    if not (match := _PLAIN_HEAD.match(core)):
        return False
    before, rest = match.groups()
    rest = rest.strip(" \t*_`")
    return (_FIRST_WORDS.issuperset(before.lower().split())
            and (not rest or rest[0] in ":=/([#-0123456789]})" or are_alone(rest)))


def says_more(line: str) -> bool:
    """Returns whether a line with a solution has other words than its heading, counts and
    letters."""
    words = _ANY_WORD.findall(markup.untagged(line).lower())
    return any(word not in _PLAIN_WORDS and word.strip("lurd") for word in words)
