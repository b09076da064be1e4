"""Makes the two texts of some cases: plain, or with noise of every kind, or torn so that the text
itself may have a fault."""


from random import Random
from typing import Iterable, Iterator, List, Sequence, Tuple

from rules import levels_in

from tests.reference.cases import Case

Pair = Tuple[bytes, bytes]  # the levels and the answers


def records(cases: Iterable[Case]) -> Iterator[str]:
    """The lines of the answers without the header. The rows of a torn level may be several levels
    or none."""
    number = 1
    for case in cases:
        levels = len(levels_in(b"\n".join(case.rows)))
        if levels and case.body is not None:
            yield from ["level %d" % number, *case.body, "end"]
        number += levels


def plain(cases: Sequence[Case]) -> Pair:
    """The shortest texts of the cases."""
    levels = b"".join(b"".join(row + b"\n" for row in case.rows) + b"\n" for case in cases)
    lines = ["sokoban-answers 2", *records(cases)]
    return levels, "".join(line + "\n" for line in lines).encode("latin-1")


def end_of_line(rng: Random, style: str) -> bytes:
    """LF or CR LF; at random in the style 'mixed'."""
    return b"\r\n" if style == "crlf" or (style == "mixed" and rng.random() < 0.5) else b"\n"


def noisy(rng: Random, cases: Sequence[Case]) -> Pair:
    """Texts with marks, comments, titles, empty lines and other line ends. These change only the
    line numbers in the report."""
    style = rng.choice(["lf", "lf", "crlf", "mixed"])
    levels: List[bytes] = []
    for case in cases:
        levels += case.rows
        levels += rng.choice(BETWEEN)
    lines = [rng.choice(["sokoban-answers 2"] * 4 + ["sokoban-answers 1"])]
    for line in records(cases):
        lines += rng.choice([[]] * 12 + [[""], ["; a comment"], [";", ""]])
        lines.append(line)
    text = b"".join(line + end_of_line(rng, style) for line in levels)
    answers = b"".join(line.encode("latin-1") + end_of_line(rng, style) for line in lines)
    mark = rng.choice([b"", b"", b"\xef\xbb\xbf"])
    text = text.rstrip(b"\r\n") if rng.random() < 0.2 else text
    answers = answers.rstrip(b"\r\n") if rng.random() < 0.2 else answers
    return mark + text, answers


NUMBERS = [b"0", b"01", b"1", b"2", b"3", b"10001", b"18446744073709551616", b"9" * 40, b"1 ", b"x",
           b"", b"+1", b"-1"]
LINES = [b"end", b"level 1", b"level 2", b"solution", b"unsolvable", b"", b";",
         b"sokoban-answers 1", b"level", b"solved", b"end ", b"\xef\xbb\xbf", b"pattern 2,2 @ *",
         b"zone 2,2", b"level 2\r", b"\x00", b" end"]
HEADERS = [b"sokoban-answers 1", b"sokoban-answers 3", b"sokoban-answers 12", b" sokoban-answers 1",
           b"Sokoban-answers 1", b"", b"sokoban-answers 2 ", b"\xef\xbb\xbfsokoban-answers 1",
           b"sokoban-answers", b"sokoban-answers 2\r", b";sokoban-answers 1"]
BYTES = [b"\n", b"\r", b"\r\n", b" ", b";", b"\x00", b"\xff", b"#", b"0", b"9", b"\t", b"level "]
# lines between two levels
BETWEEN = [[b""], [b"Title: one"], [b"", b"; 2"], [b"\t"], [b"   "], [b"5#"], [b"\xff", b"#a"],
           [b"-_ .$"]]


def tear(rng: Random, texts: Pair) -> Pair:
    """Changes some lines and bytes of the answers, and now and then of the levels."""
    levels, answers = texts
    for _ in range(rng.randint(1, 3)):
        answers = tear_lines(rng, answers) if rng.random() < 0.7 else tear_bytes(rng, answers)
    return tear_bytes(rng, levels) if rng.random() < 0.2 else levels, answers


def tear_lines(rng: Random, text: bytes) -> bytes:
    """Drops, repeats, moves or inserts a line, changes the number in one, or cuts the text."""
    lines = text.split(b"\n")
    at = rng.randrange(len(lines))
    change = rng.randrange(8)
    if change == 0:
        del lines[at]
    elif change == 1:
        lines.insert(at, lines[at])
    elif change == 2:
        lines.insert(at, lines.pop(rng.randrange(len(lines))))
    elif change in (3, 4):
        lines.insert(at, rng.choice(LINES))
    elif change == 5:
        lines[0] = rng.choice(HEADERS)
    elif change == 6:
        lines[at:] = []
    else:
        levels = [at for at, line in enumerate(lines) if line.startswith(b"level ")]
        if levels:
            lines[rng.choice(levels)] = b"level " + rng.choice(NUMBERS)
    return b"\n".join(lines)


def tear_bytes(rng: Random, text: bytes) -> bytes:
    """Inserts, removes or changes a byte, or cuts the text."""
    at = rng.randrange(len(text) + 1)
    byte = rng.choice(BYTES)
    before, after = text[:at], text[at + 1:]
    return rng.choice([before, before + byte + text[at:], before + after, before + byte + after])
