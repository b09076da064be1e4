"""Texts that a reader may take otherwise: titles in many forms, long rows, ends of lines, and other
encodings. Two readers have to show the same of them, the page and 'sokotool page'."""
import random
from itertools import product
from typing import Iterator

from tests.page.comparing import HEADER, Comparison

LEVEL = b"#####\n#@$.#\n#####\n"
ENDS = (b"\n", b"\r\n", b"\r", b"\n\n")
BLANKS = (b" \n", b"\r\n", b"\n")
# what may stand around a level
LINES = (
    b"Title: One", b"title : two", b"  TITLE:\tthree ", b"-- Title: four",
    "T\u00edtulo: cinco".encode(),
    "\u041d\u0430\u0437\u0432\u0430\u043d\u0438\u0435: \u0448\u0435\u0441\u0442\u044c".encode(),
    "\u6807\u9898\uff1a\u4e03".encode(), b"Name: eight", b"Level: 9", b"Author: A", b"by B",
    b"; comment", b"; Author C", b";Title: ten", b"'Eleven'", b"caf\xe9", "caf\u00e9".encode(),
    b"\x81\x8d\xff", b"\x93quoted\x94", b"T\xedtulo: latin", b"t\xe3\xadtulo: x",
    b"my\xa0solution: lurd",
    b"# Heading", b"## lurd", b"1", b"dull", b"Title = y", b"<h2>Tagged</h2>", b"\x0bTitle: v",
    b"Solution", b"Solution: lurd", b"best solution 2", b"lurdLURD", b"llllrrrr", b"3r2(lU)", b"",
    b"<b>bold</b>", b"<b>", b"[code]", b"```xsb", b"~~~", b"----", b"=====", b"12", b"###", b"#-_#",
    b"a" * 999, b"b" * 1000, b"Title: " + b"c" * 2000, b"-" * 3000, b"\x00\x01", b"\t", b"  ",
    b"\xc2\xa0", "\ufeffmark".encode(), "\u2028line".encode(), "\u202edrawkcab".encode(),
    b"\x1b[31mred", b"\x85next", b"; File: other.xsb",
)
WIDE = b"#" * 300 + b"\n#@$." + b" " * 295 + b"#\n" + b"#" * 300 + b"\n"
TALL = b"###\n" + b"# #\n" * 300 + b"###\n"


def drawn(rng: random.Random) -> bytes:
    """A collection of a few levels among such lines."""
    end = rng.choice(ENDS[:2]) if rng.random() < .8 else b""
    parts = [b"\xef\xbb\xbf"] if rng.random() < .2 else []
    for _ in range(rng.randint(0, 4)):
        for line in rng.choices(LINES, k=rng.randint(0, 5)):
            parts.append(line + (end or rng.choice(ENDS)))
        parts.append(rng.choice((LEVEL, LEVEL, WIDE, TALL)).replace(b"\n", end or b"\n"))
    for line in rng.choices(LINES, k=rng.randint(0, 3)):
        parts.append(line + (end or rng.choice(ENDS)))
    whole = b"".join(parts)
    return whole[:-1] if rng.random() < .2 else whole


def collections() -> Iterator[bytes]:
    """Such collections: each line above, below and between levels, letters among blank lines, which
    are a title if they are nearer to the level below, and mixed ones."""
    for line in LINES:
        yield line + b"\n" + LEVEL + line + b"\n\n" + LEVEL + b"\n" + line
    for above, below in product(range(4), repeat=2):
        yield LEVEL + b"\n" * above + b"dull\n" + b"".join(BLANKS[:below]) + LEVEL
    rng = random.Random(11)
    for _ in range(100):
        yield drawn(rng)


def texts(check: Comparison) -> None:
    """The levels and titles of such collections, and records of all forms."""
    for i, levels in enumerate(collections()):
        check.audit(f"hostile {i}", levels, HEADER)
    records = (b"; above\nlevel 1\n; in\nsolution\n\nR\r\n;x\nend\r\n; below\nlevel 2\nunsolvable\n"
               b"pattern 3,2 @ *\n\npattern 9,9 @ 1,1\nend\n\xff\n"[:-2])
    for ends in (b"\n", b"\r\n"):
        check.audit(f"records {ends!r}", LEVEL + b"\n" + LEVEL,
                    HEADER + records.replace(b"\r\n", b"\n").replace(b"\n", ends))
    check.audit("records without an end of line", LEVEL, HEADER + b"level 1\nsolution\nR\nend")
