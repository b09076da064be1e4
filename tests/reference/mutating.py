"""Changes texts a little, so that most of them stay what a level, a solution or a certificate is
and say something else: cells of boards, letters, cells and seeds of patterns and zones, whole
lines. Seldom a byte is any other one."""
from random import Random
from typing import Callable, List

from tests.reference.noise import HEADERS, LINES, NUMBERS, Pair

CELLS = b"#@+$*. -_"
LETTERS = b"lurdLURD"
# sides and coordinates at the edges of what is lawful
EDGES = [1, 2, 254, 255, 256, 300, 65535, 65536]


def mutated(rng: Random, pair: Pair) -> Pair:
    """The two texts after one change or a few."""
    levels, answers = pair
    for _ in range(rng.choice([1, 1, 1, 2, 3, 6])):
        if rng.random() < 0.3:
            levels = rng.choice(OF_LEVELS)(rng, levels)
        else:
            answers = rng.choice(OF_ANSWERS)(rng, answers)
    return levels, answers


def cell(rng: Random, text: bytes) -> bytes:
    """Another cell of a board, or one more or fewer."""
    places = [at for at, byte in enumerate(text) if byte in CELLS] or [0]
    at = rng.choice(places)
    new = rng.choice([bytes([rng.choice(CELLS)])] * 4 + [b"", text[at:at + 1] * 2])
    return text[:at] + new + text[at + 1:]


def row(rng: Random, text: bytes) -> bytes:
    """A row or another line that goes, comes twice, moves or gets an end."""
    lines = text.split(b"\n")
    at, other = rng.randrange(len(lines)), rng.randrange(len(lines))
    kind = rng.randrange(5)
    if kind == 0:
        del lines[at]
    elif kind == 1:
        lines.insert(other, lines[at])
    elif kind == 2:
        lines[at], lines[other] = lines[other], lines[at]
    elif kind == 3:
        lines[at] += rng.choice([b"\r", b" ", b"\t", b"#", b".", b"$.", b" " * 254, b" " * 300])
    else:
        lines.insert(at, rng.choice([b"", b"; c", b"---", b"#" * rng.choice(EDGES[:6]), b"\0#"]))
    return b"\n".join(lines)


def ends(rng: Random, text: bytes) -> bytes:
    """Other ends of lines, or another blank for floor."""
    return rng.choice([text.replace(b"\r", b"").replace(b"\n", b"\r\n"), text.replace(b"\r", b""),
                       text.translate(bytes.maketrans(b" ", rng.choice([b"-", b"_"]))), text[:-1]])


def byte(rng: Random, text: bytes) -> bytes:
    """Any other byte."""
    at = rng.randrange(len(text) + 1)
    return text[:at] + bytes([rng.randrange(256)]) + text[at + rng.randrange(2):]


def body(rng: Random, text: bytes) -> bytes:
    """A change inside a line of letters, of a pattern or of a zone."""
    lines = text.split(b"\n")
    places = [at for at, it in enumerate(lines) if it[:8] == b"pattern " or it[:5] == b"zone "
              or it and not it.strip(LETTERS)]
    if not places:
        return row(rng, text)
    at = rng.choice(places)
    lines[at] = (cells if lines[at][:1] in b"pz" else letters)(rng, lines[at])
    return b"\n".join(lines)


def letters(rng: Random, line: bytes) -> bytes:
    """A letter that goes, comes twice, is another one or the other case, or a line that is cut."""
    at = rng.randrange(len(line))
    new = rng.choice([b"", line[at:at + 1] * 2, line[at:at + 1].swapcase(), b" ", b"\n", b"x",
                      bytes([rng.choice(LETTERS)])])
    return line[:at] + new + line[at + 1:]


def cells(rng: Random, line: bytes) -> bytes:
    """A cell of a list that moves, goes or comes, or another list of seeds; nearly always in order
    again."""
    word, _, rest = line.partition(b" ")
    boxes, mark, seeds = rest.partition(b" @ ")
    if mark and rng.random() < 0.4:
        seeds = b"*" if rng.random() < 0.3 else listed(rng, boxes if seeds == b"*" else seeds)
    else:
        boxes = listed(rng, boxes)
    return word + b" " + boxes + mark + seeds


def listed(rng: Random, text: bytes) -> bytes:
    """A list of cells after a change."""
    try:
        found = [(int(y), int(x)) for x, y in (it.split(b",") for it in text.split(b" "))]
    except ValueError:
        return byte(rng, text)
    at = rng.randrange(len(found))
    near = tuple(max(1, it + rng.choice([-1, 0, 0, 1])) for it in found[at])
    kind = rng.randrange(6)
    if kind < 3:
        found[at] = near[0], near[1]
    elif kind == 3 and len(found) > 1:
        del found[at]
    else:
        found.append((near[0], near[1]) if kind == 4 else (rng.choice(EDGES), rng.choice(EDGES)))
    found = sorted({*found}) if rng.random() < 0.93 else found
    return b" ".join(b"%d,%d" % (x, y) for y, x in found)


def line_of_text(rng: Random, text: bytes) -> bytes:
    """A line of the grammar at a wrong place, another number of a level, or another first line."""
    lines = text.split(b"\n")
    numbered = [at for at, it in enumerate(lines) if it.startswith(b"level ")]
    kind = rng.randrange(4)
    if kind == 0:
        lines[0] = rng.choice(HEADERS)
    elif kind == 1 and numbered:
        lines[rng.choice(numbered)] = b"level " + rng.choice(NUMBERS)
    else:
        lines.insert(rng.randrange(len(lines) + 1), rng.choice(LINES))
    return b"\n".join(lines)


Change = Callable[[Random, bytes], bytes]
OF_LEVELS: List[Change] = [cell, cell, cell, cell, row, row, ends, byte]
OF_ANSWERS: List[Change] = [body, body, body, body, body, body, row, row, line_of_text, byte]
