"""The forms of boards, and the commands twins and carry, compared with all eight turns of a board.
"""
import os
import random
import unittest
from typing import Any, Dict, Hashable, List, Sequence, Set, Tuple

from solve import search
from sokotool import changes, forms, levels
from tests.tools.helping import ONE, SAMPLES, Case

MAPS = "/usr/share/games/cavepacker/maps"
CORNER = "Corner\n######\n#    #\n#@$  #\n#  . #\n######\n"
# the same board turned right, in a frame
TURNED = "Turned\n#######\n#######\n## @ ##\n## $ ##\n##.  ##\n##   ##\n#######\n"
Rows = List[str]
Cell = Tuple[int, int]


def turned(rows: Rows, way: int) -> Rows:
    """Returns a picture in one of its eight turns and mirrors."""
    width = max(map(len, rows))
    rows = [row.ljust(width) for row in rows]
    if way >= 4:
        rows = [row[::-1] for row in rows]
    for _ in range(way % 4):
        rows = ["".join(column) for column in zip(*rows[::-1])]
    return rows


def framed(chance: random.Random, rows: Rows) -> Rows:
    """Returns a picture with other outer walls: more of them, and floor beyond."""
    width = max(map(len, rows))
    rows = [row.ljust(width) for row in rows]
    for fill in chance.choice(["", "#", " #", "# #", "##"]):
        left, right, above, below = (chance.randint(0, 2) for _ in range(4))
        side = width + left + right
        rows = [fill * side] * above + [fill * left + row + fill * right
                                        for row in rows] + [fill * side] * below
        width = side
    return [row for row in rows if "#" in row]


def shape_of(rows: Rows) -> Hashable:
    """Returns the cells of a picture that are connected to the player, a box or a goal, moved to
    the corner, and whether the player's part is open."""
    cells = {(x, y): c for y, row in enumerate(rows) for x,
             c in enumerate(row.ljust(max(map(len, rows))))}

    def reached(work: List[Cell]) -> Set[Cell]:
        found = set(work)
        for x, y in work:
            for near in ((x + 1, y), (x - 1, y), (x, y + 1), (x, y - 1)):
                if near not in found and cells.get(near, "#") != "#":
                    found.add(near)
                    work.append(near)
        return found

    room = reached([at for at, c in cells.items() if c in "@+"])
    kept = reached([at for at, c in cells.items() if c in "@+$*."])
    width, height = max(x for x, _ in cells), max(y for _, y in cells)
    is_open = any(x in (0, width) or y in (0, height) for x, y in room)
    if not kept:
        return tuple(rows)
    left, top = min(x for x, _ in kept), min(y for _, y in kept)
    return is_open, frozenset((x - left, y - top, cells[x, y] if cells[x, y] in "@+$*." else " ")
                              for x, y in kept)


def random_rows(chance: random.Random, loose: float = .1) -> Rows:
    """Returns a level of a small room with one or two boxes, or at times some loose picture."""
    width, height = chance.randint(2, 5), chance.randint(2, 4)
    cells = [chance.choice("     #") for _ in range(width * height)]
    boxes = chance.randint(1, 2)
    marks = "@" + "$" * boxes + "." * boxes
    for at, mark in zip(chance.sample(range(width * height), min(len(marks), width * height)),
                        marks):
        cells[at] = mark
    rows = ["".join(cells[at:at + width]) for at in range(0, width * height, width)]
    rows = ["#" * (width + 2)] + [f"#{row}#" for row in rows] + ["#" * (width + 2)]
    if chance.random() < loose:
        y = chance.randrange(len(rows))
        x = chance.randrange(width + 2)
        rows[y] = rows[y][:x] + chance.choice(" .$@") + rows[y][x + 1:]
    return [row for row in rows if "#" in row]


def text_of(pictures: Sequence[Rows]) -> str:
    return "\n".join("\n".join(rows) + "\n" for rows in pictures)


class Forms(Case):
    def test_turns(self) -> None:
        """A turn takes each cell of a level to the equal cell of the other, and its inverse back.
        """
        chance = random.Random(31)
        for _ in range(200):
            rows = random_rows(chance)
            first, second = (levels.Level(1, [row.encode() for row in picture], 1)
                             for picture in (rows,
                                             framed(chance, turned(rows, chance.randrange(8)))))
            one, other = forms.form_of(first), forms.form_of(second)
            if one.kind == forms.CLOSED and one.key == other.key:
                turn = one.turn_to(other)
                for y, row in enumerate(first.rows, 1):
                    for x, cell in enumerate(row, 1):
                        if one.has((x, y)):
                            to, down = turn.cell((x, y))
                            self.assertEqual(second.rows[down - 1][to - 1], cell)
                self.assertEqual(turn.inverse().after(turn), forms.Turn(1, 0, 0, 1))

    def test_letters(self) -> None:
        for way, words, letters in ((1, "turned right", b"urdlURDL"),
                                    (2, "turned by half", b"rdluRDLU"),
                                    (3, "turned left", b"dlurDLUR"),
                                    (4, "mirrored left to right", b"rulDRULd"[:3] + b"dRULD")):
            rows = CORNER.split("\n")[1:-1]
            one, other = (forms.form_of(levels.Level(1, [row.encode() for row in picture], 1))
                          for picture in (rows, turned(rows, way)))
            turn = one.turn_to(other)
            self.assertEqual((turn.words, turn.letters(b"lurdLURD")), (words, letters))

    def test_ten_thousand_in_two_seconds(self) -> None:
        chance = random.Random(32)
        found = levels.read(text_of([framed(chance, random_rows(chance))
                                     for _ in range(10000)]).encode())
        self.takes_less(2, lambda: forms.forms_of(found))


class Twins(Case):
    def test_words(self) -> None:
        self.write("a.xsb", CORNER + "\n" + TURNED)
        self.write("b.xsb", CORNER)
        result = self.tool("twins", "a.xsb", "b.xsb")
        self.assertEqual((result.status, result.out.decode()),
                         (1, "level 2\ta.xsb:9\tlevel 1\ta.xsb:2\tturned right\tTurned\tCorner"
                             "\t\t\n"
                             "level 1\tb.xsb:2\tlevel 1\ta.xsb:2\tas it is\tCorner\tCorner\t\t\n"))
        self.assertEqual(self.tool("twins", "b.xsb").status, 0)

    def test_walls_alone_are_no_board(self) -> None:
        self.write("a.xsb", "####\n\n####\n\n" + CORNER)
        self.assertEqual((self.tool("twins", "a.xsb").status, self.tool("twins", "a.xsb").out),
                         (0, b""))

    def test_too_large_a_level_is_known_by_its_rows(self) -> None:
        large = "#" * 256 + "\n#@$.#\n#####\n"
        self.write("a.xsb", large + "\n" + large + "\n" + large.replace("@$", "$@"))
        self.assertEqual(self.tool("twins", "a.xsb").out,
                         b"level 2\ta.xsb:5\tlevel 1\ta.xsb:1\tas it is\t\t\t\t\n")

    def test_authors(self) -> None:
        """A level's own author comes first, and then that of its collection."""
        own, whole = CORNER + "Author: Ann\n", "Set\nAuthor: Bob\n\n" + ONE
        self.write("a.xsb", own + "\n" + ONE)
        self.write("b.xsb", whole + "\n" + CORNER + "Autor: Eva\n")
        found = [line.split("\t")[1:4:2] + line.split("\t")[7:]
                 for line in self.tool("twins", "a.xsb", "b.xsb").out.decode().splitlines()]
        self.assertEqual(found, [["b.xsb:4", "a.xsb:9", "Bob", ""],
                                 ["b.xsb:9", "a.xsb:2", "Eva", "Ann"]])

    def compare(self, pictures: Sequence[Rows]) -> int:
        """Twins finds the same pairs in a file as a comparison of all eight turns."""
        self.write("a.xsb", text_of(pictures))
        first: Dict[Any, Any] = {}
        wanted = []
        for number, rows in enumerate(pictures, 1):
            shapes = {shape_of(turned(rows, way)) for way in range(8)}
            earlier = next((first[shape] for shape in shapes if shape in first), None)
            if earlier:
                wanted.append((number, earlier))
            first.setdefault(shape_of(rows), earlier or number)
        printed = [line.split("\t")
                   for line in self.tool("twins", "a.xsb").out.decode().splitlines()]
        self.assertEqual([(int(line[0][6:]), int(line[2][6:])) for line in printed], wanted)
        return len(wanted)

    def test_every_pair_and_no_other(self) -> None:
        chance = random.Random(33)
        pairs = 0
        for _ in range(10):
            several = [random_rows(chance) for _ in range(20)]
            pictures = several + [framed(chance, turned(chance.choice(several),
                                                        chance.randrange(8))) for _ in range(40)]
            chance.shuffle(pictures)
            pairs += self.compare(pictures)
        self.assertGreater(pairs, 200)

    @unittest.skipUnless(os.path.isdir(MAPS), "Debian's cavepacker-data isn't installed")
    def test_maps(self) -> None:
        chance = random.Random(34)
        names = sorted(name for name in os.listdir(MAPS) if name.endswith(".sok"))
        self.tool("convert", "maps", *(os.path.join(MAPS, name) for name in names))
        pictures = [[row.decode() for row in level.rows]
                    for level in levels.read(self.read("maps.xsb"))]
        self.assertEqual(len(pictures), 1015)
        some = chance.sample(pictures, 100)
        self.compare(pictures +
                     [framed(chance, turned(rows, chance.randrange(8))) for rows in some])


class Matches(unittest.TestCase):
    def test_levels_with_the_same_board_are_matched_by_their_neighbours(self) -> None:
        """A twin that is inserted is the new one, wherever its twins are."""
        drawn = ["#" * (n + 6) + "\n#@" + " " * n + "$ .#\n" + "#" * (n + 6) for n in range(5)]
        was = [0, 1, 2, 0, 3, 0, 4]
        for at, number in ((2, 0), (7, 0), (6, 0), (5, 1)):
            now = was[:at] + [number] + was[at:]
            states = []
            for several in (was, now):
                found = levels.read("\n\n".join(drawn[it] for it in several).encode())
                states.append(changes.Snapshot(found, forms.forms_of(found), []))
            kept = {match.new: match.old for match in changes.matches(states[0], states[1])}
            self.assertEqual(kept, {new: new - (new > at) for new in range(8) if new != at}, at)


class Carry(Case):
    def answer(self) -> None:
        """Writes answers to old.xsb: solutions by a plain search, and lists or zones for the other
        levels."""
        records = []
        for level in levels.read(self.read("old.xsb")):
            players = sum(row.count(b"@") for row in level.rows)
            letters = search(level.rows)[0] if players == 1 and self.is_closed(level) else None
            if letters is not None:
                records.append(f"level {level.number}\nsolution\n{letters}\nend\n")
        self.write("solved", "sokoban-answers 1\n" + "".join(records))
        self.write("report", self.audit("old.xsb", "solved"))
        self.write("found", self.tool("find", "old.xsb", "report", "--seconds", "60").out)
        zone = "sokoban-answers 2\nlevel 1\nunsolvable\nzone 2,4 3,4 4,4 5,4 6,4\nend\n"
        self.write("zone", zone)
        self.write("old.answers", self.tool("merge", "zone", "solved", "found").out)

    @staticmethod
    def is_closed(level: levels.Level) -> bool:
        return forms.form_of(level).kind == forms.CLOSED

    def test_random_collections(self) -> None:
        chance = random.Random(35)
        zone = ["#######", "#@ .  #", "#     #", "# $ $.#", "#######"]
        for _ in range(4):
            drawn = [random_rows(chance, loose=0) for _ in range(400)]
            solvable = [rows for rows in drawn
                        if search([row.encode() for row in rows])[0] is not None]
            old = [zone] + solvable[:15] + drawn[:25]
            self.write("old.xsb", text_of(old))
            self.answer()
            places = list(range(len(old)))
            chance.shuffle(places)
            self.write("new.xsb", text_of([framed(chance, turned(old[place], chance.randrange(8)))
                                           for place in places]))
            result = self.tool("carry", "old.xsb", "old.answers", "new.xsb")
            self.assertEqual(result.status, 0)
            self.write("new.answers", result.out)
            before, after = (self.audit(f"{name}.xsb", f"{name}.answers").decode().splitlines()
                             for name in ("old", "new"))
            self.assertIn(" unsolvable zone 5", before[0])
            self.assertGreater(sum(" solved " in line for line in before), 10)
            self.assertGreater(sum(" unsolvable " in line for line in before), 5)
            for place, line in zip(places, after):
                self.assertEqual(line.split(" ", 2)[2], before[place].split(" ", 2)[2],
                                 "\n".join(old[place]))

    def test_cells_that_do_not_count(self) -> None:
        """Cells outside the room are left out, since they may be walls on the new board."""
        self.write("old.xsb", "#########\n#$ .# ###\n# @ #   #\n#########\n")
        self.write("new.xsb", "#####\n#$ .#\n# @ #\n#####\n")
        self.write("old.answers",
                   "sokoban-answers 1\nlevel 1\nunsolvable\n; mine\npattern 2,2 @ 3,2\npattern "
                   "2,2 6,3 @ *\nend\n")
        self.assertIn(b" unsolvable patterns 2", self.audit("old.xsb", "old.answers"))
        result = self.tool("carry", "old.xsb", "old.answers", "new.xsb")
        self.assertEqual(result.out.decode(),
                         "sokoban-answers 1\nlevel 1\nunsolvable\n; mine\npattern 2,2 @ 3,2\nend\n")

    def test_what_is_reported(self) -> None:
        self.write("old.xsb", CORNER + "\n" + TURNED + "\n#####\n#@$.#\n#####\n")
        self.write("new.xsb", TURNED)
        self.write("old.answers",
                   "sokoban-answers 1\n; by hand\nlevel 1\nsolution\nRu\n; then\nrD\nend\nlevel "
                   "2\nsolution\nDrdL\nend\n"
                   "level 3\nsolution\nR\nend\n")
        result = self.tool("carry", "old.xsb", "old.answers", "new.xsb")
        self.assertEqual(result.out.decode(), "sokoban-answers 1\nlevel 1\nsolution\nDrdL\nend\n")
        self.assertEqual((result.status, result.err), (
            1, "carry: old.answers line 13: no level of new.xsb has the board of level 3\n"
            "carry: level 1 has the board of levels 2, 1: the record of level 2 is printed\n"))
        self.write("new.xsb", TURNED + "\n" + CORNER)
        self.write("old.answers",
                   "sokoban-answers 1\n; by hand\nlevel 1\nsolution\nRu\n; then\nrD\nend\n")
        self.assertEqual(self.tool("carry", "old.xsb", "old.answers", "new.xsb").out.decode(),
                         "sokoban-answers 1\n"
                         "; by hand\nlevel 1\nsolution\nDr\n; then\ndL\nend\n; by hand\nlevel 2\n"
                         "solution\nRu\n; then\nrD\nend\n")

    def test_refused_records_stay(self) -> None:
        """Lines that aren't of the grammar stay as they are."""
        os.symlink(SAMPLES, "samples")
        result = self.tool("carry", "samples/every.xsb", "samples/every.answers",
                           "samples/every.xsb")
        self.write("a", result.out)
        self.assertEqual(self.audit("samples/every.xsb", "a").count(b" refused line "),
                         self.sample("every.report").count(b" refused line "))
        self.write("a", "sokoban-answers 1\nlevel 9\n")
        refused = self.tool("carry", "samples/first.xsb", "a", "samples/first.xsb")
        self.assertEqual((refused.status, refused.out, refused.err),
                         (2, b"", "carry: a line 2: 'level 9': there is no such level, the highest "
                          "is 5\n"))
