"""Levels, the game and answers, compared with sokoaudit."""
import random
from typing import Optional

from tests.tools.helping import Case
from sokotool import answers, levels, report
from sokotool.board import Board


def line_of(level: levels.Level, record: Optional[answers.Record]) -> str:
    """Returns the report line by the modules; certificates aren't checked."""
    board = Board(level)
    if board.fault:
        return f"level {level.number} refused board {board.fault}"
    if record is None:
        return f"level {level.number} missing"
    replay = board.replay(record.letters)
    said = f"refused {replay.fault}" if replay.fault else (f"solved moves {replay.moves} pushes "
                                                           f"{replay.pushes} changes "
                                                           f"{replay.changes}")
    return f"level {level.number} {said}"


class Same(Case):
    def compare(self, text: bytes, written: bytes) -> int:
        """The modules and sokoaudit agree on each line of a collection and its solutions."""
        self.write("l", text)
        self.write("a", written)
        read = report.read(self.audit("l", "a"))
        found = levels.read(text)
        self.assertEqual((read.total or [None])[0], len(found))
        self.assertEqual(read.strays, [])
        records = {record.level: record for record in answers.read(written, len(found)).records}
        for level, line in zip(found, read.lines):
            record = records.get(level.number)
            if record is None or record.kind == "solution":
                self.assertEqual(line_of(level, record), line.text, level.rows)
        return len(found)

    def test_samples(self) -> None:
        for name in ("every", "first", "exports", "deadlocks"):
            self.compare(self.sample(name + ".xsb"), self.sample(name + ".answers"))

    def test_random_levels(self) -> None:
        chance = random.Random(20)
        for _ in range(5):
            drawn = [random_level(chance) for _ in range(200)]
            text = "".join(chance.choice(["", "Title: a\n", "\n", "x#x\n"]) + rows +
                           chance.choice(["\n", "\n\n", "\r\n"]) for rows in drawn).encode()
            text = chance.choice([b"", b"\xef\xbb\xbf"]) + text
            found = levels.read(text)[:10000]
            written = answers.text([answers.solution(level.number, random_letters(chance, level))
                                    for level in found if chance.random() < .9])
            self.compare(text, written)

    def test_answers_faults(self) -> None:
        chance = random.Random(21)
        kept = self.sample("every.answers").split(b"\n")
        self.write("l", self.sample("every.xsb"))
        for _ in range(60):
            lines = list(kept)
            for _ in range(chance.randint(1, 3)):
                at = chance.randrange(len(lines))
                lines[at:at + 1] = chance.choice([[], [lines[at], lines[at]], [b""], [b"; x"],
                                                  [b"level 5"], [b"end"],
                                                  [b"level 99999999999999999999"], [b"solution"]])
            written = b"\n".join(lines)
            self.write("a", written)
            said = self.audit("l", "a").decode()
            try:
                answers.read(written, 23)
                self.assertIn("total 23", said)
            except answers.Fault as fault:
                self.assertEqual(said, f"answers line {fault.line} {fault.why}\n")

    def test_writers(self) -> None:
        text = answers.text([answers.solution(1, b"r" * 141),
                             answers.patterns(2, [([(3, 2), (2, 2)], None),
                                                  ([(2, 2)], [(4, 3), (3, 2)])])])
        self.assertEqual(text.decode(),
                         f"sokoban-answers 1\nlevel 1\nsolution\n{'r' * 70}\n{'r' * 70}\nr\nend\n"
                         "level 2\nunsolvable\npattern 2,2 3,2 @ *\npattern 2,2 @ 3,2 4,3\nend\n")
        self.assertEqual(answers.text([answers.certificate(1, [b"zone 2,4 3,4"])]).decode(),
                         "sokoban-answers 2\nlevel 1\nunsolvable\nzone 2,4 3,4\nend\n")
        self.assertEqual(answers.text([]), b"sokoban-answers 1\n")


def random_level(chance: random.Random) -> str:
    """Rows of a small board, most often closed and with one player."""
    width, height = chance.randint(3, 8), chance.randint(3, 6)
    cells = [[chance.choice("    ##..$*@" if chance.random() < .3 else "     .$#")
              for _ in range(width)] for _ in range(height)]
    if chance.random() < .9:
        for row in cells:
            row[:] = [" " if c in "@+" else c for c in row]
        cells[chance.randrange(1, height - 1)][chance.randrange(1, width - 1)] = chance.choice("@+")
    if chance.random() < .9:
        cells[0], cells[-1] = ["#"] * width, ["#"] * width
        for row in cells:
            row[0] = row[-1] = "#"
    rows = ["".join(row) for row in cells]
    if chance.random() < .05:
        at = chance.randrange(height)
        rows[at] += chance.choice(["\t", "x", " ", "   #", "_-", " " * 260, "\r"])
    return "\n".join(rows)


def random_letters(chance: random.Random, level: levels.Level) -> bytes:
    """Letters that mostly can be played on a level, up to a position that solves it."""
    board = Board(level)
    if board.player is None or board.fault == "size":
        return b"r"
    letters = b""
    for _ in range(chance.randint(0, 25)):
        step = chance.choice(b"lurd")
        longer = letters + bytes([step])
        replay = board.replay(longer, any_case=True)
        if not (replay.fault or "").startswith("move"):
            letters = longer
            if not replay.fault:
                break
    letters = board.replay(letters, any_case=True).letters
    return letters + bytes(chance.choice([b"", b"", b"", b"x", b"R", b"l", b" \t\r"]))
