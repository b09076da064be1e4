"""Two solutions of a level: the best by moves and the best by pushes."""
import os
import shutil

from tests.tools.helping import Result, needs_program
from tests.tools.checking import Check

# Two steps to the right push the box to the far goal, and a walk around it to the near one.
ROWS = "########\n#      #\n#@.$ . #\n#      #\n########\n"
MOVES, PUSHES = "rRR", "urrrdL"
PLAIN = "#######\n#@ $ .#\n#######\n"
EXPORT = (f"{ROWS}Title: Two ways\n\nSolution/Moves\n{MOVES}\n\nSolution/Pushes\n{PUSHES}\n\n"
          f"{PLAIN}Title: One way\n\nSolution\nrRR\n")
BOTH = b"sokoban-answers 1\nlevel 1\nsolution\nurrrdL\nend\n"


@needs_program
class Both(Check):
    def setUp(self) -> None:
        super().setUp()
        self.write("a.sok", EXPORT)

    def both(self, *words: str) -> Result:
        """Keeps both of the best, without a search."""
        return self.check("mine", *words, "--best", "both")

    def test_each_in_its_file(self) -> None:
        result = self.both("a.sok")
        self.assertEqual(self.lines(result), [
            "mine: 2 levels, 2 solved, 0 unsolvable, 0 refused, 0 missing",
            "with fewer pushes in mine.other.answers: level 1"])
        self.assertEqual(self.report()[0], "level 1 solved moves 3 pushes 2 changes 1")
        self.assertEqual(self.read("mine.other.answers"), BOTH)
        self.assertEqual(self.audit("mine.xsb", "mine.other.answers").splitlines()[0],
                         b"level 1 solved moves 6 pushes 1 changes 1")

    def test_both_stay_without_the_option(self) -> None:
        """They stay if levels move or the exports are away, and go if one is asked for."""
        self.both("a.sok")
        os.remove("a.sok")
        self.write("a.txt", PLAIN.replace("@ $", "@$ ") + "\n" + ROWS + "\n" + PLAIN)
        result = self.check("mine", "a.txt")
        self.assertIn("with fewer pushes in mine.other.answers: level 2", self.lines(result))
        self.assertEqual(self.read("mine.other.answers"), BOTH.replace(b"level 1", b"level 2"))
        self.check("mine", "a.txt", "--best", "pushes")
        self.assertFalse(os.path.exists("mine.other.answers"))
        self.assertEqual(self.report()[1], "level 2 solved moves 6 pushes 1 changes 1")
        self.assertIn(b"rRR", self.read("mine.kept.answers"))
        self.both("a.txt")
        self.assertEqual(self.report()[1], "level 2 solved moves 3 pushes 2 changes 1")
        self.assertEqual(self.read("mine.other.answers"), BOTH.replace(b"level 1", b"level 2"))

    def test_what_is_typed_there_stays(self) -> None:
        """A better one with a comment takes the place, and a worse or refused one is kept apart."""
        self.both("a.sok")
        self.write("mine.other.answers", "sokoban-answers 1\n; mine\nlevel 1\nsolution\nlrurrrdL\n"
                                         "end\n; wrong\nlevel 2\nsolution\nrrrr\nend\n")
        result = self.check("mine", "a.sok")
        self.assertEqual(self.read("mine.other.answers"), BOTH)
        for text in (b"; mine\n", b"lrurrrdL\n", b"; wrong\n", b"rrrr\n"):
            self.assertIn(text, self.read("mine.kept.answers"), result)

    def test_letters_that_do_not_solve_are_not_there(self) -> None:
        self.write("a.sok", EXPORT.replace(PUSHES, "urrrdR"))
        result = self.both("a.sok")
        self.assertEqual(self.read("mine.other.answers"), b"sokoban-answers 1\n")
        self.assertIn("problem: a.sok line 12: the solution of level 1 leaves 1 box",
                      result.out.decode())

    def test_solutions_from_lists_and_friends(self) -> None:
        """Both may come from files without levels, and from another collection."""
        self.both("a.sok")
        os.mkdir("friend")
        for end in (".xsb", ".answers", ".other.answers"):
            shutil.copy("mine" + end, "friend/theirs" + end)
        self.check("new", "friend", "--best", "both")
        self.assertEqual(self.read("new.other.answers"), BOTH)
        self.write("b.txt", ROWS)
        self.write("list.txt", f"1. {PUSHES}\n")
        self.write("more.txt", f"1. {MOVES}\n")
        self.check("listed", "b.txt", "list.txt", "more.txt", "--best", "both")
        self.assertEqual(self.read("listed.other.answers"), BOTH)
        self.assertIn(b"rRR", self.read("listed.answers"))

    def test_export_gives_both(self) -> None:
        """In the forms that programs write, from which check reads both again."""
        self.both("a.sok")
        for form, heads in (("sok", ["Solution/Moves\nrRR", "Solution/Pushes\nurrrdL"]),
                            ("rle", ["Solution/Moves\nrRR", "Solution/Pushes\nurrrdL"]),
                            ("xsb", ["; Solution/Moves\n; rRR", "; Solution/Pushes\n; urrrdL"]),
                            ("slc", ["<Solution>rRR</Solution>", "<Solution>urrrdL</Solution>"])):
            result = self.tool("export", "mine", "--to", form)
            self.assertEqual((result.status, result.err), (0, "export: 2 levels, 3 solutions\n"))
            for head in heads:
                self.assertIn(head, result.out.decode())
            self.write("again.txt", result.out)
            self.check(f"again-{form}", "again.txt", "--best", "both")
            self.assertEqual(self.read(f"again-{form}.other.answers"), BOTH)
