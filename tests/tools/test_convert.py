"""What convert reads, and what it must never do."""
import base64
import io
import os
import tarfile
from typing import Dict, List

from tests.tools.helping import ONE, SAMPLES, Case, Converted, is_slow
from sokotool import answers, levels

OTHER = "######\n#@ $.#\n######\n"


def rows_of(text: bytes) -> List[str]:
    return [b"\n".join(level.rows).decode() for level in levels.read(text)]


def letters_of(text: bytes) -> Dict[int, str]:
    return {record.level: record.letters.decode() for record in answers.read(text).records}


LONG = "#######\n#@ $ .#\n#######\n"


class Inputs(Case):
    """No input is written over, and results appear whole or not at all."""

    def test_input_is_never_written_over(self) -> None:
        os.mkdir("here")
        os.chdir("here")
        for name in ("mine.xsb", os.path.abspath("mine.xsb"), "../here/mine.xsb", "link", "hard"):
            self.write("mine.xsb", ONE)
            if name == "link" and not os.path.lexists(name):
                os.symlink("mine.xsb", name)
            if name == "hard" and not os.path.lexists(name):
                os.link("mine.xsb", name)
            result = self.tool("convert", "mine", name)
            self.assertEqual((result.status, self.read("mine.xsb")), (2, ONE.encode()), name)
            self.assertIn("would write over", result.err)

    def test_outputs_stay_where_an_input_is_missing(self) -> None:
        self.write("keep.xsb", "kept")
        self.write("keep.answers", "kept")
        self.write("keep.txt", ONE)
        self.assertEqual(self.tool("convert", "keep", "keep.txt", "missing.txt").status, 2)
        self.assertEqual((self.read("keep.xsb"), self.read("keep.answers")), (b"kept", b"kept"))
        self.assertEqual(sorted(os.listdir(".")), ["keep.answers", "keep.txt", "keep.xsb"])

    def test_outputs_stay_where_one_cannot_be_written(self) -> None:
        self.write("mine.txt", ONE)
        self.write("keep.xsb", "kept")
        os.mkdir("keep.answers")
        self.assertEqual(self.tool("convert", "keep", "mine.txt").status, 2)
        self.assertEqual(self.read("keep.xsb"), b"kept")
        self.assertEqual(sorted(os.listdir(".")), ["keep.answers", "keep.xsb", "mine.txt"])


class Levels(Case):
    """Levels stay as they are, and no level is lost unreported."""

    def test_headings_are_no_rows(self) -> None:
        for heading in ("### 1 ###", "#2.", "#3 Bob", "#1 ", "#1", "#5#", "## Bob ##", "# Bob #",
                        "#B", "# 7 #", "#12.", "### 2 levels ###"):
            for text in (heading + "\n" + ONE, ONE + heading + "\n", ONE + "\n" + heading + "\n\n" +
                         OTHER):
                result, found, _ = self.convert(text)
                self.assertEqual(rows_of(found), [ONE.strip()] + [OTHER.strip()] * (OTHER in text),
                                 text)
                self.assertEqual(result.status, 0, result.err)
                self.assertIn(heading.encode(), found)

    def test_what_seems_to_be_no_level(self) -> None:
        """The question fits what is wrong: rows are missing, or several levels are one."""
        for text, said in (
                ("#######\n#  $ .#\n#######\n", "has 0 players: are these all of its rows?"),
                ("#####  #####\n#@$.#  #@$.#\n#####  #####\n",
                 "has 2 players: are these several levels?"),
                ("####\n#@ #\n####\n", "has no box: are these all of its rows?"),
                ("#####\n#@$. \n#####\n", "isn't closed by walls: are these all of its rows?")):
            result, _, _ = self.convert(text)
            self.assertEqual((result.status, result.err.splitlines()[0]),
                             (1, f"convert: mine.txt line 1: level 1 {said}"))

    def test_heading_between_two_levels(self) -> None:
        for heading in ("### 1 ###", "#2.", "#3 Bob", "#1 "):
            result, found, _ = self.convert(ONE + heading + "\n" + OTHER)
            self.assertEqual(rows_of(found), [ONE.strip(), OTHER.strip()])
            self.assertEqual(result.status, 1)
            self.assertIn("mine.txt line 4: ", result.err)

    def test_marked_outer_floor(self) -> None:
        for mark in "~x^":
            marked = f"{mark}####{mark}{mark}\n{mark}#  ###\n##$@.#\n######\n"
            result, found, solved = self.convert(ONE + "Solution\nR\n\n" + marked + "\n" + OTHER +
                                                 "Solution\nrR\n")
            self.assertEqual(rows_of(found),
                             [ONE.strip(), " ####  \n #  ###\n##$@.#\n######", OTHER.strip()])
            self.assertEqual(list(letters_of(solved)), [1, 3])
            self.assertIn("line 7: floor outside the walls is marked, and was read as floor",
                          result.err)

    def test_outer_marks_between_walls(self) -> None:
        text = "####~~####\n#  #~~#  #\n#  ####  #\n#@ $ .   #\n##########\n"
        result, found, _ = self.convert(text)
        self.assertEqual(rows_of(found), [text.replace("~", " ").strip()])
        self.assertEqual(result.status, 0)

    def test_marks_inside_are_reported(self) -> None:
        result, found, _ = self.convert("######\n#@x$.#\n######\n")
        self.assertEqual(result.status, 1)
        self.assertIn("mine.txt line 2: looks like a row, but 'x' is no character of rows",
                      result.err)
        self.assertIn(b"#@x$.#", found)

    def test_strange_rows_are_reported(self) -> None:
        for row, line in (("#@&$.#", 2), ("#@\t$.#", 2), ("# $X@#", 2)):
            result, _, _ = self.convert("######\n" + row + "\n######\n")
            self.assertEqual(result.status, 1)
            self.assertIn(f"mine.txt line {line}: ", result.err)

    def test_row_without_wall_is_reported(self) -> None:
        result, _, _ = self.convert("#####\n @$. \n#####\n")
        self.assertIn("line 2: a row without a wall", result.err)
        self.assertEqual(result.status, 1)

    def test_line_ends_and_encodings(self) -> None:
        text = "Gr\u00fc\u00dfe\n" + ONE + "\n\n" + OTHER + "Solution\nrR\n"
        for end in ("\n", "\r\n", "\r", "\r\r\n"):
            for code in ("utf-8", "utf-8-sig", "latin-1", "utf-16", "utf-16-le", "utf-16-be"):
                result, found, solved = self.convert(text.replace("\n", end).encode(code))
                self.assertEqual((result.status, rows_of(found)), (0, [ONE.strip(), OTHER.strip()]),
                                 (end, code))
                self.assertEqual(letters_of(solved), {2: "rR"})
                self.assertIn("Gr\u00fc\u00dfe\n".encode(), found)

    def test_lines_of_blanks(self) -> None:
        """Of whatever blanks a line is, it is no board in other characters."""
        for blank in filter(str.isspace, map(chr, range(0x3001))):
            result, found, _ = self.convert(f"{ONE}\n{3 * blank}\n'{3 * blank}'\n{OTHER}")
            self.assertEqual((result.status, rows_of(found)), (0, [ONE.strip(), OTHER.strip()]),
                             repr(blank))

    def test_many_ends_of_lines(self) -> None:
        """A text of a million ends of lines takes no longer than another one."""
        def converts() -> None:
            for end in ("\r", "\n", "\r\n"):
                result, found, _ = self.convert(ONE + end * 100_000 + OTHER)
                self.assertEqual((result.status, rows_of(found)),
                                 (0, [ONE.strip(), OTHER.strip()]))
        self.takes_less(10, converts)

    def test_forms_that_are_no_text(self) -> None:
        unread = ", which is not read: unpack it first"
        tar = io.BytesIO()
        with tarfile.open(fileobj=tar, mode="w") as archive:
            archive.addfile(tarfile.TarInfo("a.xsb"), io.BytesIO())
        for data, why in ((b"7z\xbc\xaf\x27\x1c", "a 7-Zip archive" + unread),
                          (b"PK\3\4\0", "a damaged zip archive, or one too deep in others"
                           + unread),
                          (tar.getvalue(), "a tar archive" + unread),
                          (ONE.encode() + b"\0" * 9, "zero bytes at the end, from line 4")):
            result = self.convert(data)[0]
            self.assertEqual(result.status, 1)
            self.assertIn(f"mine.txt line 1: {why}\n", result.err)
        os.mkdir("folder")
        self.write("folder/a.xsb.xz", b"\xfd7zXZ\0")
        self.write("folder/b.txt", ONE)
        result = self.tool("convert", "two", "folder")
        self.assertEqual(result.status, 1)
        self.assertIn("folder/a.xsb.xz line 1: an xz file", result.err)

    def test_what_is_no_text_is_reported(self) -> None:
        for data in (b"\0\1\2\3" + ONE.encode(), b"\xff\xfe\x00", b"", b"Nothing here\n"):
            result, _, _ = self.convert(data)
            self.assertEqual(result.status, 1)
            self.assertIn("mine.txt line 1: ", result.err)

    def test_maze_files(self) -> None:
        text = ("*****\nMaze: 1\nFile offset: 148C\nSize X: 7\nSize Y: 3\nEnd: 1\nLength: 3\n\n"
                "XXXXXXX\nX@*.& X\nXXXXXXX\n\n*****\nMaze: 2\n\nXXXXX\nX@*.X\nXXXXX\n")
        result, found, _ = self.convert(text)
        self.assertEqual((result.status, rows_of(found)),
                         (0, ["#######\n#@$.* #\n#######", ONE.strip()]))

    def test_blanks_after_a_row(self) -> None:
        result, found, _ = self.convert("#####\t\n#@$.# \t \n#####\n")
        self.assertEqual((result.status, rows_of(found)), (0, [ONE.strip()]))

    def test_coded_rows(self) -> None:
        rows = "######\n#@ $.#\n######"
        for text in ("6#\n#@-$.#\n6#\n", "6#|#@-$.#|6#\n", "######\n#p bo#\n######\n",
                     "6#|\n#p_bo#|\n6#\n", "2(3#)\n#@-$.#\n3(##)\n"):
            result, found, _ = self.convert("Name\n" + text + "Solution: rR\n")
            self.assertEqual(result.status, 0, (text, result.err))
            self.assertEqual([row.replace("-", " ").replace("_", " ") for row in rows_of(found)],
                             [rows])


class Solutions(Case):
    """No solution is lost unreported."""

    def test_headings(self) -> None:
        for line in ("Solution R", "Solution=R", "Solution: R", "Solution 1: R (1 moves)",
                     "Best solution: R", "LURD: R", "; Solution: R",
                     "Solution (1/1): R",
                     "SOLUTION: r", "Solution\nR", "Solution:\n\nR", "Solution/Moves\nR",
                     "Solution 1/1 (Optimizer)\nR",
                     "Solution\nDate: 2001\nR", "solution - R"):
            result, _, solved = self.convert(ONE + "\n" + line + "\n")
            self.assertEqual((letters_of(solved), result.status), ({1: "R"}, 0), (line, result.err))

    def test_heading_without_letters_is_reported(self) -> None:
        for line in ("Solution", "Solution\n\nNext level", "Solution: see my page", "Solution 1:",
                     "Best solution (12 moves)"):
            result, _, solved = self.convert(ONE + line + "\n\n" + OTHER)
            self.assertEqual((letters_of(solved), result.status), ({}, 1), line)
            self.assertIn("mine.txt line 4: a solution heading with no letters", result.err)

    def test_sentences_are_no_headings(self) -> None:
        for line in ("No solution known", "The solution is hard", "Solution files are on my page",
                     "Solutions: 3"):
            result, found, solved = self.convert(ONE + line + "\n\n" + OTHER +
                                                 "Solution by Bob\n\nrR\n")
            self.assertEqual((letters_of(solved), result.status), ({2: "rR"}, 0),
                             (line, result.err))
            self.assertIn(line.encode(), found)

    def test_snapshot_is_no_solution(self) -> None:
        for head in ("Snapshot", "Save Game 1", "Saved game", "Snapshot: 1", "; Snapshot"):
            result, _, solved = self.convert(OTHER + f"\nSolution\n\n{head}\nr\n")
            self.assertEqual((letters_of(solved), result.status), ({}, 1), head)
            self.assertIn("a solution heading with no letters", result.err)

    def test_one_that_solves_is_preferred(self) -> None:
        result, _, solved = self.convert(OTHER + "Solution\nr\n\nSolution\nrR\n")
        self.assertEqual((letters_of(solved), result.status), ({1: "rR"}, 1))
        self.assertIn("line 5: the solution of level 1 leaves 1 box off the goals", result.err)
        result, _, solved = self.convert(OTHER + "Solution\nu\n\nSolution\nr\n")
        self.assertEqual((letters_of(solved), result.status), ({1: "r"}, 1))
        self.assertIn("line 5: the solution of level 1 cannot be played: move 1 (u) wall",
                      result.err)

    def test_best_of_several_among_words(self) -> None:
        """Solutions in lines with other words count like those under headings of their own."""
        text = LONG + "Best pushes (5/2): rlrRR\nBest moves (3/2): rRR\n"
        result, _, solved = self.convert(text)
        self.assertEqual((letters_of(solved), result.status), ({1: "rRR"}, 0))
        self.assertIn("line 4: another solution of level 1, 5 moves and 2 pushes, is left out: the "
                      "best has 3 moves and 2 pushes", result.err)

    def test_arrows(self) -> None:
        for line in ("\u2192\u2192\u2192", "Solution: \u2192 \u2192 \u2192",
                     "solved: \u27a1\ufe0f\u27a1\ufe0f\u27a1\ufe0f"):
            result, _, solved = self.convert(f"{LONG}{line}\n")
            self.assertEqual((letters_of(solved), result.status), ({1: "rRR"}, 0), line)

    def test_many_letters_beside_another(self) -> None:
        """A sign in a wrong encoding may end in a letter of ASCII."""
        many = "lr" * 4 + "rRR"
        for line in (f"F{many}", f"\u00b0\u00b8F{many}", f"{many}\u00e9"):
            result, _, solved = self.convert(f"#########\n#  @ $ .#\n#########\n{line}\n")
            self.assertEqual((letters_of(solved), result.status), ({1: many}, 0), line)

    def test_parts_of_words_are_none(self) -> None:
        for line in ("rRange", "some rRange", "barR", "rR\u00e9"):
            result, _, solved = self.convert(OTHER + f"\nSee {line} or not\n")
            self.assertEqual((result.status, letters_of(solved)), (0, {}), line)

    def test_exports_of_players(self) -> None:
        yasc = ("::::::::::::::::::::\n:: Wall  #   Box  $\n::   _#_ Floor, ## Solution and "
                "snapshot ##\n\n"
                "[Collection]\nDate Created: 2001\n\nLevel 1\n\n" + OTHER +
                "\nAuthor: A\nComment:\nA nice one\nComment-End:\n\n"
                "Solution/Moves\nrR\n\nSolution/Pushes\nrR\n\nSnapshot/Player\nr\n\n'Second'\n" +
                OTHER + "\nSnapshot\nr\n")
        jsoko = ("Level 1\n" + OTHER + "Title: One\nAuthor: B\n\nSolution 2/1 (Solver)\nrR\n"
                 "# Created by a solver\n\nSavegame 1/0\nr\n\nLevel 2\n" + OTHER)
        for text, title in ((yasc, "Level 1"), (jsoko, "One")):
            for end in ("\n", "\r\n"):
                result, found, solved = self.convert(text.replace("\n", end))
                self.assertEqual((letters_of(solved), rows_of(found), result.status),
                                 ({1: "rR"}, [OTHER.strip()] * 2, 0), result.err)
                self.assertEqual(levels.read(found)[0].title, title)

    def test_solution_in_its_own_file(self) -> None:
        self.write("a.sok", OTHER)
        self.write("a.sol", "2r")
        self.write("b.sok", OTHER + "\n" + OTHER)
        self.write("b.sol", "2r")
        result = self.tool("convert", "out", "a.sok", "a.sol", "b.sok", "b.sol")
        self.assertEqual(letters_of(self.read("out.answers")), {1: "rR", 2: "rR", 3: "rR"})
        self.assertEqual(result.status, 0)


class Slc(Case):
    """SLC files are read as XML."""

    def slc(self, levels_text: str, head: str = '<?xml version="1.0"?>') -> Converted:
        return self.convert(head + "<SokobanLevels><Title>T</Title><LevelCollection>" +
                            levels_text + "</LevelCollection></SokobanLevels>", "a.slc")

    def test_forms(self) -> None:
        rows = "<L>#####</L><L>#@$.#</L><L>#####</L>"
        for level in ('<Level Id="A &amp; B">' + rows, "<Level Id='A &#38; B'>" + rows,
                      '<Level\n  Id="A &amp; B">' +
                      rows.replace("<L>", '<L xml:space="preserve">', 1),
                      '<Level Id="A &amp; B">' +
                      rows.replace("<L>", "<L\n>").replace("</L>", "\n</L>"),
                      '<Level Id="A &amp; B"><!-- <L>####</L> -->' + rows):
            result, found, _ = self.slc(level + "</Level>")
            self.assertEqual((result.status, rows_of(found)), (0, [ONE.strip()]),
                             (level, result.err))
            self.assertEqual(levels.read(found)[0].title, "A & B")

    def test_encodings_that_files_name(self) -> None:
        """If a file isn't UTF-8 it is in the encoding that it names, unless it can't be."""
        for name, title, code in (
                ("big5", "\u4e00", "big5"), ("Shift_JIS", "\u65e5\u672c", "cp932"),
                ("windows-1251", "\u0416", "cp1251"), ("iso-8859-2", "\u0142", "iso-8859-2"),
                ("utf8", "\u00e9\u4e00", "utf-8"), ("utf-16", "\u00e9\u4e00", "utf-8"),
                ("klingon", "\u00e9", "utf-8"), ("utf-8", "\u00e9", "cp1252"),
                ("iso-8859-1", "It\u2019s", "cp1252"), ("latin1", "\u00e9", "cp1252")):
            self.write("a.slc", f'<?xml version="1.0" encoding="{name}"?><SokobanLevels><Level Id='
                       f'"{title}"><L>#####</L><L>#@$.#</L><L>#####</L></Level></SokobanLevels>'
                       .encode(code))
            result = self.tool("convert", "out", "a.slc", "--replace")
            self.assertEqual((result.status, titles_of(self.read("out.xsb")), "line" in result.err),
                             (0, [title], name == "utf-8"), result.err)

    def test_commented_level(self) -> None:
        result, found, _ = self.slc("<!-- <Level><L>####</L></Level> --><Level><L>#####</L><L>"
                                    "#@$.#</L><L>#####</L></Level>")
        self.assertEqual((result.status, rows_of(found)), (0, [ONE.strip()]))

    def test_faults_are_reported(self) -> None:
        good = "<Level><L>#####</L><L>#@$.#</L><L>#####</L></Level>"
        for bad, why in (("<Level><L>#?#</L></Level>", "looks like a row"),
                         ("<Level", "cannot be read on"), ("&bomb;", "cannot be read on")):
            result, found, _ = self.slc(good + bad)
            self.assertEqual((result.status, rows_of(found)), (1, [ONE.strip()]), bad)
            self.assertIn(why, result.err)
        bomb = '<?xml version="1.0"?><!DOCTYPE S [<!ENTITY a "aaaaaaaaaa"><!ENTITY b "&a;&a;&a;">]>'
        self.assertEqual(self.slc(good, bomb)[0].status, 1)


class Limits(Case):
    """Nothing grows past the auditor's limits."""

    def test_long_rows(self) -> None:
        result, found, _ = self.convert("30000000#\n" * 200)
        self.assertEqual(result.status, 1)
        self.assertLess(len(found), 10000)

    def test_widest_row(self) -> None:
        result, found, _ = self.convert("255#\n#@$.251-\n255#\n".replace("251-", "250-#"))
        self.assertEqual((result.status, len(rows_of(found)[0].split("\n")[0])), (0, 255))
        self.assertEqual(self.convert("256#\n#@$.251-#\n256#\n")[0].status, 1)

    def test_long_lines_between_levels(self) -> None:
        """None takes long to be no title."""
        for line in ("\u2192" * 30_000 + "[", "<a " + 'name="b" ' * 30_000 + "{"):
            self.takes_less(8, lambda line=line: self.convert(  # type: ignore[misc]
                f"{ONE}\n{line}\n{OTHER}"))

    def test_long_lines_of_a_list(self) -> None:
        """Nor to be no number."""
        self.write("a.txt", ONE)
        self.write("b.txt", "1. R\n" + " " * 100_000 + "x\n")
        self.takes_less(4, lambda: self.tool("convert", "out", "a.txt", "b.txt", "--replace"))

    def test_long_solutions(self) -> None:
        result, _, solved = self.convert(ONE + "Solution\n99999999999999999999(r)\n" + OTHER +
                                         "Solution: 40000000r\n")
        self.assertEqual((result.status, letters_of(solved)), (1, {}))
        self.assertIn("is longer than", result.err)

    @is_slow
    def test_too_many_levels(self) -> None:
        result, found, _ = self.convert("\n".join([ONE] * 10001))
        self.assertEqual((result.status, found), (2, None))
        self.assertEqual(self.convert("\n".join([ONE] * 10000))[0].status, 0)

    @is_slow
    def test_many_coded_levels_of_a_folder(self) -> None:
        os.mkdir("inbox")
        self.write("inbox/a.txt", "7#|#@2-$.#|7#\n\n" * 10001)
        result = self.tool("convert", "--split", "out", "inbox")
        self.assertEqual((result.status, result.err), (
            0, "convert: 10001 levels in 2 collections, 0 solutions, 0 left out\n"))


class Samples(Case):
    """The folder of exports, as the pages walk through it."""

    def test_exports(self) -> None:
        os.symlink(SAMPLES, "samples")
        files = sorted(os.path.join("samples/exports", name)
                       for name in os.listdir("samples/exports"))
        result = self.tool("convert", "exports", *files)
        self.assertEqual(result.err.encode(), self.expected("exports.messages"))
        self.assertEqual(self.read("exports.xsb"), self.sample("exports.xsb"))
        self.assertEqual(self.read("exports.answers"), self.sample("exports.answers"))


def titles_of(text: bytes) -> List[str]:
    return [level.title for level in levels.read(text)]


class Kept(Case):
    """Titles, comments and attributions are kept."""

    def test_what_a_heading_says_more_stays(self) -> None:
        """Words in the heading of a solution that are no counts stay as text."""
        for text in ("Solution (by NAME, 2003-05-01): rRR", "Solution: rRR by NAME",
                     "Solution 3/2 by NAME, 1 May 2003\nrRR",
                     "Solution: rRR ; proved optimal by NAME"):
            result, found, solved = self.convert(LONG + text + "\n\n" + ONE)
            self.assertEqual((result.status, letters_of(solved)), (0, {1: "rRR"}), text)
            self.assertIn(text.split("\n")[0].encode() + b"\n", found)
            self.assertEqual(titles_of(found), ["", ""])
        result, found, _ = self.convert(LONG + "Solution: unknown; hint: push right first\n")
        self.assertIn(b"hint: push right first\n", found)
        for text in ("Solution: rRR", "Solution 3/2:\nrRR", "; Best solution (3 moves): rRR",
                     "[Solution]\nrRR"):
            _, found, solved = self.convert(LONG + text + "\n")
            self.assertEqual((letters_of(solved), b"olution" in found), ({1: "rRR"}, False), text)

    def test_letters_under_a_soft_heading(self) -> None:
        for text in ("L\u00f6sung: rRl", "Moves: rRl", "Answer: rRl", "Solution of One: rR"):
            result, _, _ = self.convert(LONG + text + "\n")
            self.assertEqual(result.status, 1, text)
            self.assertIn("line 4: the solution of level 1 leaves 1 box", result.err)
        for text in ("Moves: 12", "Answer: unknown", "My solution is by R. Durr"):
            self.assertEqual(self.convert(LONG + text + "\n")[0].status, 0, text)

    def test_bullets(self) -> None:
        for bullet in ("* ", ". "):
            text = "".join(bullet + row + "\n" for row in LONG.splitlines())
            result, found, _ = self.convert(text)
            self.assertEqual(rows_of(found), [LONG.strip()])
            self.assertIn("line 1: each row has a bullet in front", result.err)

    def test_forms_that_are_not_read(self) -> None:
        """They are reported beside a readable level too."""
        rows = LONG.splitlines()
        for text in ("".join(";".join(row) + "\n" for row in rows),
                     base64.b64encode(LONG.encode() * 3).decode() + "\n",
                     "".join("1111111\n" for row in rows)):
            result, found, _ = self.convert(LONG + "\n" + text)
            self.assertEqual((result.status, rows_of(found)), (1, [LONG.strip()]), text)
            self.assertIn("line 5: ", result.err)

    def test_web_pages_that_begin_like_xml(self) -> None:
        for head in ("<!DOCTYPE html>", "<!doctype html>", "<!-- saved from url=(0014)about -->",
                     '<?xml version="1.0"?>\n<!DOCTYPE html PUBLIC "" "">'):
            result, found, solved = self.convert(
                f"{head}\n<html><img src=x>\n<pre>\n{ONE}</pre>\n<p>Solution: R<br></html>\n")
            self.assertEqual((result.status, rows_of(found), letters_of(solved)),
                             (0, [ONE.strip()], {1: "R"}), head)

    def test_titles_of_many_kinds(self) -> None:
        for text, wanted in (
                (f"Titel: First\n{ONE}", "First"), (f"{ONE}Titre : First\n", "First"),
                (f"{ONE}Name: First\n", "First"), (f"{ONE}Level: 1\n", "1"),
                (f"{ONE}\u6807\u9898\uff1a\u7b2c\u4e00\n\u89e3\u7b54\uff1aR\n", "\u7b2c\u4e00"),
                (f"; First\n; by NAME\n{ONE}", "First"),
                (f";LEVEL 1\n;AUTHOR NAME\n{ONE}", "LEVEL 1"),
                *((f"First\n{line}\n{ONE}", "First") for line in (
                    "```xsb", "<pre>", "<!DOCTYPE html>", '<?xml version="1.0"?>',
                    "<!-- Page 1 -->", "{{{", "------", "____", "[/spoiler]",
                    "\u89e3\u7b54\uff1aR")),
                (f"{ONE}Title: First\n\nLevel: 2\n", "First"),
                (f"{ONE}- title: First\n", "First"), (f"First\nAuthor: NAME\n{ONE}", "First")):
            _, found, _ = self.convert(text)
            self.assertEqual(titles_of(found), [wanted], text)

    def test_titles(self) -> None:
        above = f"Title: First\n{ONE}\nTitle: Second\n{OTHER}"
        below = f"{ONE}Title: First\n\n{OTHER}Title: Second\n"
        for text in (above, below, "Title: All\nAuthor: A\n\n" + below):
            result, found, _ = self.convert(text)
            self.assertEqual((result.status, titles_of(found)), (0, ["First", "Second"]), text)
            self.assertEqual(titles_of(text.encode()), ["First", "Second"])

    def test_titles_of_letters_and_digits(self) -> None:
        """They are titles if they are nearer to the level below, and no solution."""
        for text, wanted in (
                ("Dull\n" + ONE + "\nLull\n" + ONE, ["Dull", "Lull"]),
                ("1\n\n" + ONE + "\n42\n\n" + ONE, ["1", "42"]),
                (ONE + "\n3D\n" + ONE + "\n\n\n4l8r\n\n" + ONE, ["", "3D", "4l8r"]),
                ("Levels by Someone\n\n7\n" + ONE, ["7"]),
                (ONE + "ud\n" + ONE, ["", ""]), (ONE + "\nud\n\n" + ONE, ["", ""]),
                (ONE + "\nOne more solution:\nud\n" + ONE, ["", ""]),
                (ONE + "\nud\nlr\n" + ONE, ["", ""]), ("Dull\nAuthor: B\n" + ONE, [""])):
            self.write("a.xsb", text)
            self.assertEqual(titles_of(self.read("a.xsb")), wanted, text)
            self.assertEqual(titles_of(self.convert(text)[1]), wanted, text)

    def test_titles_lose_their_marks(self) -> None:
        for line in ("<h2>First</h2>", "# First", "; ## First", "Title=First", "\fFirst",
                     "\fTitle: First", "<b>First</b><br>"):
            self.assertEqual(titles_of(self.convert(line + "\n" + ONE)[1]), ["First"], line)

    def test_name_of_a_file_is_no_title(self) -> None:
        _, found, _ = self.convert(ONE + "\n" + ONE)
        self.assertIn(b"; File: mine.txt\n", found)
        self.assertEqual(titles_of(found), ["", ""])
        for form in ("sok", "slc", "xsb", "rle"):
            exported = self.tool("export", "out", "--to", form).out
            self.assertNotIn(b"Title: ", exported)
            self.assertNotIn(b'Id="mine', exported)

    def test_titles_of_two_files(self) -> None:
        self.write("a.txt", f"Title: First\n{ONE}\nTitle: Second\n{OTHER}")
        self.write("b.txt", f"Title: All\n\n{ONE}\n{OTHER}Title: Fourth\n")
        self.assertEqual(self.tool("convert", "out", "a.txt", "b.txt").status, 0)
        self.assertEqual(titles_of(self.read("out.xsb"))[:2], ["First", "Second"])
        self.assertEqual(titles_of(self.read("out.xsb"))[3], "Fourth")
        self.assertIn(b"\nCollection: All\n", self.read("out.xsb"))

    def test_comment(self) -> None:
        text = f"{ONE}Comment:\nsuch as\n{OTHER}Comment-End:\nSolution: R\n\n{OTHER}"
        result, found, solved = self.convert(text)
        self.assertEqual((result.status, letters_of(solved)), (0, {1: "R"}))
        self.assertEqual(rows_of(found), [ONE.strip(), OTHER.strip()])
        self.assertIn(b"\n; ######\n; #@ $.#\n; ######\nComment-End:\n", found)
        self.assertIn("line 6: rows in a comment, which stay text", result.err)
        self.write("a.xsb", text)
        self.assertIn(b"a.xsb line 6: a row in a comment", self.tool("warn", "a.xsb").out)

    def test_comment_of_an_author_stays_whole(self) -> None:
        """A title in it is none of the collection, and stays in its place."""
        text = f"Comment:\nTitle: none\nComment-End:\n{ONE}"
        self.assertIn(text.encode(), self.convert(text)[1])

    def test_attribution(self) -> None:
        rows = "".join(f"<L>{row}</L>" for row in ONE.split())
        for name in ("Id", "ID", "id"):
            result, found, _ = self.convert(
                '<SokobanLevels><Description>Nice ones</Description><LevelCollection '
                f'Copyright="Jane Doe"><Level {name}="Two" Copyright="Jim">{rows}<Author>Bob'
                '</Author></Level></LevelCollection></SokobanLevels>', "a.slc")
            self.assertEqual((result.status, titles_of(found)), (0, ["Two"]), result.err)
            for line in ("; Nice ones", "Copyright: Jane Doe", "Copyright: Jim", "Author: Bob"):
                self.assertIn(line.encode(), found.split(b"\n"))

    def test_other_games(self) -> None:
        result, found, solved = self.convert(
            f"{ONE}Solution: R\n\n{OTHER}Title: Six\nType: Hexoban\nSolution: rR\n\n{OTHER}rR\n")
        self.assertEqual((result.status, letters_of(solved)), (1, {1: "R", 2: "rR", 3: "rR"}))
        self.assertEqual(titles_of(found), ["", "Six", ""])
        self.assertIn("line 10: names another game, Hexoban: its levels are read as levels of "
                      "Sokoban", result.err)

    def test_unsolved_is_reported(self) -> None:
        for letters in ("r", "r\n\nr"):
            text = f"#######\n#@ $ .#\n#######\nSolution:\n\n{letters}\n"
            result, _, solved = self.convert(text)
            said = "the solution of level 1 leaves 1 box off the goals"
            self.assertEqual(result.status, 1)
            self.assertIn(said, result.err)
            self.assertIn("1 level, 1 solution, 0 left out, 1 unsolved", result.err)
            self.assertTrue(letters_of(solved)[1].startswith("r"))

    def test_best(self) -> None:
        text = "#######\n#     #\n#@ $ .#\n#######\nSolution\nrlrRR\n\nSolution\nrRR\n"
        for words in ("--best", "moves"), (), ("--best", "pushes"):
            self.write("a.txt", text)
            result = self.tool("convert", "out", "a.txt", "--replace", *words)
            self.assertEqual((letters_of(self.read("out.answers")), result.status),
                             ({1: "rRR"}, 0))
        self.assertIn("line 6: another solution of level 1, 5 moves and 2 pushes, is left out: "
                      "the best has 3 moves and 2 pushes", self.convert(text)[0].err)
