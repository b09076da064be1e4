"""The commands warn, named and merge, and what holds of all commands."""
import hashlib
import json
import os
import re
import shlex
import subprocess
import sys
from itertools import permutations
from typing import List, Tuple, Union

from tests.runner import call
from tests.tools.helping import ONE, SAMPLES, TOP, Case
from sokotool import levels, main

SEARCH = os.path.join(TOP, "examples/search.py")
SOLVER = os.path.join(TOP, "examples/solver.py")


class Commands(Case):
    def setUp(self) -> None:
        super().setUp()
        os.symlink(SAMPLES, "samples")

    def test_help_of_every_command(self) -> None:
        for words in [(), *((name,) for name in main.COMMANDS)]:
            for option in ("-h", "--help"):
                result = self.tool(*words, option)
                self.assertEqual((result.status, result.err), (0, ""))
                self.assertIn(b"usage: sokotool", result.out)
                if not words:
                    listed = re.findall(rb"(?m)^    ([a-z]+)  ", result.out)
                    self.assertEqual(" ".join(main.COMMANDS), b" ".join(listed).decode())
            if words:
                self.assertEqual(self.tool(*words).status, 2)

    def test_called_through_a_link(self) -> None:
        os.symlink(os.path.join(TOP, "sokotool"), "tool")
        found = subprocess.run(["./tool", "warn", "samples/first.xsb"], stdout=subprocess.PIPE,
                               stderr=subprocess.STDOUT, check=False)
        self.assertEqual((found.returncode, found.stdout), (0, b""))

    def test_reader_that_closes_the_pipe(self) -> None:
        self.write("many.xsb", "\n".join([ONE] * 9000))
        self.write("report", b"".join(b"level %d missing\n" % n for n in range(1, 9001)))
        found = subprocess.run(f"{shlex.quote(TOP)}/sokotool named many.xsb report | head -n 1",
                               shell=True, stdout=subprocess.PIPE, stderr=subprocess.PIPE,
                               check=False)
        self.assertEqual((found.stdout, found.stderr), (b"level 1 missing\tmany.xsb:1\t\n", b""))

    def test_devices_and_locales(self) -> None:
        self.write("a.xsb", "\u2603\n" + ONE)
        self.write("r", "level 1 missing\ntotal 1 solved 0 unsolvable 0 refused 0 missing 1\n")
        named = f"{shlex.quote(TOP)}/sokotool named a.xsb r"
        for command, wanted in ((named + " > /dev/full",
                                 (2, b"", b"named: cannot write: No space left on device\n")),
                                (named + " >&-",
                                 (2, b"", b"sokotool: standard output is closed\n")),
                                ("LC_ALL=C PYTHONUTF8=0 PYTHONCOERCECLOCALE=0 " + named +
                                 " | sed -n '1s/.*xsb:2.//p'", (0, "\u2603\n".encode(), b""))):
            found = subprocess.run(command, shell=True, stdout=subprocess.PIPE,
                                   stderr=subprocess.PIPE, check=False)
            self.assertEqual((found.returncode, found.stdout, found.stderr), wanted)


class Warn(Case):
    def test_exports(self) -> None:
        os.symlink(SAMPLES, "samples")
        self.assertEqual(self.tool("warn", "samples/exports.xsb").out,
                         self.expected("exports.warnings"))

    def test_what_is_reported(self) -> None:
        reported: List[Tuple[Union[str, bytes], str]] = [
            ("", "line 0: no level in this file"), ("Nothing\n", "line 1: no level"),
            (ONE.replace("@", "@~"), "line 2: looks like a row, but"),
            ("~~####\n" + ONE, "line 1: a coded or marked row"),
            ("##x##\n" + ONE, "line 1: a coded or marked row"),
            (ONE.replace(".#", ".#\t"), "line 2: blanks after a row"),
            (ONE.replace("#@$.#", "#@$\t.#"), "line 2: a tab in a row"),
            ("5#\n#@$.#\n5#\n", "line 1: a coded or marked row"),
            (ONE.replace("\n", "\r"), "CR alone"),
            (ONE.encode("utf-16"), "UTF-16"),
            (ONE.replace("#@", "\u00a0#@"), "line 2: a coded or marked row"),
            (f"{ONE}Comment:\n{ONE}Comment-End:\n", "line 5: a row in a comment"),
            (ONE.replace("#####\n", "#####\n\n", 1), "has 0 players")]
        for text, why in reported:
            self.write("a.xsb", text)
            result = self.tool("warn", "a.xsb")
            self.assertEqual(result.status, 1, text)
            self.assertIn(why, result.out.decode())

    def test_silence(self) -> None:
        for text in (ONE, "### 1 ###\n" + ONE, "## Bob ##\n\n" + ONE + "Author: #1\n", "\ufeff" +
                     ONE.replace("\n", "\r\n")):
            self.write("a.xsb", text)
            result = self.tool("warn", "a.xsb")
            self.assertEqual((result.status, result.out), (0, b""), text)


def digest(rows: List[str]) -> str:
    """The digest of the board of a closed level, step by step as docs/formats.md describes it."""
    cells = {(x, y): "-" if char in " _" else char
             for y, row in enumerate(rows) for x, char in enumerate(row)}
    room = [cell for cell, char in cells.items() if char in "@+"]
    for x, y in room:
        room += [near for near in ((x - 1, y), (x + 1, y), (x, y - 1), (x, y + 1))
                 if cells[near] != "#" and near not in room]
    found = []
    for one, other in ((1, 1), (1, -1), (-1, 1), (-1, -1)):
        for turned in ({(one * x, other * y): cells[x, y] for x, y in room},
                       {(one * y, other * x): cells[x, y] for x, y in room}):
            columns, lines = ([cell[at] for cell in turned] for at in (0, 1))
            width = max(columns) - min(columns) + 1
            if width <= max(lines) - min(lines) + 1:
                found.append((width, "".join(turned.get((x, y), "\0")
                                             for y in range(min(lines), max(lines) + 1)
                                             for x in range(min(columns), max(columns) + 1))))
    width, text = min(found)
    return hashlib.sha256(f"closed {width} {text}".encode()).hexdigest()[:20]


class Named(Case):
    def test_exports(self) -> None:
        os.symlink(SAMPLES, "samples")
        self.assertEqual(self.tool("named", "samples/exports.xsb", "samples/exports.report").out,
                         self.expected("exports.named"))

    def test_authors_are_no_titles(self) -> None:
        self.write("a.xsb", "Its room: first\n" + ONE + "Author: Ben\n\n" + ONE +
                   "Title : Third  \n")
        self.write("r",
                   "level 1 missing\nlevel 2 missing\ntotal 2 solved 0 unsolvable 0 refused 0 "
                   "missing 2\n")
        result = self.tool("named", "a.xsb", "-", given=self.read("r"))
        self.assertEqual(result.out.decode().split("\n")[:2],
                         ["level 1 missing\ta.xsb:2\tIts room: first",
                          "level 2 missing\ta.xsb:7\tThird"])
        for lines in ("; by Ben\n; Real\n", "; Real\n; by Ben\n"):
            self.assertEqual(levels.read((lines + ONE).encode())[0].title, "Real")

    def test_text_of_one_export_is_about_no_level_of_another(self) -> None:
        """Neither titles nor authors, above the levels or below them."""
        exports = (("; File: none\nAuthor: Dan\nRead me\n", ()),
                   (f"; File: a\n{ONE}Title: One\n\n{ONE}\nBye\n", (("One", ""), ("", ""))),
                   (f"; File: b\nName: Set\nAuthor: Ben\n\n{ONE}Title: Two\n\n{ONE}"
                    "Title: Three\nAuthor: Ann\n", (("Two", "Ben"), ("Three", "Ann"))),
                   (f"; File: c\n{ONE}", (("", ""),)),
                   (f"; File: d\nTitle: Four\n{ONE}", (("Four", ""),)))
        for some in permutations(exports):
            read = levels.read("".join(text for text, _ in some).encode())
            self.assertEqual([(level.title, level.author) for level in read],
                             [it for _, wanted in some for it in wanted])

    def test_report_of_another_collection(self) -> None:
        self.write("a.xsb", ONE)
        self.write("r",
                   "level 1 missing\nlevel 2 missing\ntotal 2 solved 0 unsolvable 0 refused 0 "
                   "missing 2\n")
        result = self.tool("named", "a.xsb", "r")
        self.assertEqual((result.status, result.err),
                         (1, "named: r isn't a report on a.xsb: it has 2 levels, and the "
                             "collection has 1\n"))

    def test_report_that_is_not_whole(self) -> None:
        self.write("a.xsb", ONE + "\n" + ONE)
        for text, why in (("", "it isn't a report"), (ONE, "it isn't a report"),
                          ("level 1 missing\n", "it is cut: it has 1 level and no total line"),
                          ("level 1 missing\ntotal 2 solved 0 unsolvable 0 refused 0 missing 2\n",
                           "its level numbers aren't 1 to 2"),
                          ("level 1 missing\nx\n", "line 2 isn't a line of a report")):
            result = self.tool("named", "a.xsb", "-", given=text.encode())
            self.assertEqual((result.status, result.err),
                             (1, f"named: - isn't a report on a.xsb: {why}\n"))

    def test_json(self) -> None:
        """Each line of the report on all cases gives an object, from which the line can be made
        again."""
        os.symlink(SAMPLES, "samples")
        report = self.sample("every.report").decode().splitlines()
        named = self.tool("named", "samples/every.xsb",
                          "samples/every.report").out.decode().splitlines()
        objects = [json.loads(line) for line in self.tool("named", "--json", "samples/every.xsb",
                                                          "samples/every.report").out.splitlines()]
        self.assertEqual(len(objects), 23)
        for one, line, place in zip(objects, report, named):
            words = []
            for name, value in one.items():
                if name in ("moves", "pushes", "changes", "patterns", "zone"):
                    words += [name, str(value)]
                elif name == "row":
                    words[-1] += f",{value}"
                elif name not in ("version", "file", "line", "title", "board", "reason"):
                    words.append(str(value))
            self.assertEqual(" ".join(["level", *words]), line)
            self.assertEqual("reason" in one, one["status"] == "refused")
            self.assertEqual(f"{one['file']}:{one['line']}\t{one['title']}",
                             place.partition("\t")[2])
        self.assertEqual(objects[0],
                         {"version": 1, "level": 1, "status": "solved", "moves": 1, "pushes": 1,
                          "changes": 1, "file": "samples/every.xsb", "line": 4, "title": "Solved",
                          "board": objects[0]["board"]})
        self.assertEqual(objects[19], {"version": 1, "level": 20, "status": "refused",
                                       "refused": "line", "answers_line": 91, "why": "push",
                                       "column": 2, "row": 3, "direction": "r",
                                       "file": "samples/every.xsb", "line": 106,
                                       "title": "A push that leads out",
                                       "board": objects[19]["board"],
                                       "reason": "No pattern of the list covers the result of "
                                                 "this push."})

    def test_boards_in_json(self) -> None:
        """The digest of a board is the one that docs/formats.md describes, and turns, mirrors,
        frames and other characters for floor don't change it."""
        room = ["#######", "#@ .  #", "#_$_###", "#######"]
        turned = ["".join(row)[::-1] for row in zip(*room)]
        framed = ["  ###########", "  #  ########", *("  ## " + row for row in room[1:])]
        drawn = [room, turned, [row[::-1] for row in room], framed, ONE.split()]
        self.write("a.xsb", "\n\n".join("\n".join(rows) for rows in drawn) + "\n")
        self.write("r", "".join(f"level {number} missing\n" for number in range(1, 6))
                   + "total 5 solved 0 unsolvable 0 refused 0 missing 5\n")
        found = [json.loads(line)["board"]
                 for line in self.tool("named", "a.xsb", "r", "--json").out.splitlines()]
        self.assertEqual(found, [digest(room)] * 4 + [digest(ONE.split())])
        self.assertEqual(len(set(found)), 2)

    def test_control_characters_are_not_printed(self) -> None:
        self.write("a.xsb", "\x1b[2J\u202eevil\n" + ONE)
        self.write("r", "level 1 missing\ntotal 1 solved 0 unsolvable 0 refused 0 missing 1\n")
        self.assertIn(b"\ta.xsb:2\t [2J evil\n", self.tool("named", "a.xsb", "r").out)


class Merge(Case):
    def test_deadlocks(self) -> None:
        os.symlink(SAMPLES, "samples")
        for name, *words in (("pair", "4", "3,2", "5,2"), ("whole", "6")):
            searched = call([SEARCH, "samples/deadlocks.xsb", *words])
            self.write(name, searched.output)
        result = self.tool("merge", "samples/deadlocks.made", "whole", "samples/deadlocks.corral",
                           "pair")
        self.assertEqual((result.status, result.out), (0, self.sample("deadlocks.answers")))

    def test_words_of_the_search(self) -> None:
        """The example says how it is called, or which file it can't read."""
        usage = "search.py LEVELS N [C,R..]: "
        for words, said in (("", usage), ("--help", usage), ("none one", usage),
                            ("none 1", "none: No such file or directory\n")):
            searched = call([SEARCH, *words.split()])
            self.assertEqual((searched.status, searched.output), (1, b""))
            self.assertTrue(searched.errors.decode().startswith(said), searched.errors)

    def test_levels_of_the_solver(self) -> None:
        """The example solves one level, and says of several what it takes."""
        for level, status, said in ((ONE, 0, b"R\n"), (ONE + "\n" + ONE, 1, b""),
                                    (ONE.replace("@", " "), 1, b"")):
            ran = subprocess.run([sys.executable, SOLVER], input=level.encode(), check=False,
                                 stdout=subprocess.PIPE, stderr=subprocess.PIPE)
            self.assertEqual((ran.returncode, ran.stdout), (status, said))
            self.assertEqual(ran.stderr, b"" if said else b"give it one level, with one player\n")

    def test_comments_and_order(self) -> None:
        self.write("a",
                   "sokoban-answers 2\n; lost\n\n; kept\nlevel 3\nsolution\nr\n; inside\n\nR\n"
                   "end\nlevel 1\nsolution\nend\n")
        self.write("b",
                   "sokoban-answers 1\r\nlevel 3\r\nsolution\r\nend\r\nlevel 2\r\nunsolvable\r\n"
                   "end\r\n")
        self.assertEqual(self.tool("merge", "a", "b").out.decode(),
                         "sokoban-answers 2\nlevel 1\nsolution\nend\nlevel 2\nunsolvable\nend\n"
                         "; kept\nlevel 3\nsolution\nr\n; inside\n\nR\nend\n")

    def test_faults(self) -> None:
        for text, why in (("", "is no answers file: line 1 isn't 'sokoban-answers 1'"),
                          ("x\n", "is no answers file: line 1 isn't 'sokoban-answers 1'"),
                          ("sokoban-answers 1\nlevel 0\n", "line 2: 'level 0': there is no such "
                           "level, the highest is 10000"),
                          ("sokoban-answers 1\nLevel 2\n", "line 2: 'Level 2' is neither a line "
                           "'level N' nor a comment, which begins with ';'"),
                          ("sokoban-answers 1\nlevel 10001\n", "line 2: 'level 10001': there is no "
                           "such level, the highest is 10000"),
                          ("sokoban-answers 1\nlevel 1\nx\n", "line 3: 'x' is neither 'solution' "
                           "nor 'unsolvable', one of which has to follow the line 'level N'"),
                          ("sokoban-answers 1\nlevel 1\nsolution\n",
                           "line 4: the last record lacks its last line, 'end'"),
                          ("sokoban-answers 1\nlevel 1\nsolution\nr\nlevel 2\nsolution\nend\n",
                           "line 5: 'level 2': the record above it lacks its last line, 'end'"),
                          ("sokoban-answers 1\nlevel " + "9" * 5000 + "\n", "line 2: 'level "
                           + "9" * 34 + "': there is no such level, the highest is 10000")):
            self.write("a", text)
            result = self.tool("merge", "a")
            self.assertEqual((result.status, result.out, result.err), (2, b"", f"merge: a {why}\n"))

    def test_long_lists_take_no_time(self) -> None:
        record = "level %d\nunsolvable\n" + "pattern 2,2 3,3 @ 4,4 5,5\n" * 65536 + "end\n"
        self.write("a", "sokoban-answers 1\n" + record % 1)
        self.takes_less(
            5, lambda: self.assertEqual(self.tool("merge", "a").out, self.read("a")))
