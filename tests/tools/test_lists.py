"""Lists of solutions: letters for many levels whose boards are in other files."""
import glob
import os
import random
import unittest
import unittest.mock
from typing import Any, Dict, List, Tuple

from sokotool import answers, builder, levels, sources
from sokotool.commands import convert
from tests.tools import helping
from tests.tools.exports import ALPHA, BETA, GAMMA
from tests.tools.helping import ONE, Case, Result
from tests.tools.test_export import MAPS, Generator

THREE = f"Alpha\n{ALPHA}\n\nBeta\n{BETA}\n\nGamma ray\n{GAMMA}\n"
SOLVED = {1: "rRR", 2: "rR", 3: "LL"}
# Forms of a list. {n} is the number of a level, {t} its title, {s} the letters.
BY_TITLE = ["{t}\n{s}\n", "{t}\n\n{s}\n\n", "{t}: {s}\n", "{t} {s}\n", "{t}\t{s}\n",
            "{t},3,2,{s}\n",
            "\"{t}\",\"{s}\"\n", "Title: {t}\nSolution: {s}\n", "; {t}\n{s}\n", "[{t}]\n{s}\n",
            "Title: {t}\nAuthor: A. Nobody\n\nSolution/Moves\n{s}\n\n", "{t}:\n  {s}\n",
            "- {t}: {s}\n",
            "{t} = {s}\n", "{t} | 3 | {s}\n", "* {t}\n> {s}\n", "<b>{t}</b>: {s}<br>\n",
            "{t}: {s} (3 moves)\n", "Solution of {t}: {s}\n"]
BY_NUMBER = ["{n}. {s}\n", "{n}) {s}\n", "{n}: {s}\n", "{n} {s}\n", "#{n} {s}\n", "{n}\n{s}\n",
             "Level {n}\n{s}\n", "Level {n}: {s}\n", "; {n}\n{s}\n\n", "Solution {n}:\n{s}\n",
             "No. {n}\n{s}\n", "{n};{s}\n", "{n},3,2,{s}\n", "{n}\t{s}\n", "[{n}]\n\n{s}\n",
             "Level #{n}\nSolution: {s}\n"]
BOTH = ["{n}. {t}\n{s}\n", "{n},{t},{s}\n", "Level {n}: {t}\n{s}\n", "{n} {t}: {s}\n"]


def solved(data: bytes) -> Dict[int, str]:
    """The letters of an answers file by the numbers of the levels."""
    return {it.level: it.letters.decode() for it in answers.read(data).records}


class Lists(Case):
    def converted(self, text: str, *words: str, name: str = "three.txt") -> Tuple[Result, Any]:
        """Converts three levels with a list of this text."""
        self.write("three.sok", THREE)
        self.write(name, text)
        for file in ("out.xsb", "out.answers"):
            if os.path.exists(file):
                os.remove(file)
        result = self.tool("convert", "out", "three.sok", name, *words)
        return result, solved(self.read("out.answers"))

    def test_forms(self) -> None:
        """Each form is read, in any order and in any case of the letters."""
        titles = ["Alpha", "Beta", "Gamma ray"]
        for name, forms in (("other.txt", BY_TITLE), ("three.txt", BY_TITLE + BY_NUMBER + BOTH)):
            for form in forms:
                for order in ((1, 2, 3), (3, 1, 2)):
                    text = "".join(form.format(n=number, t=titles[number - 1], s=SOLVED[number])
                                   for number in order)
                    for spelled in (text, text.replace("rRR", "rrr")):
                        result, found = self.converted(spelled, name=name)
                        self.assertEqual((result.status, found), (0, SOLVED),
                                         (spelled, result.err))

    def test_numbers_count_in_the_export_of_the_same_name(self) -> None:
        self.write("one.sok", f"{BETA}\n\n{BETA}\n")
        self.write("sub-list.sol", "1. rR\n")
        result, found = self.converted("2. rR\n1. rRR\n", "one.sok", "sub-list.sol")
        # whose number nothing says, the replay decides
        self.assertEqual((result.status, found), (0, {1: "rRR", 2: "rR", 4: "rR", 5: "rR"}))
        self.write("one.txt", "2. rR\n")
        result, found = self.converted("3. LL\n", "one.sok", "one.txt")
        self.assertEqual((result.status, found), (0, {3: "LL", 5: "rR"}))

    def test_the_replay_decides(self) -> None:
        """Letters go to no level that they don't solve, and to each of a title that they do."""
        self.write("two.sok", f"Same\n{ALPHA}\n\nSame\n{BETA}\n\nTwin\n{GAMMA}\n\nTwin\n{GAMMA}\n")
        self.write("two.txt", "Same\nrR\n\nSame\nrRR\n\nTwin\nLL\n\n4. Twin\nLL\n\nSame\nLL\n\n"
                   "None\nrR\n\nSame\nrrrr\n")
        result = self.tool("convert", "out", "two.sok", "two.txt")
        self.assertEqual(solved(self.read("out.answers")), {1: "rRR", 2: "rR", 3: "LL", 4: "LL"})
        self.assertEqual(result.err.splitlines(), [
            "convert: two.txt line 20: the solution of level 1 cannot be played: move 4 (r) "
            "blocked",
            "convert: 4 levels, 4 solutions, 1 left out"])

    def test_several_for_a_level(self) -> None:
        """The best one is kept, and a note names the others."""
        text = "Beta\nrlrR\n\nSolution 2\nrR\n\nAlpha: rRR\n"
        result, found = self.converted(text)
        self.assertEqual((result.status, found), (0, {1: "rRR", 2: "rR"}))
        self.assertEqual(result.err.splitlines()[0], (
            "convert: three.txt line 2: another solution of level 2, 4 moves and 1 push, is left "
            "out: the best has 2 moves and 1 push"))
        self.write("three.sok", THREE.replace(f"\n{BETA}\n", f"\n{BETA}\nSolution: rlrlrR\n"))
        self.write("list.txt", text)
        result = self.tool("convert", "other", "three.sok", "list.txt")
        self.assertEqual(solved(self.read("other.answers")), {1: "rRR", 2: "rR"})
        self.assertEqual(result.err.count("another solution of level 2"), 2)

    def test_titles_and_words_of_letters(self) -> None:
        """A title of letters is a title, and a name of letters is no solution."""
        self.write("a.sok", f"Title: Dull\n{ALPHA}\n\nTitle: Urd\n{BETA}\n")
        self.write("b.txt", "Solved by R. Dull\n\nDull\nrRR\n\nUrd\nr\nR\n")
        result = self.tool("convert", "out", "a.sok", "b.txt")
        self.assertEqual((result.status, solved(self.read("out.answers"))),
                         (0, {1: "rRR", 2: "rR"}))

    def test_words_are_kept(self) -> None:
        """What else is written in a list is in comments on the records."""
        self.converted("From a site\n\nAlpha\nby somebody, 2003\nrRR\n\nBeta: rR\nThe end\n")
        self.assertEqual(self.read("out.answers").decode().splitlines(), [
            "sokoban-answers 1", "; From a site", "; by somebody, 2003", "level 1", "solution",
            "rRR", "end", "; The end", "level 2", "solution", "rR", "end"])
        self.converted("Words of R. Dull\n")
        self.assertIn(b"\n; Words of R. Dull\n", self.read("out.xsb"))

    def test_no_list(self) -> None:
        """A file without levels or solutions is reported as before."""
        for text in ("Nothing here, by R. Dull\n", "Author: Dull\n", "\n"):
            result, found = self.converted(text, name="read.me")
            self.assertEqual((result.status, found), (1, {}))
            self.assertEqual(result.err.splitlines()[0],
                             "convert: read.me line 1: no level in this file")

    def test_split(self) -> None:
        """Levels of all parts get their solutions."""
        count = 10_001
        self.write("many.sok", "".join(f"{BETA}\nTitle: L{number}\n\n"
                                       for number in range(1, count + 1)))
        self.write("many.txt", f"L1: rR\n{count}. rR\n")
        self.tool("convert", "out", "many.sok", "many.txt", "--split")
        self.assertEqual([solved(self.read(f"out-{part}.answers")) for part in (1, 2)],
                         [{1: "rR"}, {1: "rR"}])

    def test_check(self) -> None:
        with unittest.mock.patch.dict(os.environ, SOKOAUDIT=helping.PROGRAM):
            self.write("three.sok", THREE)
            self.write("three.txt", "1. rRR\n2. rlrR\n2. rR\n3. LLl\n")
            result = self.tool("check", "mine", "three.sok", "three.txt", "--seconds", "0")
        self.assertEqual(solved(self.read("mine.answers")), {1: "rRR", 2: "rR"})
        self.assertIn("problem: three.txt line 4: the solution of level 3 cannot be played: "
                      "move 3 (l) blocked", result.out.decode())

    def listed(self, seed: int) -> Tuple[str, str, Dict[int, str]]:
        """Random levels, a list of solutions of some, and what these are."""
        chance, generator = random.Random(seed), Generator(seed)
        text, wanted, lines = "", {}, []
        for number in range(1, chance.randint(3, 9)):
            rows, letters = generator.level()
            text += "\n".join(rows) + f"\nTitle: Level no {number} {chance.choice('abc')}\n\n"
            if chance.random() < .8:
                title = text.rstrip("\n").rpartition("Title: ")[2]
                wanted[number] = letters
                lines.append((number, title, letters))
        form = chance.choice(BY_TITLE[:8] + BY_NUMBER[:6] + BOTH)
        chance.shuffle(lines)
        return text, "".join(form.format(n=n, t=t, s=s) for n, t, s in lines), wanted

    def test_a_list_for_each_of_many_levels(self) -> None:
        """The time grows as the files do."""
        listed = [sources.Export(f"{at}.{end}", lambda text=text: text)  # type: ignore[misc]
                  for at in range(3000) for end, text in (("sok", ONE.encode()), ("sol", b"R\n"))]

        def work() -> None:
            collection = builder.Collection()
            convert.read_files(collection, listed)
            self.assertEqual((len(collection.kept), collection.faults), (3000, 0))
        self.takes_less(6, work)

    def test_random(self) -> None:
        for seed in range(200):
            text, listed, wanted = self.listed(seed)
            self.write("a.sok", text)
            self.write("a.txt", listed)
            self.tool("convert", "out", "a.sok", "a.txt", "--replace")
            self.assertEqual(solved(self.read("out.answers")), wanted, (seed, text, listed))
            for name in glob.glob("out.*"):
                os.remove(name)

    @unittest.skipUnless(os.path.isdir(MAPS), "there is no cavepacker-data")
    def test_cavepacker(self) -> None:
        """Lists of hundreds of solutions, by title and by number."""
        files = sorted(glob.glob(MAPS + "/*.so[kl]"))[:700]
        self.tool("convert", "mine", *files)
        found = levels.read(self.read("mine.xsb"))
        letters = solved(self.read("mine.answers"))
        rows: List[bytes] = []
        for level in found:
            rows += [*level.rows, b"Title: Cave %d" % level.number, b""]
        self.write("caves.sok", b"\n".join(rows))
        for form in ("Cave {}\n{}\n\n", "{}. {}\n"):
            self.write("caves.txt", "".join(form.format(*it) for it in sorted(letters.items())))
            result = self.tool("convert", "back", "caves.sok", "caves.txt", "--replace")
            self.assertEqual(solved(self.read("back.answers")), letters, result.err)
            os.remove("back.answers")
