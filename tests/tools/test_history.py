"""The command check: whatever a keeper types into the files of NAME, and whenever, is in one of
them after any run, until he removes it himself.

Random histories: exports go, come back, are edited, turned and put in another order, and a friend's
collection comes with its answers; records, comments, titles, texts and levels are typed, each with
a word of its own, between runs and while one is under way; older files are put back; a run is
interrupted, killed, meets a full disk, or another one runs beside it."""
import contextlib
import errno
import glob
import os
import random
import re
import shutil
import subprocess
import tempfile
import unittest.mock
from typing import Any, Dict, List, NamedTuple, Sequence, Set, Tuple

from sokotool import levels
from tests.tools.ending import EndsEarly, Killed, Meanwhile
from tests.tools.helping import TOP, Case, is_slow, reference_here

HISTORIES = 60
RUNS = 6
# what a keeper may put back from a backup
ENDS = (".xsb", ".answers", ".report", ".html", ".memory", ".kept.xsb", ".kept.answers")
# the moments of a run at which something may be typed, and those at which it may end
MOMENTS, ENDINGS = ("progress", "audit", "search", "write"), ("progress", "os.replace", "write")


class Drawn(NamedTuple):
    """A level of an export: a corridor of its own length, perhaps mirrored."""

    length: int
    is_mirrored: bool
    title: str
    is_solved: bool

    def rows(self) -> List[str]:
        row = "#@" + " " * self.length + "$ .#"
        wall = "#" * len(row)
        return [wall, row[::-1] if self.is_mirrored else row, wall]

    def letters(self) -> str:
        letters = "r" * self.length + "RR"
        return letters.translate(str.maketrans("rR", "lL")) if self.is_mirrored else letters

    def text(self) -> str:
        solution = ["Solution: " + self.letters()] if self.is_solved else []
        if self.title.startswith("Title:"):
            lines = [*self.rows(), self.title, *solution]
        else:
            lines = [self.title, *self.rows(), *solution]
        return "\n".join(lines) + "\n\n"


class History:
    """The exports and the files of a keeper, and the words that he typed."""

    def __init__(self, chance: random.Random) -> None:
        self.chance = chance
        self.exports: Dict[str, List[Drawn]] = {}
        self.away: Dict[str, List[Drawn]] = {}
        self.words: Set[str] = set()
        self.older: Dict[str, List[bytes]] = {end: [] for end in ENDS}
        self.count = 0
        for name in "abc":
            self.exports[name] = [self.drawn() for _ in range(chance.randint(1, 3))]

    def word(self, is_typed: bool = True) -> str:
        """Returns a new word."""
        self.count += 1
        word = f"word{self.count}x"
        if is_typed:
            self.words.add(word)
        return word

    def drawn(self) -> Drawn:
        head = self.chance.choice(("Title: ", "; ", ""))
        return Drawn(self.chance.randint(0, 9), self.chance.random() < .3,
                     head + self.word(is_typed=False), self.chance.random() < .5)

    # ---- the exports

    def change_exports(self) -> None:
        kind = self.chance.randint(0, 6)
        name = self.chance.choice(sorted(self.exports)) if self.exports else ""
        if kind == 0 and self.away:
            back = self.chance.choice(sorted(self.away))
            self.exports[back] = self.away.pop(back)
        elif not name:
            return
        elif kind <= 1 and len(self.exports) > 1:
            self.away[name] = self.exports.pop(name)
        elif kind == 2:
            self.exports[self.chance.choice("xyz")] = self.exports.pop(name)
        else:
            self.change_levels(self.exports[name], kind)

    def change_levels(self, several: List[Drawn], kind: int) -> None:
        at = self.chance.randrange(len(several))
        one = several[at]
        if kind == 3:
            several.insert(at, self.drawn())
        elif kind == 4 and len(several) > 1:
            del several[at]
        elif kind == 5:
            self.chance.shuffle(several)
        else:
            several[at] = self.chance.choice((
                one._replace(is_mirrored=not one.is_mirrored),
                one._replace(length=one.length + 1),
                one._replace(title="Title: " + self.word(is_typed=False)),
                one._replace(is_solved=not one.is_solved)))

    def put_exports(self) -> None:
        for name in glob.glob("inbox/*"):
            os.remove(name)
        for name, several in self.exports.items():
            with open(f"inbox/{name}.txt", "w", encoding="utf-8") as file:
                file.write("".join(one.text() for one in several))
        if self.chance.random() < .2:
            self.put_friend()

    def put_friend(self) -> None:
        """A friend's collection, with its answers: levels of the exports and others."""
        several = [self.drawn(), *self.chance.choice(sorted(self.exports.values()))]
        with open("inbox/friend.xsb", "w", encoding="utf-8") as file:
            file.write("\n".join("\n".join(one.rows()) + "\n" for one in several))
        with open("inbox/friend.answers", "w", encoding="utf-8") as file:
            file.write("sokoban-answers 1\n" + "".join(
                f"; a friend's\nlevel {number}\nsolution\n{one.letters()}\nend\n"
                for number, one in enumerate(several, 1)))

    # ---- what the keeper types

    def type(self) -> None:
        """Types something, or removes something that was typed."""
        if not os.path.exists("mine.xsb") or not os.path.exists("mine.answers"):
            return
        self.chance.choice((self.type_record, self.type_comment, self.type_text, self.type_title,
                            self.type_level, self.change_order, self.remove))()

    def lines(self, name: str) -> List[str]:
        with open(name, encoding="utf-8") as file:
            return file.read().split("\n")[:-1]

    def put(self, name: str, lines: List[str]) -> None:
        with open(name, "w", encoding="utf-8") as file:
            file.write("".join(line + "\n" for line in lines))

    def type_record(self) -> None:
        """A record of a level: solved, in a way of its own or not, or refused."""
        found = levels.read("\n".join(self.lines("mine.xsb")).encode())
        level = self.chance.choice(found)
        row = level.rows[1].decode()
        step, back = ("l", "r") if row.startswith("#.") else ("r", "l")
        letters = step * row.count(" ") + step.upper() * 2
        solved = step * (len(row) - 6) + step.upper() * 2
        body = self.chance.choice((
            ["solution", solved], ["solution", letters],
            ["solution", (step + back) * self.count + solved],
            ["solution", solved + back], ["unsolvable"], ["unsolvable", "pattern 9,2 @ *"]))
        body.insert(self.chance.randint(0, len(body)), "; " + self.word())
        lines = self.lines("mine.answers")
        record = ["; " + self.word(), f"level {level.number}", *body, "end"]
        at = self.chance.choice([1, *(at for at, it in enumerate(lines, 1) if it == "end")])
        self.put("mine.answers", lines[:at] + record + lines[at:])

    def type_comment(self) -> None:
        lines = self.lines("mine.answers")
        several = ["; " + self.word()]
        if self.chance.random() < .5:
            several = ["", *several, ""]
        at = self.chance.randint(1, len(lines))
        self.put("mine.answers", lines[:at] + several + lines[at:])

    def type_text(self) -> None:
        lines = self.lines("mine.xsb")
        at = self.chance.choice([at for at in range(len(lines) + 1) if not (
            "".join(lines[at - 1:at]).startswith("#") and "".join(lines[at:at + 1]).startswith("#")
        )])
        head = self.chance.choice(("Title: ", "Author: ", "; ", "", ""))
        several = [head + self.word(), *[""] * self.chance.randint(0, 1)]
        self.put("mine.xsb", lines[:at] + several + lines[at:])

    def type_title(self) -> None:
        lines = self.lines("mine.xsb")
        found = [at for at, line in enumerate(lines)
                 if "word" in line and not self.words.intersection(re.findall("word\\d+x", line))]
        if found:
            lines[self.chance.choice(found)] = self.chance.choice(("Title: ", "")) + self.word()
            self.put("mine.xsb", lines)

    def type_level(self) -> None:
        lines = self.lines("mine.xsb")
        typed = Drawn(self.chance.randint(20, 99), False, "Title: " + self.word(), False)
        at = self.chance.choice([0, len(lines)])
        several = ["", *typed.text().split("\n")]
        self.put("mine.xsb", lines[:at] + several + lines[at:])

    def change_order(self) -> None:
        lines = self.lines("mine.xsb")
        found = levels.read("\n".join(lines).encode())
        if len(found) > 1:
            first, later = sorted(self.chance.sample(found, 2))
            top, bottom = first.line - 1, later.line - 1
            between = lines[top + len(first.rows):bottom]
            rest = lines[bottom + len(later.rows):]
            self.put("mine.xsb", lines[:top] + lines[bottom:bottom + len(later.rows)] + between
                     + lines[top:top + len(first.rows)] + rest)

    # ---- older files

    def note_files(self) -> None:
        """Keeps a copy of each file."""
        for end, several in self.older.items():
            if os.path.exists("mine" + end):
                with open("mine" + end, "rb") as file:
                    several.append(file.read())

    def put_back(self) -> Dict[str, bytes]:
        """Puts an older file back, or two that belong together, and forgets the words that are in
        no file then. Returns the files that were there."""
        ends = self.chance.choice([*((end,) for end in ENDS), (".xsb", ".answers"), ENDS])
        at = self.chance.random()
        before = {}
        for end in ends:
            if os.path.exists("mine" + end) and self.older[end]:
                with open("mine" + end, "rb") as file:
                    before["mine" + end] = file.read()
                if self.chance.random() < .1 and end != ".xsb":
                    os.remove("mine" + end)
                    continue
                with open("mine" + end, "wb") as file:
                    file.write(self.older[end][int(at * len(self.older[end]))])
        self.words &= words_in(former=False)
        return before

    def remove(self) -> None:
        """Removes each line with one of the words, in all files but the former ones."""
        if not self.words:
            return
        word = self.chance.choice(sorted(self.words))
        self.words.remove(word)
        for name in ("mine.xsb", "mine.answers", "mine.kept.xsb", "mine.kept.answers"):
            if os.path.exists(name):
                self.put(name, [line for line in self.lines(name) if word not in line])


def words_in(former: bool) -> Set[str]:
    """Returns the words in the files of NAME, also in former ones or not."""
    found: Set[str] = set()
    for name in glob.glob("mine.*"):
        if former or not name.endswith(("~", ".memory", ".html")):
            with open(name, encoding="utf-8") as file:
                found.update(re.findall("word\\d+x", file.read()))
    return found


class Histories(Case):
    def setUp(self) -> None:
        super().setUp()
        self.enter(reference_here())
        path = os.path.join(TOP, "reference", "sokoaudit")
        self.enter(unittest.mock.patch.dict(os.environ, SOKOAUDIT=path))

    def enter(self, patch: Any) -> None:
        patch.start()
        self.addCleanup(patch.stop)

    def check(self, seconds: int = 0) -> Any:
        return self.tool("check", "mine", "inbox", "--seconds", str(seconds), "--jobs", "1")

    @is_slow
    def test_every_typed_word_stays(self) -> None:
        """After each run each word is in some file of NAME, and after one that was not ended early
        it is in one that isn't a former file."""
        os.mkdir("inbox")
        failed = []
        for seed in range(HISTORIES):
            for name in glob.glob("mine.*") + glob.glob(".sokotool*"):
                os.remove(name)
            try:
                self.live(History(random.Random(seed)))
            except AssertionError as error:
                failed.append(f"history {seed}: {error}")
        self.assertFalse(failed, f"{len(failed)} of {HISTORIES} histories")

    def live(self, history: History) -> None:
        """Runs check some times, and changes the exports and types between two runs."""
        for number in range(RUNS):
            history.put_exports()
            before = history.put_back() if history.chance.random() < .2 else {}
            said = self.run_whole(history, "typed") if before else self.run_somehow(history)
            if said == "refused" and not before:
                return
            self.assert_has_words(history.words, said, f"run {number} was {said}")
            if said == "refused":
                for name, data in before.items():
                    self.write(name, data)
                history.words &= words_in(former=False)
            history.note_files()
            for _ in range(history.chance.randint(0, 2)):
                history.change_exports()
            for _ in range(history.chance.randint(1, 3)):
                history.type()
        for _ in range(2):
            if self.run_whole(history, "whole") == "refused":
                return
        files = {name: self.read(name) for name in glob.glob("mine.*")}
        self.check()
        self.assertEqual(sorted(files), sorted(glob.glob("mine.*")))
        self.assertFalse([name for name, data in files.items() if self.read(name) != data])

    def assert_has_words(self, words: Set[str], said: str, where: str) -> None:
        self.assertFalse(sorted(words - words_in(said in ("killed", "full"))), where)

    def run_somehow(self, history: History) -> str:
        """Runs check, and perhaps types, starts another run or ends this one at a random moment.
        Returns how it ended."""
        chance = history.chance
        way = chance.choice(("whole", "whole", "typed", "typed", "beside", "killed", "interrupted",
                             "full"))
        if way in ("whole", "typed", "beside"):
            return self.run_whole(history, way)
        error = {"killed": Killed(), "interrupted": KeyboardInterrupt(),
                 "full": OSError(errno.ENOSPC, "No space left on device")}[way]
        moment = self.moment(chance, ENDINGS[way == "full":])
        if way == "full" and moment[0] == "progress":
            return self.run_whole(history, "whole")
        with EndsEarly(error, *moment):
            try:
                result = self.check()
            except (Killed, OSError):
                return way
        self.assertNotIn("Traceback", result.err)
        return way

    def moment(self, chance: random.Random, names: Sequence[str]) -> Tuple[str, int]:
        """Returns a function, and one of its calls in a run that is tried first, so that this
        moment comes. A run without such a call, as one that writes nothing, shows its progress."""
        name, copy = chance.choice(names), tempfile.mkdtemp()
        shutil.copytree(".", copy, dirs_exist_ok=True)
        ends = EndsEarly(Killed(), name, 1) if name == "search" else Meanwhile(name, 0)
        with contextlib.suppress(Killed, AssertionError), ends:
            self.check(int(name == "search"))
        for path in glob.glob("*.*") + glob.glob(".soko*") + glob.glob("inbox/*"):
            os.remove(path)
        shutil.copytree(copy, ".", dirs_exist_ok=True)
        shutil.rmtree(copy)
        calls = int(ends.left == 0) if name == "search" else -ends.left
        return (name, chance.randint(1, calls)) if calls else ("progress", 1)

    def run_whole(self, history: History, way: str) -> str:
        """Runs check to its end, perhaps while something is typed or another check runs."""
        beside: List[Any] = []

        def act() -> None:
            if way == "typed":
                history.type()
            elif way == "beside" and history.chance.random() < .2:
                beside.append(subprocess.Popen(
                    [os.path.join(TOP, "sokotool"), "check", "mine", "inbox", "--seconds", "0"],
                    stdout=subprocess.PIPE, stderr=subprocess.PIPE))
        name, calls = (self.moment(history.chance, MOMENTS) if way != "whole"
                       else (history.chance.choice(MOMENTS), 0))
        with Meanwhile(name, calls, act):
            result = self.check(int(name == "search"))
        for other in beside:
            error = other.communicate()[1].replace(
                b"check: another check of mine is running: waiting for its end\n", b"")
            self.assertEqual((error, other.returncode in (0, 1)), (b"", True))
        if result.status == 2 and "there is no such level" in result.err:
            return "refused"
        self.assertIn(result.status, (0, 1), result.err)
        return way
