"""The forms in which players keep levels and solutions."""
import gzip
import io
import json
import random
import re
import zipfile
from itertools import groupby
from typing import Callable, Dict, List, Tuple

from sokotool import answers, levels

from tests.page.comparing import HEADER, Comparison
from tests.page.driving import Tab
from tests.page.using import ANSWERS, CORNER, LEFT_OUT, LETTERS, LEVEL, LINE
from tests.runner import TOP, encode, read, run, write
from tests.tools.exports import ALPHA, BETA, GROUPS
from tests.tools.test_exports import made_by, plain


def zipped(files: Dict[str, bytes]) -> bytes:
    """A zip with files."""
    out = io.BytesIO()
    with zipfile.ZipFile(out, "w", zipfile.ZIP_DEFLATED) as archive:
        for name, data in files.items():
            archive.writestr(name, data)
    return out.getvalue()


def forms(check: Comparison, tab: Tab) -> None:
    """Levels and solutions in the forms that keepers have."""
    coded = "|".join("".join(f"{count}{cell}" if count > 1 else cell for cell, count in (
        (cell, len([*run])) for cell, run in groupby(row)))
        for row in LEVEL.replace(" ", "-").splitlines())
    rows = "".join(f"<L>{row}</L>" for row in LEVEL.splitlines())
    slc = (f"<?xml version='1.0'?>\n<SokobanLevels><LevelCollection>\n<Level Id='Fi&amp;rst'>{rows}"
           f"<Solution>{LETTERS}</Solution></Level></LevelCollection></SokobanLevels>")
    whole = f"Erster\n{LEVEL}L\u00f6sung: {LETTERS}\n"
    for name, data in {
            "rows.slc": slc.encode(), "utf16.slc": slc.encode("utf-16"),
            "cut.slc": slc[:-40].encode(), "coded.sok": f"{coded}\n{LETTERS}\n".encode(),
            "cell.csv": f"1,{coded},{LETTERS}".encode(),
            "quoted.txt": "".join(f"> {row}\n" for row in (LEVEL + LETTERS).splitlines()).encode(),
            "listed.json": json.dumps([LEVEL.splitlines(), LETTERS]).encode(),
            "utf16.txt": whole.encode("utf-16"), "nomark.txt": whole.encode("utf-16-be"),
            "latin.txt": whole.encode("latin-1"), "mac.txt": whole.replace("\n", "\r").encode(),
            "gb.txt": f"{LEVEL}\u7b54\u6848\uff1a{LETTERS}\n".encode("gb18030"),
            "html.html": f"<pre>{LEVEL}</pre><p>Solution: <b>{LETTERS}</b>".encode(),
            "pack.zip": zipped({"x/10.txt": CORNER.encode(), "x/2.txt": LEVEL.encode(),
                                "x/list.sol": f"Nr 2: {LETTERS}".encode()}),
            "pack.gz": gzip.compress(whole.encode())}.items():
        with open(name, "wb") as file:
            file.write(data)
        check.same(f"{name}: message", "", tab.give(name))
        check.same(f"{name}: solved", LINE, tab.text("lines")[:len(LINE)])
    check.same("an order by numbers", True, tab.give("pack.zip") == "" and
               "level 2 missing" in tab.text("lines"))
    tab.give("rows.slc")
    check.same("the title of SLC", ["Fi&rst", 3], tab.ask(
        "[shownData.levels[0].title, shownData.levels[0].line]"))
    check.same("the made levels", LEVEL.splitlines(), [
        it for it in tab.saved("levels").decode().splitlines() if "#" in it])
    write("more.xsb", f"{CORNER}\n{LEVEL}")
    write("sol.txt", f"2) {LETTERS.lower()}\n")
    tab.ask("clear(); 0")
    tab.give("more.xsb", "sol.txt")
    check.same("a list in a second file", "level 2 solved", tab.text("lines").splitlines()[1][:14])
    write("sol.txt", f"######\n2) {LETTERS.lower()}\n######\n\n3) uuuuuuuuuuuu\n")
    tab.give("more.xsb", "sol.txt")
    check.same("lines of it that solve nothing", [f"sol.txt line {it}" for it in (1, 3, 5)],
               sorted(it.split(":")[0] for it in tab.told()))


def beside(check: Comparison, tab: Tab) -> None:
    """Levels beside answers, and what is left out of them."""
    write("mark.answers", f"\ufeff{ANSWERS}")
    write("one.xsb", LEVEL)
    tab.give("one.xsb", "mark.answers")
    check.same("a mark before the answers", LINE, tab.text("lines")[:len(LINE)])
    check.same("nothing is left out", "", tab.text("notes"))
    check.same("the mark is told", ["mark.answers: begins with a byte order mark"], [
        it.split(",")[0] for it in tab.told()])
    tab.give("one.xsb")
    tab.paste_text("body", f"\ufeff{ANSWERS}")
    check.same("a mark before pasted answers", [LINE, "answers"], [
        tab.text("lines")[:len(LINE)], tab.ask("inputs.answers?.name")])
    latin = ANSWERS.replace("\n", "\n; caf\u00e9\n", 1)
    with open("latin.answers", "wb") as file:
        file.write(latin.encode("latin-1"))
    tab.give("one.xsb", "latin.answers")
    check.same("other bytes of answers stay", [LINE, latin, []], [
        tab.text("lines")[:len(LINE)], tab.saved("answers").decode("latin-1"), tab.told()])
    remark = "\n; " + 200 * "\u0436" + "\n"
    write("mark.answers", "\ufeff" + ANSWERS.replace("\n", remark, 1))
    check.same("answers whose first bytes end within a character", ["", LINE], [
        tab.give("one.xsb", "mark.answers"), tab.text("lines")[:len(LINE)]])
    write("both.xsb", f"{LEVEL}Title: dull\n\n{LEVEL}\nSolution\n{LETTERS}\n\n{LETTERS}\n")
    tab.give("both.xsb", "mark.answers")
    check.same("solutions beside answers", f"{LEFT_OUT}lines 18, 21.", tab.text("notes"))
    coded = "4#|#-.#|#--3#|#*@2-#|#2-$-#|#--3#|4#"
    write("coded.xsb", f"{LEVEL}; ## text\n\n{coded}\n{coded}\n\n####\t\n#@.#\n")
    tab.give("coded.xsb", "mark.answers")
    check.same("rows in other forms beside answers", "Rows in other forms than '#@ $.#' are "
               "left out, since there are answers: lines 10, 13.", tab.text("notes"))
    write("sol.txt", LETTERS)
    tab.give("one.xsb", "sol.txt", "mark.answers")
    check.same("a list beside answers", f"{LEFT_OUT}sol.txt.", tab.text("notes"))
    for name, data in (("both.zip", zipped({"both.xsb": f"{LEVEL}{LETTERS}\n".encode()})),
                       ("both.gz", gzip.compress(f"{LEVEL}{LETTERS}\n".encode()))):
        with open(name, "wb") as file:
            file.write(data)
        tab.give(name, "mark.answers")
        check.same(f"{name} beside answers", f"{LEFT_OUT}of 1 level.", tab.text("notes"))
    with open("mac.xsb", "wb") as file:
        file.write(LEVEL.replace("\n", "\r").encode())
    check.same("rows of an old Mac beside answers", ["", LINE], [
        tab.give("mac.xsb", "mark.answers"), tab.text("lines")[:len(LINE)]])
    write("walls.xsb", f"{'#' * 60000}x\n{LEVEL}")
    began, _ = tab.ask("performance.now()"), tab.give("walls.xsb", "mark.answers")
    check.same("a long line of walls beside answers", ["1 level: 1 solved", True], [
        tab.text("total"), tab.ask("performance.now()") - began < 10000])


def kept(check: Comparison, tab: Tab) -> None:
    """Certificates among levels, and what 'sokotool check' wrote."""
    answers = HEADER + b"level 1\nunsolvable\npattern 2,2 @ *\nend\n"
    whole = CORNER.encode() + b"\n" + answers
    for name, data in (("a.answers", answers), ("b.xsb", whole)):
        with open("whole.zip", "wb") as file:
            file.write(zipped({"a.xsb": CORNER.encode(), name: data}))
        tab.give("whole.zip")
        check.same(f"certificates in an archive, in {name}",
                   [f"{name}: its certificates aren't read from here"],
                   [it[:40 + len(name)] for it in tab.told() if "certificates" in it])
    write("whole.xsb", whole.decode())
    tab.give("whole.xsb")
    check.same("certificates below levels", "level 1 unsolvable patterns 1",
               tab.text("lines").splitlines()[0])
    names = {"x/my.memory": LEVEL, "x/my.xsb": f"{LEVEL}{LETTERS}\n", "x/my.xsb~": LEVEL,
             "x/my.kept.xsb": LEVEL, "my.report": LEVEL}
    with open("kept.zip", "wb") as file:
        file.write(zipped({name: data.encode() for name, data in names.items()}))
    tab.give("kept.zip")
    check.same("what 'sokotool check' wrote beside the levels",
               ["2 levels: 1 solved", ["x/my.kept.xsb", "x/my.memory", "x/my.xsb~"]], [
                   tab.text("total")[:18].rstrip(","), [it.split(":")[0] for it in tab.told()]])
    for name in ("my.memory", "my.xsb", "my.xsb~", "my.answers~", "my.report"):
        write(name, f"{LEVEL}{LETTERS}\n")
    write("my.answers", ANSWERS)
    tab.give("my.answers~", "my.memory", "my.xsb", "my.xsb~", "my.answers", "my.report")
    check.same("the same as files", ["1 level: 1 solved", True, True], [
        tab.text("total")[:18].rstrip(","), tab.ask("$('several').hidden"),
        "my.answers~, my.memory, my.xsb~, my.report" in tab.text("notes")])
    tab.ask("clear(); 0")
    tab.give("my.memory")
    check.same("a memory alone", "1 level: 1 solved", tab.text("total")[:18].rstrip(","))
    write("own.xsb", LEVEL)
    write("own.answers", ANSWERS)
    write("own.report", f"{LINE}total 1 solved 1 unsolvable 0 refused 0 missing 0\n")
    tab.ask("savePage().then(() => 0)")
    own = {"own.html": tab.saved("page"), "own.report": encode(read("own.report")),
           "own.xsb": f"{LEVEL}{LETTERS}\n".encode()}
    with open("own.html", "wb") as file:
        file.write(own["own.html"])
    with open("own.zip", "wb") as file:
        file.write(zipped(own))
    tab.give("own.zip")
    check.same("a report and a page in an archive",
               ["1 level: 1 solved", ["own.html", "own.report"]],
               [tab.text("total")[:18].rstrip(","), [it.split(":")[0] for it in tab.told()]])
    tab.ask("clear(); 0")
    tab.give("own.answers", "own.html", "own.report", "own.xsb")
    check.same("a report and a page beside their levels", ["1 level: 1 solved", True, True], [
        tab.text("total")[:18].rstrip(","), tab.ask("$('several').hidden"),
        "own.html, own.report" in tab.text("notes")])
    tab.ask("clear(); 0")
    check.same("a report alone", "No level is found.", tab.give("own.report"))


def remarks(check: Comparison, tab: Tab) -> None:
    """What is said of other solutions, and of what isn't read."""
    tab.paste("levels", f"{LEVEL}Solution\n{LETTERS[:-2]}lrUU\n\nSolution\n{LETTERS}\n")
    check.same("the best of two", [LINE, 1], [tab.text("lines")[:len(LINE)], sum(
        "35 moves" in it for it in tab.told())])
    tab.paste("levels", f"{LEVEL}Solution\n{LETTERS[:-1]}\n\nSolution\n{LETTERS}\n")
    check.same("letters that leave a box", LINE, tab.text("lines")[:len(LINE)])
    tab.paste("levels", f"{LEVEL}\n{LEVEL.replace('*', '=')}\nSolution: up\n")
    check.same("what isn't read is named", ["line 12: l", "line 17: a"], [
        it[:10] for it in tab.told()])
    with open("zeros.txt", "wb") as file:
        file.write(LEVEL.encode() * 300 + bytes(400000) + b"x")
    check.same("many zero bytes", ["", True], [
        tab.give("zeros.txt"), "a zero byte" in tab.told()[0]])
    with open("picture.png", "wb") as file:
        file.write(b"\x89PNG\r\n\x1a\n\0\0\0")
    check.same("a picture", ["No level is found.", "is a picture, no text"], [
        tab.give("picture.png"), tab.told()[0].split(": ")[-1]])


# Letters of other alphabets, and what the page says of them.
COMPASS = dict(zip("lurdLURD", "wnesWNES"))
PAD = dict(zip("lurdLURD", "48624862"))
KEYS = dict(zip("lurdLURD", "awdsAWDS"))


def alphabets(check: Comparison, tab: Tab) -> None:
    """Other alphabets, entities, and other games."""
    for name, alphabet in (("points of the compass", COMPASS), ("the keys of a number pad", PAD),
                           ("the keys W, A, S and D", KEYS)):
        letters = "".join(alphabet[it] for it in LETTERS)
        for heading in ("", "Solution: ", "Solution\n"):
            tab.paste("levels", f"{LEVEL}{heading}{letters}\n")
            check.same(f"{name} after {heading!r}", LINE, tab.text("lines")[:len(LINE)])
            check.same(f"{name} after {heading!r} are told", f"{name} were read as letters",
                       tab.told()[0].split(": ")[-1])
    tab.paste("levels", f"{LEVEL}sewn new\n44\n{LETTERS}\n")
    check.same("words of such letters", [LINE, []], [tab.text("lines")[:len(LINE)], tab.told()])
    coded = LEVEL.replace("#", "&#35;").replace(" ", "&nbsp;").replace("@", "&#x40;")
    tab.paste("levels", f"<pre>{coded}</pre>\nSolution: {LETTERS}\n")
    check.same("entities", LINE, tab.text("lines")[:len(LINE)])
    tab.paste("levels", f"Type: Hexoban\n{LEVEL}{LETTERS}\n")
    check.same("another game", True, "names another game, Hexoban" in tab.told()[0])


def archives(check: Comparison, tab: Tab) -> None:
    """Archives that would fill the memory, that are cut, and with hidden files."""
    bomb = zipped({"bomb.txt": b"#" * 40000000})
    for name, data in (("bomb.zip", bomb), ("nested.zip", zipped({"bomb.zip": bomb})),
                       ("bomb.gz", gzip.compress(b"#" * 40000000)),
                       ("many.zip", zipped({f"{i}.txt": b"#" * 5000000 for i in range(8)}))):
        with open(name, "wb") as file:
            file.write(data)
        check.same(f"{name}: message", "No level is found.", tab.give(name))
        check.same(f"{name}: told", True, "it has more than 33554432 bytes" in " ".join(tab.told()))
    whole = zipped({"a.txt": f"{LEVEL}{LETTERS}\n".encode(), ".DS_Store": b"\0\0\0\1Bud1\0",
                    "__MACOSX/._a.txt": b"\0\5\26\7\0\2\0\0Mac OS X"})
    for name, data, said in (
            ("whole.zip", whole, []), ("cut.zip", whole[:-30], ["the archive has no end"]),
            ("folder.zip", zipped({"x/": b""}), ["it has no files"])):
        with open(name, "wb") as file:
            file.write(data)
        check.same(f"{name}: message", "No level is found." if said else "", tab.give(name))
        check.same(f"{name}: told", said, [it.split(": ")[-1] for it in tab.told()])


def untried(check: Comparison, tab: Tab) -> None:
    """Letters that are so long that they aren't tried on all levels."""
    lasting = f"{CORNER}Solution: 200000(rl)\n\n" * 18
    tab.paste("levels", f"{LEVEL}Solution: 9000(ud)\n\n{lasting}{LETTERS}\n")
    check.same("letters that weren't tried on all levels",
               "letters that solve no level of those tried", tab.told()[-1].split(": ")[1])
    tab.paste("levels", f"{LEVEL}Solution: 16000000(ud)\n\n{LEVEL}{LETTERS}\n")
    check.same("one line doesn't spoil all", ["level 1 missing", "level 2 solved"], [
        line[:15].strip() for line in tab.text("lines").splitlines()[:2]])


def found_in(tab: Tab, message: str) -> Tuple[List[str], Dict[int, str], bool]:
    """The levels and solutions that the page read, and whether it says something."""
    found, solved = ("", "") if message else tab.ask("[kept.levels, kept.answers].map(textOf)")
    is_told = bool(message or tab.ask("$('told').childElementCount")
                   or re.search(r"^level \d+ refused ", tab.text("lines"), re.M))
    return (*contents(found.encode("latin-1"), solved.encode("latin-1")), is_told)


def contents(found: bytes, solved: bytes) -> Tuple[List[str], Dict[int, str]]:
    """The levels and the solutions in two texts."""
    rows = [plain(level.rows) for level in levels.read(found)]
    return rows, {it.level: it.letters.decode()
                  for it in answers.read(solved or HEADER, len(rows)).records}


def exports(group: str) -> Callable[[Comparison, Tab], None]:
    """The part of a group of exports, in the forms of many programs: they are read as they were
    meant, or something is said. None is drawn."""
    def part(check: Comparison, tab: Tab) -> None:
        counts = {"right": 0, "told": 0}
        check.draws(False)
        for export in GROUPS[group]:
            with open(export.file, "wb") as file:
                file.write(export.text if isinstance(export.text, bytes) else export.text.encode())
            tab.ask("inputs.remove(); 0")
            found, letters, is_told = found_in(tab, tab.give(export.file))
            wanted = (export.levels, export.solutions) if export.levels else READ.get(export.name)
            counts["right" if (found, letters) == wanted else "told"] += 1
            if wanted:
                check.same(f"export {export.name}: read", [*wanted], [found, letters])
            else:
                check.same(f"export {export.name}: told", True, is_told)
        print(f"exports, {group}: {len(GROUPS[group])} tried, {counts}", flush=True)

    part.__name__ = f"exports_{group}"
    return part


def titles(check: Comparison, tab: Tab) -> None:
    """Titles and letters beside rows, and what is no title."""
    for rows in ([ALPHA], [ALPHA, BETA]):
        text = json.dumps([{"title": "One", "rows": it.split("\n")} for it in rows])
        tab.paste("levels", text)
        check.same(f"the title in a line of {len(rows)}", ["One", True], [
            tab.ask("shownData.levels.at(-1).title"), not tab.told()])
    tab.paste("levels", json.dumps({"note": "hello there", "rows": ALPHA.split("\n")}))
    check.same("words beside rows", ["line 1: what is beside the rows is read as text"], tab.told())
    listed = [{"title": it, "rows": ALPHA.split("\n"), "solution": "rRR"} for it in ("One", "Two")]
    tab.paste("levels", json.dumps(listed, indent=2))
    check.same("titles and letters in a list of some lines",
               [["One", "Two"], "2 levels: 2 solved", []], [
                   tab.ask("shownData.levels.map(({ title }) => title)"), tab.text("total"),
                   tab.told()])
    tab.paste("levels", f"{ALPHA}\n// Sol 1 - r\nRR,\n\n{BETA}\n")
    check.same("a heading of a solution and its letters are no title", ["", ""], tab.ask(
        "shownData.levels.map(({ title }) => title)"))
    tab.paste("levels", f"{ALPHA}\nSolution: r;R;R\n")
    check.same("semicolons between letters below a level", "level 1 solved moves 3",
               tab.text("lines")[:22])


def both(check: Comparison, tab: Tab) -> None:
    """The page and `sokotool convert` read the exports in samples/ alike, or the page says
    something. So it does of random collections like those of convert's tests, or reads them. None
    is drawn."""
    check.draws(False)
    for names in ("editor.slc", "forum.txt", "lines.txt", "player.sok", "stairs.sok stairs.sol"):
        paths = [f"{TOP}/samples/exports/{name}" for name in names.split()]
        run([f"{TOP}/sokotool", "convert", "out", *paths, "--replace"])
        tab.ask("inputs.remove(); 0")
        wanted = contents(encode(read("out.xsb")), encode(read("out.answers")))
        *found, is_told = found_in(tab, tab.give(*paths))
        check.same(f"{names}: as convert reads it", True, [*wanted] == found or is_told)
    tab.ask("clear(); 0")
    chance, counts = random.Random(58), {"right": 0, "told": 0}
    for number in range(100):
        text, boards, solutions = made_by(chance)
        rows, letters, is_told = found_in(tab, tab.paste("levels", text))
        is_right = letters == solutions
        counts["right" if is_right else "told"] += 1
        check.same(f"made export {number}", [boards, True], [rows, is_right or is_told])
    print(f"made exports: {counts}", flush=True)
    check.same("most are right", True, counts["right"] > 9 * counts["told"])


# what the page reads in exports of which sokotool only reports that they can't be read
READ: Dict[str, Tuple[List[str], Dict[int, str]]] = {
    "number between": ([ALPHA, BETA], {}), "UTF-32": ([ALPHA, BETA], {1: "rRR"})}
UNPAINTED = (forms, beside, kept, remarks, alphabets, archives, untried, titles, both,
             *map(exports, GROUPS))
