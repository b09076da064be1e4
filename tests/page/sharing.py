"""What people show each other: the first look, links, tables, touch, and what is spoken."""
import base64
import csv
import io
import random
import re
import zlib
from typing import Any, Dict, List

from tests.page.comparing import Comparison
from tests.page.driving import IDLE, Tab
from tests.page.using import ANSWERS, CORNER, CORRIDOR, IS_WIDE, LETTERS, LEVEL
from tests.runner import TOP, write

ROWS = ["  #####", "###   #", "#.  $ #", "### $.#", "  #@  #", "  #####"]
PREVIEW = "document.querySelectorAll('.preview svg')"
# everything that the Tab key has to reach
REACHED = """[...document.querySelectorAll(
    "a[href], button, input, textarea, summary, [tabindex='0']")].filter(it =>
        it.checkVisibility() && !it.disabled && it.type !== "file")"""
COPIED = """Object.defineProperty(navigator, "clipboard", { configurable: true, value: {
    writeText: async text => { globalThis.clip = text; } } }); globalThis.clip = ""; 0"""


def packed(text: str, level: int = 6) -> str:
    """A text as a link has it, made without the page."""
    packer = zlib.compressobj(level, zlib.DEFLATED, -15)
    return base64.urlsafe_b64encode(
        packer.compress(text.encode()) + packer.flush()).decode().rstrip("=")


def unpacked(link: str) -> str:
    """The text in a link, read without the page."""
    words = link.split("=")[1]
    return zlib.decompress(base64.urlsafe_b64decode(words + "=" * (-len(words) % 4)), -15).decode()


def media(tab: Tab, **features: str) -> None:
    """Emulates what a user prefers."""
    tab.call("Emulation.setEmulatedMedia", features=[
        {"name": name.replace("_", "-"), "value": value} for name, value in features.items()])


def first_look(check: Comparison, tab: Tab) -> None:
    """An example is there: a solution that plays once, a certificate and a refused letter."""
    for motion in ("no-preference", "reduce"):
        media(tab, prefers_reduced_motion=motion)
        tab.open("file://" + tab.page)
        tab.wait("$('total').textContent.includes('proved unsolvable')")
        check.same("the total of the example", "3 levels: 1 solved, 1 proved unsolvable, 1 refused",
                   tab.text("total"))
        check.same("each number has its colour", ["solved", "unsolvable", "refused"], tab.ask(
            "[...$('total').children].map(it => it.className)"))
        check.same("and the colours differ", 3, len(set(tab.ask(
            "[...$('total').children].map(it => getComputedStyle(it).color)"))))
        check.same("three pictures", True, tab.until(f"{PREVIEW}.length === 3"))
        solved = f"{PREVIEW}[0].getAttribute('aria-label')"
        plays = tab.until(f"{solved}.includes('boxes on goals 2,3 6,4')",
                          5 if motion == "reduce" else 60)
        check.same(f"the solution plays, motion: {motion}", motion != "reduce", plays)
        check.same("the certificate is of the box in the corner", "box 2,6; other box 4,3", tab.ask(
            f"{PREVIEW}[1].getAttribute('aria-label')"))
        check.same("the refused letter has its arrow", ["5,2", "r"], tab.ask(
            f"(it => [it.dataset.at, it.dataset.dir])({PREVIEW}[2].querySelector('.arrow'))"))
    media(tab)
    write("one.xsb", LEVEL)
    write("one.answers", ANSWERS)
    for name in ("one.answers", "one.xsb"):
        tab.give(name)
    check.same("answers that are dropped on the example go with levels dropped later", [
        "level 1 solved moves 33 pushes 8 changes 4", False], [
            tab.text("lines").splitlines()[0],
            tab.ask("document.querySelector('.hello').checkVisibility()")])
    tab.open("file://" + tab.page)
    tab.wait("$('total').textContent.includes('proved unsolvable')")
    check.same("it is called an example", True, tab.ask(
        "document.querySelector('.hello').checkVisibility()"))
    tab.ask("$('levels').focus(); 0")
    tab.call("Input.insertText", text=LEVEL + LETTERS)
    check.same("what is typed takes its place", LEVEL + LETTERS, tab.ask("$('levels').value"))
    tab.ask("audit().then(fold)")
    check.same("no example any more", [False, False, "1 level: 1 solved"], [tab.ask(
        "document.querySelector('.hello').checkVisibility()"), tab.ask("$('form').open"),
        tab.text("total")])
    tab.ask("document.querySelector('#proved .why-proved').click(); 0")
    check.same("what is proved", True, tab.ask("$('proof').open"))
    tab.reload()
    tab.wait(f"!document.body.classList.contains('welcome') && {IDLE}")
    check.same("a reload keeps what was typed", [LEVEL + LETTERS, "1 level: 1 solved"], [
        tab.ask("$('levels').value"), tab.text("total")])


def links(check: Comparison, tab: Tab) -> None:
    """A link holds both texts, and opens them as they were shown."""
    tab.give(f"{TOP}/samples/every.xsb", f"{TOP}/samples/every.answers")
    report = tab.text("lines").splitlines()
    tab.ask(COPIED)
    made: Dict[int, str] = {}
    for number in (1, 2, 3, 11, 12, 23):
        tab.opened(number)
        tab.ask("clip = ''; [...document.querySelectorAll('.level button')].find("
                "it => it.textContent === 'Copy link').click(); 0")
        tab.wait("clip")
        made[number] = tab.ask("clip")
    tab.opened(1)
    tab.ask("clip = ''; [...document.querySelectorAll('.level button')].find("
            "it => it.textContent === 'Copy level').click(); 0")
    tab.wait("clip")
    rows, title = tab.ask("[shownData.levels[0].rows, shownData.levels[0].title]")
    check.same("a link names the letter", ["1:0", "1:1", "1", "1:0"], [
        made[number].split("#")[1].split("=")[0] for number in (1, 2, 3, 11)])
    level = "\n".join(rows) + f"\nTitle: {title}\n"
    check.same("a copied level", level, tab.ask("clip"))
    check.same("what a link holds", f"{level}\nsokoban-answers 2\nlevel 1\nsolution\nR\nend\n",
               unpacked(made[1]))
    tab.ask("viewer.go(0), clip = '', $('link').click(), 0")
    tab.wait("clip")
    whole = tab.ask("clip")
    for number, link in made.items():
        tab.open(link)
        tab.wait(IDLE)
        tab.opened()
        line = tab.text("lines").splitlines()[0]
        check.same(f"level {number} of a link", re.sub(r" line \d+", "", re.sub(
            r"^level \d+", "level 1", report[number - 1])), re.sub(r" line \d+", "", line))
    tab.open(whole)
    tab.wait(IDLE)
    check.same("a link to all levels", ["\n".join(report), "", ""], [
        tab.text("lines").strip(), tab.ask("location.hash"), tab.text("notes")])
    text = f"{CORNER}\nCaf\u00e9\n{LEVEL}\n{ANSWERS.replace('level 1', 'level 2')}"
    for packing in (0, 9):
        tab.open(f"file://{tab.page}#2:5={packed(text, packing)}")
        tab.wait(IDLE)
        tab.wait("document.querySelector('.counts b')?.textContent === '5'")
        check.same("a link that is made elsewhere", ["#2:5", "Caf\u00e9", text], tab.ask(
            "[location.hash, shownData.levels[1].title, $('levels').value]"))
    tab.ask(f"location.hash = '#={packed(LEVEL)}'; 0")
    tab.wait("$('total').textContent === '1 level: 1 without an answer'")
    tab.ask("location.hash = '#1=AAAA'; 0")
    tab.wait("!$('message').hidden")
    check.same("a link that is cut", "The link is cut or broken: ask for it once more.",
               tab.message())
    tab.open(f"file://{tab.page}#={packed('no level')}")
    tab.wait(IDLE)
    check.same("a link without a level", "No level is found.", tab.message())
    write("long.xsb", "".join(f"; {hash((i, 'x'))}\n" for i in range(50000)) + LEVEL)
    tab.give("long.xsb")
    tab.ask(f"{COPIED}; $('link').click(), 0")
    check.same("levels that are too long", True, tab.until(
        "$('link').textContent === 'too long for a link: save the page'"))
    write("one.xsb", LEVEL)
    write("one.answers", ANSWERS.replace(LETTERS, "".join(
        random.Random(3).choices("lurd", k=600000))))
    tab.give("one.xsb", "one.answers")
    tab.opened()
    tab.ask("[...document.querySelectorAll('.level button')].find("
            "it => it.textContent === 'Copy link').click(); 0")
    check.same("letters that are too long", True, tab.until(
        "$('view').textContent.includes('too long for a link')"))
    check.same("nothing is asked for", [], [
        it for it in tab.requests if it[:5] not in ("file:", "blob:")])


def level_tables(check: Comparison, tab: Tab) -> None:
    """All levels in a table, which its heads sort, and as CSV."""
    write("one.xsb", f"=1+1, \"x\"\n{LEVEL}{LETTERS}\n\n{CORNER}Title: +b\n")
    write("two.xsb", "#####\n#@$.#\n#####\nSolution\nR\n\n######\n#@$ .#\n######\nSolution\nRu\n")
    tab.give("one.xsb", "two.xsb")
    tab.wait(f"{IDLE} && $('each').children.length === 2")
    tab.ask("$('table').open = true; 0")
    tab.wait("$('table').querySelector('tbody')")

    def shown() -> List[List[str]]:
        return list(tab.ask("[...$('table').querySelectorAll('tbody tr')].map("
                            "row => [...row.cells].map(it => it.textContent))"))

    lines = [["one.xsb", "1", "=1+1, \"x\"", "6", "7", "2", "33", "8", "solved", ""],
             ["one.xsb", "2", "+b", "5", "4", "1", "", "", "missing", ""],
             ["two.xsb", "1", "", "5", "3", "1", "1", "1", "solved", ""],
             ["two.xsb", "2", "", "6", "3", "1", "", "", "refused", "move 2 wall"]]
    check.same("the rows", lines, shown())
    heads = tab.ask("[...$('table').querySelectorAll('th')].map(it => it.textContent)")
    for name, order in (("moves", [2, 0, 1, 3]), ("moves", [1, 3, 0, 2]), ("reason", [3, 1, 0, 2]),
                        ("title", [1, 0, 3, 2])):
        tab.ask(f"$('table').querySelectorAll('th button')[{heads.index(name)}].click()")
        check.same(f"sorted by {name}", [lines[i] for i in order], shown())
    check.same("which way it is sorted", "ascending", tab.ask(
        f"$('table').querySelectorAll('th')[{heads.index('title')}].ariaSort"))
    tab.ask("URL.createObjectURL = blob => (globalThis.blob = blob, 'blob:x');"
            "HTMLAnchorElement.prototype.click = function () { globalThis.to = this.download; };"
            "$('save-csv').click(); 0")
    text, name = tab.ask("blob.text().then(text => [text, to])")
    found = list(csv.reader(io.StringIO(text)))
    wanted = [heads, *([f"'{it}" if it[:1] in "=+" and it else it for it in lines[i]]
                       for i in (1, 0, 3, 2))]
    check.same("the CSV file", [wanted, True], [found, name.endswith(".csv")])
    tab.ask("[...$('table').querySelectorAll('tbody button')][2].click(); 0")
    tab.opened()
    check.same("a row leads to its level", ["Level 2"], [
        it[:7] for it in tab.seen(".heading")])
    check.same("of its file", "two.xsb", tab.ask("kept.names[0]"))
    write("many.xsb", f"{CORNER}\n" * 250)
    tab.give("many.xsb")
    tab.ask("$('table').open = true; 0")
    tab.wait("$('table').querySelectorAll('tbody tr').length === 200")
    tab.ask("$('save-csv').click(); 0")
    check.same("the CSV file has all levels", 251, tab.ask(
        "blob.text().then(text => text.trim().split('\\n').length)"))
    check.same("a long table", "The first 200 of 250 are shown. The CSV file has all.",
               tab.ask("$('table').querySelector('.more').textContent"))


def touch(check: Comparison, tab: Tab) -> None:
    """A tap beside the player plays a letter, and a swipe leads to the next level."""
    moves = "$('view').querySelector('.counts b').textContent"
    tab.paste("levels", f"{LEVEL}{LETTERS}\n\n{CORNER}")
    tab.opened(1)
    place = "(it => [it.x + it.width / 2, it.y + it.height / 2])($('view').querySelector(" \
            "'.level .player').getBoundingClientRect())"
    board = "(it => [it.left, it.right, it.y + it.height / 2])($('view').querySelector(" \
            "'.level .board').getBoundingClientRect())"
    tab.ask("$('view').scrollIntoView(); 0")
    for by, wanted in ((25, "1"), (25, "2"), (-25, "1"), (900, "2"), (-900, "1")):
        (x, y), (left, right, _) = tab.ask(place), tab.ask(board)
        at = min(max(x + by, left + 3), right - 3)
        for kind in ("mousePressed", "mouseReleased"):
            tab.call("Input.dispatchMouseEvent", type=kind, x=at, y=y, button="left", clickCount=1)
        check.same(f"a click {by} beside the player", wanted, tab.ask(moves))
    tab.call("Emulation.setDeviceMetricsOverride", width=390, height=844, deviceScaleFactor=1,
             mobile=True)
    tab.call("Emulation.setTouchEmulationEnabled", enabled=True)
    low = tab.ask("[...document.querySelectorAll('button, summary, a.button')].filter("
                  "it => it.checkVisibility() && it.getBoundingClientRect().height < 44"
                  " && !it.matches('.why-proved')).map(it => it.textContent)")
    check.same("what is pressed by a finger is high enough", [], low)
    tab.paste("levels", CORRIDOR)
    tab.opened()
    check.same("a wide board fits", False, tab.ask(IS_WIDE))
    tab.paste("levels", f"{LEVEL}{LETTERS}\n\n{CORNER}")
    tab.opened(1)
    tab.ask("$('view').querySelector('.level .board').scrollIntoView(); 0")

    def swipe(by: int) -> None:
        left, right, y = tab.ask(board)
        x = (left + right) / 2
        tab.call("Input.dispatchTouchEvent", type="touchStart", touchPoints=[{"x": x, "y": y}])
        for step in range(1, 6):
            tab.call("Input.dispatchTouchEvent", type="touchMove",
                     touchPoints=[{"x": x + by * step / 5, "y": y}])
        tab.call("Input.dispatchTouchEvent", type="touchEnd", touchPoints=[])

    for by, address in ((-120, "#2"), (-120, "#2"), (120, "#1"), (120, "#1")):
        swipe(by)
        tab.ask("new Promise(done => setTimeout(done, 300))")
        check.same(f"a swipe by {by}", address, tab.ask("location.hash.slice(0, 2)"))
        tab.opened()
    tab.call("Emulation.setTouchEmulationEnabled", enabled=False)
    tab.size(1280, 900)


def speaking(check: Comparison, tab: Tab) -> None:
    """What a screen reader is told: the result, a reason, the board and each move; and what the
    Tab key reaches."""
    def texts() -> List[str]:
        return [name for role, name in tab.spoken() if role in ("StaticText", "status")]

    tab.paste("levels", "\n".join([LEVEL + "Solution\nuuuu\n", *[CORNER] * 8]))
    said = "9 levels: 1 refused, 8 without an answer"
    check.same("the result is in a live region", [said, "status"], tab.ask(
        "[$('said').textContent, $('said').role]"))
    check.same("it is spoken", True, said in texts())
    nodes: List[Dict[str, Any]] = tab.call("Accessibility.getFullAXTree")["nodes"]
    card = next(it for it in nodes if it.get("name", {}).get("value", "").startswith(
        "level 1 refused move"))
    check.same("a card's reason is its description", True, "wall" in str(
        card.get("description", {}).get("value", "")))
    tab.opened(1)
    names = tab.spoken()
    check.same("the board", True, (
        "image", "boxes 2,4 4,5; player 3,2; box on a goal 2,4") in names)
    check.same("the reason", True, any("wall" in it for it in tab.seen(".why")))
    tab.paste("levels", LEVEL + LETTERS)
    tab.opened()
    tab.press("ArrowRight")
    check.same("the move", True, tab.until(
        "$('view').querySelector('.said').textContent.startsWith('Letter 1 of 33: step down.')"))
    tab.ask("$('view').querySelector('.level > details.whole').open = true; 0")
    check.same("the rows can be read", True, tab.until(
        f"[...document.querySelectorAll('.whole textarea')].some(it => it.value === {LEVEL!r})"))
    for address in ("#1", ""):
        tab.paste("levels", f"{LEVEL}{LETTERS}\n\n{CORNER}")
        if address:
            tab.opened(1)
        tab.ask("document.activeElement.blur(); document.body.focus();"
                "getSelection().removeAllRanges(); 0")
        count, found = tab.ask(f"{REACHED}.length"), set()
        tab.ask("document.querySelector('summary').focus(); 0")
        for _ in range(count + 8):
            found.add(tab.ask(f"{REACHED}.indexOf(document.activeElement)"))
            tab.press("Tab")
        check.same(f"the Tab key reaches all, {address!r}", [], tab.ask(
            f"{REACHED}.filter((_, i) => !{sorted(found)}.includes(i)).map(it => it.outerHTML)"))


PARTS = (first_look, links, level_tables, touch, speaking)
