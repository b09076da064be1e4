"""What a user does with the page, and what it says then."""
import base64
import contextlib
import html
import http.server
import os
import re
import threading
from itertools import permutations, product
from typing import Iterator, List, Sequence, Tuple

from bench.worst import corridors
from tests.page.comparing import Comparison, in_words
from tests.page.driving import IDLE, Tab
from tests.runner import TOP, encode, read, write
from tests.tables.rows import text

LEVEL = "####\n# .#\n#  ###\n#*@  #\n#  $ #\n#  ###\n####\n"
LETTERS = "dlUrrrdLullddrUluRuulDrddrruLdlUU"
LINE = "level 1 solved moves 33 pushes 8 changes 4\n"
CORNER = "#####\n#$ .#\n# @ #\n#####\n"
CORRIDOR = "#" * 106 + "\n#  @$" + " " * 99 + ".#\n" + "#" * 106 + "\n"
MADE = "pattern 2,2 @ *\npattern 2,3 @ *\npattern 3,3 @ *\npattern 4,3 @ *\n"
# what stands below the level, and what becomes of it
BELOW = {
    LETTERS: "solved", f"Solution\n{LETTERS}": "solved",
    f"Title: x\n\nSolution: {LETTERS}": "solved",
    f"Solution/Solver (moves 33)\n{LETTERS[:10]}\n{LETTERS[10:]}": "solved",
    f"Dull\n\n{LETTERS}": "solved", "Dull\n": "missing", "Solution\nlurd\n": "refused",
    LETTERS.lower(): "solved", LETTERS.upper(): "solved", f"L\u00f6sung: {LETTERS}": "solved",
    f"; {LETTERS}": "solved", f"\"{LETTERS[:9]}\"\n\n  {LETTERS[9:]}": "solved",
    f"Saved game\n{LETTERS}": "solved", "Solution: 16000000(ud)": "missing",
    f"Solution 1\nlllllllll\nSolution 2\n{LETTERS}": "solved",
    "dlU3rdLu2l2drUluR2ulDr2d2ruLdl2U": "solved", "2(u)": "missing",
    "Solution\n99999999999(u)": "missing", f"Solution\r\n{LETTERS}\r\n": "solved",
}
ANSWERS = f"sokoban-answers 1\nlevel 1\nsolution\n{LETTERS}\nend\n"
UNREAD = [f"line {at}: letters that solve no level: letter {why}" for at, why in (
    (8, "1, l: blocked"), (10, "3, r: wall"))]
HOSTILE = ("<img src=x onerror=\"document.title='run'\"></script>"
           "<script>document.title='run'</script>")
NAMES = ["levels", "the solutions in it"]
LEFT_OUT = "The solutions beside the levels are left out, since there are answers: "
# whether the page scrolls sideways
IS_WIDE = "document.documentElement.scrollWidth > innerWidth"
# whether the button of the keys is in the first line of an element in the frame, and how many
# others it covers
BESIDE = """(parent => {
    const boxOf = it => it.getBoundingClientRect(), keys = boxOf(parent.querySelector(".help"));
    const others = [...parent.querySelectorAll("a, button:not(.help), input")].map(boxOf);
    return [keys.top < boxOf(parent).top + 20, others.filter(it => keys.left < it.right
        && it.left < keys.right && keys.top < it.bottom && it.top < keys.bottom).length];
})($('view').querySelector('%s'))"""
# the cells whose middle a cross of a dead square covers
CROSSED = """(shape => {
    if (!shape) return [];
    const { width, height } = shape.ownerSVGElement.viewBox.baseVal, found = [];
    for (let y = 0; y < height - .2; y++) for (let x = 0; x < width - .2; x++) {
        const point = new DOMPoint(x + .5, y + .5);
        if (shape.isPointInStroke(point)) found.push(`${x + 1},${y + 1}`);
    }
    return found;
})($('view').querySelector(".level .dead"))"""
# what a browser does that has no vectors, or no WebAssembly
LACKS = "WebAssembly.validate = () => false", "delete globalThis.WebAssembly"


def below(check: Comparison, tab: Tab) -> None:
    """Solutions below a level, and what is said of the rest."""
    for letters, status in BELOW.items():
        tab.paste("levels", LEVEL + letters)
        check.same(f"below: {letters!r}", status, tab.text("lines").split()[2])
    tab.paste("levels", f"{LEVEL}llllllllll\nx\nrrrrrrrrrr\nx\n{LETTERS}\n")
    check.same("letters that aren't read", UNREAD, tab.told())
    tab.paste("levels", LEVEL + "".join(f"uuuuuuuuuu{'u' * i}\nx\n" for i in range(30)))
    tab.call("Emulation.setEmulatedMedia", media="print")
    check.same("all of them on paper", [30, True], tab.ask(
        "[$('told').children.length, $('told').scrollHeight <= $('told').clientHeight]"))
    tab.call("Emulation.setEmulatedMedia", media="")
    tab.paste("levels", f"{LEVEL}\nsokoban-answers 1\nlevel 1\nsolution\n{LETTERS}\nend\n")
    check.same("both texts in one", LINE, tab.text("lines")[:len(LINE)])


def viewing(check: Comparison, tab: Tab) -> None:
    """The viewer within the page, with its keys, and dead squares."""
    tab.paste("levels", LEVEL + LETTERS)
    check.same("one level is shown at once", [f"\u2713 {LINE.strip()}"],
               tab.seen(".level .verdict"))
    tab.opened()
    tab.press("ArrowRight", "ArrowRight")
    tab.wait("location.hash === '#1:2'")
    tab.press("d")
    tab.wait("$('view').querySelector('.dead')")
    check.same("dead squares", "2,2 3,2 2,6 3,6".split()[:1],
               tab.ask("$('view').querySelector('.dead').dataset.cells")
               .split()[:1])
    check.same("the key of dead squares is listed", True, "d" in tab.seen("dialog dt"))
    moves = "$('view').querySelector('.counts b').textContent"
    tab.ask("$('view').querySelector('.heading').focus(); 0")
    tab.press(" ")
    tab.wait(f"{moves} === '5'")
    tab.press("d")
    tab.wait("$('view').querySelector('.show-dead').ariaPressed === 'false'")
    check.same("dead squares keep the letter while it plays", True, int(tab.ask(moves)) >= 5)
    tab.ask("viewer.showKeys(); 0")
    tab.press("d")
    tab.press("Escape")
    tab.ask("new Promise(done => setTimeout(done, 300))")
    check.same("no dead squares below the list of the keys", "false", tab.ask(
        "$('view').querySelector('.show-dead').ariaPressed"))
    tab.paste("levels", f"{LEVEL}{LETTERS}\n\n{CORNER}")
    tab.ask("viewer.go(2); document.body.dispatchEvent("
            "new KeyboardEvent('keydown', { key: 'd', bubbles: true })); 0")
    tab.wait("$('view').querySelector('.dead')")
    check.same("dead squares are said before the level is drawn, also below a box and the player",
               [f"dead squares {' '.join(re.findall('[0-9],[0-9]', MADE))}"], tab.seen(".said"))


# boards on which a box, the player, or both stand on dead squares or on goals
BENT = (CORNER, "#####\n#+$ #\n#   #\n#####\n", "####\n#@$#\n#. #\n####\n",
        "######\n#@$.*#\n######\n", "#######\n#. @  #\n# $$. #\n#     #\n#######\n",
        "#####\n#+$*#\n#####\n", "####\n#@##\n##$.\n####\n", "#####\n#@$.#\n#####\n" + "#\n" * 252)


def dead_cells(rows: Sequence[str]) -> List[str]:
    """The dead squares of a level, those of its room and below its boxes, by their definition."""
    floor = {(x, y) for y, row in enumerate(rows) for x, cell in enumerate(row) if cell != "#"}
    (seed,) = {(x, y) for x, y in floor if rows[y][x] in "@+"}
    room, work = {seed}, [seed]
    steps = ((-1, 0), (0, -1), (1, 0), (0, 1))
    for x, y in work:
        new = {(x + dx, y + dy) for dx, dy in steps} & floor - room
        room |= new
        work += new
    live = {(x, y) for x, y in floor if rows[y][x] in ".+*"}
    work = [*live]
    for x, y in work:
        new = {(x - dx, y - dy) for dx, dy in steps
               if {(x - dx, y - dy), (x - 2 * dx, y - 2 * dy)} <= room} - live
        live |= new
        work += new
    boxes = {(x, y) for x, y in floor if rows[y][x] in "$*"}
    return [f"{x + 1},{y + 1}" for x, y in sorted((room | boxes) - live, key=lambda it: it[::-1])]


def dead(check: Comparison, tab: Tab) -> None:
    """The dead squares of a level, also below the boxes and the player of the start."""
    for board in BENT:
        tab.paste("levels", board)
        tab.opened()
        tab.click_in_view(".show-dead")
        tab.wait("$('view').querySelector('.said').textContent")
        wanted = dead_cells(board.splitlines())
        check.same(f"dead squares of {board!r}", wanted, re.findall(
            r"\d+,\d+", tab.seen(".said")[0]))
        check.same(f"their crosses in {board!r}", wanted, tab.ask(CROSSED))


def pasting(check: Comparison, tab: Tab) -> None:
    """Texts that are pasted: long ones count as files, and the field needn't have the focus."""
    level = "#####\n#@$.#\n#####\nSolution\nR\n\n"
    for place, is_long in product(("levels", "body"), (False, True)):
        tab.ask("clear(); 0")
        tab.paste_text(place, level * 3 + "; a remark\n" * 10000 * is_long)
        check.same(f"pasted into {place}, long: {is_long}", ["3 levels: 3 solved", is_long], [
            tab.text("total"), tab.ask("!$('levels-file').hidden")])
    check.same("the total is said", tab.text("total"), tab.text("said"))
    tab.ask("clear(); 0")
    tab.paste("levels", LEVEL + LETTERS)
    tab.opened()
    tab.ask("document.activeElement.blur(); 0")
    tab.press("ArrowRight")
    check.same("keys without a focus", "1", tab.seen(".counts b")[0])


def making(check: Comparison, tab: Tab) -> None:
    """Certificates, and what is saved."""
    tab.paste("levels", f"{LEVEL}{LETTERS}\n\n{CORNER}")
    tab.opened(2)
    tab.click("#make")
    tab.wait("$('lines').textContent.includes('level 2 unsolvable patterns 4')")
    check.same("the open level stays open", ["\u2715 level 2 unsolvable patterns 4"],
               tab.seen(".level:not([hidden]) .verdict"))
    answers = (f"sokoban-answers 1\nlevel 1\nsolution\n{LETTERS}\nend\nlevel 2\nunsolvable\n{MADE}"
               "end\n")
    check.same("made answers", answers, tab.saved("answers").decode())
    check.same("nothing is left to make", True, tab.ask("$('make').disabled"))
    tab.ask("savePage().then(() => 0)")
    texts = tab.ask("$('levels').value"), answers, tab.text("lines")
    check.shows("the saved page", list(map(encode, texts)), NAMES)
    write("saved.html", tab.saved("page").decode())
    tab.open("file://" + os.path.abspath("saved.html"))
    check.same("the saved page opens", "\u2715 2",
               tab.ask("document.querySelector('.card.unsolvable b').textContent"))
    check.same("the saved page asks for nothing", 1, len(
        [it for it in tab.requests if not it.startswith("blob:")]))
    tab.ask("viewer.go(2)")
    tab.wait("document.querySelector('.judged')")
    check.same("the saved page judges too", "same verdict.", tab.ask(
        "document.querySelector('.judged').textContent.slice(-13)"))
    tab.ask("viewer.data.levels[0].rows = viewer.data.levels[1].rows; viewer.go(1)")
    tab.wait("document.querySelector('.misjudged')")
    check.same("no error of the saved page", [], tab.errors)
    with open("saved.html", encoding="utf-8") as file:
        write("around.html", f'<iframe srcdoc="{html.escape(file.read())}">')
    tab.open("file://" + os.path.abspath("around.html"))
    tab.ask("globalThis.frame = document.querySelector('iframe');"
            " frame.contentWindow.viewer.go(2)")
    tab.wait("frame.contentDocument.querySelector('.judged')")
    check.same("nor of one in a frame", [], tab.errors)


def keeping(check: Comparison, tab: Tab) -> None:
    """Made certificates are put between the old records, which stay as they are."""
    old = (f"sokoban-answers 1\r\n; checked by Anna\nlevel 2\n; mine\nsolution\n{LETTERS}\nend\n\n"
           "; the last\nlevel 3\nunsolvable\nzone 2,2\nend")
    write("keep.xsb", "\n".join((CORNER, LEVEL, CORNER, CORNER)))
    write("keep.answers", old)
    tab.give("keep.xsb", "keep.answers")
    tab.click("#make")
    tab.wait("$('lines').textContent.startsWith('level 1 unsolvable')")
    record = f"unsolvable\n{MADE}end\n"
    check.same("old records and comments stay", old.replace("1\r\n", f"1\r\nlevel 1\n{record}")
               + f"\nlevel 4\n{record}", tab.saved("answers").decode())
    check.same("so does their verdict", "level 3 refused line 19 syntax",
               tab.text("lines").splitlines()[2])
    with open(f"{TOP}/samples/zones.xsb", encoding="utf-8") as file:
        levels = file.read()
    for records in "", "level 1\nunsolvable\nzone 2,2\nend\n":
        tab.ask("clear(); 0")
        tab.paste("levels", f"{levels}\nsokoban-answers 1\n; mine\n{records}")
        tab.click("#make")
        tab.wait("$('notes').textContent.includes('Certificates were made')")
        check.same("a header that rises is said if there are records",
                   [records != "", "sokoban-answers 2"], [
                       "'sokoban-answers 2' now" in tab.text("notes"),
                       tab.saved("answers").decode().splitlines()[0]])


def several(check: Comparison, tab: Tab) -> None:
    """Several files: a sum, the ones with open levels first, and one table."""
    def listed() -> List[str]:
        return list(tab.ask("[...document.querySelectorAll('#each li')].map(e => e.textContent)"))

    samples = f"{TOP}/samples"
    write("bad.xsb", CORNER)
    write("bad.answers", "sokoban-answers 1\nlevel 7\n")
    tab.choose(*(f"{samples}/{name}.{end}" for name in ("first", "every")
                 for end in ("xsb", "answers")), "bad.xsb", "bad.answers")
    tab.wait(f"document.querySelectorAll('#each li').length === 3 && {IDLE}")
    lines = [read(f"{samples}/{name}.report").splitlines()[-1] for name in ("every", "first")]
    every, first = (f"{name}.xsb {in_words(line)}" for name, line in zip(("every", "first"), lines))
    check.same("those with open levels first", ["bad.xsb answers line 2 unknown", every, first],
               listed())
    sums = [sum(map(int, pair)) for pair in zip(*(re.findall("[0-9]+", line) for line in lines))]
    check.same("their sum", "3 files, " + in_words(
        "total {} solved {} unsolvable {} refused {} missing {}".format(*sums)), tab.text("sum"))
    check.same("the first of them is shown", "answers line 2 unknown", tab.message())
    tab.ask("document.querySelectorAll('#each button')[2].click()")
    check.same("one of several", read(f"{samples}/first.report"), tab.text("lines"))
    check.same("its name", first.replace(" ", ": ", 1), tab.text("total"))
    write("bad.answers", "sokoban-answers 1\nlevel 1\nunsolvable\npattern 2,2 @ *\nend\n")
    write("bad.txt", "Nr 9\nuuuuuuuuuu\n")
    mended = "bad.xsb 1 level: 1 proved unsolvable"
    for name in ("bad.answers", "bad.txt"):
        tab.choose(name)
        tab.wait(f"{IDLE} && $('each').children.length === 3 "
                 f"&& $('each').textContent.includes('{mended}')")
        check.same(f"{name} dropped later", [every, first, mended], sorted(
            listed(), key=[every, first, mended].index))
    tab.ask("[...document.querySelectorAll('#each button')].find("
            "it => it.textContent === 'bad.xsb').click()")
    check.same("the list is left out beside answers", True, "bad.txt" in tab.text("notes"))
    write("other.answers", "sokoban-answers 1\n")
    check.same("answers of none of them", ["other.answers: no levels", 3], [
        tab.give("other.answers")[:24], len(listed())])
    write("part.xsb", f"{LEVEL}Solution: up\n\n{LEVEL.replace('*', '=')}\n")
    write("bad.xsb", f"{CORNER}\n{CORNER}")
    tab.give("part.xsb", "bad.xsb")
    tab.wait(f"{IDLE} && $('each').children.length === 2")
    check.same("a file that wasn't read whole", [
        "part.xsb 3 levels: 2 refused, 1 without an answer, 2 remarks",
        "bad.xsb 2 levels: 2 without an answer"], listed())
    tab.ask("document.querySelectorAll('#each button')[1].click()")
    tab.click("#make")
    tab.wait(f"{IDLE} && $('total').textContent.includes('proved unsolvable')")
    check.same("a file's total after certificates", "bad.xsb 2 levels: 2 proved unsolvable",
               listed()[1])
    check.same("it isn't audited anew", "bad.xsb: 2 levels: 2 proved unsolvable", tab.ask(
        "(document.querySelectorAll('#each button')[0].click(),"
        " document.querySelectorAll('#each button')[1].click(), $('total').textContent)"))
    tab.press_button("levels-file button")
    check.same("files that are removed can't be clicked", True, tab.ask("$('several').hidden"))


@contextlib.contextmanager
def listening() -> Iterator[Tuple[int, List[str]]]:
    """A port where somebody listens, and the first lines of what it is asked."""
    asked_for: List[str] = []

    class Listener(http.server.BaseHTTPRequestHandler):
        """Notes each request."""
        def do_GET(self) -> None:  # pylint: disable=invalid-name
            """Answers a request."""
            asked_for.append(self.requestline)
            self.send_response(200)
            self.end_headers()

        do_POST = do_GET

        def log_message(self, *_: object) -> None:  # pylint: disable=arguments-differ
            """Says nothing."""

    server = http.server.HTTPServer(("127.0.0.1", 0), Listener)
    thread = threading.Thread(target=server.serve_forever, daemon=True)
    thread.start()
    yield server.server_port, asked_for
    server.shutdown()


def hostile(check: Comparison, tab: Tab) -> None:
    """Titles and names of files that are written as markup."""
    name = HOSTILE.replace("/", "\u2215") + ".xsb"
    write(name, f"{HOSTILE}\n{LEVEL}Title: {HOSTILE}\n\n{HOSTILE}\n{LEVEL}{LETTERS}\n")
    tab.give(name)
    tab.opened(1)
    check.same("hostile titles are texts", True, HOSTILE in tab.seen(".heading")[0])
    tab.ask("savePage().then(() => 0)")
    check.same("no text becomes markup", [f"Level 1 - {name}", 0], tab.ask(
        "[document.title, document.querySelectorAll('img, main script').length]"))
    write("saved.html", tab.saved("page").decode())
    asked = tab.requests
    check.same("nothing is asked for", [], [it for it in asked if it[:5] not in ("file:", "blob:")])
    tab.open("file://" + os.path.abspath("saved.html"))
    check.same("nor becomes it markup in the saved page", [0, 8, False], tab.ask(
        "[document.images.length, document.scripts.length, document.title === 'run']"))
    tab.ask("document.body.append(Object.assign(document.createElement('script'), "
            "{ textContent: \"document.title = 'run'\" }))")
    check.same("no other script runs in it", False, tab.ask("document.title === 'run'"))
    tab.fresh()
    tab.ask("document.body.append(Object.assign(document.createElement('script'), "
            "{ textContent: \"document.title = 'run'\" }))")
    check.same("no other script runs", "sokoaudit", tab.ask("document.title"))
    with listening() as (port, asked_for):
        for ask in (f"fetch('http://127.0.0.1:{port}/', {{ mode: 'no-cors' }}).catch(() => 0)",
                    f"document.body.append(Object.assign(new Image(), {{ src: '//127.0.0.1:{port}/"
                    "' })), 0", f"navigator.sendBeacon('http://127.0.0.1:{port}/', 'x')"):
            tab.ask(ask)
        tab.ask("new Promise(done => setTimeout(done, 300))")
        check.same("no address is asked for, where somebody listens", [], asked_for)


def stopping(check: Comparison, tab: Tab) -> None:
    """A run that is cancelled, and a memory that doesn't grow."""
    write("slow.xsb", text(f"{corridors(side=255, count=120).levels}//" * 4))
    tab.give("slow.xsb")
    tab.ask("make(), 0")
    check.same("the page answers while the program runs", [False, True], tab.ask(
        "[$('busy').hidden, $('busy').textContent.includes('Looking for certificates')]"))
    tab.click("#cancel")
    check.same("cancelled", [True, "Cancelled.", False], tab.ask(
        "[$('busy').hidden, $('why').textContent, $('notes').textContent.includes('ertificate')]"))
    tab.ask("audit(), document.querySelector('#levels-file button').click(), 0")
    check.same("the file that is audited is removed", [True, "Cancelled."], tab.ask(
        "[$('busy').hidden, $('why').textContent]"))
    tab.ask("clear(); 0")
    tab.paste("levels", LEVEL + LETTERS)
    check.same("the next run after that", LINE, tab.text("lines")[:len(LINE)])


def limited(page: str, pages: int) -> str:
    """The page with a module whose memory has at most this many pages of 64 KiB."""
    def capped(match: "re.Match[str]") -> str:
        data = base64.b64decode(match[1])
        at, out = 8, data[:8]
        while at < len(data):
            kind, (size, begin) = data[at], number(data, at + 1)
            body = data[begin:begin + size]
            if kind == 5:
                least, _ = number(body, 2)
                body = b"\1\1" + spelled(least) + spelled(pages)
            out += bytes([kind]) + spelled(len(body)) + body
            at = begin + size
        return f'id="wasm">{base64.b64encode(out).decode()}<'

    return re.sub(r'id="wasm">([^<]*)<', capped, page)


def number(data: bytes, at: int) -> Tuple[int, int]:
    """A number of a module, and where the next byte is."""
    value = shift = 0
    while True:
        value |= (data[at] & 127) << shift
        shift += 7
        at += 1
        if data[at - 1] < 128:
            return value, at


def spelled(value: int) -> bytes:
    """A number as a module has it."""
    out = b""
    while value > 127:
        out += bytes([value & 127 | 128])
        value >>= 7
    return out + bytes([value])


def growth(check: Comparison, tab: Tab) -> None:
    """A memory that may not grow far: one sentence, and the next run works."""
    with open(tab.page, encoding="utf-8") as file:
        write("small.html", limited(file.read(), 64))
    write("long.xsb", " " * 3000000 + "\n" + LEVEL)
    tab.open("file://" + os.path.abspath("small.html"))
    check.same("no memory", "out of memory.", tab.give("long.xsb")[:14])
    tab.ask("clear(); 0")
    tab.paste("levels", LEVEL + LETTERS)
    check.same("after no memory", LINE, tab.text("lines")[:len(LINE)])


def browsers(check: Comparison, tab: Tab) -> None:
    """Browsers that can't run the program: one sentence that names what to use."""
    for lack in LACKS:
        made = tab.call("Page.addScriptToEvaluateOnNewDocument", source=lack)["identifier"]
        tab.fresh()
        check.same(lack, True, "no WebAssembly" in tab.message() and "reference" in tab.message())
        tab.call("Page.removeScriptToEvaluateOnNewDocument", identifier=made)
    tab.fresh()
    tab.ask("runner.stop(); globalThis.whole = $('thread').textContent;"
            " $('thread').textContent = '(', 0")
    check.same("a thread that doesn't start", "This browser can't run the program",
               tab.paste("levels", LEVEL)[:34])
    tab.ask("$('thread').textContent = whole; clear(); 0")
    tab.errors.clear()
    tab.paste("levels", LEVEL + LETTERS)
    check.same("the next one does", LINE, tab.text("lines")[:len(LINE)])


def reaching(check: Comparison, tab: Tab) -> None:
    """Keys alone, dropped files, a screen reader, and a narrow page."""
    tab.press("Tab", "Tab")
    check.same("the second stop of Tab", "levels", tab.ask("document.activeElement.id"))
    tab.call("Input.insertText", text=LEVEL + LETTERS)
    tab.press("Tab", "Enter")
    tab.wait("document.activeElement.id === 'total'")
    check.same("an audit by keys", LINE, tab.text("lines")[:len(LINE)])
    for levels in f"{LEVEL}\n{CORNER}", f"{LEVEL}{LETTERS}\n\n{CORNER}", CORNER:
        tab.paste("levels", levels)
        tab.ask("$('make').focus(); 0")
        tab.press("Enter")
        tab.wait(f"{IDLE} && $('lines').textContent.includes('unsolvable patterns')")
        tab.ask("new Promise(done => setTimeout(done, 100))")
        check.same("the focus after certificates", "make" if LETTERS not in levels and
                   LEVEL in levels else "total", tab.ask("document.activeElement.id"))
    for typed, focus in ("", "total"), ("x", "levels"):
        tab.ask(f"$('form').open = true; $('levels').focus();"
                f" $('levels').value = {LEVEL + LETTERS!r}; $('audit').click();"
                f" document.execCommand('insertText', false, {typed!r})")
        tab.wait(f"{IDLE} && $('lines').textContent.includes('moves 33')")
        tab.ask("new Promise(done => setTimeout(done, 100))")
        check.same(f"the focus after {typed!r} was typed during an audit", focus,
                   tab.ask("document.activeElement.id"))
    tab.paste("levels", LEVEL + LETTERS)
    tab.ask("$('form').open = true; 0")
    names = tab.spoken()
    for pair in (("textbox", "Levels, with their solutions"), ("button", "Cancel"),
                 ("heading", "1 level: 1 solved")):
        check.same(f"spoken: {pair}", pair != ("button", "Cancel"), pair in names)
    for dark in (False, True):
        tab.size(360, 740, dark)
        check.same("no scrolling sideways", True,
                   tab.ask("document.documentElement.scrollWidth <= innerWidth"))
    write("one.xsb", LEVEL + LETTERS)
    name = "n" * 200
    write(f"{name}.xsb", f"{LEVEL}Title: {'t' * 900}\n\n{LEVEL}")
    write(f"{name}.answers", ANSWERS)
    for width in (360, 390, 800):
        tab.size(width, 740)
        tab.give(f"{name}.xsb")
        check.same(f"the button of the keys in {width}", [True, 0],
                   tab.ask(BESIDE % "header"))
        tab.opened(1)
        check.same(f"the same in a level in {width}", [True, 0], tab.ask(BESIDE % "nav"))
        found = [tab.ask(IS_WIDE)]
        tab.give("one.xsb", f"{name}.xsb")
        tab.wait("document.querySelectorAll('#each li').length === 2")
        found += [tab.ask(IS_WIDE)]
        tab.give("one.xsb", "one.xsb", f"{name}.answers")
        check.same(f"long words in {width}", 3 * [False], [*found, tab.ask(IS_WIDE)])
    tab.size(1280, 900)
    tab.ask("clear(); 0")
    tab.drop("#levels", "one.xsb")
    check.same("a dropped file", LINE, tab.text("lines")[:len(LINE)])
    tab.ask("clear(); 0")
    for place in "#levels", "h1":
        tab.drag(place, {"items": [{"mimeType": "text/plain", "data": "####"}]})
    check.same("a text that is dragged into the field", "####", tab.ask("$('levels').value"))
    check.same("a pasted file", [True, "level 1 missing"], [
        tab.paste_file("levels", "two.xsb", CORNER), tab.text("lines").splitlines()[0]])
    write("two.xsb", CORNER)
    tab.drop("#view", "two.xsb")
    check.same("a file dropped on the boards", "level 1 missing",
               tab.text("lines").splitlines()[0])
    os.utime("two.xsb", (1e9, 1e9))
    tab.press_button("audit")
    tab.wait(IDLE)
    check.same("a file that has changed", "cannot read two.xsb: if it was changed",
               tab.message()[:38])
    os.mkdir("folder")
    tab.drop("h1", "one.xsb", "folder")
    check.same("a folder", "cannot read folder: ", tab.message()[:20])


def files(check: Comparison, tab: Tab) -> None:
    """Levels and answers in files, and which of them go together."""
    write("one.xsb", LEVEL)
    write("two.xsb", CORNER)
    write("plain answers.txt", "R\n")
    for name in ("one.answers", "three.answers"):
        write(name, ANSWERS)
    tab.give("one.xsb", "one.answers")
    check.same("levels and answers", LINE, tab.text("lines")[:len(LINE)])
    write("one.xsb", f"{LEVEL}Title: mended\n")
    for names in ("one.xsb",), ("one.xsb", "one.answers"), ("one.xsb",):
        tab.give(*names)
        check.same(f"levels with answers are dropped again, {len(names)}", [LINE, "mended"], [
            tab.text("lines")[:len(LINE)], tab.ask("shownData.levels[0].title")])
    tab.ask("$('form').open = true; 0")
    check.same("what each button removes", ["Remove levels", "Remove answers"], [
        name for role, name in tab.spoken() if role == "button" and name.startswith("Remove")])
    check.same("all is answered", "fine", tab.ask("$('total').className"))
    tab.give("two.xsb")
    check.same("new levels drop the former answers", "level 1 missing",
               tab.text("lines").splitlines()[0])
    check.same("something is open", "open", tab.ask("$('total').className"))
    tab.press_button("levels-file button")
    check.same("a removed file leaves its result pale", True,
               tab.ask("$('result').classList.contains('stale')"))
    tab.ask("clear(); 0")
    check.same("answers alone", "There is nothing to audit yet: paste or drop levels.",
               tab.give("one.answers"))
    tab.give("one.xsb")
    check.same("answers before their levels", LINE, tab.text("lines")[:len(LINE)])
    tab.ask("clear(); 0")
    tab.give("one.xsb", "plain answers.txt")
    check.same("a file that is named answers", "answers line 1 header", tab.message())
    tab.give("one.xsb", "two.xsb", "one.answers", "three.answers")
    check.same("answers without levels", True, "three.answers: no levels" in tab.message())
    write("one.txt", ANSWERS.replace(LETTERS, "l"))
    check.same("two answers to one file", "one.txt: one.answers is for the same levels file.",
               tab.give("one.xsb", "one.answers", "one.txt"))
    tab.give("one.xsb", "two.xsb", "one.answers")
    tab.choose("one.txt")
    tab.wait(f"{IDLE} && $('each').textContent.includes('1 refused')")
    check.same("other answers in their place", "", tab.message())
    tab.give("one.xsb", "two.xsb")
    tab.wait("document.querySelectorAll('#each li').length === 2")
    tab.press_button("levels-file button")
    check.same("several files are removed at once", [True, True], tab.ask(
        "['levels', 'answers'].map(it => $(`${it}-file`).hidden)"))


def lists(check: Comparison, tab: Tab) -> None:
    """Lists of solutions, and the levels that they go with."""
    for name, text_in in (("one.xsb", LEVEL), ("two.xsb", CORNER), ("one.answers", ANSWERS),
                          ("list.txt", LETTERS)):
        write(name, text_in)
    tab.paste("levels", LEVEL)
    tab.give("list.txt")
    check.same("a list for typed levels", LINE, tab.text("lines")[:len(LINE)])
    for letters, line in (("uuuuuuuuuu", 1), ("\n\nuuuuuuuuuu", 3)):
        write("other.txt", letters)
        tab.give("other.txt")
        check.same(f"another list for them, {letters!r}", [LINE, [f"other.txt line {line}"]], [
            tab.text("lines")[:len(LINE)], [it.split(":")[0] for it in tab.told()]])
    tab.ask("clear(); 0")
    check.same("a list alone", "No level is found.", tab.give("list.txt"))
    tab.give("one.xsb")
    check.same("a list before its levels", LINE, tab.text("lines")[:len(LINE)])
    tab.give("one.xsb")
    check.same("it stays if they are dropped again", LINE, tab.text("lines")[:len(LINE)])
    tab.give("two.xsb")
    check.same("it goes with these levels", [], tab.told())
    for names in (*permutations(("one.xsb", "one.answers", "list.txt")),
                  ("one.xsb", "list.txt one.answers"), ("list.txt one.answers", "one.xsb")):
        tab.ask("clear(); 0")
        for name in names:
            tab.give(*name.split())
        check.same(f"{', then '.join(names)}", [LINE, f"{LEFT_OUT}list.txt."], [
            tab.text("lines")[:len(LINE)], tab.text("notes")])
    tab.give("two.xsb")
    write("two.xsb", LETTERS)
    check.same("a file of the same name is no list", "No level is found.", tab.give("two.xsb"))
    tab.ask("clear(); 0")
    write("text.txt", "no level\n")
    tab.give("text.txt")
    tab.give("one.xsb")
    check.same("a file without letters before levels", "level 1 missing",
               tab.text("lines").splitlines()[0])


def fields(check: Comparison, tab: Tab) -> None:
    """Both texts in one field, and what stays in it."""
    both = f"{LEVEL}\n{ANSWERS}"
    for row, letters in ("#@ $ .#", "rRR"), ("#. $ @#", "lLL"):
        tab.paste("levels", f"#######\n{row}\n#######\n\nsokoban-answers 1\nlevel 1\nsolution\n"
                            f"{letters}\nend\n")
        check.same(f"pasted levels and answers with {letters}", "level 1 solved",
                   tab.text("lines")[:14])
    tab.paste("levels", f"{LEVEL}{LETTERS}\n")
    check.same("other levels pasted in their place", LINE, tab.text("lines")[:len(LINE)])
    tab.paste("levels", f"{LEVEL}\nsokoban-answers 1\nlevel 1\nsolution\nl\nend\n")
    tab.ask(f"$('levels').value += {(chr(10) + ANSWERS)!r}; audit().then(() => 0)")
    check.same("answers pasted below the levels once more", LINE, tab.text("lines")[:len(LINE)])
    tab.paste("levels", both)
    write("corner.xsb", f"{CORNER}Solution\nlurd\n")
    tab.give("corner.xsb")
    check.same("other levels in a file", "level 1 refused move 2 blocked",
               tab.text("lines").splitlines()[0])
    tab.press_button("levels-file button")
    tab.ask("audit().then(() => 0)")
    check.same("the pasted ones once that is removed", [both, LINE], [
        tab.ask("$('levels').value"), tab.text("lines")[:len(LINE)]])
    tab.fresh()
    tab.paste("levels", f"{ANSWERS}\nOne\n{LEVEL}\n{CORNER[:-1]}")
    check.same("answers pasted above their levels", [LINE, "One", ANSWERS], [
        tab.text("lines")[:len(LINE)], tab.ask("shownData.levels[0].title"),
        tab.saved("answers").decode()])
    tab.paste("levels", f"{CORNER[:-1]}\n{ANSWERS}{LEVEL}")
    check.same("levels above and below their answers", 2, tab.ask("shownData.levels.length"))
    tab.ask("clear(); 0")
    write("one.xsb", LEVEL)
    check.same("answers alone", "There is nothing to audit yet: paste or drop levels.",
               tab.paste("levels", ANSWERS))
    tab.give("one.xsb")
    check.same("they go with levels in a file", [LINE, False], [
        tab.text("lines")[:len(LINE)], tab.ask("$('levels').hidden")])
    tab.ask("clear(); 0")
    tab.give("one.xsb")
    tab.paste_text("body", ANSWERS)
    check.same("answers pasted beside a file of levels", [
        LINE, f"answers, {len(ANSWERS)} bytes"], [
        tab.text("lines")[:len(LINE)], tab.ask("$('answers-file').firstChild.textContent")])
    write("both.xsb", both)
    tab.ask("clear(); 0")
    tab.give("both.xsb")
    check.same("a file with both", LINE, tab.text("lines")[:len(LINE)])


def buttons(check: Comparison, tab: Tab) -> None:
    """The focus, the example, and what a key takes back."""
    tab.ask("$('levels').focus(); 0")
    tab.paste("levels", LEVEL + "Solution\n" + LETTERS)
    tab.opened()
    check.same("the result comes first", ["total", False], tab.ask(
        "[document.activeElement.id, $('form').open]"))
    tab.paste("levels", "no level\n")
    check.same("no level", ["No level is found.", "A row has"], [tab.message(), tab.told()[0][:9]])
    tab.press_button("example")
    tab.wait(f"{IDLE} && $('lines').textContent.includes('level 2')")
    check.same("the example", "3 levels: 1 solved, 1 refused, 1 without an answer",
               tab.text("total"))
    back = "document.execCommand('undo'), $('levels').value"
    check.same("Ctrl and Z after it", "no level\n", tab.ask(back))
    tab.press_button("clear")
    check.same("Ctrl and Z after Clear", "no level\n", tab.ask(back))


def stale(check: Comparison, tab: Tab) -> None:
    """Results of former texts, and the names of what is saved."""
    tab.ask(f"$('levels').value = {(CORNER + chr(10) + LEVEL + LETTERS)!r}; dispatchEvent("
            "new KeyboardEvent('keydown', { key: 'Enter', ctrlKey: true })); 0")
    tab.wait(IDLE)
    check.same("Ctrl and Enter audit", "level 1 missing", tab.text("lines").splitlines()[0])
    tab.click("#make")
    tab.wait("$('lines').textContent.includes('level 1 unsolvable patterns 4')")
    check.same("made answers stand in order", ["level 1", "level 2"],
               [it for it in tab.saved("answers").decode().splitlines() if it[:5] == "level"])
    tab.ask("$('levels').dispatchEvent(new Event('input')); 0")
    is_pale = "$('result').classList.contains('stale')"
    check.same("an edited text leaves its result pale", True, tab.ask(is_pale))
    check.same("and says so", "The result is of the text before your change.", tab.text("why"))
    tab.ask("make().then(() => 0)")
    check.same("so do certificates for the former text", True, tab.ask(is_pale))
    tab.ask("globalThis.ran = audit(); $('levels').dispatchEvent(new Event('input')); "
            "ran.then(() => 0)")
    check.same("and an edit while the audit runs", True, tab.ask(is_pale))
    tab.ask("audit().then(() => 0)")
    check.same("a new audit is of the text", False, tab.ask(is_pale))
    tab.ask("HTMLAnchorElement.prototype.click = function () { window.to = this.download; }; 0")
    for what in ("report", "answers"):
        tab.click(f"#save-{what}")
        check.same(f"the name of saved {what}", f"levels.{what}", tab.ask("to"))
    check.same("the name of a page that is saved while another result comes", "levels.html",
               tab.ask("globalThis.saving = savePage(); kept.names = ['next']; "
                       "saving.then(() => to)"))
    tab.ask("kept.names = ['.hidden']; 0")
    tab.click("#save-report")
    check.same("the name of what is saved of a hidden file", ".hidden.report", tab.ask("to"))


UNPAINTED = (below, lists)
PARTS = (files, fields, buttons, stale, viewing, dead, pasting, making, keeping, several, hostile,
         stopping, growth, browsers, reaching)
