"""What is drawn, looked at as a user does: which cells a shape fills, and the colours of a card."""
import random
from typing import Dict, List, Sequence, Tuple

from tests.page.comparing import HEADER, Comparison
from tests.page.driving import Tab
from tests.page.forms import zipped
from tests.page.using import CORNER, LETTERS, LEVEL, dead_cells
from tests.runner import TOP, write

INSIDE = "$('view')"
# of each kind of shape, the cells whose middle it fills
FILLED = """(inside => {
    const picture = inside.querySelector(".level svg.board"), found = {};
    const { width, height } = picture.viewBox.baseVal;
    for (const shape of picture.querySelectorAll("path, rect, circle")) {
        const kind = shape.getAttribute("class"), cells = found[kind] ??= [];
        for (let y = 0; y < height - .2; y++) for (let x = 0; x < width - .2; x++) {
            const point = Object.assign(picture.createSVGPoint(), { x: x + .5, y: y + .5 });
            if (shape.isPointInFill(point)) cells.push(`${x + 1},${y + 1}`);
        }
    }
    return found;
})(%s)""" % INSIDE
# the colours in the middle of a card's cells, each by the name of what has it
COLOURS = """((inside, width, height) => {
    const canvas = inside.querySelector(".card canvas"), pen = canvas.getContext("2d");
    const style = getComputedStyle(document.documentElement), names = {};
    const dot = document.createElement("canvas").getContext("2d");
    for (const name of ["floor", "wall", "goal", "box", "home", "player"]) {
        dot.fillStyle = style.getPropertyValue(`--${name}`).trim();
        dot.fillRect(0, 0, 1, 1);
        names[dot.getImageData(0, 0, 1, 1).data.join()] = name;
    }
    const scale = devicePixelRatio;
    const cell = Math.min(canvas.width / width, canvas.height / height, 14 * scale);
    const left = (canvas.width - cell * width) / 2, top = (canvas.height - cell * height) / 2;
    return Array.from({ length: height }, (_, y) => Array.from({ length: width }, (_, x) =>
        names[pen.getImageData(left + (x + .5) * cell, top + (y + .5) * cell, 1, 1).data.join()]
            ?? ""));
})(%s, %d, %d)"""
CELLS = {"#": "wall", " ": "floor", ".": "goal", "$": "box", "*": "home", "@": "player",
         "+": "player"}
# the texts whose contrast to what is behind them is below 4.5
PALE = """(() => {
    const light = colour => {
        const parts = colour.match(/[\\d.]+/g).slice(0, 3).map(it => {
            const part = it / 255;
            return part <= .04045 ? part / 12.92 : ((part + .055) / 1.055) ** 2.4;
        });
        return .2126 * parts[0] + .7152 * parts[1] + .0722 * parts[2] + .05;
    };
    const isClear = it => /, 0\\)$|^transparent$/.test(getComputedStyle(it).backgroundColor);
    const behind = it => it.parentElement && isClear(it) ? behind(it.parentElement) : it;
    const hasText = it => [...it.childNodes].some(node => node.nodeType === 3 && node.data.trim())
        || it.matches("textarea");
    return [...document.querySelectorAll("body *")].filter(it => hasText(it) && it.checkVisibility()
        && !it.closest("svg, script, style, option")).flatMap(it => {
        const pair = [light(getComputedStyle(it).color),
            light(getComputedStyle(behind(it)).backgroundColor)];
        const contrast = Math.max(...pair) / Math.min(...pair);
        return contrast < 4.5 ? [`${it.localName}.${it.className} ${contrast.toFixed(1)}`] : [];
    });
})()"""
FAR = {"l": (-1, 0), "u": (0, -1), "r": (1, 0), "d": (0, 1)}
# how far the player's shape reaches from the middle of its cell
LOOK = """(({ x, y, width, height }, place) => {
    const { board } = viewer.page.answer.replay;
    return [x + width / 2 - middle(board, board.player)[0],
        y + height / 2 - middle(board, board.player)[1]];
})(document.querySelector(".level .player").getBBox())"""
# where the middle of each arrow is from the middle of its player's cell, and its direction
ARROWS = """[...%s.querySelectorAll(".arrow")].map(it => {
    const { x, y, width, height } = it.querySelector(".shaft").getBBox();
    const [column, row] = it.dataset.at.split(",").map(Number);
    return [it.dataset.dir, x + width / 2 - column + .5, y + height / 2 - row + .5];
})""" % INSIDE


def cells(rows: Sequence[str], kinds: str) -> List[str]:
    """The cells of a board that have one of these characters."""
    return [f"{x + 1},{y + 1}" for y, row in enumerate(rows) for x, cell in enumerate(row)
            if cell in kinds]


def boards(check: Comparison, tab: Tab) -> None:
    """The shapes of a board, at its start, at its end, and with a region."""
    rows = LEVEL.splitlines()
    tab.paste("levels", LEVEL + LETTERS)
    tab.opened()
    found: Dict[str, List[str]] = tab.ask(FILLED)
    for kind, characters in (("wall", "#"), ("goal", ".+*"), ("box", "$"), ("box home", "*"),
                             ("player", "@+"), ("floor", " .$@+*")):
        check.same(f"cells of {kind}", cells(rows, characters), sorted(
            found.get(kind, []), key=lambda it: [int(n) for n in it.split(",")[::-1]]))
    tab.press("End")
    tab.wait(f"{INSIDE}.querySelector('.state').dataset.solved === 'true'")
    found = tab.ask(FILLED)
    check.same("all boxes are at home in the end", ["2,4", "3,2"],
               sorted(found.get("box home", [])))
    done = tab.ask(f"[{INSIDE}.querySelectorAll('.letters .done').length,"
                   f" {INSIDE}.querySelectorAll('.letters span').length]")
    check.same("all letters are done", [len(LETTERS)] * 2, done)
    tab.press("Home", "ArrowRight")
    tab.wait(f"{INSIDE}.querySelector('.counts b').textContent === '1'")
    check.same("one letter is done", 1, tab.ask(
        f"{INSIDE}.querySelectorAll('.letters .done').length"))
    for at, letter in enumerate(LETTERS, 1):
        tab.ask(f"viewer.page.answer.seek({at}); 0")
        x, y = tab.ask(LOOK)
        dx, dy = FAR[letter.lower()]
        check.same(f"the player looks {letter}", True, x * dx + y * dy > .05)
    tab.press("End", " ")
    tab.wait(f"{INSIDE}.querySelector('.counts b').textContent === '3'")
    tab.press(" ")
    speed = f"{INSIDE}.querySelector('[aria-label=\"letters per second\"]').value"
    before = int(tab.ask(speed))
    tab.press("+")
    check.same("the key + plays faster", True, int(tab.ask(speed)) > before)
    tab.ask(f"{INSIDE}.querySelector('details.whole').open = true; 0")
    tab.wait(f"{INSIDE}.querySelector('.whole textarea').value")
    write("two.xsb", LEVEL)
    write("two.answers", f"{HEADER.decode()}level 1\nsolution\n{LETTERS[:9]}\n{LETTERS[9:]}\nend\n")
    tab.give("two.xsb", "two.answers")
    tab.opened()
    tab.ask(f"{INSIDE}.querySelector('details.whole').open = true; 0")
    tab.wait(f"{INSIDE}.querySelector('.whole textarea').value")
    check.same("all lines can be copied", LETTERS, tab.ask(
        f"{INSIDE}.querySelector('.whole textarea').value.replace(/\\n/g, '')"))
    tab.give(f"{TOP}/samples/every.xsb", f"{TOP}/samples/every.answers")
    tab.opened(2)
    found, room = tab.ask(FILLED), {*tab.ask(f"{INSIDE}.querySelector('.region').dataset.cells")
                                    .split()}
    check.same("the region is where it is named", sorted(room), sorted(found.get("region", [])))
    tab.opened(20)
    for way, x, y in tab.ask(ARROWS):
        check.same(f"an arrow points {way}", True, x * FAR[way][0] + y * FAR[way][1] > .3)


def small_boards(check: Comparison, tab: Tab) -> None:
    """The cards, in both palettes; and the texts can be read in both."""
    for dark in (False, True):
        for board in (LEVEL, CORNER):
            rows = board.splitlines()
            width = max(map(len, rows))
            tab.paste("levels", f"{board}\n" + f"{CORNER}\n" * 6)
            tab.size(1280, 900, dark)
            tab.ask("new Promise(done => setTimeout(done, 500))")
            seen = tab.ask(COLOURS % (INSIDE, width, len(rows)))
            wanted = [[CELLS[it] for it in row] for row in rows]
            check.same(f"a card of {board!r}, dark: {dark}", wanted,
                       [line[:len(row)] for line, row in zip(seen, rows)])
        check.same(f"the overview can be read, dark: {dark}", [], tab.ask(PALE))
        tab.opened(1)
        tab.ask("$('form').open = $('proof').open = $('raw').open = true; 0")
        check.same(f"so can a level, dark: {dark}", [], tab.ask(PALE))
    tab.size(1280, 900)


def saying(check: Comparison, tab: Tab) -> None:
    """What a screen reader is told, what is pale, the title of a window, and the policy."""
    tab.paste("levels", "no level\n")
    check.same("a message is an alert", True, "alert" in [role for role, _ in tab.spoken()])
    tab.paste("levels", LEVEL + LETTERS)
    tab.opened()
    check.same("the title of a level's window", "Level 1 - levels", tab.ask("document.title"))
    tab.ask("$('levels').dispatchEvent(new Event('input')); 0")
    check.same("a stale result is pale", True, tab.ask(
        "Number(getComputedStyle($('result')).opacity) < .6"))
    tab.ask("""globalThis.blobs = []; URL.createObjectURL = blob => (blobs.push(blob), "blob:x");
        HTMLAnchorElement.prototype.click = () => 0; 0""")
    for what, begin in (("report", "level 1 solved"), ("levels", "####"),
                        ("answers", "sokoban-answers")):
        tab.click(f"#save-{what}")
        check.same(f"what is in saved {what}", begin,
                   tab.ask("blobs.pop().text()")[:len(begin)])
    policy = tab.ask("document.querySelector('meta[http-equiv]').content")
    check.same("the policy", ["default-src 'none'", "worker-src blob:"], [
        it.strip() for it in policy.split(";")
        if it.strip().startswith(("default-src", "worker-src", "connect-src"))])


def rest(check: Comparison, tab: Tab) -> None:
    """Words that are found, names of files, remarks, and what goes back."""
    tab.paste("levels", f"Red one\n{LEVEL}\nBlue one\n{CORNER}Solution\nLL\n")
    tab.ask(f"{{ const field = {INSIDE}.querySelector('.words'); field.value = 'blue one';"
            " field.dispatchEvent(new Event('input')); } 0")
    check.same("a level has all words that are looked for", "1 level", tab.seen(".said")[0])
    check.same("the reason of a refusal on its card", True, "wall" in str(tab.ask(
        f"{INSIDE}.querySelector('.card.refused .line').title")))
    with open("two.zip", "wb") as file:
        file.write(zipped({"a.txt": LEVEL.encode(), "b.txt": CORNER.encode()}))
    tab.give("two.zip")
    check.same("the file of a level in an archive", ["a.txt", "b.txt"], tab.ask(
        "shownData.levels.map(({ file }) => file)"))
    data = bytearray(zipped({"a.txt": LEVEL.encode()}))
    data[data.rindex(b"PK\1\2") + 8] |= 1
    with open("locked.zip", "wb") as file:
        file.write(data)
    tab.give("locked.zip")
    check.same("an encrypted file is named", True, "a.txt is encrypted" in " ".join(tab.told()))
    tab.ask("clear(); 0")
    tab.paste("levels", "######\n#@ * #\n######\n")
    check.same("a level that is solved as it stands", True, "as it stands" in " ".join(tab.told()))
    tab.paste("levels", "<SokobanLevels><LevelCollection><Level Id='x'>"
              + "".join(f"<L>{row}</L>" for row in LEVEL.splitlines())
              + "<!-- by Anna --></Level></LevelCollection></SokobanLevels>")
    check.same("a remark of SLC stays", True,
               b"; by Anna" in tab.saved("levels").replace(b";  ", b"; "))
    check.same("an overrun isn't the page's fault", "The program stopped", tab.ask(
        "troubleIn({ error: 'x', name: 'RuntimeError' }).slice(0, 19)"))
    tab.paste("levels", f"{LEVEL}\n{CORNER}")
    tab.ask("Object.defineProperty(shownData.levels[0], 'rows',"
            " { value: ['no row'] }); 0")
    tab.opened(1)
    check.same("an illegal board without an answer isn't drawn", 0, len(tab.seen(".level svg")))
    tab.paste("levels", LEVEL + "".join(f"uuuuuuuuuu{'u' * i}\nx\n" for i in range(250)))
    check.same("no more remarks than can be read", "and 50 more", tab.ask(
        "$('told').lastChild.textContent"))
    write("long.xsb", "#####\n#@$.#\n#####\n")
    write("long.answers", f"{HEADER.decode()}level 1\nsolution\nR{'lr' * 40000}\nend\n")
    tab.give("long.xsb", "long.answers")
    tab.opened()
    moves = f"{INSIDE}.querySelector('.counts b')?.textContent"
    tab.wait(f"{moves} === '0'")
    for button, count in (("end", "80001"), ("start", "0")):
        tab.ask(f"{INSIDE}.querySelector('[aria-label={button}]').click(); 0")
        check.same(f"the {button} of a long solution", True,
                   tab.until(f"{moves} === '{count}'", 20))


def made(rng: random.Random) -> Tuple[List[str], str]:
    """A random level, and letters that solve it: where its boxes end are its goals."""
    while True:
        width, height = rng.randint(5, 9), rng.randint(5, 9)
        free = {(x, y) for x in range(1, width - 1) for y in range(1, height - 1)
                if rng.random() < .8}
        if len(free) < 8:
            continue
        places = rng.sample(sorted(free), rng.randint(2, 4))
        player, start = places[0], set(places[1:])
        boxes, letters, at = set(start), "", player
        for _ in range(rng.randint(20, 60)):
            letter = rng.choice("lurd")
            dx, dy = FAR[letter]
            to, beyond = (at[0] + dx, at[1] + dy), (at[0] + 2 * dx, at[1] + 2 * dy)
            if to not in free or to in boxes and (beyond not in free or beyond in boxes):
                continue
            letters += letter.upper() if to in boxes else letter
            if to in boxes:
                boxes = boxes - {to} | {beyond}
            at = to
        if boxes == start or not letters:
            continue

        def cell(x: int, y: int) -> str:
            is_goal = (x, y) in boxes
            return ("#" if (x, y) not in free else "+" if (x, y) == player and is_goal else "@"
                    if (x, y) == player else "*" if (x, y) in start and is_goal else "$"
                    if (x, y) in start else "." if is_goal else " ")

        return ["".join(cell(x, y) for x in range(width)) for y in range(height)], letters


def replayed(rows: Sequence[str], letters: str) -> Dict[str, List[str]]:
    """The cells of the boxes and the player after some letters, by a replay by itself."""
    (x, y), = ((int(it.split(",")[0]), int(it.split(",")[1])) for it in cells(rows, "@+"))
    boxes, goals = set(cells(rows, "$*")), set(cells(rows, ".*+"))
    for letter in letters:
        dx, dy = FAR[letter.lower()]
        x, y = x + dx, y + dy
        if letter.isupper():
            boxes = boxes - {f"{x},{y}"} | {f"{x + dx},{y + dy}"}
    return {"box": sorted(boxes - goals), "box home": sorted(boxes & goals),
            "player": [f"{x},{y}"]}


def replays(check: Comparison, tab: Tab) -> None:
    """Solved levels as they play, and the dead squares of as many."""
    rng = random.Random(20)
    levels = [made(rng) for _ in range(300)]
    write("made.xsb", "\n".join("".join(f"{row}\n" for row in rows) for rows, _ in levels))
    write("made.answers", HEADER.decode() + "".join(
        f"level {i}\nsolution\n{letters}\nend\n" for i, (_, letters) in enumerate(levels, 1)))
    tab.give("made.xsb", "made.answers")
    check.same("all are solved", "300 levels: 300 solved", tab.text("total"))
    for number, (rows, letters) in enumerate(levels, 1):
        tab.opened(number)
        tab.wait("viewer.page.answer.replay")
        far = len(letters)
        for at in 0, 1, rng.randrange(far), far, rng.randrange(far):
            tab.ask(f"viewer.page.answer.seek({at}); 0")
            found: Dict[str, List[str]] = tab.ask(FILLED)
            wanted = replayed(rows, letters[:at])
            check.same(f"level {number} after {at} letters", wanted, {
                kind: sorted(found.get(kind, [])) for kind in wanted})
        dead = tab.ask(f"deadSquares(shownData.levels[{number - 1}].rows)")
        check.same(f"dead squares of level {number}", dead_cells(rows), dead["cells"])


PARTS = (boards, small_boards, saying, rest, replays)
