"""What comes late, what is judged before it is drawn, and what lies around the levels."""
from itertools import product
from typing import Callable, Dict, List, Tuple

from tests.page.comparing import Comparison
from tests.page.driving import IDLE, Tab
from tests.page.using import ANSWERS, CORNER, CORRIDOR, LETTERS, LEVEL
from tests.runner import TOP, write


def judging(check: Comparison, tab: Tab) -> None:
    """What is drawn is judged by itself, and not drawn if the verdict is another."""
    samples = f"{TOP}/samples/"
    tab.give(f"{samples}every.xsb", f"{samples}every.answers")
    count = tab.ask("shownData.levels.length")
    for number in range(1, count + 1):
        tab.opened(number)
        said = "".join(tab.seen(".judged, .misjudged"))
        is_large = "board size" in tab.seen(".level .verdict")[0]
        check.same(f"level {number} is judged", not is_large, "same verdict." in said)
        is_refused = " refused " in tab.seen(".level .verdict")[0]
        check.same(f"level {number} is explained", is_refused, bool(tab.seen(".why")[0]))
    tab.ask("clear(); 0")
    tab.paste("levels", f"{LEVEL}{LETTERS}\n\n{CORNER}")
    tab.wait("document.querySelectorAll('.preview svg').length === 2")
    tab.ask("Object.defineProperty(shownData.levels[0], 'rows', { value: ['no row'] });"
            " draw(''); 0")
    # the thread judges in order, so the first level is judged once it is judged again
    tab.ask("judgementOn(viewer, shownData.levels[0]).then(() => 0)")
    tab.wait("document.querySelectorAll('.preview')[1]?.children.length")
    check.same("nor is the picture of a small collection", [False, True], tab.ask(
        "[...document.querySelectorAll('.preview')].map(it => it.children.length > 0)"))
    for change in ("levels[0], 'rows', { value: shownData.levels[1].rows }",
                   "levels[0], 'rows', { value: ['no row'] }",
                   "records[1], 'bytes', { value: bytesOf('L\\n') }"):
        tab.give(f"{samples}every.xsb", f"{samples}every.answers")
        tab.ask(f"Object.defineProperty(shownData.{change}); 0")
        tab.opened(1)
        check.same(f"not drawn: {change}", 0, len(tab.seen(".level svg")))


# Each read of a file of some length, each message of a thread and each start of one comes late. The
# thread that audited the example ends, so this holds from now on.
SLOW = """{
    const parts = $("thread"), Plain = globalThis.Worker;
    parts.textContent = `{
        const read = Blob.prototype.arrayBuffer;
        Blob.prototype.arrayBuffer = async function () {
            if (this.size > 500) await new Promise(done => setTimeout(done, 250));
            return read.call(this);
        };
    }\n` + parts.textContent;
    globalThis.Worker = class extends Plain {
        set onmessage(does) {
            super.onmessage = event => setTimeout(() => does(event), 40);
        }
    };
    runner.stop();
} 0"""
PASTED = (f"$('levels').value = {CORNER!r}; $('levels').dispatchEvent("
          "new Event('paste', { bubbles: true })); 0")
# What a user does first, and then; and what is shown in the end: the report's first line, the name
# of the levels, and the message.
FIRST: Dict[str, Callable[[Tab], object]] = {
    "a slow file": lambda tab: tab.choose("slow.xsb"),
    "slow files": lambda tab: tab.choose("slow.xsb", "slower.xsb"),
    "a slow list": lambda tab: tab.choose("slow.xsb", "slow.txt"),
    "pasting": lambda tab: tab.ask(PASTED),
    "make": lambda tab: tab.ask("$('make').click(); 0"),
    "saving the page": lambda tab: tab.ask("$('save-page').click(); 0"),
}
THEN: Dict[str, Tuple[Callable[[Tab], object], List[str]]] = {
    "pasting": (lambda tab: tab.ask(f"clear(); {PASTED}"), ["level 1 missing", "levels", ""]),
    "clearing": (lambda tab: tab.ask("$('clear').click(); 0"), ["", "", ""]),
    "a fast file": (lambda tab: tab.choose("fast.xsb"), ["level 1 solved", "fast.xsb", ""]),
    "the example": (lambda tab: tab.ask("$('example').click(); 0"),
                    ["level 1 solved", "levels", ""]),
    "an empty text": (lambda tab: tab.ask("clear(); $('audit').click(); 0"), [
        "", "", "There is nothing to audit yet: paste or drop levels."]),
}
SHOWN = """[...$('result').hidden ? ['', ''] : [
    /^level 1 [a-z]+/.exec($('lines').textContent)[0], kept.names[0]],
    $('message').hidden ? '' : $('message').textContent]"""


def late(check: Comparison, tab: Tab) -> None:
    """Whatever comes late, what is shown in the end is what was asked for last."""
    for name, text in (("slow.xsb", LEVEL + LETTERS + "\n" * 600),
                       ("slow.txt", LETTERS + "\n" * 600),
                       ("slower.xsb", CORNER + "\n" * 600), ("fast.xsb", LEVEL + LETTERS)):
        write(name, text)
    for i, ((first, begin), (then, (follow, wanted))) in enumerate(
            product(FIRST.items(), THEN.items())):
        pause = i % 3 * 60
        tab.fresh()
        tab.ask(f"{SLOW}; HTMLAnchorElement.prototype.click = () => 0")
        if first in ("make", "saving the page"):
            tab.paste("levels", f"{LEVEL}{LETTERS}\n\n{CORNER}")
        begin(tab)
        tab.ask(f"new Promise(done => setTimeout(done, {pause}))")
        follow(tab)
        tab.wait("$('busy').hidden")
        tab.ask("new Promise(done => setTimeout(done, 400))")
        check.same(f"late: {first}, then {then} after {pause} ms", wanted, tab.ask(SHOWN))


# Keeps back all work that pauses between its parts.
HOLD = """globalThis.held = [];
    globalThis.setTimeout = (plain => (does, ...after) =>
        after.length ? plain(does, ...after) : held.push(does))(setTimeout); 0"""
GO_ON = "%s.splice(0).forEach(does => does()); new Promise(done => setTimeout(done, 50))"


def overtaken(check: Comparison, tab: Tab) -> None:
    """A result that the page still takes in, part by part, when something else is asked for: it is
    never shown, and what runs then is still said."""
    for name in ("slow.xsb", "slower.xsb", "fast.xsb"):
        write(name, CORNER if name == "slower.xsb" else LEVEL + LETTERS)
    for first, (then, (follow, wanted)) in product(
            ("a slow file", "slow files", "pasting", "make"), THEN.items()):
        tab.fresh()
        if first == "make":
            tab.paste("levels", f"{LEVEL}{LETTERS}\n\n{CORNER}")
        tab.ask(HOLD)
        FIRST[first](tab)
        tab.wait("held.length && !runner.isBusy")
        tab.ask("globalThis.former = held.splice(0); 0")
        follow(tab)
        tab.wait("!runner.isBusy && (held.length || $('busy').hidden)")
        goes_on = tab.ask("!$('busy').hidden")
        tab.ask(GO_ON % "former")
        name = f"{first} is overtaken by {then}"
        check.same(f"{name}, which goes on", [goes_on, ["", "", ""] if goes_on else wanted],
                   tab.ask(f"[!$('busy').hidden, {SHOWN}]"))
        tab.ask(GO_ON % "held")
        check.same(name, [False, wanted], tab.ask(f"[!$('busy').hidden, {SHOWN}]"))


def dropping(check: Comparison, tab: Tab) -> None:
    """Files that are chosen while the page still reads earlier ones: those that are dropped go the
    same way."""
    write("one.xsb", LEVEL)
    write("slow.txt", LETTERS + "\n" * 600)
    write("slow.answers", f"{ANSWERS}{'; ' * 300}\n")
    for first, follow, line in (("slow.txt", "", "solved"), ("slow.answers", "", "solved"),
                                ("slow.txt", "$('cancel').click(); ", "missing")):
        tab.fresh()
        tab.ask(f"{SLOW}; 0")
        tab.choose(first)
        tab.ask(f"{follow}0")
        tab.choose("one.xsb")
        tab.wait(IDLE)
        check.same(f"{first}, {follow}and at once its levels", [f"level 1 {line}", "one.xsb", ""],
                   tab.ask(SHOWN))


def stopped(check: Comparison, tab: Tab) -> None:
    """After Cancel the result that is shown stays, and its buttons work."""
    tab.paste("levels", f"{LEVEL}{LETTERS}\n\n{CORNER}")
    tab.ask("make(), $('cancel').click(), 0")
    check.same("cancelled", [True, False, "level 2 missing", "Cancelled."], tab.ask(
        "[$('busy').hidden, $('result').hidden, $('lines').textContent.split('\\n')[1],"
        " $('why').textContent]"))
    tab.ask("savePage().then(() => 0)")
    check.same("a saved page after that", True, len(tab.saved("page")) > 10000)
    check.same("dead squares after that", ["2,2", "2,3"], tab.ask(
        "deadSquares(shownData.levels[1].rows)")["cells"][:2])
    tab.click("#make")
    tab.wait("$('lines').textContent.includes('level 2 unsolvable')")
    for name in ("a.xsb", "b.xsb", "c.xsb"):
        write(name, LEVEL + LETTERS + "\n" * 600)
    tab.fresh()
    tab.ask(f"{SLOW}; new MutationObserver(() => globalThis.first ??= document.querySelector("
            "'#each button')?.disabled).observe($('each'), { childList: true }); 0")
    tab.choose("a.xsb", "b.xsb", "c.xsb")
    tab.wait("document.querySelector('#each button')")
    check.same("no click ends the queue", True, tab.ask("first"))
    tab.wait("document.querySelectorAll('#each li').length === 3 && $('busy').hidden")
    check.same("then all can be clicked", 0, tab.ask(
        "document.querySelectorAll('#each button:disabled').length"))
    tab.ask("new MutationObserver((_, it) => $('each').children.length === 1 "
            "&& (it.disconnect(), $('cancel').click())).observe($('each'), { childList: true }); 0")
    tab.choose("a.xsb", "b.xsb", "c.xsb")
    tab.wait("$('why').textContent")
    tab.wait("!document.querySelector('#each button:disabled')")
    check.same("after Cancel a file that is done can be clicked", [1, "Cancelled."], tab.ask(
        "[document.querySelectorAll('#each button').length, $('why').textContent]"))
    tab.ask("new MutationObserver((_, it) => $('each').children.length === 1 && (it.disconnect(), "
            "document.querySelector('#levels-file button').click())).observe($('each'), "
            "{ childList: true }); 0")
    tab.choose("a.xsb", "b.xsb", "c.xsb")
    tab.wait("$('levels-file').hidden")
    tab.ask("new Promise(done => setTimeout(done, 400))")
    check.same("files that are removed aren't audited", [0, True], tab.ask(
        "[document.querySelectorAll('#each button').length, $('busy').hidden]"))
    tab.press_button("clear")
    check.same("nothing is said after Clear", ["", True], tab.ask(
        "[$('why').textContent, $('message').hidden]"))


# whether the keys are within the window
KEYS_IN_VIEW = """(dialog => {
    viewer.showKeys();
    const { top, bottom } = dialog.getBoundingClientRect();
    dialog.close();
    return top >= 0 && bottom <= innerHeight;
})($('view').querySelector("dialog"))"""


def around(check: Comparison, tab: Tab) -> None:
    """The cards, the browser's Back, paper, and a tab of its own."""
    tab.call("Page.resetNavigationHistory")  # A browser keeps 50 steps.
    corpus = "".join(f"{CORNER}Title: Level gypq {i}\n\n" for i in range(300))
    write("many.xsb", f"{CORRIDOR}{'lr' * 200}{'R' * 100}\n\n{corpus}")
    tab.give("many.xsb")
    check.same("counts of three digits", "500 moves, 100 pushes", tab.seen(".card .line")[0])
    check.same("no card is cut", True, tab.ask("[...$('view').querySelectorAll('.card')]"
                                               ".every(it => it.scrollHeight <= it.clientHeight)"))
    check.same("the keys are in view", True, tab.ask(KEYS_IN_VIEW))
    check.same("few cards", True, len(tab.seen(".card")) < 150)
    for link in (".card", "nav a + a"):
        tab.ask(f"$('view').querySelector('{link}').click(); 0")
        tab.opened()
    for where, address in (("back", "#1"), ("back", ""), ("forward", "#1")):
        tab.ask(f"history.{where}(); 0")
        tab.wait(f"location.hash === '{address}' && viewer.routed === '{address}'")
        check.same(f"{where} to '{address}'", bool(address), tab.ask(
            "$('view').querySelector('.overview').hidden"))
    tab.call("Emulation.setEmulatedMedia", media="print")
    tab.ask("dispatchEvent(new Event('beforeprint')); 0")
    check.same("the level that is shown on paper", [[True, False, False, False], 0], tab.ask(
        "[['.board', '.overview', 'nav', '#form'].map(it => document.querySelector("
        "`#view ${it}, main > ${it}`).checkVisibility()),"
        " $('view').querySelectorAll('.printed').length]"))
    tab.ask("dispatchEvent(new Event('afterprint')); 0")
    tab.call("Emulation.setEmulatedMedia", media="")
    tab.ask("viewer.go(0); 0")
    tab.wait("(scrollTo(0, document.body.scrollHeight), "
             "$('view').querySelector('[data-level=\"301\"]'))")
    tab.ask("dispatchEvent(new Event('beforeprint')); 0")
    check.same("all levels on paper", 301, tab.ask(
        "$('view').querySelector('.printed').children.length"))
    tab.ask("dispatchEvent(new Event('afterprint')); 0")
    check.same("and no more on the screen", 0, len(tab.seen(".printed")))
    tab.ask("globalThis.open = address => { globalThis.opened = address; }; 0")
    tab.ask("$('view').querySelector('[data-level=\"301\"]').dispatchEvent("
            "new MouseEvent('click', { ctrlKey: true, bubbles: true, cancelable: true })); 0")
    tab.wait("globalThis.opened")
    check.same("Ctrl and a click stay here", [], tab.seen(".level:not([hidden]) .heading"))
    tab.open(tab.ask("opened"))
    tab.wait(IDLE)
    tab.opened()
    check.same("and open the level in a tab of its own", ["Level 1 Level gypq 299"], [
        it.split(" line")[0] for it in tab.seen(".heading")])
    check.same("a sentence for old browsers", True, tab.ask(
        "$('old').hidden && $('old').textContent.length > 20"))


def returning(check: Comparison, tab: Tab) -> None:
    """The browser's Back to a level that was shown at once, and to levels of another file."""
    tab.call("Page.resetNavigationHistory")
    write("one.xsb", LEVEL)
    tab.give("one.xsb")
    tab.opened()
    is_overview = "$('view').querySelector('.level').hidden"
    tab.ask("viewer.go(0); 0")
    tab.ask("history.back(); 0")
    tab.wait("location.hash === '#1' && viewer.routed === '#1'")
    check.same("back to the one level", False, tab.ask(is_overview))
    tab.opened(1)
    tab.ask("viewer.go(0); 0")
    tab.give(f"{TOP}/samples/first.xsb")
    tab.ask("history.back(); 0")
    tab.wait("location.hash === '#1'")
    tab.ask("new Promise(done => setTimeout(done, 100))")
    check.same("back from the levels of another file", True, tab.ask(is_overview))
    write("many.xsb", f"{CORNER}\n" * 300)
    tab.give("many.xsb")
    tab.opened(200)
    tab.ask("viewer.go(0); 0")
    check.same("the level that was left is in view", True, tab.ask(
        "(top => top > 0 && top < innerHeight)("
        "$('view').querySelector('[data-level=\"200\"]').getBoundingClientRect().top)"))


UNPAINTED = (late, overtaken, dropping)
PARTS = (judging, stopped, around, returning)
