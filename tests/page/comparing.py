"""Compares what the page says with what the program prints (reports, faults, statuses, made
answers, maps of dead squares), and the levels and records that it shows with the data of
'sokotool page'."""
import json
import re
from typing import Any, Sequence

from sokotool.commands import page as viewer

from tests.page.driving import DATA, Tab
from tests.runner import Cases, call

HEADER = b"sokoban-answers 1\n"
# the stack of the module, which lies first in its memory, and how much of it an audit of the last
# texts and making answers for them take
STACK = 1048576
USED = """(async () => {
    const bytes = bytesOf(atob($('wasm').textContent));
    const { instance: { exports } } = await WebAssembly.instantiate(bytes);
    const memory = () => new Uint8Array(exports.memory.buffer);
    const words = [kept.levels, kept.answers].map(text => {
        const place = exports.take(text.length);
        memory().set(text, place);
        return [place, text.length];
    });
    const room = exports.take(1 << 20), outcome = exports.take(104);
    memory().fill(0xa5, 0, %d);
    exports.audit(...words[0], ...words[1], room, 1 << 20, outcome);
    exports.make(...words[0], room, 1 << 20, outcome);
    return %d - memory().findIndex(byte => byte !== 0xa5);
})()""" % (STACK, STACK)


# what a user reads for the words of the last line
STATES = {"solved": "solved", "unsolvable": "proved unsolvable", "refused": "refused",
          "missing": "without an answer"}


def in_words(total: str) -> str:
    """The last line of a report as a user reads it, without what is zero."""
    words = total.split()
    counts = dict(zip(words[::2], words[1::2]))
    said = [f"{counts[word]} {STATES[word]}" for word in STATES if counts[word] != "0"]
    levels = f"{counts['total']} level{'s' if counts['total'] != '1' else ''}"
    return ": ".join([levels, ", ".join(said)]) if said else levels


class Comparison:
    """A comparison of the page in a tab with a program."""

    def __init__(self, cases: Cases, tab: Tab, program: str) -> None:
        self.cases, self.tab, self.program = cases, tab, program

    def same(self, name: str, wanted: Any, found: Any) -> None:
        """A case: two values are the same. If not, their first difference is shown."""
        if not self.cases.holds(name, wanted == found):
            one, other = (it if isinstance(it, (str, bytes)) else json.dumps(it, sort_keys=True)
                          for it in (wanted, found))
            at = next((i for i, (a, b) in enumerate(zip(one, other)) if a != b), min(map(len, (
                one, other))))
            first = max(0, at - 60)
            print(f"    wanted {one[first:at + 200]!r}\n    found  {other[first:at + 200]!r}",
                  flush=True)

    def draws(self, is_drawn: bool) -> None:
        """Lets the page draw what it audits, or leave its frame empty, until it is opened anew."""
        self.tab.ask(f"globalThis.drawn ??= draw; draw = {is_drawn and 'drawn' or '() => 0'}; 0")

    def said(self, errors: bytes) -> str:
        """The words of the program's fault."""
        return errors.decode().strip().replace("sokoaudit: ", "", 1)

    def audit(self, name: str, levels: bytes, answers: bytes, is_shown: bool = True) -> None:
        """Cases: the page says of two texts what the program says, and shows them as sokotool."""
        for file, text in (("levels.xsb", levels), ("answers.txt", answers)):
            with open(file, "wb") as written:
                written.write(text)
        ran = call([self.program, "audit", "levels.xsb", "answers.txt"])
        message = self.tab.give("levels.xsb", "answers.txt")
        if ran.status == 2:
            self.same(f"{name}: fault", self.said(ran.errors), message)
            return
        self.same(f"{name}: message", "", message)
        if message:
            return
        self.same(f"{name}: report", ran.output, self.tab.saved("report"))
        lines = ran.output.decode()
        self.same(f"{name}: report shown", lines, self.tab.text("lines"))
        self.same(f"{name}: total", in_words(lines.splitlines()[-1]), self.tab.text("total"))
        self.same(f"{name}: status", ran.status, self.tab.ask("kept.status"))
        if is_shown:
            self.shows(name, (levels, answers, ran.output))

    def shows(self, name: str, files: Sequence[bytes],
              names: Sequence[str] = ("levels.xsb", "answers.txt")) -> None:
        """Cases: the page shows the levels, titles, records and lines that sokotool's shows, but
        for the mistakes in refused lines, which sokotool alone knows."""
        made, _ = viewer.written(files, list(names))
        wanted = data_in(made)
        for verdict in wanted["verdicts"].values():
            verdict.pop("mistake", None)
        found = self.tab.ask(DATA)
        for key in wanted:
            self.same(f"{name}: {key}", wanted[key], found[key])

    def made(self, name: str, levels: bytes) -> None:
        """Cases: the page makes the answers that the program makes."""
        self.audit(name, levels, HEADER, is_shown=False)
        ran = call([self.program, "make", "levels.xsb"])
        if self.tab.message() or ran.status == 2:
            return
        self.tab.ask("make().then(() => 0)")
        self.same(f"{name}: made", ran.output, self.tab.saved("answers"))

    def stack(self, name: str) -> None:
        """A case: the last texts take less than a tenth of the stack."""
        used = self.tab.ask(USED)
        self.cases.holds(f"{name}: stack", 0 < used < STACK / 10, f"{used} bytes")

    def dead(self, name: str, number: int) -> None:
        """A case: the page finds the dead squares of a legal level that the program prints. What
        has a box or the player on it has no x there."""
        ran = call([self.program, "dead", "levels.xsb", str(number)])
        if ran.status:
            return
        lines = ran.output.decode().splitlines()
        found = self.tab.ask(f"deadSquares(shownData.levels[{number - 1}].rows)")
        shown = [[int(part) - 1 for part in cell.split(",")] for cell in found["cells"]]
        self.same(f"{name}: dead squares {number}", lines, [
            "".join("x" if [x, y] in shown and cell not in "$@" else cell.replace("x", " ")
                    for x, cell in enumerate(line)) for y, line in enumerate(lines)])


def data_in(page: bytes) -> Any:
    """The data of a page of 'sokotool page'."""
    (data,) = re.findall('id="data">(.*?)</script>', page.decode())
    return json.loads(data)
