"""tests/run newcomer [README]: types README.md, or another page, as someone does who has just
unpacked the repository: in a copy of its files alone, with what the system has on the PATH but the
toolchain. The commands print what the page shows, also in its picture of a terminal, those in
running text name files that are there, the other picture is that of the samples, and the links lead
to files and headings. Ends in 'N passed, M failed'."""
import glob
import html
import os
import re
import tempfile
from typing import Dict, Iterator, List

from tests.runner import TOP, Cases, arguments, call, decode, enter_folder, read, shell, write

COPY = 'git -C "$0" ls-files -coz --exclude-standard | tar -C "$0" --null -T - -cf - | tar -xf -'
NOTE = "sokoaudit: this is the reference in Python, not the proved program"
PICTURE, LEVELS = "docs/pictures/terminal.svg", "docs/pictures/first.svg"
# on Windows this starts Python
PY = '#!/bin/sh\nexec python3 "$@"\n'
# what stands for the words of a reader, so that a command in running text can be run
GIVEN = {"mine": "mine", "FILES": "samples/exports", "LEVELS": "samples/first.xsb",
         "ANSWERS": "samples/first.answers", "N": "4", "/usr/local": "installed"}
# their status, if it isn't 0: some of the samples are broken on purpose
STATUS = {"sokotool check": 1, "sokotool.pyz check": 1}
# a phone shows a page 390 pixels wide, with a margin of 16 on each side
PHONE = 390 - 2 * 16
# the columns of a block of code on a page of a forge, in a wide window
COLUMNS = 92
# the tests, among which this part is
TESTS = ("python3 -m tests", "py -m tests")
# these show their help or need words, which the page leaves out
ALONE = {"sokotool": "--version", "reference/sokoaudit": "--version", "./sokoaudit": "--version"}


def typed(page: str) -> Iterator[str]:
    """The commands in running text: they begin with Python or with a file of the repository."""
    text = re.sub(r"(?ms)^```.*?^```", "", page)
    for line in re.findall(r"`((?:py|python3|\./\w+)(?: [^`]+)?)`", text):
        if line in TESTS:
            continue
        words = [GIVEN.get(it, it) for it in line.replace("\\", "/").split()]
        yield " ".join([*words, ALONE[words[-1]]] if words[-1] in ALONE else words)


def succeeds(cases: Cases, command: str, variables: Dict[str, str]) -> str:
    """A case: the command ends with its status. Returns what it printed."""
    wanted = next((it for end, it in STATUS.items() if f"{end} " in command), 0)
    said = shell(command, env=variables)
    cases.holds(f"$ {command}", said.endswith(f"status {wanted}\n"), *said.splitlines()[-5:])
    return said.rpartition("status")[0]


def is_pictured(cases: Cases, command: str, said: str) -> None:
    """A case: the picture of a terminal shows the command and what it printed, wrapped."""
    shown = " ".join(re.findall(r"(?m)^<text [^>]*>(.*)</text>$", read(PICTURE)))
    cases.same("the picture of a terminal", "\n".join(f"$ {command} {said}".split()),
               "\n".join(html.unescape(shown).split()))


def is_readable(cases: Cases, picture: str) -> None:
    """A case: on a phone the letters of a picture are at least 9 pixels high."""
    wide = max(map(int, re.findall(r'(?m)^<svg .*viewBox="0 0 (\d+) ', read(picture))))
    least = min(map(int, re.findall(r'font-size="(\d+)"', read(picture)))) * PHONE / wide
    cases.holds(f"the letters of {picture} are large enough on a phone", least >= 9,
                f"{least:.1f} pixels")


def are_drawn(cases: Cases, variables: Dict[str, str]) -> None:
    """A case: the picture of the levels is the one of the samples and their report."""
    with tempfile.TemporaryDirectory() as folder:
        succeeds(cases, f"packaging/pictures {folder}", variables)
        cases.same("the picture of the levels", read(f"{folder}/first.svg"), read(LEVELS))
    for picture in LEVELS, PICTURE:
        is_readable(cases, picture)


def blocks(cases: Cases, page: str, variables: Dict[str, str]) -> None:
    """A case for each command of a block. What it prints on standard output is what is shown. No
    line is wider than the block."""
    for kind, body in re.findall(r"(?ms)^```([^\n]*)\n(.*?)^```", page):
        wide = [it for it in body.splitlines() if len(it) > COLUMNS]
        cases.holds(f"a block of {kind} has {COLUMNS} columns or less", not wide, *wide)
        if kind == "sh":
            for command in (it for it in body.splitlines() if it not in TESTS):
                said = succeeds(cases, command, {**variables, "SOKOAUDIT_QUIET": "1"})
                if PICTURE in page:
                    is_pictured(cases, command, said)
                    are_drawn(cases, variables)
        elif kind == "console":
            for command, wanted in re.findall(r"(?m)^\$ (.*)\n((?:(?!\$ ).*\n)*)", body):
                ran = call(["bash", "-c", command], env=variables)
                cases.same(f"$ {command}", wanted, decode(ran.output))
                other = [it for it in decode(ran.errors).splitlines() if not it.startswith(NOTE)]
                cases.holds(f"nothing else is said by: $ {command}", not other, *other)
        elif "." in kind:
            write(kind, body)


def anchors(page: str) -> List[str]:
    """The anchors of a page's headings."""
    heads = re.findall(r"(?m)^#+ (.*)$", re.sub(r"(?ms)^```.*?^```", "", read(page)))
    return [re.sub(r"[^\w -]", "", it.lower()).replace(" ", "-") for it in heads]


def links(cases: Cases, name: str) -> None:
    """A case: each link of a page leads to a file and a heading of the repository."""
    dead = []
    for link in re.findall(r"\]\(([^)\s]+)\)", read(name)):
        file, _, anchor = link.partition("#")
        path = os.path.join(os.path.dirname(name), file) if file else name
        if ":" not in link and not (os.path.exists(path) and
                                    (not anchor or anchor in anchors(path))):
            dead.append(link)
    cases.holds(f"the links of {name}", not dead, *dead)


def main() -> None:
    """Types the page."""
    given, cases = arguments("newcomer [README]"), Cases("newcomer")
    cases.demands("git", "python3", "tar")
    page = read((given or [f"{TOP}/README.md"])[0])
    with enter_folder():
        os.makedirs("bin")
        shell("ln -sf /usr/bin/* /bin/* bin; rm -f bin/rt bin/py bin/soko*")
        write("bin/py", PY)
        os.chmod("bin/py", 0o755)
        variables = {"PATH": f"{os.getcwd()}/bin", "HOME": os.getcwd(), "LC_ALL": "C.UTF-8"}
        os.mkdir("copy")
        os.chdir("copy")
        shell(COPY, TOP)
        cases.holds("the copy has README.md and nothing that was built",
                    os.path.exists("README.md") and not os.path.exists("out"))
        blocks(cases, page, variables)
        for command in typed(page):
            succeeds(cases, command, variables)
        for name in sorted(glob.glob("**/*.md", recursive=True)):
            links(cases, name)
    cases.finish()


main()
