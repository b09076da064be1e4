"""tests/run manual PROGRAM: compares the man pages with the programs. They have every text that the
sources of sokoaudit can print, their examples show what it prints, and the page of sokotool has the
options and defaults of its help; mandoc, if it is installed, finds no fault in them. There are
the files that HACKING.md names and the crates in its picture, the definitions and lemmas that pages
name in brackets, the code that pages quote, and what pages and examples use of the header for C.
Ends in 'N passed, M failed'."""
import glob
import os
import re
from typing import Dict, List, Set

from sokotool.main import COMMANDS
from tests.runner import TOP, Cases, arguments, enter_folder, read, run, write
from tests.usage import help_of, options_of

PAGES = [f"{TOP}/man/{it}" for it in ("sokoaudit.1", "sokoaudit-answers.5", "sokotool.1")]
TOOL = read(PAGES[2])


def texts() -> List[str]:
    """Each text in the code of the program, cut where something is filled in, and the commands of
    its help. The rest of the help isn't included, nor the text about a device, since the program
    reports what it was to do with it."""
    found = set(re.findall(r"(?m)^  ([a-z]+)  ", read(f"{TOP}/samples/help")))
    crates = re.findall(r"packaging/build (\w+)", run(["make", "-C", TOP, "-n", "prove-sokoaudit"]))
    files = [it for crate in crates
             for it in glob.glob(f"{TOP}/crates/{crate}/src/**/*.rt", recursive=True)]
    for file in (it for it in files if not it.endswith("/command.rt")):
        code = re.sub(r"(?m)^ *(//|ghost |ensures|requires).*$", "", read(file))
        for text in re.findall(r'"((?:[^"\\\n]|\\.)*)"', code):
            parts = re.split(r"\{[^}]*\}", re.sub(r"\\x..|\\n", "", text))
            found.update(it.strip() for it in parts)
    return sorted(it for it in found - {"the device failed"} if re.search("[A-Za-z]", it))


def named(cases: Cases) -> None:
    """A case for each page that names definitions or lemmas in brackets: they exist."""
    files = glob.glob(f"{TOP}/crates/*/[sp]*/**/*.antt", recursive=True)
    known = {it for file in files for it in re.findall(r"\w+", read(file))}
    for page in ("argument", "formats", "proofs", "rules"):
        brackets = re.findall(r"\(([^()]*)\)", read(f"{TOP}/docs/{page}.md"))
        names = {it for text in brackets for it in re.findall(r"`(\w+)`", text)}
        cases.same(f"the names of {page}.md", "", " ".join(sorted(names - known)))


def corridor(cases: Cases) -> None:
    """A case for each crate: the picture in HACKING.md has it, after those that it uses."""
    picture = read(f"{TOP}/HACKING.md").partition("\n### From the bytes")[2].partition("\n**")[0]
    places = {name: at for at, name in enumerate(re.findall(r"\b([a-z_]+) ─", picture))}
    for name, used in re.findall(r"(?m)^(\w+)[ \w]*:(.*)$", read(f"{TOP}/crates.txt")):
        below = [places.get(it, 0) for it in used.split() if os.path.isdir(f"{TOP}/crates/{it}")]
        cases.holds(f"HACKING.md draws {name} after what it uses",
                    name in places and max(below, default=-1) < places[name])


def quoted(cases: Cases) -> None:
    """A case: the code in Rattle that pages quote is in the sources."""
    pages = (read(it) for it in glob.glob(f"{TOP}/docs/*.md"))
    quotes = [it for page in pages for it in re.findall(r"(?ms)^```rust\n(.*?)^```", page)]
    sources = "".join(map(read, glob.glob(f"{TOP}/crates/*/src/**/*.rt", recursive=True)))
    lost = [it.partition("\n")[0] for it in quotes if it not in sources]
    cases.holds("the code that pages quote", bool(quotes) and not lost, *lost)


def examples(cases: Cases, program: str) -> None:
    """The examples of the page on answers: its blocks are the levels, the answers, a run, and the
    report on faulty answers."""
    blocks = re.findall(r"(?ms)^\.Bd -literal[^\n]*\n(.*?)^\.Ed", read(PAGES[1]))
    _, levels, answers, report, faulty, *_ = blocks
    for name in ("levels", "-", "-old.xsb"):
        write(name, levels)
    write("answers", answers)
    write("faulty", re.sub("(?m)^rRR$", "rRr", answers).replace(" 7,4\n", "\n"))
    report = report.partition("\n")[2]
    made, dead = (run([program, *it.split()]) for it in ("make levels", "dead levels 2"))
    write("made", made.rpartition("status")[0])
    audited = run([program, "audit", "levels", "made"])
    for name, wanted, command in (
        ("the page's run", f"{report}status 0\n", "audit levels answers"),
        ("the page's faulty run", f"{faulty}status 1\n", "audit levels faulty"),
        ("levels on standard input", f"{report}status 0\n", "audit - answers <levels"),
        ("answers on standard input", f"{report}status 0\n", "audit levels - <answers"),
        ("made answers through a pipe", audited, 'audit levels - < <("$0" make levels)'),
        ("made answers of standard input", made, "make - <levels"),
        ("standard input twice", "cannot read answers\nstatus 2\n", "audit - - <levels"),
        ("a file of the name -", dead, "dead ./- 2"),
        ("a file with a hyphen in front", dead, "dead -- -old.xsb 2"),
    ):
        cases.prints(name, wanted, f'"$0" {command}', program)


def header(cases: Cases) -> None:
    """A case: the header for C has the names that examples, pages and the module of Python use."""
    names = re.compile(r"SOKOAUDIT_(?!QUIET)[A-Z_]*[A-Z]")
    using = [it for like in ("examples/*.c", "docs/*.md", "include/*.py")
             for it in glob.glob(f"{TOP}/{like}")]
    used = {it for file in using for it in names.findall(read(file))}
    known = re.findall(r"(?m)^(?:#define|   ) (SOKOAUDIT_\w+)", read(f"{TOP}/include/sokoaudit.h"))
    lost = sorted(used - {*known})
    cases.holds("the header has the names that are used", len(used) > 5 and not lost, *lost)


def in_man(command: str) -> Set[str]:
    """The long options in the synopsis of a command."""
    synopsis = TOOL[TOOL.index(".Sh SYNOPSIS"):TOOL.index(".Sh DESCRIPTION")]
    parts = [it for it in synopsis.split("\n.Nm\n") if it.startswith(f".Cm {command}\n")]
    return {it for part in parts for it in re.findall(r"Fl -([a-z-]+)", part)}


def defaults_in_man(command: str) -> List[str]:
    """The numbers that a command's paragraphs call a default."""
    text = TOOL[TOOL.index(".Sh DESCRIPTION"):]
    (part,) = re.findall(rf"(?ms)^\.It Cm {command}\n(.*?)(?=^\.It Cm |^\.El$)", text)
    return sorted(re.findall(r"\(([\d.]+) by default", part))


def values_in_man(command: str) -> Dict[str, str]:
    """What the synopsis of a command calls the values of its options."""
    synopsis = TOOL[TOOL.index(".Sh SYNOPSIS"):TOOL.index(".Sh DESCRIPTION")]
    parts = [it for it in synopsis.split("\n.Nm\n") if it.startswith(f".Cm {command}\n")]
    return {name: value for part in parts
            for name, value in re.findall(r"Fl -([a-z-]+) Ar (\w+)", part)}


def options(cases: Cases) -> None:
    """Three cases for each command of sokotool: the page has its options, what its help calls their
    values, and their defaults."""
    for command in COMMANDS:
        found = {it.names[-1][2:]: it.value for it in options_of(command)}
        cases.same(f"the options of {command}", " ".join(sorted(found.keys() - {"help", "output"})),
                   " ".join(sorted(in_man(command) - {"output"})))
        named = {name: value.lower() for name, value in found.items()
                 if value.isalpha() and name != "output"}
        cases.same(f"the values of {command}", str(sorted(named.items())),
                   str(sorted(values_in_man(command).items())))
        defaults = sorted(re.findall(r"\(default ([\d.]+)", help_of(command)))
        cases.same(f"the defaults of {command}", str(defaults), str(defaults_in_man(command)))


(program,) = arguments("manual PROGRAM")
cases, _folder = Cases("manual"), enter_folder()
cases.demands("make")
said, found = read(PAGES[0]) + read(PAGES[1]), texts()
cases.holds("the program's texts are found", len(found) >= 58)
for text in found:
    cases.holds(f"the man pages have: {text}", re.search(rf"(?<!\w){re.escape(text)}(?!\w)", said))
for name in sorted(set(re.findall(r"[A-Za-z]+\.antt", read(f"{TOP}/HACKING.md"))) - {"NAME.antt"}):
    cases.holds(f"HACKING.md names {name}",
                glob.glob(f"{TOP}/crates/*/[sp]*/**/{name}", recursive=True))
named(cases)
corridor(cases)
quoted(cases)
options(cases)
header(cases)
examples(cases, program)
lint = """{ mandoc -T lint "$0" || true; } |
    sed '/referenced manual not found: Xr soko/d' | diff - /dev/null"""
for page in PAGES if cases.needs("mandoc", "a check of the man pages") else ():
    cases.prints(f"mandoc on {os.path.basename(page)}", "status 0\n", lint, page)
cases.finish()
