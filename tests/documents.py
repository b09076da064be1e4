"""tests/run documents PROGRAM [PAGE..]: runs the commands in the documents, by default README.md
and docs/*.md, and compares what they print with what the pages show. A page has at least as many
commands as LEAST says. Ends in 'N passed, M failed'.

The commands of a page run in turn, in a folder that has sokoaudit, sokotool, samples/ and examples/
like the top of the repository. If PROGRAM is the script 'sokoaudit', they run as without the
toolchain: with what packaging/install-tools installs, and on a PATH without rt. These blocks of a
page count:

- ```console: a command after '$ ', continued on lines after '> ', and below it what it prints on
  both streams
- ```FILE.END: the file of that name
- ``` alone: a level if it begins with '#', the certificate of one if it begins with 'pattern' or
  'zone', an answers file if it begins with 'sokoban-answers', and if it begins with 'level 1' the
  line that an audit of the last level and answers prints

The counts of definitions in a page are counted again (tests/definitions.py). What a reader types
in ```console and ```sh can be typed in bash and zsh alike: a comment, [! and a variable `status`
can't.
"""
import glob
import os
import re
import shutil
from shlex import quote
from typing import Dict, Iterator, Mapping, Tuple

from tests.definitions import CLAIMS, Specs
from tests.runner import TOP, Cases, arguments, chosen, enter_folder, read, shell

# the least number of commands of each page that has some
LEAST = {"README.md": 5, "certificates.md": 10, "keeping.md": 50, "solvers.md": 14}
COMMAND = re.compile(r"(?m)^\$ (.*\n(?:> .*\n)*)((?:(?!\$ ).*\n)*)")


def steps_of(page: str) -> Iterator[Tuple[str, str, str]]:
    """The steps of a page: a file and its text, or a command and what it prints."""
    for kind, body in re.findall(r"(?ms)^```([^\n]*)\n(.*?)^```", read(page)):
        first = body.partition(" ")[0]
        if kind == "console":
            for command, printed in COMMAND.findall(body):
                yield "", command.replace("\n> ", "\n"), printed
        elif "." in kind:
            yield kind, body, ""
        elif kind:
            continue
        elif body.startswith("#"):
            yield "levels.xsb", body, ""
        elif first == "sokoban-answers":
            yield "answers", body, ""
        elif first in ("pattern", "zone"):
            header = f"sokoban-answers {1 + (first == 'zone')}\nlevel 1\nunsolvable"
            yield "answers", f"{header}\n{body}end\n", ""
        elif body.startswith("level 1 "):
            yield "", "sokoaudit audit levels.xsb answers | head -n 1", body


def without_toolchain(cases: Cases) -> Dict[str, str]:
    """The variables of a shell that has what packaging/install-tools installs, in ./installed, and
    on its PATH what the system has but rt."""
    os.mkdir("plain")
    shell("ln -sf /usr/bin/* /bin/* plain; rm -f plain/rt")
    here = os.getcwd()
    plain = {**os.environ, "PATH": f"{here}/plain", "SOKOAUDIT": "", "SOKOAUDIT_QUIET": "1"}
    words = ["python3", f"{TOP}/packaging/install-tools", f"{here}/installed"]
    cases.succeeds("packaging/install-tools", *words, env=plain)
    return {**plain, "SOKOAUDIT": f"{here}/installed/bin/sokoaudit"}


def run_page(cases: Cases, page: str, variables: Mapping[str, str]) -> None:
    """Runs the steps in one shell, so that a command finds the files and the $? of the commands
    before it. A NUL ends what each command prints. A page that types git is skipped without it."""
    steps = list(steps_of(page))
    typed = [command for file, command, _ in steps if not file]
    number, least = len(typed), LEAST.get(os.path.basename(page), 0)
    cases.holds(f"{page} has {least} commands or more, and none if LEAST doesn't name it",
                number >= least and (least or not number), f"it has {number}")
    if any(it.startswith("git ") for it in typed) and not shutil.which("git"):
        cases.skip(os.path.basename(page), "there is no command git", number)
        return
    with enter_folder() as room:
        program = variables["SOKOAUDIT"]
        tool = f"{os.path.dirname(program)}/sokotool"
        for name in ("samples", "examples"):
            os.symlink(f"{TOP}/{name}", name)
        os.symlink(tool if os.path.exists(tool) else f"{TOP}/sokotool", "sokotool")
        os.symlink(program, "sokoaudit")
        script = "status=0\n"
        for file, text, _ in steps:
            if file:
                script += f"mkdir -p $(dirname {file}); printf %s {quote(text)} >{file}\n"
            else:
                script += f"(exit $status); eval {quote(text)}\nstatus=$?; printf '\\0'\n"
        variables = {**variables, "PATH": f"{room}:{variables['PATH']}", "LC_ALL": "C"}
        printed = iter(shell(script, env=variables).split("\0")[:-1])
        for file, command, wanted in steps:
            if not file:
                name = f"{os.path.basename(page)}: $ {command.strip()}"
                cases.same(name, wanted, next(printed, "it was not run"))


def check_shells(cases: Cases, page: str) -> None:
    """A case: on a terminal bash and zsh take each line that is typed."""
    blocks = re.findall(r"(?ms)^```(?:console|sh)\n(.*?)^```", read(page))
    typed = [line for it in blocks for line in it.splitlines()]
    wrong = [it for it in typed if re.search(r"(^|\s)#\s|\[!|\bstatus=", it)]
    cases.holds(f"{page} can be typed in bash and zsh", not wrong, *wrong)


def check_counts(cases: Cases, page: str) -> None:
    """Cases: a page that says how many lines one reads to believe a kind of line says it right."""
    specs = Specs()
    for kind in CLAIMS:
        for row in re.findall(rf"(?m)^\| `{kind}` \|.* files \|.*", read(page)):
            shown = [tuple(map(int, re.findall(r"\d+", it))) for it in row.split("|")[-4:-1]]
            counted = specs.counts_of(kind)
            cases.same(f"lines to read to believe `{kind}`", str(counted), str(shown))


program, *pages = arguments("documents PROGRAM [PAGE..]")
every = {os.path.basename(it): it
         for it in (f"{TOP}/README.md", *sorted(glob.glob(f"{TOP}/docs/*.md")))}
pages = [every[it] for it in chosen(pages, [*every])]
cases, _folder = Cases("docs"), enter_folder()
is_script = os.path.samefile(program, f"{TOP}/sokoaudit")
variables = without_toolchain(cases) if is_script else {**os.environ, "SOKOAUDIT": program}
for page in pages:
    run_page(cases, page, variables)
    check_shells(cases, page)
    check_counts(cases, page)
cases.finish()
