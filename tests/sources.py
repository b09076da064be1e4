"""tests/run sources: reads every script without running it. Every Python file compiles, and each
name that it imports exists; the linters that are installed find nothing; the versions are the
program's, and pip can install sokotool. Ends in 'N passed, M failed'."""
import ast
import glob
import importlib
import os
import re
import sys
import tempfile
from typing import Dict, Iterator, List, Sequence

from sokotool.auditor import REFERENCE_NOTE
from tests.runner import TOP, Cases, arguments, enter_folder, read, run

LINTERS = {
    "pyflakes3": ["pyflakes3"],
    "pycodestyle": ["pycodestyle", "--max-line-length=100"],
}
MYPY = ["mypy", "--cache-dir"]
STRICT = "tools/", "reference/", "tests/"
VERSIONS = {
    "pyproject.toml": '(?m)^version = "(.*)"$',
    "tools/sokotool/__init__.py": '__version__ = "(.*)"',
    "reference/sokoaudit": '(?m)^VERSION = "sokoaudit (.*)"',
    "include/sokoaudit.py": '(?m)^VERSION = "(.*)"',
    "include/sokoaudit.h": 'SOKOAUDIT_VERSION "(.*)"',
}
# prints the name of each file that compiles, and the error of each other one
SYNTAX = """
const { readFileSync } = require("fs"), { compileFunction } = require("vm");
for (const name of process.argv.slice(1)) {
    try {
        compileFunction(readFileSync(name, "utf8"), [], { filename: name });
        console.log(name);
    } catch (error) {
        console.log(error.stack.split("\\n").slice(0, 5).join(" "));
    }
}
"""
SHELLCHECK = ["shellcheck", "-x", "-P", "SCRIPTDIR", "-S", "warning"]
# builds without a network, by the setuptools of the system
PIP = ["-m", "pip", "install", "--quiet", "--no-build-isolation", "--no-deps",
       "--no-index", "--no-compile", "--target", "installed", "./copy"]


def scripts() -> Dict[str, List[str]]:
    """The files of the repository by their languages, as their names or first lines show."""
    found: Dict[str, List[str]] = {"python": [], "shell": [], "javascript": []}
    kept = run(["git", "-C", TOP, "ls-files", "-co", "--exclude-standard"]).splitlines()[:-1]
    for name in (it for it in kept if os.path.isfile(f"{TOP}/{it}")):
        with open(f"{TOP}/{name}", "rb") as file:
            first = file.readline()
        if name.endswith(".py") or re.match(rb"#!.*python", first):
            found["python"].append(name)
        elif re.match(rb"#!.*sh\b|# shellcheck shell", first):
            found["shell"].append(name)
        elif name.endswith(".js"):
            found["javascript"].append(name)
    return found


def imports(cases: Cases, name: str, tree: ast.AST) -> Iterator[str]:
    """The errors of a file's imports."""
    package = re.sub("^tools/|/[^/]*$", "", name).replace("/", ".")
    for node in ast.walk(tree):
        try:
            if isinstance(node, ast.Import):
                for it in node.names:
                    importlib.import_module(it.name)
            elif isinstance(node, ast.ImportFrom):
                path = "." * node.level + (node.module or "")
                module = importlib.import_module(path, package)
                for it in node.names:
                    if not hasattr(module, it.name):
                        importlib.import_module(f"{module.__name__}.{it.name}")
        except ImportError as error:
            yield f"line {getattr(node, 'lineno', 0)}: {error}"
        except (OSError, AttributeError):  # include/sokoaudit.py needs the library for C
            cases.skip(f"what {name} imports", "there is no library for C here")


def compiles(cases: Cases, name: str) -> None:
    """A case: the file compiles, and its imports are found."""
    try:
        tree = ast.parse(read(f"{TOP}/{name}"), name)
    except SyntaxError as error:
        cases.holds(name, False, str(error))
        return
    missing = list(imports(cases, name, tree))
    cases.holds(name, not missing, *missing)


def check_types(cases: Cases, names: Sequence[str]) -> None:
    """A case for the modules that state every type, one for the other modules, one for the scripts,
    and one for each script that has the name of a module."""
    modules = [it for it in names if it.endswith(".py")]
    strict = [it for it in modules if it.startswith(STRICT)]
    with tempfile.TemporaryDirectory() as cache:
        cases.succeeds("mypy --strict", *MYPY, cache, "--strict", *strict)
        cases.succeeds("mypy", *MYPY, cache, *sorted({*modules} - {*strict}))
        scripts = sorted({*names} - {*modules})
        shared = [it for it in scripts if os.path.basename(it) in ("sokoaudit", "sokotool")]
        cases.succeeds("mypy on scripts", *MYPY, cache, "--scripts-are-modules",
                       *sorted({*scripts} - {*shared}))
        for script in shared:
            cases.succeeds(f"mypy on {script}", *MYPY, cache, script)


def releases(cases: Cases) -> None:
    """A case for each release: the history has the commit that CHANGELOG.md names."""
    found = re.findall(r"(?m)^## ([\d.]+), .*\n\nCommit (\w+)\.", read(f"{TOP}/CHANGELOG.md"))
    cases.holds("CHANGELOG.md names the commit of each release", len(found) >= 2)
    if not re.match(r"\d{3}", run(["git", "-C", TOP, "rev-list", "--count", "HEAD"])):
        cases.skip("the commits of the releases", "this copy has no history", len(found))
        return
    for version, commit in found:
        cases.succeeds(f"the commit of {version}", "git", "-C", TOP, "merge-base", "--is-ancestor",
                       commit, "HEAD")


def install(cases: Cases) -> None:
    """Cases: the versions are the program's, and pip installs sokotool."""
    command = read(f"{TOP}/crates/arguments/src/command.rt")
    (program,) = re.findall(r'VERSION: &str = "(.*)";', command)
    for file, pattern in VERSIONS.items():
        cases.same(f"the version in {file}", program, *re.findall(pattern, read(f"{TOP}/{file}")))
    needed = "import setuptools, wheel, pip"
    python = [it for it in (sys.executable, "/usr/bin/python3")
              if os.path.exists(it) and run([it, "-c", needed]).endswith("status 0\n")]
    if not python:
        cases.skip("pip install", "there is no pip, setuptools and wheel")
        return
    first = f"{TOP}/samples/first"
    with enter_folder():
        os.mkdir("copy")
        for it in ("pyproject.toml", "README.md", "tools", "reference"):
            run(["cp", "-r", f"{TOP}/{it}", "copy"])
        if cases.succeeds("pip install", python[0], *PIP):
            variables = {**os.environ, "PYTHONPATH": "installed"}
            for words in (["named", f"{first}.xsb", f"{first}.report"],
                          ["page", f"{first}.xsb", f"{first}.answers", f"{first}.report"]):
                cases.same(f"{words[0]}, as pip installs it", run([f"{TOP}/sokotool", *words]),
                           run(["installed/bin/sokotool", *words], env=variables))
            (metadata,) = glob.glob("installed/sokotool-*.dist-info/METADATA")
            for wanted in ("\nSummary: Checks ", "\n# sokoaudit\n", ": text/markdown\n"):
                cases.holds(f"the package says {wanted.strip()}", wanted in read(metadata))
            check = ["installed/bin/sokotool", "check", "first", f"{first}.xsb", "--answers",
                     f"{first}.answers"]
            plain = {**variables, "PATH": "/usr/bin:/bin", "SOKOAUDIT": ""}
            cases.same("check, as pip installs it, with the reference",
                       "first: 5 levels, 3 solved, 2 unsolvable, 0 refused, 0 missing\n"
                       f"{REFERENCE_NOTE}\nwrote: first.html, first.xsb, first.answers, "
                       "first.report, first.memory\nstatus 0\n", run(check, env=plain))


def main() -> None:
    """Runs the cases of all scripts."""
    arguments("sources")
    cases, found = Cases("sources"), scripts()
    sys.dont_write_bytecode = True
    os.chdir(TOP)
    for name in found["python"]:
        compiles(cases, name)
    for linter, words in LINTERS.items():
        if cases.needs(linter, "a check of the Python files"):
            cases.succeeds(linter, *words, *found["python"])
    if cases.needs("mypy", "the types of the Python files"):
        check_types(cases, found["python"])
    if cases.needs("shellcheck", "a check of the shell scripts"):
        cases.succeeds("shellcheck", *SHELLCHECK, *found["shell"])
    if cases.needs("node", "the syntax of the page's scripts"):
        said = run(["node", "-e", SYNTAX, *found["javascript"]]).splitlines()
        for name in found["javascript"]:
            cases.holds(f"the syntax of {name}", name in said,
                        *(it for it in said if it.startswith(f"{name}:")))
    releases(cases)
    install(cases)
    cases.finish()


if __name__ == "__main__":
    main()
