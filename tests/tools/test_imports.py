"""Which modules load which: no cycle, and no command the search unless it searches."""
import ast
import os
import subprocess
import sys
import unittest
from typing import Dict, Set

from sokotool import main
from tests.tools.helping import TOP, not_on_windows

FOLDER = os.path.join(TOP, "tools", "sokotool")
SEARCHING = {"find"}
# prints what each command loads, in a process of its own
LOADED = """
import importlib, os, sys
for command in sys.argv[1:]:
    if not os.fork():
        importlib.import_module("sokotool.commands." + command)
        print(command, *(it for it in sys.modules if it.startswith("sokotool.")), flush=True)
        os._exit(0)
    os.wait()
"""


def modules() -> Dict[str, str]:
    """Returns the files of the package by the names of their modules."""
    found = {}
    for folder, _, names in os.walk(FOLDER):
        for name in names:
            path = os.path.join(folder, name)
            if name.endswith(".py"):
                inner = os.path.relpath(path, os.path.dirname(FOLDER))[:-3].replace(os.sep, ".")
                inner = inner.replace("/", ".")  # a system that only has another os.sep
                found[inner.replace(".__init__", "")] = path
    return found


def imported(name: str, path: str) -> Set[str]:
    """Returns what a module of the package imports from the package, by the names as they are
    written from its top on."""
    found = set()
    package = name.split(".") if path.endswith("__init__.py") else name.split(".")[:-1]
    with open(path, encoding="utf-8") as file:
        tree = ast.parse(file.read())
    for node in ast.walk(tree):
        if isinstance(node, ast.ImportFrom) and node.level:
            base = package[:len(package) - node.level + 1]
            whole = ".".join([*base, *(node.module or "").split(".")]).rstrip(".")
            found |= {whole, *(f"{whole}.{it.name}" for it in node.names)}
    return found


class Imports(unittest.TestCase):
    def test_no_cycle(self) -> None:
        files = modules()
        left = {name: imported(name, path) & {*files} - {"sokotool", name}
                for name, path in files.items() if not path.endswith("__init__.py")}
        self.assertGreater(sum(map(len, left.values())), 200)
        while left:
            leaves = {name for name, used in left.items() if not used & {*left}}
            self.assertTrue(leaves, f"a cycle in {sorted(left)}")
            left = {name: used for name, used in left.items() if name not in leaves}

    @not_on_windows
    def test_search_is_loaded_to_search(self) -> None:
        said = subprocess.run([sys.executable, "-B", "-c", LOADED, *sorted(main.COMMANDS)],
                              stdout=subprocess.PIPE, check=True, cwd=os.path.dirname(FOLDER))
        lines = [line.split() for line in said.stdout.decode().splitlines()]
        self.assertEqual([command for command, *_ in lines], sorted(main.COMMANDS))
        for command, *names in lines:
            loaded = {it for it in names if it.startswith("sokotool.search")
                      or it == "sokotool.solvers"}
            self.assertEqual(bool(loaded), command in SEARCHING, f"{command}: {loaded}")
