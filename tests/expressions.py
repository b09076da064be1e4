"""The regular expressions of the scripts that read what others wrote, and how long lines take them
that repeat something. How one is used is known by its name in the module or by the call it is in.
One that is picked from several is tried by each method that its file calls."""
import ast
import glob
import importlib
import os
import re
import time
from typing import Any, Dict, Iterator, List, NamedTuple, Optional, Set, Tuple

from tests.runner import TOP, read

METHODS = "match", "search", "fullmatch", "sub", "subn", "split", "findall", "finditer"
SCRIPTS = {"sokotool.": f"{TOP}/tools/sokotool", "": f"{TOP}/reference"}
LENGTH = 6_000  # of the lines, and then twice that, if it took long
LONG = 0.02  # processor seconds, twenty times as many as most take
CHARACTERS = " \t\r\n\f\v#-_@$.*+0123(),:;=|[]{}<>\"'`/\\alurdLURDxX\u00e9~!^&?%\u2028\u00a0\x1b"
FIRST, SECOND = " \n#-1(a.<[\"'`,;:\r>|$@=", " \n#-1(a.<[\"'`,;:\r=)|$@l"
PHRASES = (
    "solution ", "level ", "1. l", "<Row>#", "[a=", "```", "title: ", "a b ", "#-#", "Author: ",
    "-- ", "by a", "1 l,", "\"#\",", "ddd", "zone 1,1", "1,1 ", "the best ", "<br>", "\\n", "l u ",
    "2#", "(l)", "x1 ", "- * > ", "http://", "&amp;", "1/2 ", "12:3", "<!--", "]]>", "l1", "(1l",
    "# #", "#|#", "a, ", "a. ", "1-", "moves 1 ", "pushes ", "\u2014 ")
REPEATED = (*CHARACTERS, *(a + b for a in FIRST for b in SECOND if a != b), *PHRASES)


class Use(NamedTuple):
    """An expression, where it is, and how it is used: the method, and how often it may replace."""
    place: str
    expression: "re.Pattern[Any]"
    method: str
    most: int = 0

    def runs(self, text: str) -> None:
        """Uses it on a text."""
        known: Any = text.encode() if isinstance(self.expression.pattern, bytes) else text
        work = getattr(self.expression, self.method)
        if self.method in ("sub", "subn"):
            work(known[:0], known, self.most)
        elif self.method == "finditer":
            list(work(known))
        else:
            work(known)


def patterns_in(value: object) -> Iterator["re.Pattern[Any]"]:
    """The expressions in a value."""
    if isinstance(value, re.Pattern):
        yield value
    elif isinstance(value, (list, tuple, set, frozenset)):
        for it in value:
            yield from patterns_in(it)
    elif isinstance(value, dict):
        for it in value.items():
            yield from patterns_in(it)


def uses_in(path: str, module: Any) -> Iterator[Use]:
    """The uses in a file, whose module is loaded."""
    place = os.path.relpath(path, TOP)
    calls: Dict[int, int] = {}
    named: Set[str] = set()
    unnamed: Set[str] = set()
    for node in ast.walk(ast.parse(read(path))):
        if isinstance(node, ast.Call) and isinstance(node.func, ast.Attribute):
            last = node.args[2:] if node.func.attr == "sub" else []
            calls[id(node.func)] = last[0].value if last and isinstance(
                last[0], ast.Constant) else 0
            base = node.func.value
            if isinstance(base, ast.Name) and base.id == "re" and node.func.attr in METHODS \
                    and isinstance(node.args[0], ast.Constant):
                yield Use(f"{place}:{node.lineno}", re.compile(node.args[0].value), node.func.attr)
        if isinstance(node, ast.Attribute) and node.attr in METHODS and isinstance(
                node.value, ast.Name) and node.value.id != "re":
            found = getattr(module, node.value.id, None)
            if isinstance(found, re.Pattern):
                named.add(node.value.id)
                yield Use(f"{place}:{node.lineno}: {node.value.id}", found, node.attr,
                          calls.get(id(node), 0))
            else:
                unnamed.add(node.attr)
    for name, value in vars(module).items():
        if name not in named and not name.startswith("__"):
            for it in patterns_in(value):
                for method in unnamed & {*METHODS}:
                    yield Use(f"{place}: {name}", it, method)


def every_use() -> List[Use]:
    """The uses in all scripts, each once."""
    found: Dict[Tuple[object, ...], Use] = {}
    for package, folder in SCRIPTS.items():
        for path in sorted(glob.glob(f"{folder}/**/*.py", recursive=True)):
            name = os.path.relpath(path, folder)[:-3].replace(os.sep, ".")
            if not name.endswith("__main__"):
                name = (package + name).replace(".__init__", "")
                for use in uses_in(path, importlib.import_module(name)):
                    known = use.expression.pattern, use.expression.flags, use.method, use.most
                    found.setdefault(known, use)
    return [*found.values()]


def seconds(use: Use, text: str) -> float:
    """The processor time of a use on a text."""
    began = time.process_time()
    use.runs(text)
    return time.process_time() - began


def slow_on(use: Use) -> Optional[str]:
    """The first text, repeated, on which a use takes more than linear time, with what it took; or
    None."""
    for unit in REPEATED:
        for start in "", "a":
            def line(times: int, unit: str = unit, start: str = start) -> str:
                return start + unit * (times * LENGTH // len(unit)) + "\x01" * (not start)
            if seconds(use, line(1)) < LONG:
                continue
            one, two = (min(seconds(use, line(times)) for _ in range(3)) for times in (1, 2))
            if one >= LONG and two > 3 * one:
                return f"{use.place}.{use.method}: {start + unit!r} {one:.3f} s, twice {two:.3f} s"
    return None
