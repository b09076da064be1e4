"""tests/run ports [FUNCTION..]: the scripts that make the page and the programs for other machines
from the proved library, on a module of a few lines, and the Python module of the library, with
functions in Python in the place of its calls. Only the named functions of this file run. Ends in 'N
passed, M failed'."""
import ctypes
import glob
import importlib.util
import re
import sys
import unittest.mock
from typing import Any, Callable, Dict, List, Tuple

from tests.runner import TOP, Cases, arguments, chosen, enter_folder, read, run, write

PORTS = f"{TOP}/packaging/ports"
MODULE = """target datalayout = "e-m:e"
target triple = "x86_64-unknown-linux-gnu"
declare ptr @rattle_alloc(i64, i64)
declare <16 x i8> @llvm.x86.ssse3.pshuf.b.128(<16 x i8>, <16 x i8>)
define i64 @f(ptr %p, <16 x i8> %t) {
  %q = load ptr, ptr %p, align 8
  store ptr %q, ptr %p, align 8
  %r = call <16 x i8> @llvm.x86.ssse3.pshuf.b.128(<16 x i8> %t, <16 x i8> %t)
  ret i64 0
}
"""
TRIPLES = {"wasm32": "wasm32-unknown-unknown", "arm64": "aarch64-unknown-linux-gnu",
           "windows": "x86_64-w64-windows-gnu"}
# a constant that keeps a pointer, and what it is on a machine of 32 bits
KEPT = ("@s = private constant <{ ptr, [16 x i8] }> <{ ptr getelementptr (i8, ptr @s, i64 16), "
        '[16 x i8] c"\\03" }>, align 8\n')
WIDE = ("@s = private constant <{ i32, i32, [16 x i8] }> <{ i32 ptrtoint (ptr getelementptr "
        "(i8, ptr @s, i64 16) to i32), i32 0, [16 x i8] ")


def ported(machine: str, more: str = "") -> Tuple[str, str]:
    """What packaging/ports/retarget prints for a module with more lines, and what it makes."""
    write("in.ll", MODULE + more)
    said = run([sys.executable, f"{PORTS}/retarget", "in.ll", "out.ll", machine])
    return said, read("out.ll")


def machines(cases: Cases) -> None:
    """Two cases for each machine."""
    for machine, triple in TRIPLES.items():
        said, made = ported(machine)
        cases.same(f"what {machine} has to provide", "@rattle_alloc\nstatus 0\n", said)
        cases.holds(f"the triple of {machine}", f'target triple = "{triple}"\n' in made)


def pointers(cases: Cases) -> None:
    """Cases: in memory pointers have 64 bits on a machine with 32, too, and none is left in a form
    that isn't known."""
    made = ported("wasm32")[1]
    cases.same("pointers are loaded and stored as", "load i64 store i64",
               " ".join(re.findall(r"(?:load|store) \w+", made)))
    cases.same("and made to and from", "inttoptr i64 %q.wide, ptrtoint ptr %q",
               ", ".join(re.findall(r"\w+toptr i64 \S+(?= )|ptrtoint ptr \S+", made)))
    cases.holds("a pointer in a constant on wasm32", WIDE in ported("wasm32", KEPT)[1])
    cases.holds("and on arm64", KEPT in ported("arm64", KEPT)[1])
    said = ported("wasm32", "  store { i8, i8, ptr } %v, ptr %p, align 8\n")[0]
    cases.holds("an unknown form", re.match("retarget: line 11 keeps a pointer in an unknown form: "
                                            "(.|\n)*status 1", said), said)


def lookups(cases: Cases) -> None:
    """Cases: of the index of a byte that is looked up the highest bit and the lowest four count, as
    on x86-64."""
    for machine in ("wasm32", "arm64"):
        made = ported(machine)[1]
        (kept,) = re.findall(r"and <16 x i8> %indices, splat \(i8 (-?\d+)\)", made)
        cases.same(f"the bits of an index on {machine}", "10001111", f"{int(kept) % 256:b}")
        cases.holds(f"nothing for x86-64 on {machine}", "x86" not in made)
    said = ported("arm64", "declare void @llvm.x86.sse2.pause()\n")[0]
    cases.holds("what is for x86-64 alone", re.match("retarget: line 11 is for x86-64 alone: "
                                                     "(.|\n)*status 1", said), said)


def page(cases: Cases) -> None:
    """Cases: the page has the module, and names the version, the sources and the logic of it."""
    write("module.wasm", "\0asm")
    made = run([sys.executable, f"{PORTS}/inline", "module.wasm", "1.2.3", "abc", "logic 7"])
    cases.same("the module", "AGFzbQ==", " ".join(re.findall(r'id="wasm">([^<]*)<', made)))
    for said in ("Made of the sources <code>abc</code> by <code>logic 7</code>", "1.2.3"):
        cases.holds(f"the page says: {said}", said in made)
    cases.same("no name is left", "", " ".join(re.findall("@[A-Z]+@", made.split("<script")[0])))


class Library:
    """A library whose calls are made by name. What isn't named is never called."""

    def __init__(self, **calls: Callable[..., int]) -> None:
        self.calls: Dict[str, Any] = {}
        for name, it in calls.items():
            self.calls[f"sokoaudit_{name}"] = unittest.mock.Mock(side_effect=it)

    def __getattr__(self, name: str) -> Any:
        return self.calls.setdefault(name, unittest.mock.Mock())


def module(**calls: Callable[..., int]) -> Any:
    """Loads the module with a library of these calls."""
    spec = importlib.util.spec_from_file_location("of_a_test", f"{TOP}/include/sokoaudit.py")
    assert spec and spec.loader
    found = importlib.util.module_from_spec(spec)
    with unittest.mock.patch.object(ctypes, "CDLL", lambda _: Library(**calls)):
        spec.loader.exec_module(found)
    return found


def line_of(it: Any, said: str) -> Any:
    """What a line of a report says after the number of its level, as the module's type."""
    kind, *rest = said.split()
    names, numbers = rest[::2], [int(word) for word in rest if word.isdecimal()]
    status, found = kind, {name: 0 for name in it.Line._fields}  # type: str, Dict[str, Any]
    if kind == "solved":
        found.update(zip(names, numbers))
    elif kind == "unsolvable":
        status = f"{kind}_{names[0]}"
        found["cells" if names == ["zone"] else names[0]] = numbers[0]
    elif kind == "refused":
        what = next((it for it in rest if it in ("push", "leak", "fits")), rest[0])
        status = f"{kind}_{what}"
        field = {"move": "number", "unsolved": "boxes", "line": "line"}.get(rest[0])
        found.update({field: numbers[0]} if field else {})
        if "," in said:
            found["column"], found["row"] = map(int, rest[3].split(","))
    why = [it for it in it.Why if it.name.lower() == said.split()[-1] and kind == "refused"]
    found.update(status=it.Status[status.upper()], why=why[0] if why else None,
                 direction=rest[4] if "," in said else "")
    return it.Line(**found)


def words(cases: Cases) -> None:
    """A case for each line of the samples' reports: its words are the module's. And one: these are
    all kinds of lines."""
    it, seen = module(), set()
    for name in sorted(glob.glob(f"{TOP}/samples/*.report")):
        for said in re.findall(r"(?m)^level \d+ (.*)", read(name)):
            line = line_of(it, said)
            cases.same("the words of a line", said, it.words(line))
            seen.add(line.status)
    cases.holds("each kind of line is there", seen == {*it.Status})


def long_texts(cases: Cases) -> None:
    """Cases: a text is whole, also one that doesn't fit into the first room."""
    for length in (0, 5, 65536, 65537, 300_000):
        text = (bytes(range(256)) * (length // 256 + 1))[:length]

        def audit(*given: Any) -> int:
            buffer, room, outcome = given[-3:]
            ctypes.memmove(buffer, text, min(room, len(text)))
            outcome._obj.bytes = len(text)
            return 0
        cases.holds(f"a text of {length} bytes", module(audit=audit).audit("", "")[0] == text)


def full_collections(cases: Cases) -> None:
    """Cases: there is room for each level, also of the shortest ones, up to 10,000."""
    for count in (1, 2, 9_999, 10_000, 10_001):
        def lines(*given: Any) -> int:
            entries, room, outcome = given[-3:]
            for number, entry in enumerate(entries, 1):
                entry.status, entry.moves = 1, number
            outcome._obj.levels = room
            return 0
        found, _ = module(lines=lines).lines("#\n\n" * (count - 1) + "#", "")
        cases.holds(f"{count} levels", [it.moves for it in found] == [
            *range(1, min(count, 10_000) + 1)])


def faults(cases: Cases) -> None:
    """Cases: a fault is raised with its number, its line and the library's words; what is no text
    is refused; and texts are UTF-8."""
    def lines(*given: Any) -> int:
        given[-1]._obj.fault, given[-1]._obj.line = 7, 9
        return 2

    def fault_text(_: Any, text: Any, room: int) -> int:
        text.raw = b"answers line 9 header".ljust(room, b"\0")
        return 21

    seen: List[Any] = []

    def judge(*given: Any) -> int:
        seen.extend(given[:5])
        given[-1]._obj.status, given[-1]._obj.moves = 1, 4
        return 0
    it = module(lines=lines, fault_text=fault_text, judge=judge)
    try:
        it.lines("", "")
    except it.Fault as fault:
        cases.same("a fault", "7 9 answers line 9 header", f"{fault.number} {fault.line} {fault}")
    else:
        cases.holds("a fault is raised", False)
    line = it.judge("#\u00e9", it.Kind.CERTIFICATE, b"rR")
    cases.holds("the texts of a call", seen == [b"#\xc3\xa9", 3, 2, b"rR", 2])
    cases.holds("its line", (line.status, line.why, line.moves) == (it.Status.SOLVED, None, 4))
    try:
        it.judge(5, it.Kind.SOLUTION, "")
    except TypeError:
        cases.holds("a number is no text", True)
    else:
        cases.holds("a number is no text", False)


if __name__ == "__main__":
    every = machines, pointers, lookups, page, words, long_texts, full_collections, faults
    parts = {it.__name__: it for it in every}
    named = chosen(arguments("ports [FUNCTION..]"), [*parts])
    cases, _folder = Cases("ports"), enter_folder()
    for name in named:
        parts[name](cases)
    cases.finish()
