"""Tests of the verdicts of the library for C in numbers, and of the names in its header and its
Python module. tests/library.py runs them, in a folder with the library in out/lib."""
import re
from typing import Dict, List, Tuple, Union

from tests.inputs import AUDITS, WHOLE_LEVELS
from tests.reference.comparing import Library, Reference
from tests.runner import TOP, Cases, Ran, decode, encode, read, run
from tests.tables.rows import text

# What sokoaudit_judge returns for texts that are no level, or no body. A body with a line 'end',
# also with a CR, is none; a CR alone, a zero byte or blanks make it another line. A verdict is in
# the words of the report, and a fault is its number.
LEVEL, SOLUTION, CERTIFICATE = b"#####\n#@$.#\n#####\n", 1, 2
JUDGED: Dict[Tuple[bytes, int, bytes], Union[str, int]] = {
    (LEVEL, SOLUTION, b"R"): "solved moves 1 pushes 1 changes 1",
    (LEVEL, SOLUTION, b"; a comment\n\nR\n"): "solved moves 1 pushes 1 changes 1",
    (LEVEL, SOLUTION, b"R\r\n"): "solved moves 1 pushes 1 changes 1",
    (LEVEL, SOLUTION, b"R\r"): "solved moves 1 pushes 1 changes 1",
    (LEVEL, SOLUTION, b"R\0"): "refused move 2 letter",
    (LEVEL, SOLUTION, b""): "refused unsolved 1",
    (LEVEL, SOLUTION, b"end "): "refused move 1 letter",
    (LEVEL, CERTIFICATE, b""): "refused start",
    (LEVEL, CERTIFICATE, b"pattern 3,2 @ *"): "refused line 1 push 2,2 r",
    (LEVEL, CERTIFICATE, b"\n;\npattern 3,2 @ *"): "refused line 3 push 2,2 r",
    (LEVEL, CERTIFICATE, b"pattern 3,2 @ *\0"): "refused line 1 syntax",
    (LEVEL, CERTIFICATE, b"pattern 3,2 @ *\r\rR"): "refused line 1 syntax",
    (LEVEL, CERTIFICATE, b"zone 3,2 4,2"): "refused line 1 leak 3,2 l",
    (b"\xef\xbb\xbf" + LEVEL, SOLUTION, b"R"): "solved moves 1 pushes 1 changes 1",
    (b"Title: a\n\n" + LEVEL + b"\nend\n", SOLUTION, b"R"): "solved moves 1 pushes 1 changes 1",
    (b"#\n", SOLUTION, b"R"): "refused board player",
    (LEVEL, SOLUTION, b"R\nend\n"): 17,
    (LEVEL, SOLUTION, b"R\nend\r"): 17,
    (LEVEL, CERTIFICATE, b"end\nlevel 2\nsolution"): 17,
    (LEVEL, 0, b"R"): 18,
    (LEVEL, 3, b"R"): 18,
    (b"", SOLUTION, b"R"): 11,
    (b"no level", SOLUTION, b"end"): 11,
    (LEVEL + b"\n" + LEVEL, SOLUTION, b"R"): 4,
    (LEVEL + b"\n" + LEVEL, SOLUTION, b"R\nend\nlevel 2\nsolution\nR"): 4,
    (b"#\n\n" * 10001, SOLUTION, b"R"): 4,
    (b" " * 33554433, SOLUTION, b"R"): 2,
    (LEVEL, SOLUTION, b"R" * 33554433): 3,
}
# Where the levels of a text are: from the first byte of a level to before the byte after its last
# row, with the end of its line.
SPANS: Dict[bytes, List[Tuple[int, int]]] = {
    b"": [],
    b"no level": [],
    b"#": [(0, 1)],
    b"\n#\n": [(1, 3)],
    b"#\n#\nA\n#": [(0, 4), (6, 7)],
    b"-\n#-\n_\n": [(2, 5)],
    b"###\0": [],
    b"#\r": [],
    b"\xef\xbb\xbf": [],
    b"\xef\xbb\xbf#\r\n##\r\n\r\nx\n #": [(3, 10), (14, 16)],
    b"#\n\n" * 10001: [(3 * at, 3 * at + 2) for at in range(10001)],
    b"\n" * 33554440 + b"#": [(33554440, 33554441)],
}
HEAD = b"sokoban-answers 2\n"
# Where the records of an answers text are: level, kind, line of the body, and the offsets of the
# level line, of the body, of `end`, and of what follows; or the number and the line of a fault.
RECORDS: Dict[bytes, Union[List[Tuple[int, ...]], Tuple[int, int]]] = {
    HEAD: [],
    HEAD[:-1]: [],
    HEAD + b"\n;level 1\n": [],
    HEAD + b"level 1\nsolution\nR\nend\n": [(1, SOLUTION, 4, 18, 35, 37, 41)],
    HEAD + b"level 3\nunsolvable\nend": [(3, CERTIFICATE, 4, 18, 37, 37, 40)],
    HEAD[:-1] + b"\r\n;\r\n\r\nlevel 1\r\n; a\r\nsolution\r\n;x\r\nr\r\nend\r\n;end\nlevel 2\n"
    b"unsolvable\n; end\nend \n end\nend\n\n": [
        (1, SOLUTION, 7, 24, 48, 55, 60), (2, CERTIFICATE, 13, 65, 84, 100, 104)],
    HEAD + b"".join(b"level %d\nsolution\nend\n" % it for it in range(1000, 2000)): [
        (1000 + it, SOLUTION, 3 * it + 4, 18 + 24 * it, 38 + 24 * it, 38 + 24 * it, 42 + 24 * it)
        for it in range(1000)],
    HEAD + b"\n" * 33554440 + b"level 4\nsolution\nend": [
        (4, SOLUTION, 33554444, 33554458, 33554475, 33554475, 33554478)],
    b"": (5, 1),
    b"sokoban-answers 3\n": (5, 1),
    HEAD + b"level 01\n": (6, 2),
    HEAD + b"level 2\nsolution\nend\nlevel 2\n": (7, 5),
    HEAD + b"level 2001\n": (8, 2),
    HEAD + b"level 1\nsolved\n": (9, 3),
    HEAD + b"level 1\nsolution\nR\n": (10, 5),
}


def whole(ran: Ran) -> str:
    """All that a run gave, as text."""
    return decode(ran.output + ran.errors) + f"status {ran.status}\n"


def verdicts(cases: Cases) -> None:
    """Cases of sokoaudit_lines and sokoaudit_judge: the rows of the tables, whose report or fault
    is the reference's, texts that aren't of their forms, and entries without room."""
    library, levels = Library("out/lib/libsokoaudit.so"), encode(text(WHOLE_LEVELS))
    module = library.module
    for name, *texts in AUDITS:
        given = [encode(text(it)) for it in texts]
        due, found = Reference().run("audit", *given), library.run("audit", *given)
        cases.same(f"{name}: verdicts", whole(due), whole(found))
    for words, wanted in JUDGED.items():
        try:
            found = module.words(module.judge(*words))
        except module.Fault as fault:
            found = fault.number
        shown = [it[:60] if isinstance(it, bytes) else it for it in words]
        cases.same(f"judge {shown}", str(wanted), str(found))
    for levels_text, places in SPANS.items():
        cases.same(f"spans {levels_text[:60]!r}", str(places),
                   str([tuple(it) for it in module.spans(levels_text)]))
    for answers, entries in RECORDS.items():
        try:
            records: object = [tuple(map(int, it)) for it in module.records(answers, 2000)]
        except module.Fault as fault:
            records = fault.number, fault.line
        cases.same(f"records {answers[:60]!r}", str(entries), str(records))
    (last,) = module.records(HEAD + b"level %d\nsolution\nend" % (2 ** 64 - 1))
    cases.same("any number of levels", str(2 ** 64 - 1), str(last.level))
    none = "([], Counts(levels=0, solved=0, unsolvable=0, refused=0, missing=0))"
    cases.same("no level", none, str(module.lines("", "sokoban-answers 1")))
    for name, *wrong in (("header", levels, b""), ("levels too long", b" " * 33554433, b"")):
        try:
            cases.holds(name, False, str(module.lines(*wrong)))
        except module.Fault as fault:
            cases.holds(name, name in str(fault), str(fault))


def module_calls(cases: Cases) -> None:
    """Cases of the Python module: answers that it makes, maps that it draws, and arguments of wrong
    types."""
    module, reference = Library("out/lib/libsokoaudit.so").module, Reference()
    levels = encode(text(WHOLE_LEVELS))
    made = reference.make(levels).output
    cases.same("make", str((made, made.count(b"\nlevel "))), str(module.make(levels)))
    cases.same("dead", str(reference.dead(levels, 2).output), str(module.dead(levels, 2)))
    for call, *given in ((module.judge, LEVEL, SOLUTION, 5), (module.judge, 123, SOLUTION, "R"),
                         (module.judge, LEVEL, "solution", "R"), (module.audit, None, "R"),
                         (module.lines, 1, ""), (module.make, 3), (module.dead, LEVEL, "1")):
        try:
            cases.holds(f"{call.__name__}{(*given,)}", False, str(call(*given)))
        except TypeError as error:
            cases.holds(f"{call.__name__}{(*given,)}", "not" in str(error), str(error))


def constants(cases: Cases, program: str) -> None:
    """Cases: the header and the module have the program's version and limits, and the same names.
    """
    header = read(f"{TOP}/include/sokoaudit.h")
    module = Library("out/lib/libsokoaudit.so").module
    version = run([program, "--version"]).split()[1]
    number = "".join(it.zfill(2) for it in version.split("-")[0].split(".")).lstrip("0")
    found = *re.findall(r"VERSION(?:_NUMBER)? \"?([0-9a-z.-]+)", header), module.VERSION
    cases.same("the version", f"{version} {number} {version}", " ".join(found))
    for name, prefix in (("status", "SOKOAUDIT_"), ("why", "SOKOAUDIT_WHY_"),
                         ("kind", "SOKOAUDIT_")):
        (body,) = re.findall(rf"(?s)enum sokoaudit_{name} {{(.*?)}};", header)
        named = [f"{prefix}{it.name} = {it.value}" for it in getattr(module, name.capitalize())]
        cases.same(f"enum sokoaudit_{name}", "\n".join(named),
                   "\n".join(re.findall(r"(\w+ = \d+)", body)))
    (fields,) = re.findall(r"(?s)struct sokoaudit_line {(.*?)};", header)
    cases.same("struct sokoaudit_line", " ".join(module.Line._fields),
               " ".join(re.findall(r"uint64_t (\w+);", fields)))
    for name in ("span", "record"):
        (fields,) = re.findall(rf"(?s)struct sokoaudit_{name} {{(.*?)}};", header)
        cases.same(f"struct sokoaudit_{name}",
                   " ".join(getattr(module, name.capitalize())._fields),
                   " ".join(re.findall(r"size_t (\w+);", fields)))
    limits = re.findall(r"SOKOAUDIT_MOST_(?:BYTES|LEVELS|SIDE|PATTERNS) (\d+)", header)
    page = read(f"{TOP}/docs/formats.md").partition("## Limits")[2]
    named = re.findall(r"(?m)^\| (?:columns, rows|levels|bytes|patterns) .*? \| ([0-9,]+)", page)
    cases.same("the limits", " ".join(sorted(it.replace(",", "") for it in named)),
               " ".join(sorted(limits)))
