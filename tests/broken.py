"""tests/run broken LOG [SHARE] | CRATE..: applies all edits of crates/CRATE/broken at once, checks
the functions that they change, and demands that the prover refuses each of these and nothing else.
Edits of one function take turns, and so does an edit whose function waits for a refused one that
it calls. LOG is what 'rt ci' printed: crates that it took from an earlier run are skipped. A share
such as 1/2 is every second of the other crates. Ends in 'N passed, M failed'.

One check tells of all edits, since callers rest on contracts and not on bodies. It reads the
libraries once, and no function that has no edit and that none of these calls. 'rt ci' checks the
whole crate for each edit in must-fail, and once more before and after them.
"""
import glob
import importlib.machinery
import importlib.util
import os
import re
import shutil
import sys
import tempfile
from typing import Any, Dict, List, NamedTuple, Sequence, Set, Tuple

from tests.runner import TOP, Cases, is_share, read, share_of

# the head of a function, and those in which it is named by a type or a trait
HEAD = re.compile(r'(?m)^( *)(?:pub(?:\(\w+\))? )?(?:const |unsafe |extern "C" )*fn (\w+)')
OWNER = re.compile(r"(?m)^(?:pub(?:\(\w+\))? )?"
                   r"(?:impl(?:<.*?>)? (?:(\w+)(?:<.*?>)? for )?(\w+)\b|trait (\w+))")
# texts that end in a function, and its name as a check prints it
HEADS = (
    ("src/lib.rt", "pub struct Row;\nfn at()", "low::at"),
    ("src/rows/mod.rt", "fn at()", "low::rows::at"),
    ("src/rows/row.rt", "impl Row {\n    pub(crate) fn at()", "low::rows::row::Row::at"),
    ("src/row.rt", "impl<'a, S: Set> Iterator for Row<'a, S> {\n    fn at()",
     "low::row::RowIterator::at"),
    ("src/row.rt", "impl<const N: usize> By<N> for Row {\n    fn at()", "low::row::RowBy::at"),
    ("src/row.rt", "pub trait Set: Drop {\n    fn at()", "low::row::Set::at"),
    ("src/lib.rt", 'impl Row {\n}\n\n#[unsafe(no_mangle)]\npub extern "C" fn at()', "low::at"),
)
KEPT = "rt: {} is kept: an earlier run on this machine proved the same files"
# What a check prints of a function that it refuses: a goal that has no proof, with the function in
# the line or in the next one of its kind, or a proof that is wrong. One that names what the edit
# took away shows nothing of a contract, nor does a limit of the prover. A function that calls a
# refused one may wait for it.
OPEN = re.compile(r"(?m)^fn \w+::(\S+): no proof: (?!it calls )")
UNPROVED = re.compile(r"(?ms)^note: src/\S+:\d+:\d+: it is not proved that .*?^fn \w+::(\S+): ")
WRONG = re.compile(r"(?m)^\./proofs/((?:\w+/)+)\w+\.antt:\d+:\d+: error: (?!.*(?:has no field"
                   r"|is not in scope|has no `|was not admitted|that depends? on|antt ran out of))")
ENDS = re.compile(r"(?m)^only=\d+ proved=\d+$")
WAITS = re.compile(r"(?m)^fn (\S+): (?:not proved; |no proof: )it calls ")
# what a check prints, shortened, and whether it refuses the function `step` of src/shape.rt
SAID = (
    ("fn low::shape::Shape::step: no proof: expected answers in ./proofs/..", True),
    ("./proofs/shape/Shape/step/Answers.antt:31:3: error: `returns`: the two types differ", True),
    ("./proofs/shape/Shape/step/Answers.antt:31:3: error: `low` is not in scope", False),
    ("./proofs/shape/Shape/step/Answers.antt:9:5: error: 2 declarations that depend on `a`", False),
    ("./proofs/shape/Shape/step/Answers.antt:9:5: error: antt ran out of memory", False),
    ("fn low::shape::Shape::step: not proved", False),
    ("note: src/shape.rt:9:5: it is not proved that what the function ensures holds\nnote: why\n"
     "fn low::shape::Shape::step: not proved", True),
    ("note: src/shape.rt:9:5: it is not proved that what the function ensures holds\n"
     "fn low::shape::Shape::next: not proved\nfn low::shape::Shape::step: not proved", False),
    ("fn low::shape::Shape::step: not proved; it calls `low::grid::at`, which is not", False),
    ("fn low::shape::Shape::step: no proof: it calls `low::grid::at`, which is not proved", False),
    ("fn low::shape::Shape::first_step: no proof: expected answers in ./proofs/..", False),
    ("fn low::grid::step: no proof: expected answers in ./proofs/..", False),
    ("fn low::shape::Shape::step: proved", False),
)


class Edit(NamedTuple):
    """An edit of a crate: its name, its pairs of texts with their files, and the functions that it
    changes, as a check prints them."""
    name: str
    pairs: List[Tuple[str, str, str]]
    functions: List[str]


def function_at(crate: str, file: str, text: str) -> str:
    """The function in which a text of a file ends, or ''."""
    heads = [*HEAD.finditer(text)]
    if not heads:
        return ""
    indent, name = heads[-1].groups()
    owner = ""
    for it in OWNER.finditer(text) if indent else ():
        owner = it[3] or it[2] + (it[1] or "")
    module = re.sub(r"^src/(lib\.rt$)?|(/mod)?\.rt$", "", file).split("/")
    return "::".join(it for it in [crate, *module, owner, name] if it)


def read_edit(crate: str, path: str) -> Edit:
    """Reads an edit of a crate's folder. It has no functions if it can't be applied."""
    file, old, pairs, functions = "", "", [], []
    for line in read(path).split("\n"):
        kind, _, rest = line.partition(": ")
        if kind == "file":
            file = rest
        elif kind == "old":
            old = rest
        elif kind.rstrip(":") == "new":
            pairs.append((file, old, rest))
    for file, old, _ in pairs:
        text = read(f"{crate}/{file}") if os.path.isfile(f"{crate}/{file}") else ""
        found = function_at(os.path.basename(crate), file, text[:text.find(old)])
        functions += [found] if text.count(old) == 1 and found else []
    whole = len(functions) == len(pairs)
    return Edit(os.path.basename(path), pairs, [*dict.fromkeys(functions)] if whole else [])


def next_round(edits: Sequence[Edit]) -> List[Edit]:
    """As many of the edits as change other functions each."""
    some: List[Edit] = []
    for edit in edits:
        if not {*edit.functions} & {function for it in some for function in it.functions}:
            some.append(edit)
    return some


def refused(crate: str, said: str) -> Set[str]:
    """The functions that a check of a crate refuses for what their contracts say."""
    found = {it.replace("::", "/") for it in OPEN.findall(said) + UNPROVED.findall(said)} | {
        it.rstrip("/") for it in WRONG.findall(said)}
    return {f"{crate}::{it.replace('/', '::')}" for it in found}


def toolchain() -> Any:
    """The command rt as a module."""
    path = os.path.realpath(shutil.which("rt") or "rt")
    loader = importlib.machinery.SourceFileLoader("rt", path)
    spec = importlib.util.spec_from_loader("rt", loader)
    assert spec
    module = importlib.util.module_from_spec(spec)
    sys.modules["rt"] = module
    loader.exec_module(module)
    return module


def edits_of(name: str) -> List[Edit]:
    """The edits of a crate."""
    folder = f"{TOP}/crates/{name}"
    return [read_edit(folder, it) for it in sorted(glob.glob(f"{folder}/broken/*.edit"))]


def judge(cases: Cases, crate: str, edits: Sequence[Edit], said: str) -> List[Edit]:
    """A case for each of these edits, by what a check with all of them printed, and two for the
    check itself. Returns the edits that have to be tried again, if there are others: a refused
    function is called by theirs."""
    found, last = refused(crate, said), said.splitlines()[-20:]
    cases.holds("the check ends", ENDS.search(said), *last)
    others = sorted(found - {function for it in edits for function in it.functions})
    cases.holds("nothing is refused without an edit", not others, *others)
    missed = {it.name: {*it.functions} - found for it in edits}
    waiting = [it for it in edits if missed[it.name] and missed[it.name] <= {*WAITS.findall(said)}]
    if len(waiting) == len(edits):
        waiting = []
    for it in edits:
        if it not in waiting:
            cases.holds(f"{it.name} is refused in {' and '.join(it.functions)}",
                        not missed[it.name], *missed[it.name], *last)
    return waiting


def of_crate(cases: Cases, name: str, is_built: bool) -> None:
    """A case for each edit of a crate. Unless they are built, its libraries are built first."""
    rt, folder = toolchain(), f"{TOP}/crates/{name}"
    crate = next(it for it in rt.rtlib.crates_below(f"{TOP}/crates") if it.name == name)
    rt.rtlib.guarded()
    if not is_built:
        rt.share_work(False)
        for below in crate.below():
            cases.holds(f"{below.name} is built", not below.build_rlib(["--jobs", "1"], anew=False))
    left = [it for it in edits_of(name) if it.functions]
    # 'rt ci' gives back what was in out/ before, and leaves no stamp where nothing was
    stamped = [it for it in crate.below() if os.path.exists(f"{it.folder}/out/rlib/stamp")]
    if stamped and not all(it.is_built() for it in crate.below()):
        cases.skip(name, "libraries of other sources are in out/", len(left))
        return
    with tempfile.TemporaryDirectory(prefix="sokoaudit-broken-") as kept:
        while left:
            some, texts = next_round(left), {}  # type: List[Edit], Dict[str, str]
            for file, old, new in [pair for it in some for pair in it.pairs]:
                texts[file] = texts.get(file, read(f"{folder}/{file}")).replace(old, new)
            only = [word for it in some for function in it.functions
                    for word in ("--only", function)]
            said = rt.checked(crate, texts, ["--jobs", "1", *only], kept).stdout
            waiting = judge(cases, name, some, said)
            left = [it for it in left if it not in some] + waiting


def main() -> None:
    """Runs the part."""
    cases, words = Cases("broken"), sys.argv[1:]
    for file, text, wanted in HEADS:
        cases.same(f"{file}: {text!r}", wanted, function_at("low", file, text))
    for said, is_so in SAID:
        cases.holds(said, ("low::shape::Shape::step" in refused("low", said)) == is_so)
    crates = sorted({it.split("/")[-3] for it in glob.glob(f"{TOP}/crates/*/broken/*.edit")})
    log = read(words[0]) if words and os.path.isfile(words[0]) else ""
    named = [os.path.basename(it) for it in words]
    if not log and (not words or not {*named} <= {*crates}):
        sys.exit(f"usage: tests/run broken LOG [SHARE] | CRATE..; the crates: {' '.join(crates)}")
    cases.demands("rt")
    tried = {}
    for name in (share_of(crates, words[1]) if is_share(words[1:]) else crates) if log else named:
        edits = edits_of(name)
        for edit in edits:
            cases.holds(f"{name}/{edit.name} can be applied", edit.functions)
        if log and KEPT.format(name) in log:
            cases.skip(name, "'rt ci' took crates from an earlier run", len(edits))
        else:
            tried[name] = of_crate, name, bool(log)
    cases.side_by_side(tried)
    cases.finish()


if __name__ == "__main__":
    main()
