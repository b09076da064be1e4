"""Shows which must-fail edits the fuzzer finds.

tests/run reference.planted [--seed N] [--cases N] CRATE/EDIT..

Puts each must-fail edit, such as play/pushes_two_boxes, into a copy of the sources, builds the
program with 'rt try', which proves nothing, and runs it on the cases that 'fuzz' draws from this
seed. A line says after how many cases the output differs from the reference's. A build takes
minutes. The last line is 'N passed, M failed'; an edit that isn't found counts as failed.
"""
import argparse
import glob
import os
import random
import re
import shutil
import sys
from pathlib import Path
from typing import List, Sequence

from tests.reference import noise
from tests.reference.cases import draw_case
from tests.reference.comparing import Reference
from tests.reference.noise import Pair
from tests.runner import TOP, Cases, enter_folder, read, run, write

BATCH = 100
TORN = 1  # torn texts in a batch; 'rt try' copies all files for each run


def write_run(name: str, words: Sequence[str], given: bytes, due: bytes) -> None:
    """Writes a run for 'rt try': its words, its standard input, and the output that is due."""
    for end, text in (("", given), (".args", "\n".join(words).encode() + b"\n"), (".stdout", due)):
        Path("cases", name + end).write_bytes(text)


def write_runs(name: str, pair: Pair, is_first: bool) -> str:
    """Writes the runs on two texts. Returns the word that names the file of the levels."""
    (levels, answers), file, reference = pair, f"levels-{name}", Reference()
    Path("data", name).write_bytes(levels)
    due = reference.audit(levels, answers).output
    write_run(f"{name}.audit", ["audit", file, "-"], answers, due)
    if is_first:
        write_run(f"{name}.make", ["make", "-"], levels, reference.make(levels).output)
        write_run(f"{name}.dead", ["dead", "-", "1"], levels, reference.dead(levels, 1).output)
    return f"{file}={os.path.abspath(os.path.join('data', name))}"


def write_batches(seed: int, count: int) -> List[str]:
    """Writes the runs on this number of random cases, with names that say how many cases have come
    up to each run. Returns the words that name the files."""
    rng, words = random.Random(seed), []
    for at in range(BATCH, count + 1, BATCH):
        cases = [draw_case(rng) for _ in range(BATCH)]
        pairs = [noise.noisy(rng, cases)]
        for _ in range(TORN):
            pairs.append(noise.tear(rng, noise.noisy(rng, rng.sample(cases, 3))))
        for number, pair in enumerate(pairs):
            words += ["--data", write_runs(f"{at:06d}.{number}", pair, number == 0)]
    return words


def plant(top: str, edit: str) -> None:
    """Puts an edit into the sources."""
    crate, name = edit.split("/")
    (file,) = glob.glob(f"{top}/crates/{crate}/*/{name}.edit")
    lines = read(file).split("\n")
    path = f"{top}/crates/{crate}/{lines[0][len('file: '):]}"
    text = read(path)
    for old, new in zip(lines[1::2], lines[2::2]):
        old, new = old[len("old: "):], new[len("new: "):]
        if text.count(old) != 1:
            sys.exit(f"planted: {edit} doesn't apply")
        text = text.replace(old, new)
    write(path, text)


def first_found(edit: str, data: Sequence[str]) -> str:
    """The first run whose output isn't the one that is due, or "". Prints the output of 'rt try' if
    it had no run."""
    run(["git", "clone", "-q", TOP, "copy"])
    try:
        plant("copy", edit)
        words = ["rt", "try", *data, "--cases", os.path.abspath("cases")]
        said = run(words, cwd="copy/crates/sokoaudit")
    finally:
        shutil.rmtree("copy")
    runs = re.findall(r"(?m)^case=(\S+) (.*)$", said)
    if not runs:
        print(said)
    return min((name for name, rest in runs if "output=expected" not in rest), default="")


def main(words: Sequence[str]) -> None:
    """Tries each edit."""
    parser = argparse.ArgumentParser(description=__doc__.split("\n")[0])
    parser.add_argument("--seed", type=int, default=1, help="seed of the random numbers")
    parser.add_argument("--cases", type=int, default=2000, help="number of cases")
    parser.add_argument("edits", nargs="+", metavar="CRATE/EDIT")
    arguments = parser.parse_args(words)
    cases = Cases("planted")
    with enter_folder():
        for name in ("cases", "data"):
            os.mkdir(name)
        data = write_batches(arguments.seed, arguments.cases)
        for edit in arguments.edits:
            found = first_found(edit, data)
            if cases.holds(edit, found):
                cases.say(f"{edit}: within {int(found[:6])} cases, by {found.split('.')[-1]}")
    cases.finish()


if __name__ == "__main__":
    main(sys.argv[1:])
