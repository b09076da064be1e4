"""python3 -m bench.inputs: prints bench/inputs.table, which says what the cases of the benchmark
have at their full size, and sums of their texts at each size. 'tests/run gate inputs' compares the
table with them."""
import re
import zlib
from typing import Iterator, Sequence, Tuple

from bench.measured import AUDIT, Size, cases
from bench.worst import worst
from tests.runner import enter_folder
from tests.tables.rows import text

HEAD = """# what each case has, and sums of its texts at full size, at a tenth and at the small size
# case | levels | first board | records | patterns | letters | sums
"""
SIZES = Size(), Size(is_tenth=True), Size(is_small=True)


def texts(size: Size) -> Iterator[Tuple[str, str, str]]:
    """The names, levels and answers of the cases; '' for answers that aren't read, or that the
    program makes."""
    levels = answers = ""
    for case in cases(size):
        levels = levels if case.levels is None else text(case.levels)
        answers = answers if case.answers is None else text(case.answers)
        has_none = case.command != AUDIT or case.answers is case.levels is None
        yield case.name, levels, "" if has_none else answers


def row(name: str, levels: str, answers: str, sums: Sequence[int]) -> str:
    """The row of a case. A level is counted by its player."""
    first = levels.partition("\n\n")[0].strip("\n").split("\n")
    letters = sum(len(it.replace(" ", "")) for it in re.findall("(?m)^[udlrUDLR ]+$", answers))
    return " | ".join(map(str, [
        name, levels.count("@"), f"{max(map(len, first))} by {len(first)}",
        len(re.findall("(?m)^level ", answers)), len(re.findall("(?m)^pattern ", answers)), letters,
        " ".join(f"{it:08x}" for it in sums)]))


def table() -> str:
    """The table, made in the working directory."""
    open("sokoaudit", "w", encoding="ascii").close()  # the program makes no answers here
    sizes = [[zlib.crc32(f"{levels}\0{answers}".encode()) for _, levels, answers in texts(size)]
             for size in SIZES]
    rows = [row(*it, sums) for it, sums in zip(texts(SIZES[0]), zip(*sizes))]
    for case in worst():
        levels, answers = text(case.levels), text(case.answers)
        rows.append(row(case.name, levels, answers, [zlib.crc32(f"{levels}\0{answers}".encode())]))
    return HEAD + "".join(f"{it}\n" for it in rows)


if __name__ == "__main__":
    with enter_folder():
        print(table(), end="")
