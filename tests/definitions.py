"""Which definitions in crates/*/specs a claim rests on, and how many lines they have.

A claim is a definition, CRATE.FILE.NAME, or a field of a record, CRATE.FILE.NAME.FIELD. It rests
on what it names, and on what that names in turn. Comments, imports and what isn't in
crates/*/specs don't count."""
import glob
import os
import re
from typing import Dict, List, Optional, Tuple

from tests.runner import TOP, read

Place = Tuple[str, str]  # the file, as CRATE.FILE, and a name in it
IMPORT = re.compile(r"(?:pub )?use Rattle\.(\w+)\.specs\.([\w.]*)\{(.*)\}")
HEAD = re.compile(r"(?:  )?(?:abbrev pub|unfoldable pub|pub record|pub data)\s+(\S+)")
FIELD = re.compile(r"  (?:pub )?(\w+) :")
WORD = re.compile(r"[A-Za-z_][\w'-]*|◌\S+")
# a kind of line: its meaning, and what a printed line of this kind claims
CLAIMS = {
    "unsolvable": ("report.Unsolvable.IsUnsolvable", "report.Printed.AreUnsolvable"),
    "solved": ("report.Means.IsSolvedBy", "report.Printed.AreTrue.solved"),
    "missing": ("report.Means.IsMissing", "report.Printed.AreTrue.missing"),
    "refused": ("report.Status.IsFirstFaultOf", "report.Printed.AreTrue.refused"),
    "total": ("report.Printed.total_of", "report.Printed.AreTrue.total"),
    "dead": ("report.DeadMap.IsMap", "report.DeadMap.IsMapOf"),
}
LEVELS = "board.Levels.AreLevelsOf", "board.Lines.without_mark"
ANSWERS = "answers.Grammar.SpellsEntries"
RUN = "arguments.Command.SpellsRequest", "program.Program.AreKnown"


class Specs:
    """The definitions of all crates, and what the other names of their files stand for."""

    def __init__(self) -> None:
        self.lines: Dict[Place, List[str]] = {}
        self.names: Dict[Place, Place] = {}
        for path in glob.glob(f"{TOP}/crates/*/specs/*.antt"):
            crate, file = path.split("/")[-3], os.path.basename(path)[:-len(".antt")]
            self.read_file(f"{crate}.{file}", read(path).splitlines())

    def read_file(self, file: str, lines: List[str]) -> None:
        """Adds the definitions and the imports of a file."""
        current, is_data = None, False
        for line in lines:
            imported, head, field = IMPORT.match(line), HEAD.match(line), FIELD.match(line)
            if imported:
                crate, path, names = imported.groups()
                for name in names.split(","):
                    there, _, here = (path + name.strip()).partition(" as ")
                    other, _, last = there.rpartition(".")
                    self.names[file, here or last] = f"{crate}.{other}", last
            elif head:
                current, is_data = head[1], "pub data" in line
                self.lines[file, current] = [line]
            elif current and line.strip() and not line.lstrip().startswith("--"):
                self.lines[file, current].append(line)
                if is_data and field:
                    self.names[file, field[1]] = file, current

    def find(self, file: str, name: str) -> Optional[Place]:
        """The definition for which a name in a file stands."""
        if (file, name) in self.lines:
            return file, name
        place = self.names.get((file, name))
        return place and self.find(*place)

    def lines_of(self, place: Place, field: str) -> List[str]:
        """The lines of a definition, or those of one field of a record and the record's first."""
        first, *rest = self.lines[place]
        if not field:
            return [first, *rest]
        kept, here = [first], False
        for line in rest:
            found = FIELD.match(line)
            here = found[1] == field if found else here
            kept += [line] if here else []
        return kept

    def count(self, *claims: str) -> Tuple[int, int]:
        """The number of lines on which the claims rest, and of the files that have them."""
        todo, seen = [], {}
        for claim in claims:
            crate, file, name, *field = claim.split(".")
            place = f"{crate}.{file}", name
            todo.append(place)
            seen[place] = self.lines_of(place, "".join(field))
        while todo:
            file, name = todo.pop()
            for word in set(WORD.findall(" ".join(seen[file, name]))):
                found = self.find(file, word)
                if found and found not in seen:
                    seen[found] = self.lines[found]
                    todo.append(found)
        return sum(map(len, seen.values())), len({file for file, _ in seen})

    def counts_of(self, kind: str) -> List[Tuple[int, int]]:
        """The counts for the meaning of a kind of line, for a printed line, and for the output."""
        meaning, printed = CLAIMS[kind]
        # no answer matters to these
        texts = LEVELS if kind in ("unsolvable", "total", "dead") else (*LEVELS, ANSWERS)
        return [self.count(meaning), self.count(printed, *texts),
                self.count(printed, *texts, *RUN)]
