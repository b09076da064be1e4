"""The stages of a check: `read` the files of NAME, `merge` what was typed into them with the
exports, `choose` candidates for the answers, and `audit` the best ones."""
import argparse
import contextlib
import os
from typing import Dict, List, NamedTuple, Optional, Sequence, Set, Tuple

from . import (answers, auditor, candidates, forms, level_texts, levels, memory, merging, mistakes,
               own_files, report, shelf, texts)
from .auditor import Audits
from .candidates import Pool, elsewhere, in_case
from .changes import Snapshot
from .conversion import Conversion
from .outcomes import Outcomes
from .own_files import ANSWERS, KEPT_ANSWERS, KEPT_XSB, OTHER, REPORT, SHEET, XSB, noted
from .progress import Progress


class Inputs(NamedTuple):
    """What a run reads once."""

    options: argparse.Namespace
    shown: Progress
    program: auditor.Auditor
    # answers of other files, with the names of these
    more: Sequence[Tuple[str, answers.Answers]]
    conversion: Conversion


class Run:
    """A run of check: what it reads once, and what it finds, which stays if the files of NAME are
    read again."""

    def __init__(self, inputs: Inputs) -> None:
        self.options, self.shown, self.program, self.more, self.conversion = inputs
        self.name: str = self.options.name
        # the outcomes of its searches, and the answers with the forms of their levels
        self.outcomes = Outcomes({})
        self.found: List[memory.Find] = []
        # the boards for which certificates were made
        self.made: Set[forms.Key] = set()
        # the levels as they were when it began
        self.before: Optional[Snapshot] = None
        # the boards of levels that the keeper had edited when the files were written
        self.edited: Set[forms.Key] = set()
        # the ends of the files that it wrote, and whether it kept the former ones
        self.written: Set[str] = set()
        self.is_begun = self.has_backups = False

    def without(self, forms: Sequence[forms.Form]) -> List[memory.Find]:
        """Returns the answers to boards that none of these forms has."""
        keys = {form.key for form in forms}
        return [find for find in self.found if find[0].key not in keys]

    def give(self, pool: Pool) -> None:
        """Gives the answers to the levels that have their boards."""
        boards = Snapshot([form.level for form, _ in self.found], [form for form, _ in self.found])
        pool.add([answers.Record(number, answer, 0, [])
                  for number, (_, answer) in enumerate(self.found, 1)], [boards],
                 candidates.COMPUTED)

    def keep(self) -> str:
        """Keeps what was found in NAME.memory alone, if that can be written. Returns words that
        say so, or "" if there is nothing."""
        with contextlib.suppress(texts.Stop), own_files.alone(self.name, self.shown):
            if finds := self.without([]):
                files = own_files.Files(self.name, True)
                remembered = files.memory()._replace(found=finds)
                remembered.outcomes.join(self.outcomes)
                files.remember(memory.text(remembered))
                return ", and the next run has what was found"
        return ""


class Former(NamedTuple):
    """The files of NAME as they are."""

    files: own_files.Files
    memory: memory.Memory
    # what former checks kept
    stored: shelf.Kept
    # the levels whose numbers NAME.answers has, and those of NAME.xsb as they are now
    written: Snapshot
    mine: Snapshot
    # the highest number of a level that an answers file may have
    most: int
    # whether the table is asked for, or is there as it was written
    has_table: bool


class State(NamedTuple):
    """What the collection becomes."""

    former: Former
    merged: merging.Merged
    pool: Pool
    # the levels as they are now, with their lines of the report once they are audited
    now: Snapshot
    text: bytes
    answers: bytes = b""
    report: bytes = b""
    # what has no place in the collection
    left: shelf.Kept = shelf.Kept([], [])

    def unanswered(self) -> List[forms.Form]:
        """Returns the legal levels that have no accepted answer."""
        return [self.now.forms[line.level - 1] for line in self.now.lines
                if not line.is_answered and line.words[:1] != ["board"]]

    def mistakes(self) -> Dict[int, str]:
        """Returns the mistakes in the lines of answers that the report names, by the numbers of the
        levels."""
        return mistakes.of_reports(self.now.levels, answers.read(self.answers).records,
                                   self.now.lines)


def begun(run: Run) -> State:
    """Returns the state of the files as they are, before an audit."""
    former = read(run)
    merged = merge(run, former)
    now = merged.written.collection
    return State(former, merged, choose(run, former, merged), now,
                 noted(run.program, level_texts.text(now.blocks)))


# ---- the files

def read(run: Run) -> Former:
    """Reads the files of NAME."""
    files = own_files.Files(run.name, run.has_backups)
    remembered = files.memory()
    has_table = run.options.csv or (
        texts.digest(files.before.get(SHEET, b"")) == remembered.made.get(SHEET))
    kept = files.before.get(KEPT_XSB, b"")
    stored = shelf.read(kept, files.answers(KEPT_ANSWERS, len(levels.read(kept))))
    last = remembered.written.collection
    is_same = last.blocks and files.levels() == level_texts.text(last.blocks)
    mine = last if is_same else merging.collection(
        _own_blocks(files, level_texts.text(last.blocks)))
    written = last if last.blocks else mine
    most = max(len(written.levels), len(mine.blocks))
    former = Former(files, remembered, stored, written, mine, most, has_table)
    if not run.is_begun:
        run.is_begun, run.before = True, _before(run.program, former)
        run.found += remembered.found
    return former


def _own_blocks(files: own_files.Files, written: bytes) -> List[level_texts.Block]:
    """Returns the levels of NAME.xsb as they are now. Marks of a merge may be text of an export,
    and then they are in what was written."""
    text, name = files.levels() or b"", texts.shown(files.name)
    back = (f"put these back from {name}.xsb~, or " if os.path.exists(files.name + XSB + "~")
            else "")
    # While an editor saves, the file may be empty for a moment.
    if not text.strip() and ANSWERS in files.before:
        raise texts.Stop(f"{name}.answers is there, but not its levels in {name}.xsb: {back}name "
                         f"{name}.answers by --answers, under another name")
    found = level_texts.read(text)
    if text.strip() and not found:
        raise texts.Stop(f"{name}.xsb has no levels: {back}move it away")
    line = texts.conflict(text)
    if line and not texts.conflict(written):
        raise texts.Stop(f"{name}.xsb line {line} has marks of a merge in git: keep what you want "
                         "of both sides, and remove the marks")
    return found


def _before(program: auditor.Auditor, former: Former) -> Optional[Snapshot]:
    """Returns the former levels with the report on them, of a new audit if that isn't whole."""
    files, written = former.files, former.written
    if XSB not in files.before:
        return None
    count = len(written.levels)
    known = report.read(files.before.get(REPORT, b""))
    if known.fault(count):
        first = {record.level: record.text
                 for record in reversed(files.answers(ANSWERS, former.most).records)}
        rows = b"\n".join(answers.spelled(level.rows) for level in written.levels)
        with Audits(program, rows, count) as audits:
            known = audits.audit(answers.text([first[level] for level in sorted(first)
                                               if level <= count]))
    return written._replace(lines=known.lines)


# ---- the collection

def merge(run: Run, former: Former) -> merging.Merged:
    """Merges what was typed with the exports."""
    return merging.merged(former.memory.written, former.mine, run.conversion.exports,
                          [entry.block for entry in former.stored.entries])


def choose(run: Run, former: Former, merged: merging.Merged) -> Pool:
    """Returns the candidates for the levels: former answers, those of the exports, and those of
    other files, by the board of the level that each names."""
    now, written = merged.written.collection, former.written
    numbers = {at: number for number, at in enumerate(merged.written.places, 1)}
    own, strays = _own_answers(former, now)
    pool = Pool(now, run.options.best)
    computed = set(former.memory.computed)
    for given in pool.add(own.records, [written, former.mine], candidates.OWN):
        for target in given.targets if texts.digest(given.record.text) in computed else ():
            target.is_computed = True
    pool.add_comments(own, written)
    pool.add(strays, [now], candidates.OWN)
    pool.add(former.stored.records(), [former.stored.collection()], candidates.STORED)
    pool.add([it._replace(level=numbers[it.level - 1]) for it in run.conversion.records], [now],
             candidates.EXPORTED)
    for name, more in run.more:
        pool.add([in_case(it, (now, written)) or it for it in more.records], [now, written],
                 candidates.FILE, name)
    return pool


def _own_answers(former: Former, now: Snapshot) -> Tuple[answers.Answers, List[answers.Record]]:
    """Returns the records of the answers files, each solution with its letters in their case, and
    the solutions that solve other levels than those of their numbers, with the numbers of these. In
    a file whose answers were all accepted they are as they should be."""
    own, strays = answers.Answers(1, [], []), []
    for end in (ANSWERS, OTHER):
        found = former.files.answers(end, former.most)
        own.rest.extend(found.rest)
        data = former.files.before.get(end, b"")
        if texts.digest(data) == former.memory.made.get(end):
            own.records.extend(found.records)
            continue
        for record in found.records:
            known = in_case(record, (former.written, former.mine))
            stray = None if known else elsewhere(record, now)
            if stray:
                strays.append(stray)
                own.rest.extend(record.apart)
            else:
                own.records.append(known or record)
    return own, strays


# ---- the audit

def audit(run: Run, state: State) -> State:
    """Audits the best answers, after certificates were made for levels without one."""
    run.shown.show("auditing")
    run.give(state.pool)
    with Audits(run.program, state.text, len(state.now.levels)) as audits:
        state = _audited(run, state, audits)
        if left := [form for form in state.unanswered() if form.key not in run.made]:
            run.shown.show("making certificates")
            run.made.update(form.key for form in left)
            made = [(state.now.forms[number - 1], answer)
                    for number, answer in audits.made([form.level for form in left])]
            run.found += made
            if made:
                run.give(state.pool)
                state = _audited(run, state, audits)
    return state._replace(left=_left(state))


def _audited(run: Run, state: State, audits: Audits) -> State:
    chosen, found = state.pool.audited(audits.audit, lambda text: noted(run.program, text))
    return state._replace(answers=chosen, report=noted(run.program, audits.text),
                          now=state.now._replace(lines=found.lines))


def _left(state: State) -> shelf.Kept:
    """Returns what has no place in the collection."""
    back, titles = state.merged.back, {level.title.encode() for level in state.now.levels}
    stored = state.former.stored
    entries = [entry._replace(block=entry.block._replace(above=(), below=()))
               if at in back else entry for at, entry in enumerate(stored.entries)]
    entries = [entry for at, entry in enumerate(entries)
               if entry.record or at not in back or entry.stays(titles)]
    left = state.pool.left(stored._replace(entries=entries))
    for index, block in state.merged.away:
        level = state.former.mine.levels[index]
        left.append(shelf.Entry(shelf.head_of(level.number, level.title), block))
    return stored._replace(entries=left)
