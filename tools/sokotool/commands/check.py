"""Does the whole job: reads exports, takes over the former answers, makes certificates and searches
for more, audits, and writes NAME.xsb, NAME.answers, NAME.report and NAME.html.

The files are written before the search and again after it, each time whole or not at all, and the
former ones are kept as NAME.xsb~ and so on. A level is known by its board, so an answer follows its
level if levels are inserted, removed or turned. Of several accepted answers to a level the best is
kept. What you type into NAME.xsb and NAME.answers stays, also while this runs; what has no place
there any more is in NAME.kept.xsb and NAME.kept.answers. The summary says what was left out, what
changed since the last time, and the duplicates. If it doesn't fit a screen, standard error
gets everything that was left out.

sokoaudit checks every answer. The variable SOKOAUDIT names it, or it is found in the checkout or
the installation. The status is 1 if a level has no accepted answer, or something was left out or is
wrong."""
import argparse
import contextlib
import math
import os
from typing import Dict, List, Optional, Sequence, Tuple

from .. import (answers, auditor, check_run, forms, level_texts, memory, merging, origins, output,
                own_files, sheet, sources, summary, system, texts, transaction)
from ..builder import BOTH, MOVES, PUSHES, Collection
from ..check_run import Inputs, Run, State
from ..conversion import Conversion, Reading, code
from ..outcomes import Result
from ..own_files import (ANSWERS, KEPT_ANSWERS, KEPT_XSB, MEMORY, OTHER, PAGE, REPORT, SHEET, XSB,
                         noted)
from ..progress import Progress
from . import SECONDS, above_zero, encoding_argument, page, seconds

BUDGET = 60
# how often the files are read again if they change
ROUNDS = 3


def arguments(parser: argparse.ArgumentParser) -> None:
    parser.add_argument("name", metavar="NAME", help="NAME.xsb, .answers, .report and .html are "
                        "written, and the former ones are read")
    parser.add_argument("exports", metavar="EXPORT", nargs="*",
                        help="an export; - is standard input")
    parser.add_argument("--answers", metavar="FILE", nargs="+", action="extend", default=[],
                        help="more answers, by the numbers that levels have or had in NAME.xsb")
    parser.add_argument("--best", choices=(MOVES, PUSHES, BOTH),
                        help="which of several solutions is kept (default moves; both if "
                        "NAME.other.answers is there: it has those with fewer pushes)")
    parser.add_argument("--seconds", metavar="S", type=seconds, default=SECONDS,
                        help="search each level that is left for up to S seconds "
                        f"(default {SECONDS}, 0 for no search)")
    parser.add_argument("--search", metavar="T", type=seconds, default=BUDGET,
                        help=f"search for S seconds in all (default {BUDGET}, 0 for no search)")
    parser.add_argument("--jobs", metavar="N", type=above_zero(int),
                        default=system.processors(),
                        help="search N levels at once (default one for each processor), "
                        "each in up to 600 megabytes")
    encoding_argument(parser)
    parser.add_argument("--solver", metavar="COMMAND",
                        help="run this command for each level that is left then: it gets the level "
                             "on standard input, and in the file {}")
    parser.add_argument("--solver-seconds", metavar="S", type=above_zero(float), default=BUDGET,
                        help=f"end a run of the solver after S seconds (default {BUDGET})")
    parser.add_argument("--solver-search", metavar="T", type=above_zero(float), default=math.inf,
                        help="begin no run of the solver after S seconds (no limit by default)")
    parser.add_argument("--verbose", action="store_true", help="print what the solver prints")
    parser.add_argument("--csv", action="store_true",
                        help="also write NAME.csv, a table with a row for each level; later checks "
                        "keep it up to date, unless you change it")
    parser.add_argument("--compare", action="store_true",
                        help="search and write nothing, and print which files would change, but "
                        "for the note of the reference; the status is 1 if one would")


def run(options: argparse.Namespace) -> int:
    given = gathered(options)
    if options.compare:
        return compared(given)
    return report(given, searched(given, settled(given)))


def gathered(options: argparse.Namespace) -> Run:
    """Reads what isn't a file of NAME."""
    own_files.check_name(options.name)
    if not options.exports:
        raise texts.Stop("no EXPORT is named: first comes a new NAME for the collection, as in "
                         f"'sokotool check mine {texts.shown(options.name)}'")
    if options.solver:
        from .. import solvers
        solvers.words_of(options.solver)
    if not options.best:
        options.best = BOTH if os.path.exists(options.name + OTHER) else MOVES
    shown, program = Progress("check"), auditor.find()
    if options.solver and not system.ENDS_CHILDREN:
        shown.keep("this system ends the solver alone: what it starts may go on")
    for end in () if options.compare else (*own_files.ENDS, *[SHEET] * options.csv, MEMORY):
        output.check_writable(options.name + end)
    more = [(name, answers.read_file(name, rising=False)) for name in options.answers]
    return Run(Inputs(options, shown, program, more, exports_of(options, shown)))


def exports_of(options: argparse.Namespace, shown: Progress) -> Conversion:
    """Reads the exports, without the files of NAME. Those that didn't change since the last check
    aren't converted again."""
    shown.show("reading")
    is_own = own_files.own(options.name)
    named = [name for name in options.exports if os.path.isdir(name) or not is_own(name)]
    if not named:
        raise texts.Stop(f"would write over {texts.shown(options.exports[0])}: choose another "
                         "NAME, such as checked")
    reading = Reading(sources.listed(named, is_own), options.best, options.encoding)
    found = remembered(options.name, reading)
    for place, why in found.notes if found else ():
        shown.keep(place.said(why))
    return found or converted(options, shown, reading)


def remembered(name: str, reading: Reading) -> Optional[Conversion]:
    """Returns what the exports gave at the last check of NAME, if they and its files still have all
    of it."""
    with contextlib.suppress(texts.Stop):
        known = memory.read(own_files.bytes_of(name + MEMORY), name)
        there = [own_files.bytes_of(name + end) for end in (ANSWERS, OTHER)]
        return reading.remembered(known.exports, known.written, [
            record.answer for data in there if data
            for record in answers.read_text(name, data, rising=False).records])
    return None


def converted(options: argparse.Namespace, shown: Progress, reading: Reading) -> Conversion:
    # loads all forms of exports
    from . import convert
    problems: List[origins.Problem] = []
    notes: List[origins.Problem] = []

    def say(place: origins.Place, why: str, is_fault: bool) -> None:
        (problems if is_fault else notes).append((place, why))
        if not is_fault:
            shown.keep(place.said(why))

    collection = Collection(options.best, False, options.encoding or "", say, "")
    convert.read_files(collection, reading.listed)
    if not collection.count:
        whole = " ".join(options.exports)
        quotes = f"; put a name with blanks into quotes: '{texts.shown(whole)}'"
        for place, why in problems:
            shown.keep(place.said(why))
        raise texts.Stop("these files have no level" + quotes * (
            len(options.exports) > 1 and os.path.exists(whole)))
    text, *answered = [*(data for _, data in collection.files(options.name)),
                       collection.other_answers()]
    return Conversion(reading.digest(), merging.collection(level_texts.read(text)),
                      [record for data in answered for record in answers.read(data).records],
                      origins.Origins(collection.origins, problems), notes)


# ---- the files of NAME

def settled(given: Run, state: Optional[State] = None) -> State:
    """Brings the files of NAME up to date with what was found, from a state on. If somebody else
    wrote one of them since it was read, all are read again."""
    for _ in range(ROUNDS):
        try:
            with own_files.alone(given.name, given.shown):
                made = check_run.audit(given, state or check_run.begun(given))
                given.shown.show("writing")
                files = contents(given, made)
                with system.uninterrupted():
                    made.former.files.write(files)
                given.has_backups = made.former.files.has_backups
                given.written.update(made.former.files.written)
                return made
        except transaction.Changed as changed:
            if state:
                given.edited.update(state.now.forms[number - 1].key
                                    for number in state.merged.edited)
            why, state = changed, None
            given.shown.keep(f"{changed}: reading again")
        except texts.Stop as stop:
            raise texts.Stop(f"{stop}{given.keep()}") from None
    raise texts.Stop(f"{why}, again and again: close it there, and run check again. The files are "
                     f"as they were{given.keep()}")


def compared(given: Run) -> int:
    """Prints which files a check would change, and returns the status. Nobody writes to a folder
    that is write-protected."""
    may_change = os.access(os.path.dirname(os.path.abspath(given.name)), os.W_OK)
    with own_files.alone(given.name, given.shown) if may_change else contextlib.nullcontext():
        state = check_run.audit(given, check_run.begun(given))
        changed = state.former.files.changed(contents(given, state))
    given.shown.clear()
    for line in changed or [f"{texts.shown(given.name)}: no file would change"]:
        print(line)
    return int(bool(changed))


def contents(given: Run, state: State) -> Dict[str, Optional[bytes]]:
    """Returns the contents of the files by the ends of their names, None where there is none."""
    former = state.former
    former.memory.outcomes.join(given.outcomes)
    remembered = former.memory._replace(written=state.merged.written,
                                        computed=state.pool.computed(),
                                        found=given.without(state.now.forms))
    kept_text, kept_answers = state.left.files()
    other = noted(given.program, state.pool.other_answers())
    names = page_names(given)
    found = given.conversion.origins.sources(state.merged.written.places)
    sources: Dict[int, page.Source] = {
        number: {"file": texts.shown(place.published), "line": place.line, "left": left}
        for number, (place, left) in found.items()}
    table = {SHEET: sheet.text(state.now.levels, state.now.lines, names[0], sources,
                               state.mistakes())
             } if former.has_table else {}
    files = [state.text, state.answers, state.report]
    made_of = texts.digest(b"\n".join([ascii([
        code(), page.skeleton(), names, sources]).encode(), *files]))
    made = former.files.now.get(PAGE) or b""
    if former.memory.made.get(PAGE) != f"{made_of} {texts.digest(made)}":
        made, fault = page.written(files, names, sources=sources)
        if fault:
            raise texts.Stop(f"the report isn't of these levels and answers: {fault}")
    if not given.options.compare:
        digests = {PAGE: f"{made_of} {texts.digest(made)}", **{
            end: texts.digest(data) for end, data in {OTHER: other, **table}.items()}}
        if all(state.now.lines[number - 1].is_answered for number in state.pool.chosen):
            digests[ANSWERS] = texts.digest(state.answers)
        remembered = remembered._replace(exports=given.conversion.data(
            state.merged.written, state.pool.written()), made=digests)
    return {KEPT_XSB: kept_text, KEPT_ANSWERS: kept_answers, XSB: state.text,
            ANSWERS: state.answers, REPORT: state.report,
            OTHER: other if given.options.best == BOTH else None, PAGE: made, **table,
            MEMORY: memory.text(remembered)}


# ---- the search

def searched(given: Run, state: State) -> State:
    """Searches the levels that are left."""
    if not (given.options.solver or given.options.seconds > 0 < given.options.search):
        return state
    # loads the search and the solvers
    from .. import rounds
    search = Search(given, state)
    rounds.search([*rounds.ways(given.options, given.program, given.shown, search.known)],
                  lambda: search.state.unanswered(), search.take)
    return search.state


class Search:
    """A search of the levels that are left, and the state as it was written last."""

    def __init__(self, given: Run, state: State) -> None:
        self.given, self.state = given, state
        self.known = state.former.memory.outcomes

    def take(self, way: str, results: Sequence[Tuple[forms.Form, Result]]) -> None:
        """Brings the files up to date with results."""
        for form, result in results:
            for outcomes in (self.known, self.given.outcomes):
                outcomes.keep(form.digest, way, result.what, result.seconds)
            if result.record:
                self.given.found.append((form, answers.answer_of(result.record)))
        self.state = settled(self.given, self.state)


# ---- the summary

def report(given: Run, state: State) -> int:
    """Prints the summary, and returns the status."""
    problems = given.conversion.origins.messages(origins.numbers_of(state.merged.written.places))
    problems += state.pool.left_out()
    given.shown.clear()
    for line in problems if len(problems) > summary.MOST_PROBLEMS else ():
        given.shown.keep(line)
    for said in summary.lines(given, state, problems):
        print(said)
    return int(bool(problems) or not all(line.is_answered for line in state.now.lines))


def page_names(given: Run) -> List[str]:
    """Returns how the page names its files."""
    names = [texts.shown(os.path.basename(given.name) + end) for end in (XSB, ANSWERS, REPORT)]
    if given.program.is_reference:
        names[1] += ", " + auditor.REFERENCE_NOTE
    return names
