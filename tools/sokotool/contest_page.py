"""The web page of a contest: a matrix of levels by entrants, each refusal with its reason and a
picture, the standings, and each answer as an entry of a collection of its own."""
import html
from collections import Counter
from typing import Dict, List, Sequence, Tuple

from . import answers, levels, messages, texts
from .commands import page
from .contest import HEAD, STANDINGS_HEAD, STATUSES, Contest, title_of

# the numbers of the entries by the numbers of the levels and the entrants
Numbers = Dict[Tuple[str, str], int]


def text(contest: Contest, name: str) -> bytes:
    """Returns the page. `name` is that of the levels."""
    files, numbers = _entries(contest)
    if len(numbers) > levels.MOST_LEVELS:
        raise texts.Stop(f"the page would have more than {levels.MOST_LEVELS} answers")
    listed = ", ".join(entrant.name for entrant in contest.entrants)
    names = ["answers to " + texts.shown(name), listed, "report"]
    rows = [[_cell(it) for it in row] for row in contest.rows()]
    for row, (level, entrant, *_) in zip(rows, contest.rows()):
        row[2] = _linked(row[2], numbers.get((level, entrant)))
    tables = [_table("Levels by entrants", *_matrix(contest, numbers)),
              _table("Standings", STANDINGS_HEAD,
                     [[_cell(it) for it in row] for row in contest.standings()]),
              _refusals(contest, numbers), _table("Solutions", HEAD, rows)]
    above = page.part("contest.html").replace("@TABLES@\n", "".join(tables))
    return page.written(files, names, above)[0]


def _entries(contest: Contest) -> Tuple[List[bytes], Numbers]:
    """Returns the levels, the answers and the report of a collection with a level for each answer,
    and the number of that level by the number of the real level and the entrant."""
    numbers: Numbers = {}
    drawn: List[bytes] = []
    records: List[bytes] = []
    said: List[str] = []
    count: Dict[str, int] = Counter()
    written = 1  # the lines of the answers so far
    for entrant in contest.audited:
        for record in entrant.records.values():
            level, line = contest.levels[record.level - 1], entrant.lines[record.level - 1]
            number = numbers[str(level.number), entrant.name] = len(numbers) + 1
            drawn += [*level.rows, f"Title: {title_of(entrant, level)}".encode(), b""]
            words, first = [*line.words], written + 1 + len(record.answer.above)
            if words[:1] == ["line"]:
                words[1] = str(int(words[1]) + first - record.line)
            said.append(" ".join([f"level {number}", line.status, *words]))
            count[line.status] += 1
            records.append(record.answer.record(number))
            written += records[-1].count(b"\n")
    total = "".join(f" {status} {count[status]}" for status in STATUSES)
    return [answers.spelled(drawn), answers.text(records, 2),
            "".join(f"{line}\n" for line in [*said, f"total {len(said)}{total}"]).encode()], numbers


def _matrix(contest: Contest, numbers: Numbers) -> Tuple[List[str], List[List[str]]]:
    """Returns the head and the rows of the levels by the entrants. Of a solution a cell has its
    moves and pushes, marked if it is the best or tied by moves."""
    names = [entrant.name for entrant in contest.audited]
    rows = []
    for level in contest.levels:
        row = [_cell(str(level.number)), _cell(level.title)]
        for entrant in contest.audited:
            line, number = entrant.lines[level.number - 1], numbers.get((str(level.number),
                                                                         entrant.name))
            shown = "{}/{}".format(*line.counts) if line.counts else line.status
            mark = contest.marks(level.number, entrant.name)[0]
            cell = _cell(shown, f"{line.status} {mark}".strip())
            row.append(_linked(cell, number) if line.status != "missing" else "<td></td>")
        rows.append(row)
    return ["level", "title", *names], rows


def _refusals(contest: Contest, numbers: Numbers) -> str:
    """Returns the refused answers, each with a place for its picture, and the files that couldn't
    be audited, in HTML."""
    found = []
    for entrant in (it for it in contest.entrants if it.fault):
        found += [f"<h3>{html.escape(entrant.name)}</h3>",
                  _reason(entrant.fault, messages.of_fault(entrant.fault))]
    for refusal in contest.refusals():
        number = numbers[str(refusal.level.number), refusal.entrant.name]
        title = html.escape(title_of(refusal.entrant, refusal.level))
        found += [f'<h3><a href="#{number}">{title}</a></h3>',
                  _reason(refusal.line.said, refusal.why()),
                  f'<div class="refusal" data-number="{number}"></div>']
    return "\n".join(["<h2>Refused</h2>", *found, ""]) if found else ""


def _reason(words: str, why: str) -> str:
    """Returns what a report says, and the reason in sentences, in HTML."""
    return f"<p><code>{html.escape(words)}</code> {html.escape(why)}</p>"


def _cell(text: str, kind: str = "") -> str:
    kind = kind or "number" * text.isdigit()
    named = f' class="{kind}"' if kind else ""
    return f"<td{named}>{html.escape(text)}</td>"


def _linked(cell: str, number: object) -> str:
    """Returns a cell with a link to an entry, if there is one."""
    if not number:
        return cell
    begin, _, rest = cell.partition(">")
    return f'{begin}><a href="#{number}">{rest[:-5]}</a></td>'


def _table(caption: str, head: Sequence[str], rows: Sequence[Sequence[str]]) -> str:
    """Returns a table in HTML, whose cells are in HTML already."""
    heads = "".join(f"<th><button>{html.escape(it)}</button></th>" for it in head)
    return "\n".join([f"<table><caption>{caption}</caption>", f"<thead><tr>{heads}</tr></thead>",
                      "<tbody>", *(f"<tr>{''.join(row)}</tr>" for row in rows),
                      "</tbody></table>", ""])
