"""Reads collections of levels that programs export, and writes NAME.xsb and NAME.answers.

Levels are read in plain rows, run-length coded, in letters, in strings, tables and quotes, from SLC
files and from files of mazes. Letters are the solution of a level that they solve: the one above
them, or another one of the file. A file with letters and no level is a list of solutions, for
levels in other files. A replay puts each letter in its case. docs/keeping.md lists what is read.

Anything that can't be read or played is reported with file and line. If NAME.xsb or NAME.answers
is there already, with other contents, nothing is written without --replace."""
import argparse
import os
import re
import sys
from typing import Iterator, Optional, Sequence

from .. import answers, builder, levels, output, own_files, sources, texts
from ..builder import Collection
from ..formats import other_games, reading, slc, writing
from ..origins import Place
from . import encoding_argument

MOST_MESSAGES = 1000
# what no text begins with
_FORMS = {b"\x1f\x8b": "a gzip file", b"BZh91AY&SY": "a bzip2 file", b"\xfd7zXZ": "an xz file",
          b"7z\xbc\xaf": "a 7-Zip archive", b"Rar!\x1a\7": "a RAR archive",
          b"PK\3\4": "a damaged zip archive, or one too deep in others"}
# ends of lines that are none to an editor, and count as none; a web page begins one with its tags
_BREAKS = re.compile(
    r"[\v\f\x85\u2028\u2029\ufeff]|</?pre\b[^<>\n]*>|<!\[CDATA\[|\]\]>", re.I)


def arguments(parser: argparse.ArgumentParser) -> None:
    parser.add_argument("name", metavar="NAME",
                        help="the files NAME.xsb and NAME.answers are written")
    parser.add_argument("files", metavar="FILE", nargs="+",
                        help="an export, or a folder of them; - is standard input")
    parser.add_argument("--best", choices=[builder.MOVES, builder.PUSHES], default="",
                        help="keep the solution with the fewest moves, as it does anyhow, or "
                             "pushes, and don't name the others")
    parser.add_argument("--replace", action="store_true",
                        help="replace files that are there already, and keep them as NAME.*~")
    parser.add_argument("--split", action="store_true",
                        help="write NAME-1.*, NAME-2.* and so on, each within the limits of "
                             "sokoaudit")
    encoding_argument(parser)


def run(options: argparse.Namespace) -> int:
    """Converts the files, and reports how much was read."""
    own_files.check_name(options.name)
    listed = sources.listed(options.files, own_files.own(options.name, has_parts=True))
    files = [export.name for export in listed]
    _check_inputs(files, [options.name + end for end in (own_files.XSB, own_files.ANSWERS)])
    said = 0

    def say(place: Place, why: str, _: bool) -> None:
        nonlocal said
        said += 1
        if said <= MOST_MESSAGES:
            print(f"convert: {place.said(why)}", file=sys.stderr)

    collection = Collection(options.best, options.split, options.encoding or "", say)
    read_files(collection, listed)
    if said > MOST_MESSAGES:
        print(f"convert: {said - MOST_MESSAGES} more messages", file=sys.stderr)
    written = [*_replaced(collection.files(options.name), options.replace)]
    _check_inputs(files, [name for name, _ in written])
    output.write_files(written)
    print(f"convert: {collection.summary()}", file=sys.stderr)
    return int(collection.faults > 0)


def _replaced(written: Sequence[output.File], may_replace: bool) -> Iterator[output.File]:
    """Yields the files, after a copy, named NAME~, of each one that is there with other contents.
    If none may be replaced, one ends the command."""
    for name, data in written:
        output.check_writable(name)
        former = own_files.bytes_of(name) if os.path.isfile(name) else None
        if former is not None and former != data:
            yield name + "~", former
            if not may_replace:
                raise texts.Stop(f"{texts.shown(name)} is there already: --replace keeps it as "
                                 f"{texts.shown(name)}~")
    yield from written


def _check_inputs(files: Sequence[str], written: Sequence[str]) -> None:
    known = {it for name in written for it in texts.identities(name)}
    for file in files:
        if not known.isdisjoint(texts.identities(file)):
            raise texts.Stop(f"would write over {texts.shown(file)}")


# ---- what to read

def read_files(collection: Collection, listed: Sequence[sources.Export]) -> None:
    """Reads exports into the collection, but no other file that sokotool wrote for some NAME than
    its levels and answers. A file that can't be read is reported, unless it is the only one."""
    reader = reading.Reader(collection)
    collection.names = sources.published([export.name for export in listed])
    # Wildcards name backups and kept files too, but not without the others.
    alone = {it.name for it in listed if not it.is_found
             and re.sub(r"~\Z|\.kept(?=\.)", "", it.name) not in collection.names}
    for export in listed:
        try:
            data = export.read()
        except texts.Stop as stop:
            if len(listed) == 1:
                raise
            collection.fault(0, str(stop), export.name)
            continue
        if export.name not in alone and own_files.is_made(export.name, data):
            continue
        if answers.is_begun(data):
            _read_answers(reader, export.name, texts.in_utf8(data),
                          sources.levels_of(export, listed))
        else:
            _read_export(reader, export, data)
    sources.close()
    try:
        reader.read()
        writing.write(reader)
    finally:
        collection.report()


def _read_answers(reader: reading.Reader, name: str, data: bytes,
                  its_levels: Optional[sources.Export]) -> None:
    """Reads answers that sokotool or sokoaudit wrote to the levels of another export. A record that
    is for none of them is left out."""
    if its_levels is None:
        stem = texts.shown(os.path.splitext(os.path.basename(name))[0])
        reader.collection.fault(
            1, f"answers to levels that are not there: {stem}.xsb is missing", name)
        return
    try:
        found = levels.read(its_levels.read())
        read = answers.read(data, rising=False)
        for record in read.records:
            if record.level > len(found):
                why = answers.advice(data, answers.Fault(record.line, "unknown"), len(found))
                reader.collection.fault(record.line, why, name)
        reader.add_answers(name, found, read._replace(
            records=[it for it in read.records if it.level <= len(found)]))
    except texts.Stop as stop:
        reader.collection.fault(1, str(stop), name)
    except answers.Fault as fault:
        reader.collection.fault(fault.line, answers.advice(data, fault, len(found)), name)


def _read_export(reader: reading.Reader, export: sources.Export, data: bytes) -> None:
    """Reads the text of an export as lines."""
    collection, name = reader.collection, export.name
    form = _form_of(data)
    text, coding = (None, "") if form else texts.text_of(
        data, collection.encoding or slc.encoding_of(data))
    if text is None:
        is_idle = export.is_found and not form and not any(
            len(line) > 2 and levels.is_row(line)
            for line in texts.lines(data.replace(b"\0", b"")))
        if is_idle:
            collection.idle.setdefault("", []).append(collection.names[name])
        else:
            collection.fault(1, _why_no_text(collection, data), name)
        return
    if game := other_games.game_of(text):
        if export.is_found:
            collection.idle.setdefault(game, []).append(collection.names[name])
        else:
            collection.fault(1, f"a file of {game}, which is not read", name)
        return
    if coding:
        collection.note(1, f"not UTF-8: read as {coding}; --encoding names another encoding", name)
    if slc.is_slc(text):
        found, titles, fault = slc.lines_of(text)
        its = reader.add(name, export.is_found, [line for _, line in found],
                         [at for at, _ in found], titles)
        if fault:
            collection.fault(*fault, name)
            its.faults += 1
        return
    lines = texts.lines_of(text)
    if not _BREAKS.search(text):
        reader.add(name, export.is_found, lines)
        return
    parts = [(at, part) for at, line in enumerate(lines, 1) for part in _BREAKS.split(line)]
    reader.add(name, export.is_found, [part for _, part in parts], [at for at, _ in parts])


def _form_of(data: bytes) -> str:
    """Returns what a file is that has to be unpacked first, or ""."""
    if data[257:262] == b"ustar":
        return "a tar archive"
    return next((form for begin, form in _FORMS.items() if data.startswith(begin)), "")


def _why_no_text(collection: Collection, data: bytes) -> str:
    """Returns why a file is no text."""
    if form := _form_of(data):
        return f"{form}, which is not read: unpack it first"
    at = data.find(b"\0")
    if at >= 0 and not data[at:].strip(b"\0"):
        return f"zero bytes at the end, from line {data.count(10, 0, at) + 1}"
    return f"not a text in {collection.encoding or 'UTF-8, UTF-16 or Latin-1'}"
