"""tests/run hostile PROGRAM [quick|ATTACK..]: attacks sokotool with files, names and systems that
mean harm, each in a process of its own with little memory and time. After each run there is a clear
message and no traceback, the files that were there have their bytes, and no file is outside of the
folder. 'quick' takes those that take seconds; the others take minutes, with what they draw from a
seed that is new each day and printed. PROGRAM is the sokoaudit that is run. Ends in 'N passed, M
failed'."""
import csv
import glob
import hashlib
import io
import os
import random
import re
import shutil
import subprocess
import sys
import zipfile
from pathlib import Path
from shlex import quote
from typing import Callable, Dict, List, Sequence

from tests.expressions import Use, every_use, slow_on
from tests.runner import (TOP, Cases, Ran, arguments, call, chosen, daily_seed, decode, encode,
                          read, write)

TOOL = [sys.executable, f"{TOP}/sokotool"]
ONE = "#####\n#@$.#\n#####\nSolution: R\n"
PLAIN = "#####\n#@$.#\n#####\n"
ON_A_WALL = "#######\n#@ .  #\n#     #\n# $ $.#\n#######\n"  # two boxes, where one goal is
# kilobytes of address space, and seconds of one processor
ROOM, SECONDS = 1_500_000, 20
LIMITED = f"ulimit -v {ROOM} -t {SECONDS} && exec timeout 600 "
MARKUP = ("</script><script>alert(1)</script>", "<!--<script>", "]]><b>", "&lt;img src=x&gt;",
          "<img src=x onerror=alert(1)>", "\u2028alert(1)//", "\x1b]0;title\x07",
          "'\"><svg/onload=alert(1)>")
FORMULAS = "=1+1", "+1", "-1", "@SUM(1)"
CALLS = {"fsync": ["EIO"], "link,linkat": ["EIO", "EPERM", "ENOSPC"], "unlink,unlinkat": ["EIO"],
         "rename,renameat,renameat2": ["EIO", "ENOSPC"], "write": ["EIO", "ENOSPC"]}


def files() -> Dict[str, str]:
    """The files of this folder and the one above, by digests of their bytes. No link is followed.
    """
    found = {}
    for folder, _, inner in os.walk(".."):
        for name in (f"{folder}/{it}" for it in inner):
            if os.path.isfile(name) and not os.path.islink(name):
                with open(name, "rb") as file:
                    found[name] = hashlib.sha256(file.read()).hexdigest()
    return found


def attack(cases: Cases, name: str, words: Sequence[str], status: int, *says: str) -> Ran:
    """A case: sokotool, with these words, ends with a status and has these texts in what it prints,
    without a control character. The names of new files begin with 'out', and they are removed; the
    others are as they were."""
    before = files()
    ran = call(["bash", "-c", f'{LIMITED} "$0" "$@"', *TOOL, *words])
    said, after = decode(ran.errors + ran.output), files()
    others = {it for it in {*before, *after} if before.get(it) != after.get(it)
              and not it.startswith("../here/out")}
    is_so = ran.status == status and "Traceback" not in said and not others and all(
        it in said for it in says) and not re.search("[\x00-\x08\x0b-\x1f\x7f]", said)
    cases.holds(name, is_so, f"status {ran.status}", *sorted(others), *said.splitlines()[-20:])
    for it in glob.glob("out*"):
        os.remove(it)
    return ran


def zipped(path: str, members: Dict[str, bytes], mode: int = 0) -> None:
    """Writes a zip file with these files, in the mode of Unix if one is given."""
    with zipfile.ZipFile(path, "w", zipfile.ZIP_DEFLATED) as archive:
        for name, data in members.items():
            it = zipfile.ZipInfo(name)
            it.external_attr, it.compress_type = mode << 16, zipfile.ZIP_DEFLATED
            archive.writestr(it, data)


def archives(cases: Cases) -> None:
    """Archives that unpack to much, out of the folder, to links or to archives, or are cut off."""
    one = ONE.encode()
    zipped("bomb.zip", {"a.xsb": bytes(300_000_000)})
    attack(cases, "a bomb", ["convert", "out", "bomb.zip"], 2, "cannot read bomb.zip")
    zipped("up.zip", {it: one for it in ("../up.xsb", os.path.abspath("whole.xsb"),
                                         "a/../../up.xsb", "..\\up.xsb", "C:\\up.xsb")})
    attack(cases, "paths that lead up", ["convert", "out", "up.zip"], 0)
    cases.holds("nothing is unpacked", not os.path.exists("whole.xsb"))
    zipped("link.zip", {"link.xsb": b"/etc/passwd"}, mode=0o120777)
    ran = attack(cases, "a link", ["convert", "out", "link.zip"], 0, "link.xsb")
    cases.holds("it isn't followed", b"root:" not in ran.output + ran.errors)
    data = one
    for depth in range(40):
        zipped("deep.zip", {"b.xsb" if depth == 0 else "in.zip": data})
        with open("deep.zip", "rb") as file:
            data = file.read()
    said = decode(call([*TOOL, "convert", "out", "deep.zip", "--replace"]).errors)
    cases.holds("40 archives in each other", "in.zip" in said and "Traceback" not in said, said)


def cut_archives(cases: Cases) -> None:
    """An archive that is cut off at each place, and one with another byte."""
    chance = random.Random(daily_seed())
    zipped("whole.zip", {"a.xsb": ONE.encode(), "b/c.txt": PLAIN.encode() * 9})
    with open("whole.zip", "rb") as file:
        whole = file.read()
    for at in sorted(chance.sample(range(len(whole)), 60)):
        byte = bytes([chance.randrange(256)])
        for name, data in (("cut", whole[:at]), ("other", whole[:at] + byte + whole[at + 1:])):
            with open("broken.zip", "wb") as file:
                file.write(data)
            ran = call([*TOOL, "convert", "out", "broken.zip", "--replace"])
            cases.holds(f"{name} at {at}", ran.status in (0, 1, 2) and b"Traceback" not in
                        ran.errors, *decode(ran.errors).splitlines())


def xml(cases: Cases) -> None:
    """XML with entities that grow, that name files, deep, and cut off."""
    head = '<?xml version="1.0"?>\n'
    grown = "".join(f'<!ENTITY e{it} "{f"&e{it - 1};" * 10}">' for it in range(1, 12))
    rows = "<L>#####</L><L>#@$.#</L><L>#####</L>"
    body = ('<SokobanLevels><Title>{0}</Title><LevelCollection><Level Id="1">' + rows
            + "</Level></LevelCollection></SokobanLevels>")
    write("grows.slc", f'{head}<!DOCTYPE s [<!ENTITY e0 "x">{grown}]>' + body.format("&e11;"))
    attack(cases, "entities that grow", ["convert", "out", "grows.slc"], 1,
           "grows.slc line 2: cannot be read on from here: the file declares an entity")
    write("names.slc", f'{head}<!DOCTYPE s [<!ENTITY e SYSTEM "file:///etc/passwd">]>'
          + body.format("&e;"))
    ran = attack(cases, "an entity that names a file", ["convert", "out", "names.slc"], 1,
                 "names.slc line 2: cannot be read on from here: the file declares an entity")
    cases.holds("it isn't read", b"root:" not in ran.output + ran.errors)
    write("deep.slc", f"{head}{'<a>' * 200_000}{'</a>' * 200_000}")
    attack(cases, "200,000 elements in each other", ["convert", "out", "deep.slc"], 1,
           "deep.slc line 1: no level in this file")
    write("cut.slc", (head + body.format("x"))[:-30])
    attack(cases, "cut off", ["convert", "out", "cut.slc"], 1, "cut.slc line 2: cannot be read on")


def names(cases: Cases) -> None:
    """Names of files that are options, have several lines, or control a terminal."""
    every = ("-rf", "a\nb.xsb", "\x1b[31mred.xsb", "\x07.xsb", "a\tb.xsb", "a b'\".xsb",
             "$(touch out-of-here).xsb", "x" * 200 + ".xsb", "\udcff.xsb")
    for at, name in enumerate(every):
        path = encode(f"in{at}/{name}")
        os.mkdir(f"in{at}")
        for what, data, status in (("", b"", 0), ("a fault in ", b"#" * 300 + b"\n\xff\n", 1)):
            with open(path, "wb") as file:
                file.write(data + ONE.encode())
            attack(cases, f"{what}a file named {name!r}", ["convert", "out", f"in{at}"], status,
                   "1 level")


def texts(cases: Cases) -> None:
    """Formulas and markup in what a file says, in a table and in a page."""
    said = "".join(f"{PLAIN}Title: {it}\nAuthor: {it}\n; {it}\nSolution: R\n\n"
                   for it in (*FORMULAS, *MARKUP))
    write("in.txt", said)
    write("one.txt", ONE)
    count = len(FORMULAS) + len(MARKUP)
    attack(cases, "titles that are markup", ["check", "out", "in.txt", "--seconds", "0"], 0,
           f"{count} levels")
    call([*TOOL, "check", "out", "in.txt", "--seconds", "0"])
    call([*TOOL, "check", "one", "one.txt", "--seconds", "0"])
    with open("out.html", encoding="utf-8") as file, open("one.html", encoding="utf-8") as other:
        page, plain = file.read(), other.read()
    for mark in ("</script", "<script", "<!--", "<svg", "<b>"):
        cases.same(f"{mark} in the page", str(plain.count(mark)), str(page.count(mark)))
    cases.holds("no image in the page", "<img src=x" not in page)
    named = call([*TOOL, "named", "out.xsb", "out.report", "--csv"]).output.decode()
    os.rename("in.txt", "=1+1.txt")
    call([*TOOL, "check", "sheet", "=1+1.txt", "--seconds", "0", "--csv"])
    for row in csv.reader(io.StringIO(named + read("sheet.csv"))):
        cases.holds(f"no formula in {row}", not any(it[:1] and it[0] in "=+-@\t\r" for it in row))


def devices(cases: Cases) -> None:
    """A pipe that nobody writes to, devices, and links that lead to themselves."""
    os.mkfifo("pipe")
    os.symlink("loop", "loop")
    os.symlink("/dev/zero", "zero.xsb")
    os.mkdir("in")
    os.mkfifo("in/pipe.xsb")
    write("in/a.xsb", ONE)
    attack(cases, "a link to itself", ["convert", "out", "loop"], 2, "cannot read loop")
    attack(cases, "a device without an end", ["convert", "out", "zero.xsb"], 2, "zero.xsb")
    attack(cases, "a pipe in a folder", ["convert", "out", "in"], 0, "1 level")
    with subprocess.Popen(["bash", "-c", f"echo {quote(PLAIN)} >pipe"]):
        attack(cases, "a pipe that is named", ["convert", "out", "pipe"], 0, "1 level")


def deep_folders(cases: Cases) -> None:
    """A file as deep as its path can name it, and folders that link to those around them."""
    here = os.getcwd()
    for _ in range(1900):
        os.mkdir("d")
        os.chdir("d")
    write("a.txt", PLAIN)
    os.chdir(here)
    ran = call(["bash", "-c", f'{LIMITED} "$0" "$@"', *TOOL, "convert", "out", "d"])
    cases.holds("a file in 1,900 folders", ran.status == 0 and b": 1 level," in ran.errors,
                f"status {ran.status}", *decode(ran.errors).splitlines()[-9:])
    call(["rm", "-r", "d"])  # what Python calls for it is too deep
    os.mkdir("in")
    write("in/a.txt", PLAIN)
    for name, to in (("again", "."), ("up", ".."), ("away", "../in/again/up")):
        os.symlink(to, f"in/{name}")
    attack(cases, "folders that link to those around them", ["convert", "out", "in"], 0, "1 level")


def full_disk(cases: Cases) -> None:
    """A limit of the size of files, as a full disk: check keeps the former files."""
    write("in.txt", "\n".join(ONE for _ in range(300)))
    call([*TOOL, "check", "mine", "in.txt", "--seconds", "0"])
    before = files()
    write("in.txt", "\n".join(ONE for _ in range(301)))
    for blocks in (0, 1, 16):
        limited = f"trap '' XFSZ; ulimit -f {blocks}; exec \"$0\" \"$@\""
        ran = call(["bash", "-c", limited, *TOOL, "check", "mine", "in.txt", "--seconds", "0"])
        changed = {it for it, data in files().items() if before.get(it) != data}
        is_so = ran.status == 2 and changed == {"../here/in.txt"} and b"cannot write" in ran.errors
        cases.holds(f"up to {blocks} KiB a file", is_so and b"Traceback" not in ran.errors,
                    *sorted(changed), decode(ran.errors))


def own_files() -> Dict[str, str]:
    """The files of check, by digests of their bytes."""
    return {name: it for name, it in files().items() if name.startswith("../here/mine")}


def at_once(cases: Cases) -> None:
    """Three runs of check at once, and files from the future: the files are as after one run."""
    write("in.txt", "\n".join(ONE for _ in range(50)))
    words = [*TOOL, "check", "mine", "in.txt", "--seconds", "0"]
    call(words)
    wanted = own_files()
    for name in glob.glob("mine*"):
        os.remove(name)
    runs = [subprocess.Popen(words, stdout=subprocess.PIPE, stderr=subprocess.STDOUT)
            for _ in range(3)]
    said = [it.communicate()[0] for it in runs]
    cases.holds("each ends well, or says that another one runs", all(
        b"Traceback" not in text and (it.returncode == 0 or b"cannot" in text or b"another" in text)
        for it, text in zip(runs, said)), *map(decode, said))
    cases.same("the files of three runs at once", str(wanted), str(own_files()))
    for name in glob.glob("mine*"):
        os.utime(name, (4e9, 4e9))
    ran = call(words)
    cases.holds("files from the future", ran.status == 0 and b"nothing changed" in ran.output,
                decode(ran.output + ran.errors))


def many_files(cases: Cases) -> None:
    """10,000 files, and one more."""
    os.mkdir("in")
    for it in range(10_000):
        write(f"in/{it:05d}.txt", PLAIN)
    attack(cases, "10,000 files", ["convert", "out", "in"], 0, "10000 levels")
    write("in/one-more.txt", PLAIN)
    attack(cases, "10,001 levels in files", ["convert", "out", "in"], 2, "10000 levels")


def system_calls(cases: Cases) -> None:
    """The calls by which check writes fail, one in each run: no file is half written, and after the
    next run all are new."""
    if not cases.needs("strace", "faults at system calls"):
        return
    words = [*TOOL, "check", "mine", "in.txt", "--seconds", "0"]
    write("in.txt", ONE)
    call(words)
    old = {name: Path(name).read_bytes() for name in glob.glob("mine*")}
    write("in.txt", ONE + "\n" + ONE.replace("$.", "$ ."))
    call(words)
    new = own_files()
    chance = random.Random(daily_seed())
    for kind, errors in CALLS.items():
        for at in range(1, 16):
            for name in glob.glob("mine*") + glob.glob(".sokotool*"):
                os.remove(name)
            for name, data in old.items():
                Path(name).write_bytes(data)
            before, error = own_files(), chance.choice(errors)
            ran = call(["strace", "-f", "-qq", "-o", "/dev/null", "-e", f"trace={kind}", "-e",
                        f"inject={kind}:error={error}:when={at}", *words])
            said = decode(ran.errors + ran.output)
            now = own_files()
            is_so = all(now.get(it) in (before.get(it), new.get(it)) for it in {*before, *new})
            cases.holds(f"{error} at {kind} {at}", is_so and "Traceback" not in said, said)
            call(words)
            cases.same(f"{error} at {kind} {at}, and the next run", str(new), str(own_files()))


def interrupted(cases: Cases) -> None:
    """A signal interrupts calls of the program. Such a read ends the run with its message. Such a
    write is done again if its text was kept, and one of a longer text ends the run."""
    program, count = os.environ["SOKOAUDIT"], 5000
    lacks = "" if shutil.which("strace") else "there is no command strace"
    if program == f"{TOP}/reference/sokoaudit":
        lacks = "Python does each of them again"
    if lacks:
        cases.skip("interrupted calls", lacks, 32)
        return
    write("levels", PLAIN + "\n" + PLAIN)
    write("answers", "sokoban-answers 2\nlevel 1\nsolution\nR\nend\n")
    write("many", "\n".join(ON_A_WALL for _ in range(count)))
    two = ("level 1 solved moves 1 pushes 1 changes 1\nlevel 2 missing\n"
           "total 2 solved 1 unsolvable 0 refused 0 missing 1\n")
    zones = "".join(f"level {it + 1}\nunsolvable\nzone 2,4 3,4 4,4 5,4 6,4\nend\n"
                    for it in range(count))
    audits = "audit levels answers", "audit levels - <answers", "audit - answers <levels"
    for name, calls, audit, said in (
            ("no call", "read:when=9+", audits, f"{two}status 1"),
            ("the read of the levels", "read:when=1", audits, "cannot read levels\nstatus 2"),
            ("the read of their end", "read:when=2", audits, "cannot read levels\nstatus 2"),
            ("the read of the answers", "read:when=3", audits, "cannot read answers\nstatus 2"),
            ("the read of that end", "read:when=4", audits, "cannot read answers\nstatus 2"),
            ("a write", "write:when=1", audits, f"{two}status 1"),
            ("three writes", "write:when=1..3", audits, f"{two}status 1"),
            ("each other write", "write:when=1+2", ("make many",),
             f"sokoban-answers 2\n{zones}status 0"),
            ("the write of a long report", "write:when=1", ("audit many answers",),
             "cannot write\nstatus 2")):
        for words in audit:
            kind, _, when = calls.partition(":")
            paths = "-P levels -P answers" if kind == "read" else ""
            cases.prints(f"{name} is interrupted: {words}", said + "\n",
                         f"strace -qq -o trace -e trace={kind} {paths} -e inject={kind}:error=EINTR"
                         f':{when} "$0" {words} 2>errors; s=$?; grep -v ^strace: errors; exit $s',
                         program)
        number = read("trace").count("EINTR")
        cases.holds(f"{name}: {number} calls were", number > 0 or name == "no call")


def expressions(cases: Cases) -> None:
    """Lines that repeat a character, a pair or a phrase: no regular expression of the scripts takes
    more than linear time on them."""
    planted = Use("planted", re.compile("x*y"), "search")
    cases.holds("one that takes more is noticed", slow_on(planted))
    for use in every_use():
        found = slow_on(use)
        cases.holds(f"{use.place}.{use.method} takes linear time", not found, str(found))


Attack = Callable[[Cases], None]
QUICK: List[Attack] = [archives, xml, names, texts, devices, deep_folders, full_disk, at_once,
                       interrupted]
SLOW: List[Attack] = [cut_archives, many_files, system_calls, expressions]


def run(cases: Cases, work: Attack) -> None:
    """Runs an attack in a folder of a folder."""
    os.mkdir("here")
    os.chdir("here")
    work(cases)


def main() -> None:
    """Runs the part."""
    program, *words = arguments("hostile PROGRAM [quick|ATTACK..]")
    every = {it.__name__: it for it in (*QUICK, *SLOW)}
    named = [it.__name__ for it in QUICK] if words == ["quick"] else chosen(words, [*every])
    cases = Cases("hostile")
    os.environ["SOKOAUDIT"] = program
    cases.say(f"the seed is {daily_seed()}")
    cases.side_by_side({it: (run, every[it]) for it in named})
    cases.finish()


if __name__ == "__main__":
    main()
