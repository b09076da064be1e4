"""tests/run samples PROGRAM: runs sokoaudit on the samples, and compares its output and exit status
with the files next to them. Ends in 'N passed, M failed'."""
import glob
import os

from tests.runner import TOP, Cases, arguments, read

HERE = "../tests/samples"

# the words of a run in samples/, the file with its output, and its exit status
FILES = {
    "--help": ("help", 0),
    "-h": ("help", 0),
    "help": ("help", 0),
    "--help 2>/dev/full": ("help", 0),
    "make $'\\xff'": (f"{HERE}/words", 2),
    f"audit {HERE}/faulty.xsb {HERE}/faulty.answers": (f"{HERE}/faulty.error", 2),
    "audit deadlocks.xsb deadlocks.answers": ("deadlocks.report", 0),
    "audit every.xsb every.answers": ("every.report", 1),
    "audit exports.xsb exports.answers": ("exports.report", 1),
    "audit first.xsb first.answers": ("first.report", 0),
    "make deadlocks.xsb": ("deadlocks.made", 0),
    "make first.xsb": ("first.made", 0),
    "make zones.xsb": ("zones.made", 0),
    "dead first.xsb 4": ("first.4.map", 0),
}

(program,) = arguments("samples PROGRAM")
cases = Cases("samples")
os.chdir(f"{TOP}/samples")
for words, (file, status) in FILES.items():
    cases.prints(f"sokoaudit {words}", f"{read(file)}status {status}\n",
                 f'exec -a sokoaudit "$0" {words}', program)
found = {it for end in ("report", "made", "map") for it in glob.glob(f"**/*.{end}", recursive=True)}
left = sorted(found - {it for it, _ in FILES.values()})
cases.same("the files that no run is compared with", "", " ".join(left))
cases.finish()
