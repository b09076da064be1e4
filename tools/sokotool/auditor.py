"""Finds the program sokoaudit and runs it, or the reference in Python if there is nothing else."""
import contextlib
import math
import os
import shutil
import subprocess
import sys
import tempfile
from typing import Iterator, NamedTuple, Sequence, Tuple

from . import answers, levels, mistakes, report, system, texts

REFERENCE_NOTE = "checked by the reference in Python, not by the proved program"
_HERE = os.path.dirname(os.path.realpath(__file__))
_TOP = os.path.dirname(os.path.dirname(_HERE))
# the reference as pip or packaging/install-tools installs it, in a checkout, and in sokotool.pyz,
# which runs it itself
_REFERENCES = [*(os.path.join(_HERE, *up, "reference", "sokoaudit")
                 for up in ((), ("..",), ("..", ".."))), os.path.dirname(_HERE)]

# how a program begins: ELF, Windows, and macOS for one processor in either order of bytes or many
_BINARY = (b"\x7fELF", b"MZ", b"\xfe\xed\xfa\xce", b"\xfe\xed\xfa\xcf", b"\xce\xfa\xed\xfe",
           b"\xcf\xfa\xed\xfe", b"\xca\xfe\xba\xbe")


class Ran(NamedTuple):
    """The exit status of a run, what it printed, and its line on standard error."""

    status: int
    out: bytes
    fault: str


class Auditor(NamedTuple):
    """The program, and whether it is the reference."""

    path: str
    is_reference: bool

    def run(self, *words: str, seconds: float = math.inf, megabytes: int = 0) -> Ran:
        """Runs the program. If the run exceeds a limit, its fault names the limit. Some days are
        no limit: a system can't wait for any number of seconds."""
        command = [sys.executable, "-B", self.path] if self.is_reference else [self.path]
        try:
            ran = subprocess.run([*command, *words], stdin=subprocess.DEVNULL, capture_output=True,
                                 preexec_fn=system.memory_limit(megabytes) if megabytes else None,
                                 timeout=seconds if seconds < 1e6 else None, check=False)
        except subprocess.TimeoutExpired as late:
            return Ran(2, b"", f"stopped after {late.timeout:g} s")
        except OSError as error:
            raise texts.Stop(f"cannot run {texts.shown(self.path)}: {error.strerror}") from None
        said = texts.shown(ran.stderr.strip().split(b"\n")[-1])
        if ran.returncode not in (0, 1):
            return Ran(2, b"", said or f"ended by signal {-ran.returncode}")
        return Ran(ran.returncode, ran.stdout, said)

    def printed(self, *words: str) -> bytes:
        """Returns what a run prints: the report of `audit` with the levels and the answers, or the
        answers of `make` with the levels."""
        ran = self.run(*words)
        if ran.status == 2:
            raise texts.Stop(f"{texts.shown(self.path)} {words[0]}: {ran.fault}")
        return ran.out


class Audits(contextlib.ExitStack):
    """Runs sokoaudit on a collection, in a folder of its own. `text` is the last report."""

    def __init__(self, program: Auditor, levels_text: bytes, count: int) -> None:
        super().__init__()
        self.program, self.count = program, count
        self._folder = self.enter_context(tempfile.TemporaryDirectory())
        self._levels = self._put("levels", levels_text)
        self.text = b""

    def _put(self, name: str, data: bytes) -> str:
        path = os.path.join(self._folder, name)
        with open(path, "wb") as file:
            file.write(data)
        return path

    def audit(self, written: bytes) -> report.Report:
        """Returns the report on an answers text."""
        self.text = self.program.printed("audit", self._levels, self._put("answers", written))
        read = report.read(self.text)
        if fault := read.fault(self.count):
            raise texts.Stop(f"{texts.shown(self.program.path)} printed no report: {fault}")
        return read

    def made(self, some: Sequence[levels.Level]) -> Iterator[Tuple[int, answers.Answer]]:
        """Yields the certificates that sokoaudit makes for some levels, with their numbers."""
        text = b"\n".join(answers.spelled(level.rows) for level in some)
        for record in answers.read(self.program.printed("make", self._put("some", text))).records:
            yield some[record.level - 1].number, record.answer


def refusal(program: Auditor, level: levels.Level, lines: Sequence[bytes]) -> str:
    """Returns why an audit refuses lines as a certificate of a level, or ""."""
    with Audits(program, answers.spelled(level.rows), 1) as audits:
        line = audits.audit(answers.text([answers.certificate(1, lines)])).lines[0]
    if line.is_answered:
        return ""
    if line.words[:1] != ["line"]:
        return " ".join(["a certificate:", *line.words])
    at = int(line.words[1]) - 4  # The first line of the certificate is the fourth one of the text.
    why = mistakes.of_lines(lines, level).get(at)
    return ": ".join(filter(None, [texts.shown(lines[at]), " ".join(line.words[2:]), why]))


def find() -> Auditor:
    """Finds the program: the one that SOKOAUDIT names, that of this checkout, one beside sokotool,
    that of this installation, one on the PATH or built beside the script there, or the reference. A
    script counts only if SOKOAUDIT names it, and it isn't known to run the reference."""
    named = os.environ.get("SOKOAUDIT")
    if named and not _runs_reference(named):
        paths = [named]
    else:
        named, on_path = "", shutil.which("sokoaudit" + system.PROGRAM)
        paths = [_built(_TOP), os.path.join(_TOP, "sokoaudit" + system.PROGRAM),
                 os.path.join(_TOP, "..", "bin", "sokoaudit"),
                 *((on_path, _built(os.path.dirname(os.path.realpath(on_path)))) if on_path else ())
                 ]
    for path in [*paths, *([] if named else _REFERENCES)]:
        if os.path.isfile(path):
            is_reference = any(texts.same_file(path, it) for it in _REFERENCES)
            if is_reference or os.access(path, os.X_OK) and (
                    named or _beginning(path).startswith(_BINARY)):
                return Auditor(os.path.realpath(path), is_reference)
    raise texts.Stop(f"cannot run {texts.shown(named)}" if named else
                     "there is no sokoaudit: install it, or name it by SOKOAUDIT")


def _built(top: str) -> str:
    """Returns the place of the program that is built in a checkout."""
    return os.path.join(top, "crates", "sokoaudit", "out", "sokoaudit")


def _runs_reference(name: str) -> bool:
    """Returns whether a file is the script 'sokoaudit', or one that starts sokotool.pyz."""
    beginning = _beginning(name)
    return not beginning.startswith(_BINARY) and any(
        it in beginning for it in (b"SOKOAUDIT_QUIET", b"sokotool.pyz"))


def _beginning(name: str) -> bytes:
    with contextlib.suppress(OSError), open(name, "rb") as file:
        return file.read(2000)
    return b""


def is_quiet() -> bool:
    """Returns whether the user wants no notes on the reference."""
    return bool(os.environ.get("SOKOAUDIT_QUIET"))
