"""Every command of sokotool and of the reference as a user's shell may run it: in another locale,
with another mask, and with streams that are closed."""
import contextlib
import glob
import os
import shutil
import signal
import subprocess
import sys
from typing import Dict, List, Set, Tuple

from sokotool.main import COMMANDS
from tests.tools import helping
from tests.tools.helping import TOP, Case, not_on_windows

SAMPLES = ("first.xsb", "first.answers", "first.report")
EXPORT = "Grüße\n\n#####\n#@$.#\n#####\nTitle: Grün\n\n#####\n# @ #\n#####\nSolution\nR\n"
# the words of each command in a folder with these samples and grün.txt, and some that fail
TOOL = """check mine grün.txt first.xsb --seconds 0
page first.xsb first.answers first.report
table first.xsb first.answers
find first.xsb first.report
export --to sok first
convert new grün.txt
warn grün.txt
merge first.answers
carry first.xsb first.answers first.xsb
named first.xsb first.report
diff first.xsb first.report first.xsb first.report
twins first.xsb first.xsb
check mine keine-grüne.txt
named first.xsb none
merge first.xsb
help check
--version
solve x""".splitlines()
REFERENCE = """audit first.xsb first.answers
make first.xsb
dead first.xsb 4
dead first.xsb 99
audit none first.answers
audit first.xsb first.xsb
--version
solve x""".splitlines()
Ran = Tuple[int, bytes, bytes, Dict[str, bytes]]
# runs that are known, with the modes of their files
PLAIN: Dict[Tuple[str, ...], Tuple[Ran, Set[int]]] = {}


@not_on_windows
class Streams(Case):
    def ran(self, words: List[str], shell: str = "", **more: str) -> Ran:
        """The status, the output, the errors, and the files that are made, of a run in a folder of
        its own, after commands of a shell and with more variables."""
        os.mkdir("room")
        for name in SAMPLES:
            shutil.copy(os.path.join(helping.SAMPLES, name), "room")
        self.write("room/grün.txt", EXPORT)
        ran = subprocess.run(
            ["sh", "-c", f'{shell}\nexec "$@"', "sh", sys.executable, *words], cwd="room",
            stdout=subprocess.PIPE, stderr=subprocess.PIPE, stdin=subprocess.DEVNULL, check=False,
            env={**os.environ, "SOKOAUDIT": helping.PROGRAM, **more})
        files = {name: self.read(f"room/{name}") for name in os.listdir("room")}
        self.modes = {os.stat(it).st_mode & 0o777 for it in glob.glob("room/mine.*")}
        shutil.rmtree("room")
        return ran.returncode, ran.stdout, ran.stderr, files

    def plain(self, words: List[str]) -> Ran:
        """The same of a run with all streams, which is run once for all tests."""
        known = tuple(words)
        if known not in PLAIN:
            PLAIN[known] = self.ran(words, "umask 022"), self.modes
        ran, self.modes = PLAIN[known]
        return ran

    def commands(self) -> List[List[str]]:
        """The words of all runs."""
        self.assertEqual({line.split()[0] for line in TOOL} & {*COMMANDS}, {*COMMANDS})
        places = ((f"{TOP}/sokotool", TOOL), (f"{TOP}/reference/sokoaudit", REFERENCE))
        return [[program, *line.split()] for program, lines in places for line in lines]

    def test_locale_and_mask(self) -> None:
        """The locale changes nothing, and the mask only who may read what is made."""
        for words in self.commands():
            plain = self.plain(words)
            self.assertNotIn(b"Traceback", plain[2])
            self.assertLessEqual(self.modes, {0o644}, words)
            bare = self.ran(words, "umask 077", LC_ALL="C", PYTHONCOERCECLOCALE="0")
            self.assertEqual(bare, plain, words)
            self.assertLessEqual(self.modes, {0o600}, words)

    def test_closed_streams(self) -> None:
        """Without standard error the status, the output and the files stay. Without standard output
        a run that would print has status 2 and says why."""
        for words in self.commands():
            status, output, errors, files = self.plain(words)
            self.assertEqual(self.ran(words, "exec 2>&-"), (status, output, b"", files), words)
            closed = self.ran(words, "exec >&-")
            self.assertEqual((closed[0], closed[1]), (2, b""), words)
            self.assertEqual(closed[2].count(b"\n"), 1, (words, closed[2]))

    def test_interrupt(self) -> None:
        """An interrupt ends the reference without a word."""
        os.mkfifo("levels")
        with subprocess.Popen([sys.executable, f"{TOP}/reference/sokoaudit", "make", "levels"],
                              stdout=subprocess.PIPE, stderr=subprocess.STDOUT,
                              # what is in the background would ignore it
                              preexec_fn=lambda: signal.signal(signal.SIGINT, signal.SIG_DFL)
                              ) as run:
            with open("levels", "wb"):  # it opens when the run reads
                for _ in range(600):  # Python may lose one just before it reads
                    run.send_signal(signal.SIGINT)
                    with contextlib.suppress(subprocess.TimeoutExpired):
                        run.wait(0.1)
                        break
                self.assertEqual((run.wait(0), run.communicate()[0]), (130, b""))
