"""One file that Python runs: sokotool, the reference and the manual."""
import os
import re
import shutil
import signal
import subprocess
import sys
import unittest
import unittest.mock
import zipfile

from sokotool import auditor
from tests.tools import helping
from tests.tools.helping import (ONE, TOP, Case, Result, is_slow, not_on_windows,
                                 plain_variables)

MAKER = os.path.join(TOP, "packaging", "pyz")
NOTE = "sokoaudit: this is the reference in Python, not the proved program"


class Pyz(Case):
    def setUp(self) -> None:
        super().setUp()
        self.said = subprocess.run([sys.executable, MAKER, "it.pyz"], check=True,
                                   stdout=subprocess.PIPE).stdout.decode().splitlines()
        self.write("a.txt", ONE)

    def runs(self, *words: str, at: str = "it.pyz", **more: str) -> Result:
        """Runs the file with nothing beside it, and by default no program on the PATH."""
        variables = {name: it for name, it in plain_variables().items()
                     if name not in ("SOKOAUDIT", "SOKOAUDIT_QUIET")}
        ran = subprocess.run([sys.executable, at, *words], stdout=subprocess.PIPE,
                             stderr=subprocess.PIPE, stdin=subprocess.DEVNULL, check=False,
                             env={**variables, "PATH": os.devnull, **more})
        return Result(ran.returncode, ran.stdout, ran.stderr.decode())

    def test_check(self) -> None:
        """It reads, searches, audits, and writes the page."""
        result = self.runs("check", "my", "*.txt")
        self.assertEqual(result.out.decode().splitlines(),
                         ["my: 1 level, 1 solved, 0 unsolvable, 0 refused, 0 missing",
                          auditor.REFERENCE_NOTE,
                          "wrote: my.html, my.xsb, my.answers, my.report, my.memory"])
        self.assertEqual(result.status, 0)
        self.assertIn(b"<title>", self.read("my.html"))

    def test_windows(self) -> None:
        """The lines of keeping.md for Windows make the reference a command by the program's name,
        and all that is checked says so."""
        page = self.read(os.path.join(TOP, "docs", "keeping.md")).decode()
        first, second, _ = page.partition("```bat\n")[2].partition("\n```")[0].splitlines()
        self.assertEqual(second, "copy sokotool.bat sokoaudit.bat")
        line, _, name = first[len("echo "):].partition(" > ")
        for it in (name, "sokoaudit.bat"):
            self.write(it, line + " \r\n")
            os.chmod(it, 0o755)
        os.rename("it.pyz", "sokotool.pyz")
        os.mkdir("in")
        os.rename("a.txt", "in/a.txt")
        result = self.runs("check", "my", "in", "--seconds", "0", at="sokotool.pyz",
                           PATH=self.folder)
        self.assertEqual((result.status, result.err), (1, ""))
        count = [text.count(auditor.REFERENCE_NOTE.encode()) for text in (
            result.out, *(self.read("my" + it) for it in (".xsb", ".answers", ".report", ".html")))]
        self.assertEqual(count, [1] * 5)

    @unittest.skipUnless(shutil.which("git"), "there is no git")
    @is_slow
    def test_build_server(self) -> None:
        """The commands of keeping.md for a service find a collection as the program wrote it,
        also in a clone, and a file that was changed."""
        page = self.read(os.path.join(TOP, "docs", "keeping.md")).decode()
        commands = re.findall(r"(?:- run|entry): (python3 [^}\n]*)", page)
        self.assertEqual(len(commands), 2)
        os.makedirs("kept/inbox")
        os.rename("it.pyz", "kept/sokotool.pyz")
        os.rename("a.txt", "kept/inbox/a.txt")
        os.symlink(sys.executable, "python3")
        path = os.pathsep.join((self.folder, "/usr/bin", "/bin"))
        with unittest.mock.patch.dict(os.environ, SOKOAUDIT=helping.PROGRAM):
            os.chdir("kept")
            self.assertEqual(self.tool("check", "my", "inbox", "--jobs", "1").status, 0)
        for line in ("init -q", "add .", "-c user.name=a -c user.email=a@b commit -qm a",
                     "clone -q . ../server"):
            subprocess.run(["git", *line.split()], check=True)
        os.chdir("../server")
        for change, status in (("", 0), ("x", 1)):
            self.write("my.report", self.read("my.report") + change.encode())
            for command in commands:
                ran = subprocess.run(["sh", "-c", command], stdout=subprocess.PIPE, check=False,
                                     env={"PATH": path, "HOME": self.folder})
                said = b"my: no file would change\n" if not change else b"my.report line "
                self.assertTrue(ran.stdout.startswith(said), ran.stdout)
                self.assertEqual(ran.returncode, status)

    def test_audit(self) -> None:
        self.write("answers", "sokoban-answers 1\nlevel 1\nsolution\nR\nend\n")
        result = self.runs("audit", "a.txt", "answers")
        self.assertEqual((result.status, result.out.splitlines()[0]),
                         (0, b"level 1 solved moves 1 pushes 1 changes 1"))
        self.assertEqual((result.err.count("\n"), result.err[:len(NOTE)]), (1, NOTE))
        self.assertEqual(self.runs("make", "a.txt").out, b"sokoban-answers 1\n")
        result = self.runs("dead", "a.txt", "2")
        self.assertEqual((result.status, result.err.splitlines()[1:]), (2, ["no such level"]))

    @is_slow
    def test_manual(self) -> None:
        self.assertIn("keeping.md", self.runs("manual").out.decode().split())
        with open(os.path.join(TOP, "docs", "keeping.md"), "rb") as file:
            self.assertEqual(self.runs("manual", "keeping.md").out, file.read())
        self.assertIn(b"sokotool", self.runs("manual", "README.md").out)
        self.assertEqual(self.runs("manual", "none").status, 2)
        version = self.runs("--version").out.decode().split()[1]
        for page in ("sokoaudit.1", "sokoaudit-answers.5", "sokotool.1"):
            self.assertIn(f"\nVersion {version}.\n", self.runs("manual", page).out.decode())

    @not_on_windows
    def test_streams(self) -> None:
        """The note never joins a report, and what can't be written ends with status 2."""
        for command, end, said in (
                ("make a.txt", "2>&-", (0, b"sokoban-answers 1\n", b"")),
                ("make a.txt", "2>/dev/full", (0, b"sokoban-answers 1\n", b"")),
                ("manual none", "2>&-", (2, b"", b"")),
                ("manual rules.md", ">&-", (2, b"", b"manual: cannot write\n")),
                ("manual", ">/dev/full", (2, b"", b"manual: cannot write\n"))):
            ran = subprocess.run(["sh", "-c", f'"$0" it.pyz {command} {end}', sys.executable],
                                 stdout=subprocess.PIPE, stderr=subprocess.PIPE, check=False,
                                 env={**plain_variables(), "SOKOAUDIT_QUIET": ""})
            self.assertEqual((ran.returncode, ran.stdout, ran.stderr), said, command + end)

    def test_an_old_python(self) -> None:
        """sokotool says what it lacks, and the reference runs."""
        code = ("import runpy, sys; sys.version_info = 3, 7; "
                "runpy.run_path('it.pyz', run_name='__main__')")
        for words, said in ((["--version"], "sokotool: this needs Python 3.8 or later\n"),
                            (["dead", "a.txt", "2"], "no such level\n")):
            ran = subprocess.run([sys.executable, "-c", code, *words], stderr=subprocess.PIPE,
                                 env={**plain_variables(), "SOKOAUDIT_QUIET": "1"}, check=False)
            self.assertEqual((ran.returncode, ran.stderr.decode()), (2, said))

    def test_where(self) -> None:
        """The name of the file is printed."""
        self.assertEqual(self.said, ["it.pyz"])

    @not_on_windows
    def test_words(self) -> None:
        """Words that name no file, and a file that can't be written."""
        usage, before = "usage: packaging/pyz [FILE]\n", os.listdir()
        for words, said in (("-h", usage), ("--help", usage), ("a b", usage),
                            (".", "packaging/pyz: .: Is a directory\n"),
                            ("/dev/full", "packaging/pyz: /dev/full: No space left on device\n")):
            ran = subprocess.run([sys.executable, MAKER, *words.split()], stdout=subprocess.PIPE,
                                 stderr=subprocess.PIPE, check=False)
            self.assertEqual((ran.returncode, ran.stdout, ran.stderr.decode()), (1, b"", said))
        self.assertEqual(os.listdir(), before)

    def test_quiet(self) -> None:
        self.assertEqual(self.runs("make", "a.txt", SOKOAUDIT_QUIET="1"),
                         (0, b"sokoban-answers 1\n", ""))

    @not_on_windows
    def test_it_can_be_run(self) -> None:
        self.assertEqual(os.stat("it.pyz").st_mode & 0o777, 0o755)

    def test_its_files_are_in_order(self) -> None:
        """The order of a folder differs from system to system."""
        with zipfile.ZipFile("it.pyz") as archive:
            self.assertEqual(archive.namelist(), sorted(archive.namelist()))

    @not_on_windows
    def test_interrupt(self) -> None:
        """An interrupt ends it without a word."""
        os.mkfifo("levels")
        with subprocess.Popen([sys.executable, "it.pyz", "make", "levels"], stderr=subprocess.PIPE,
                              env={**plain_variables(), "SOKOAUDIT_QUIET": "1"}) as run:
            with open("levels", "wb"):  # it opens when the run reads
                run.send_signal(signal.SIGINT)
                self.assertEqual((run.wait(60), run.communicate()[1]), (130, b""))

    def test_its_bytes_depend_on_the_sources_alone(self) -> None:
        """They are the same from a copy with other times in another folder."""
        for name in ("docs", "man", "packaging", "reference", "tools"):
            shutil.copytree(os.path.join(TOP, name), os.path.join("copy", name),
                            ignore=shutil.ignore_patterns("__pycache__"), copy_function=shutil.copy)
        shutil.copy(os.path.join(TOP, "README.md"), "copy")
        subprocess.run([sys.executable, "copy/packaging/pyz"], check=True, stdout=subprocess.PIPE)
        self.assertEqual(self.read("copy/out/sokotool.pyz"), self.read("it.pyz"))
