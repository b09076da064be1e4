"""What differs from system to system."""
import contextlib
import errno
import io
import multiprocessing.connection
import ntpath
import os
import shutil
import subprocess
import sys
import unicodedata
import unittest.mock
import zipfile
from typing import Callable, Dict

from sokotool import levels, main, output, progress, searches, sources, system
from sokotool.search.budget import Budget, Limits
from tests.tools import helping
from tests.tools.helping import (LACKING, ONE, SAMPLES, TOP, Case, needs_program,
                                 not_on_windows, plain_variables)

OTHER = "######\n#@ $.#\n######\n"
SAMPLE = os.path.join(SAMPLES, "first")
REFERENCE = os.path.join(TOP, "reference", "sokoaudit")


class System(Case):
    def test_words_of_a_command(self) -> None:
        for command, here, there in (
                ("solve {} -x", ["solve", "{}", "-x"], ["solve", "{}", "-x"]),
                (r"C:\YASS\yass.exe {}", ["C:YASSyass.exe", "{}"], [r"C:\YASS\yass.exe", "{}"]),
                (r'"C:\My Games\y.exe" {}', [r"C:\My Games\y.exe", "{}"],
                 [r"C:\My Games\y.exe", "{}"]),
                ("'a b'  'c' # d", ["a b", "c", "#", "d"], ["a b", "c", "#", "d"])):
            for is_windows, wanted in ((False, here), (True, there)):
                with unittest.mock.patch.object(system, "IS_WINDOWS", is_windows):
                    self.assertEqual(system.words_of(command), wanted)
        self.assertRaises(ValueError, system.words_of, "'a")

    def test_names_on_drives(self) -> None:
        """Names of exports have / in them, and on several drives they begin with the drive."""
        names = {r"C:\in\a.txt": "a.txt", r"C:\in\sub\b.txt": "sub/b.txt", "-": "-"}
        with unittest.mock.patch.object(os, "path", ntpath), \
                unittest.mock.patch.object(os, "sep", "\\"):
            self.assertEqual(sources.published([*names]), names)
            more = {r"D:\a.txt": "d/a.txt", r"\\host\all\x\a.txt": "host/all/a.txt",
                    **{name: "c/" + it for name, it in names.items() if it != "-"}}
            self.assertEqual(sources.published([*more]), {**more, "-": "-"})

    def test_names_of_many_files(self) -> None:
        names = [f"in/{i // 100}/{i}.txt" for i in range(4000)]
        self.takes_less(2, lambda: sources.published(names))

    def checked(self, place: str) -> Dict[str, bytes]:
        """Returns the files that check writes of an export or a folder."""
        with unittest.mock.patch.dict(os.environ, SOKOAUDIT=helping.PROGRAM):
            result = self.tool("check", "my", place, "--seconds", "0")
        self.assertNotIn("problem", result.out.decode())
        names = [it for it in os.listdir() if it.startswith("my.")]
        found = {name: self.read(name) for name in names}
        for name in names:
            os.remove(name)
        return found

    def test_composed_names(self) -> None:
        """macOS may decompose the letters of names, which changes nothing."""
        files = {"R\u00e4tsel.txt": ONE, "Rz.txt": OTHER, "Zo\u00eb.txt": ONE + "\n" + OTHER,
                 ".sokoignore": "Zo\u00eb*\n"}
        written = []
        for form in ("NFC", "NFD"):
            for kind in ("NFC", "NFD"):
                os.mkdir("in")
                with zipfile.ZipFile("in.zip", "w") as archive:
                    for name, text in files.items():
                        self.write("in/" + unicodedata.normalize(form, name),
                                   unicodedata.normalize(kind, text))
                        archive.writestr(unicodedata.normalize(form, name), text)
                self.assertTrue(os.path.exists(unicodedata.normalize(form, "in/R\u00e4tsel.txt")))
                written.append([self.checked("in"), self.checked("in.zip")])
                shutil.rmtree("in")
        for found in written[1:]:
            self.assertEqual([[name for name in it if it[name] != wanted.get(name)]
                              for it, wanted in zip(found, written[0])], [[], []])
        self.assertEqual(len(levels.read(written[0][0]["my.xsb"])), 2)

    @needs_program
    def test_case_of_names(self) -> None:
        """Upper case in the end of a name, as old systems write it, makes no difference."""
        os.mkdir("in")
        self.write("in/A.TXT", ONE)
        self.write("in/A.SOL", "R\n")
        self.write("in/FIRST.XSB", OTHER)
        self.write("in/First.Answers", "sokoban-answers 1\nlevel 1\nsolution\nrR\nend\n")
        self.assertTrue(self.checked("in")["my.report"].endswith(
            b"total 2 solved 2 unsolvable 0 refused 0 missing 0\n"))

    def test_wildcards(self) -> None:
        """A wildcard that no shell has expanded stands for its files, in order."""
        for name in ("b.txt", "a.txt", "[c].txt", ".d.txt"):
            self.write(name, ONE)
        for words in (["*.txt"], ["[ab].txt", "[c].txt"], ["?.txt", "[[]c].txt"]):
            self.assertEqual(self.tool("warn", *words).status, 0, words)
        self.assertEqual(self.tool("warn", "x*").err, "warn: cannot read x*: No such file or "
                                                      "directory\n")
        self.assertEqual(self.tool("twins", "?.txt").out.decode().split("\t")[1:4:2],
                         ["b.txt:1", "a.txt:1"])

    def test_files_that_another_program_reads(self) -> None:
        """Windows refuses to replace and to remove them. That is tried again for a second."""
        replace, unlink, calls = os.replace, os.unlink, []

        def refused(work: Callable[..., None], times: int) -> Callable[..., None]:
            def tried(*words: str) -> None:
                calls.append(words)
                if len(calls) <= times:
                    raise PermissionError(errno.EACCES, os.strerror(errno.EACCES))
                work(*words)
            return tried
        for is_windows, times, said in (
                (True, 3, ""), (False, 1, "out: Permission denied"),
                (True, 9999, "out: Permission denied")):
            calls.clear()
            self.write("out", ONE)
            with unittest.mock.patch.object(system, "IS_WINDOWS", is_windows), \
                    unittest.mock.patch.object(os, "replace", refused(replace, times)):
                result = self.tool("export", SAMPLE, "-o", "out", "--to", "rle")
            self.assertIn(said, result.err)
            self.assertEqual((result.status, self.read("out") != ONE.encode()),
                             (2, False) if said else (0, True))
            self.assertEqual([it for it in os.listdir() if it.startswith(".sokotool")], [])
        calls.clear()
        with unittest.mock.patch.object(system, "IS_WINDOWS", True):
            self.write("out", ONE)
            with unittest.mock.patch.object(os, "unlink", refused(unlink, 3)):
                output.remove("out")
        self.assertFalse(os.path.exists("out"))

    def test_names_of_devices(self) -> None:
        """Windows takes them for the device, whatever end they have."""
        self.write("a.txt", ONE)
        for name in ("nul", "AUX", "con.2", "in/lpt1", "com\u00b9", "CONOUT$"):
            for command in ("check", "convert"):
                with unittest.mock.patch.object(system, "IS_WINDOWS", True):
                    result = self.tool(command, name, "a.txt")
                self.assertEqual((result.status, result.err),
                                 (2, f"{command}: {name} is the name of a device\n"))
        for name in ("null", "my.con", "com0", "auxen", "com10", "a con"):
            with unittest.mock.patch.object(system, "IS_WINDOWS", True):
                self.assertEqual(self.tool("convert", name, "a.txt").status, 0, name)
        with unittest.mock.patch.object(system, "IS_WINDOWS", False):
            self.assertEqual(self.tool("convert", "aux", "a.txt").status, 0)

    def test_closed_pipe(self) -> None:
        """A reader that has closed the pipe needs no message. On Windows it is another error."""
        for is_windows, number, is_told in (
                (True, errno.EINVAL, False), (True, errno.EPIPE, False), (True, errno.ENOSPC, True),
                (False, errno.EINVAL, True), (False, errno.EPIPE, False)):
            error, said = OSError(number, os.strerror(number)), io.StringIO()
            with unittest.mock.patch.object(system, "IS_WINDOWS", is_windows), \
                    unittest.mock.patch.object(output, "into", side_effect=error), \
                    unittest.mock.patch.object(os, "dup2"), contextlib.redirect_stderr(said):
                self.assertEqual(main.main(["warn", "a"]), 2)
            self.assertEqual(said.getvalue() != "", is_told, (is_windows, number))

    def test_many_processors(self) -> None:
        """No more searches run at once than the system can wait for."""
        most = 60 if LACKING == "windows" else 100
        levels_there = levels.read((ONE + "\n").encode() * 120)
        with unittest.mock.patch.object(system, "PROCESSES") as processes, \
                unittest.mock.patch.object(multiprocessing.connection, "wait",
                                           side_effect=KeyboardInterrupt):
            processes.Pipe.side_effect = lambda: (unittest.mock.Mock(), unittest.mock.Mock())
            runs = searches.Searches(levels_there, Limits(1, 60, 100), Budget(60))
            self.assertRaises(KeyboardInterrupt, list, runs.results())
        self.assertEqual(processes.Process.call_count, most)

    def test_status_lines(self) -> None:
        """A terminal that can't go back gets no status line."""
        with unittest.mock.patch.object(sys, "stderr") as stream:
            stream.isatty.return_value = True
            for name, is_shown in (("xterm", True), ("dumb", False)):
                with unittest.mock.patch.dict(os.environ, TERM=name):
                    self.assertEqual(progress.Progress("x").is_terminal, is_shown)

    def test_launchers_need_a_plain_env(self) -> None:
        """Their first line names one command, which the env of POSIX runs, and Python alone starts
        them."""
        self.write("levels", ONE)
        for name, words, said in (("sokotool", ["--version"], "sokotool"),
                                  ("reference/sokoaudit", ["--version"], "sokoaudit"),
                                  ("reference/sokoaudit", ["make", "levels"], "sokoban-answers")):
            path = os.path.join(TOP, name)
            with open(path, encoding="utf-8") as file:
                start, _, command = file.readline().strip().partition(" ")
            self.assertEqual(start, "#!/usr/bin/env")
            # The system gives env all that is after it as one word.
            for first in (command, sys.executable):
                ran = subprocess.run([first, path, *words], stdout=subprocess.PIPE, check=True,
                                     env=plain_variables())
                self.assertTrue(ran.stdout.decode().startswith(said + " "))

    def test_errors_of_the_reference(self) -> None:
        """They are on standard error although the process ends at once, without Python's buffers.
        """
        self.write("levels", ONE)
        for words, said in ((["audit", "none", "levels"], b"cannot read levels\n"),
                            (["audit", "levels", "levels"], b"answers line 1 header\n"),
                            (["dead", "levels", "99"], b"no such level\n")):
            ran = subprocess.run([sys.executable, REFERENCE, *words], stdout=subprocess.PIPE,
                                 stderr=subprocess.PIPE, check=False, env=plain_variables())
            self.assertEqual((ran.returncode, ran.stdout, ran.stderr), (2, b"", said))

    def test_devices_of_the_reference(self) -> None:
        """A name with an end is meant for a file, but Windows opens the device of its name."""
        os.symlink(os.devnull, "nul.xsb")
        os.symlink(os.devnull, "nul")
        status, said = (2, "cannot read levels") if LACKING == "windows" else (0, "")
        for name, wanted in (("nul.xsb", (status, said)), ("nul", (0, ""))):
            ran = subprocess.run([sys.executable, REFERENCE, "make", name], stdout=subprocess.PIPE,
                                 stderr=subprocess.PIPE, check=False)
            self.assertEqual((ran.returncode, ran.stderr.decode().strip()), wanted)

    @not_on_windows
    def test_closed_streams_of_the_reference(self) -> None:
        """Without standard output nothing can be written, and without standard error its lines are
        lost, as of the program."""
        self.write("levels", ONE)
        made, shell = b"sokoban-answers 1\n", 'exec "$0" "$@" '
        for closed, words, status, out, err in (
                (">&-", "--version", 2, b"", b"cannot write\n"),
                (">&-", "make levels", 2, b"", b"cannot write\n"),
                (">&-", "make none", 2, b"", b"cannot read levels\n"),
                (">/dev/full", "make levels", 2, b"", b"cannot write\n"),
                ("2>&-", "make levels", 0, made, b""),
                ("2>&-", "make none", 2, b"", b""), ("2>&-", "solve", 2, b"", b""),
                (">&- 2>&-", "make levels", 2, b"", b"")):
            for program in ([helping.PROGRAM], [sys.executable, REFERENCE]):
                ran = subprocess.run(["sh", "-c", shell + closed, *program, *words.split()],
                                     stdout=subprocess.PIPE, stderr=subprocess.PIPE, check=False,
                                     env=plain_variables())
                self.assertEqual((ran.returncode, ran.stdout, ran.stderr), (status, out, err),
                                 (closed, words, program))
