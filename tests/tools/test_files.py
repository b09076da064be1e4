"""The files that commands read and write: no file is replaced unasked, and outputs are whole."""
import errno
import glob
import os
import signal
import stat
import subprocess
import sys
import time
import unittest.mock
import zipfile

from sokotool import answers, levels

from .helping import ONE, TOP, Case, Result, is_slow, needs_a_memory_limit, not_on_windows

TOOL = os.path.join(TOP, "sokotool")
OTHER = "######\n#@ $.#\n######\n"
# runs a script, after a line that says that Python has started
STARTED = """
import os, runpy, signal, sys
signal.signal(signal.SIGINT, lambda *_: os._exit(130))
print(flush=True)
sys.argv.pop(0)
runpy.run_path(sys.argv[0], run_name="__main__")
"""
# the same, with an interrupt while a command is loaded, where Python may lose it
LOADING = """
import importlib
load = importlib.import_module
def interrupted(name):
    try:
        signal.raise_signal(signal.SIGINT)
    except KeyboardInterrupt:
        print("lost", file=sys.stderr)
    return load(name)
importlib.import_module = interrupted
"""
HAND = "sokoban-answers 1\nlevel 1\nsolution\nR\nend\n"


def limited() -> None:
    """Limits each file that is written to 16 KB: the rest of a write fails."""
    import resource  # which Windows lacks
    resource.setrlimit(resource.RLIMIT_FSIZE, (16384, 16384))


class Replacing(Case):
    """No file of a keeper is replaced, unless it is asked for."""

    def convert_named(self, *words: str) -> Result:
        return self.tool("convert", "mine", *words)

    def setUp(self) -> None:
        super().setUp()
        self.write("a.txt", ONE)

    def assert_refused(self, result: Result, *says: str) -> None:
        self.assertEqual(result.status, 2, result.err)
        for text in says:
            self.assertIn(text, result.err)

    def test_files_that_are_there_stay(self) -> None:
        for name, text in (("mine.answers", HAND), ("mine.xsb", OTHER), ("mine.xsb", ONE + "me\n")):
            self.write(name, text)
            self.assert_refused(self.convert_named("a.txt"),
                                f"{name} is there already: --replace keeps it as {name}~\n")
            self.assertEqual(self.read(name), text.encode())
            self.assertEqual(sorted(os.listdir(".")), ["a.txt", name])
            os.remove(name)

    def test_replace_keeps_the_former_ones(self) -> None:
        for hand in (HAND, HAND.replace("\nR\n", "\nr\n")):
            self.write("mine.answers", hand)
            self.assertEqual(self.convert_named("a.txt", "--replace").status, 0)
            self.assertEqual(self.read("mine.answers~"), hand.encode())
            self.assertEqual(answers.read(self.read("mine.answers")).records, [])
        self.assertFalse(os.path.exists("mine.xsb~"))

    def test_a_backup_that_is_read_stays(self) -> None:
        self.assertEqual(self.convert_named("a.txt").status, 0)
        self.write("mine.xsb~", OTHER)
        for name in ("mine.xsb~", "./mine.xsb~"):
            self.assert_refused(self.convert_named(name, "--replace"), "would write over " + name)
        self.assertEqual(self.read("mine.xsb~"), OTHER.encode())

    def test_the_same_again_replaces_nothing(self) -> None:
        for _ in range(2):
            self.assertEqual(self.convert_named("a.txt").status, 0)
        self.assertEqual(sorted(os.listdir(".")), ["a.txt", "mine.answers", "mine.xsb"])
        self.write("a.txt", OTHER + "rR\n")
        self.assert_refused(self.convert_named("a.txt"), "mine.xsb is there already")

    def test_write_protected(self) -> None:
        self.write("mine.answers", HAND)
        os.chmod("mine.answers", 0o444)
        for words in ((), ("--replace",)):
            self.assert_refused(self.convert_named("a.txt", *words), "is write-protected")
        self.assertEqual(self.read("mine.answers"), HAND.encode())

    def test_standard_input_that_is_the_output(self) -> None:
        self.write("q.xsb", ONE + "Solution: R\n")
        with open("q.xsb", "rb") as file:
            ran = subprocess.run([TOOL, "convert", "q", "-"], stdin=file, stderr=subprocess.PIPE,
                                 check=False)
        self.assertEqual((ran.returncode, ran.stderr), (2, b"convert: would write over -\n"))
        self.assertEqual(self.read("q.xsb"), (ONE + "Solution: R\n").encode())


class Whole(Case):
    """Outputs are whole, or there is an error."""

    def setUp(self) -> None:
        super().setUp()
        self.write("many.xsb", "\n".join([ONE] * 3000))
        self.write("many.answers", b"sokoban-answers 1\n" + b"".join(
            b"level %d\nsolution\nR\nend\n" % n for n in range(1, 3001)))
        self.write("many.report", b"".join(
            b"level %d solved moves 1 pushes 1 changes 1\n" % n for n in range(1, 3001))
            + b"total 3000 solved 3000 unsolvable 0 refused 0 missing 0\n")
        self.write("torn.xsb", "\n\n".join(["####"] * 3000))

    @is_slow
    def test_a_full_disk(self) -> None:
        """An unbuffered stream may write a part and report nothing."""
        for unbuffered in ("", "1"):
            env = {**os.environ, "PYTHONUNBUFFERED": unbuffered}
            for words in ("merge many.answers", "page many.xsb many.answers many.report",
                          "named many.xsb many.report", "warn torn.xsb"):
                with open("out", "wb") as out:
                    ran = subprocess.run([TOOL, *words.split()], stdout=out, env=env, check=False,
                                         stderr=subprocess.PIPE, preexec_fn=limited)
                said = f"{words.split()[0]}: cannot write: File too large\n"
                self.assertEqual((ran.returncode, ran.stderr.decode()), (2, said))

    def test_output_to_a_file(self) -> None:
        merged = self.tool("merge", "many.answers").out
        for words, printed in ((("merge", "many.answers"), merged),
                               (("named", "many.xsb", "many.report"),
                                self.tool("named", "many.xsb", "many.report").out)):
            result = self.tool(*words, "-o", "out")
            self.assertEqual((result.status, result.out, self.read("out")), (0, b"", printed))
            self.assertEqual(self.tool(*words, "-o", "-").out, printed)

    def test_output_to_an_input(self) -> None:
        self.write("a", HAND)
        self.assertEqual(self.tool("merge", "a", "many.answers", "-o", "a").status, 0)
        self.assertEqual(len(answers.read(self.read("a")).records), 3000)

    @not_on_windows
    def test_output_stays_after_an_error(self) -> None:
        self.write("out", "kept")
        self.assertEqual(self.tool("merge", "many.answers", "many.xsb", "-o", "out").status, 2)
        ran = subprocess.run([TOOL, "merge", "many.answers", "-o", "out"], check=False,
                             stderr=subprocess.PIPE, preexec_fn=limited)
        self.assertEqual((ran.returncode, ran.stderr),
                         (2, b"merge: cannot write out: File too large\n"))
        self.assertEqual((self.read("out"), ".sok" in "".join(os.listdir("."))), (b"kept", False))

    def test_the_file_that_cannot_be_replaced_is_named(self) -> None:
        """On Windows that is one which another program has opened."""
        def refused(made: str, path: str) -> None:
            raise OSError(errno.EBUSY, "Device or resource busy", made, None, path)

        before = os.listdir()
        with unittest.mock.patch("os.replace", refused):
            result = self.tool("convert", "new", "many.xsb")
        self.assertRegex(result.err, "convert: cannot write .*new.xsb: Device or resource busy\n$")
        self.assertEqual((result.status, {*os.listdir()}), (2, {*before}))

    @not_on_windows
    def test_output_to_a_device(self) -> None:
        """It gets the output, and stays. A pipe stands for it, since a tool that is broken here
        would replace a device of this system."""
        self.write("few.answers", self.sample("first.answers"))
        os.mkfifo("device")
        reading = os.open("device", os.O_RDONLY | os.O_NONBLOCK)
        self.addCleanup(os.close, reading)
        self.assertEqual(self.tool("merge", "few.answers", "-o", "device").status, 0)
        self.assertTrue(stat.S_ISFIFO(os.stat("device").st_mode))
        self.assertIn(b"\nlevel 1\n", os.read(reading, 9999))

    @not_on_windows
    def test_an_interrupt_of_the_loading(self) -> None:
        script = STARTED.replace("sys.argv.pop", LOADING + "sys.argv.pop")
        ran = subprocess.run([sys.executable, "-c", script, TOOL, "warn", "many.xsb"], check=False,
                             stdout=subprocess.PIPE, stderr=subprocess.PIPE)
        self.assertEqual((ran.returncode, ran.stderr), (130, b""))

    @not_on_windows
    def test_interrupts(self) -> None:
        """Once Python has started, the status is 130 at any moment and nothing is printed; outputs
        are whole or missing."""
        whole, files = 0.0, set()
        started = [sys.executable, "-c", STARTED, TOOL, "convert", "done", "many.xsb"]
        for part in range(9):
            tool = subprocess.Popen(started, stdout=subprocess.PIPE, stderr=subprocess.PIPE)
            assert tool.stdout
            tool.stdout.readline()
            began = time.monotonic()
            if part:
                time.sleep(whole * (part - 1) / 8)
                tool.send_signal(signal.SIGINT)
            said = tool.communicate()[1].decode()
            if not part:
                whole, files = time.monotonic() - began, set(os.listdir("."))
            if tool.returncode:
                # Once the command is over, the signal ends the process.
                self.assertIn(tool.returncode, (130, -signal.SIGINT))
                # The last one may come when everything is written and reported.
                self.assertIn(said, ("", "convert: 3000 levels, 0 solutions, 0 left out\n"))
            self.assertEqual(set(os.listdir(".")), files)
            self.assertEqual(len(levels.read(self.read("done.xsb"))), 3000)


class Reading(Case):
    """A file that can't be read is named with the reason; a folder stands for its files."""

    def test_reasons(self) -> None:
        os.mkdir("folder")
        for words, why in ((("warn", "folder"), "Is a directory"),
                           (("warn", "none"), "No such file or directory"),
                           (("convert", "out", "none"), "No such file or directory")):
            result = self.tool(*words)
            name = words[-1]
            self.assertEqual((result.status, result.err),
                             (2, f"{words[0]}: cannot read {name}: {why}\n"))

    def test_folder(self) -> None:
        os.makedirs("exports/sub/empty")
        for name, text in (("b.txt", OTHER), ("a.txt", ONE), ("sub/c.txt", ONE), (".hidden", "x"),
                           ("sub/one.xsb", OTHER), ("sub/one.sol", "rR")):
            self.write("exports/" + name, text)
        result = self.tool("convert", "out", "exports")
        self.assertEqual(result.err, "convert: 4 levels, 1 solution, 0 left out\n")
        found = [line for line in self.read("out.xsb").decode().split("\n") if line[:1] == ";"]
        self.assertEqual(found, [f"; File: {name}" for name in (
            "a.txt", "b.txt", "sub/c.txt", "sub/one.xsb")])
        self.assertEqual([it.level for it in answers.read(self.read("out.answers")).records], [4])
        self.assertEqual(self.tool("convert", "again", "exports/a.txt", "exports/sub").status, 0)

    @not_on_windows
    def test_what_is_in_folders(self) -> None:
        """Links to parents end, a pipe isn't opened, a file that can't be read is reported, and
        none of the files that are written is read."""
        os.makedirs("in/sub")
        self.write("in/a.txt", ONE)
        self.write("in/sub/b.txt", OTHER)
        os.symlink("..", "in/sub/up")
        os.symlink("../sub", "in/sub/again")
        os.symlink("nothing", "in/gone")
        os.mkfifo("in/pipe")
        os.chdir("in")
        for command, wanted in ((("convert", "my"), "convert: cannot read "),
                                (("check", "my"), "problem: cannot read "),
                                (("check", "my"), "problem: cannot read ")):
            result = self.tool(*command, ".")
            self.assertEqual(result.status, 1)
            said = result.err + result.out.decode()
            self.assertIn(wanted + "./gone: No such file or directory\n", said)
            self.assertEqual(len(levels.read(self.read("my.xsb"))), 2, command)
        self.assertIn("nothing changed", said)
        names = [name for name in os.listdir(".") if name != "pipe"]
        self.assertIn(b"nothing changed", self.tool("check", "my", *sorted(names)).out)
        self.assertEqual(self.tool("check", "my", "my.xsb").err,
                         "check: would write over my.xsb: choose another NAME, such as checked\n")

    def test_archives(self) -> None:
        """A zip file is read as a folder, and one that can't be read is reported."""
        with zipfile.ZipFile("pack.zip", "w") as archive:
            for name, text in (("b/two.txt", OTHER), ("a.txt", ONE), ("b/two.SOL", "rR"),
                               ("__MACOSX/a.txt", "x"), (".hidden", "x"), ("empty/", "")):
                archive.writestr(name, text)
        result = self.tool("convert", "out", "pack.zip")
        self.assertEqual((result.status, result.err),
                         (0, "convert: 2 levels, 1 solution, 0 left out\n"))
        self.assertEqual([line for line in self.read("out.xsb").split(b"\n") if line[:1] == b";"],
                         [b"; File: a.txt", b"; File: b/two.txt"])
        self.write("a.txt", ONE)
        self.write("bad.zip", self.read("pack.zip").replace(b"#", b"x", 3))
        result = self.tool("convert", "two", "a.txt", "bad.zip")
        self.assertEqual(result.status, 1)
        self.assertIn("convert: cannot read bad.zip/b/two.txt: Bad CRC-32", result.err)

    def test_names_do_not_tell_where_files_are(self) -> None:
        """The same exports give the same bytes in any folder."""
        written = []
        for folder in ("here", "some/where/else"):
            os.makedirs(folder + "/exports/sub")
            self.write(folder + "/exports/a.txt", ONE)
            self.write(folder + "/exports/sub/b.txt", OTHER)
            path = os.path.realpath(folder)
            for words in ((f"{path}/exports/a.txt", f"{path}/exports/sub"), (f"{path}/exports",)):
                self.tool("convert", f"{folder}/out", *words)
                written += [self.read(f"{folder}/out.xsb"), self.read(f"{folder}/out.answers")]
                self.tool("check", f"{folder}/my", *words, "--seconds", "0")
                written += [self.read(f"{folder}/my" + end)
                            for end in (".xsb", ".answers", ".report", ".html")]
        self.assertEqual(written[:6] * 3, written[6:])
        self.assertNotIn(os.path.realpath(".").encode(), b"".join(written))

    @is_slow
    def test_encodings(self) -> None:
        """A file that isn't UTF-8 gets a note, and --encoding reads it right."""
        for name, text in (("koi8-r", "\u041f\u0435\u0440\u0432\u044b\u0439"),
                           ("windows-1251", "\u041f\u0435\u0440\u0432\u044b\u0439"),
                           ("GB18030", "\u7b2c\u4e00"), ("shift-jis", "\u6700\u521d")):
            self.write("a.txt", (text + "\n" + ONE).encode(name))
            result = self.tool("convert", "out", "a.txt", "--replace")
            self.assertIn("convert: a.txt line 1: not UTF-8: read as ", result.err)
            self.assertIn("; --encoding names another encoding\n", result.err)
            for words in (("convert", "new", "a.txt", "--replace"),
                          ("check", "new", "a.txt", "--seconds", "0")):
                result = self.tool(*words, "--encoding", name)
                self.assertNotIn("UTF-8", result.err)
                self.assertIn(text, self.read("new.xsb").decode())
            for old in glob.glob("*.*"):
                os.remove(old)
        self.write("a.txt", b"\xff\n" + ONE.encode())
        self.assertIn("not a text in ascii", self.tool("convert", "out", "a.txt", "--encoding",
                                                       "ascii").err)
        for name in ("klingon", "hex", "undefined"):
            self.assertIn(f"there is no encoding {name}", self.tool(
                "convert", "out", "a.txt", "--encoding", name).err)

    def test_solution_file_before_its_level(self) -> None:
        self.write("a.xsb", OTHER)
        self.write("a.sol", "2r")
        self.assertEqual(self.tool("convert", "out", "a.sol", "a.xsb").status, 0)
        self.assertIn(b"rR", self.read("out.answers"))

    @is_slow
    def test_too_many_levels(self) -> None:
        self.write("first.txt", ONE)
        self.write("years.txt", "\n".join([ONE] * 9999 + [OTHER + "rR\n", ONE]))
        result = self.tool("convert", "out", "first.txt", "years.txt")
        self.assertEqual((result.status, result.err), (
            2, "convert: years.txt line 39997: more than 10000 levels; "
               "--split writes several collections\n"))
        result = self.tool("convert", "out", "first.txt", "years.txt", "--split")
        self.assertEqual((result.status, result.err), (
            0, "convert: 10002 levels in 2 collections, 1 solution, 0 left out\n"))
        self.assertEqual([len(levels.read(self.read(f"out-{n}.xsb"))) for n in (1, 2)], [10000, 2])
        self.assertEqual([it.level for it in answers.read(self.read("out-2.answers")).records], [1])
        self.assertFalse(os.path.exists("out.xsb"))
        self.assertIn(b"total 2 solved 1 ", self.audit("out-2.xsb", "out-2.answers"))

    def test_split_of_few(self) -> None:
        self.write("a.txt", ONE)
        self.assertEqual(self.tool("convert", "out", "a.txt", "--split").status, 0)
        self.assertEqual(len(levels.read(self.read("out-1.xsb"))), 1)

    def test_standard_input_once(self) -> None:
        for words in (("merge", "-", "-"), ("warn", "-", "-"), ("carry", "-", "a.answers", "-"),
                      ("diff", "-", "a.report", "-", "b.report"), ("named", "-", "-"),
                      ("check", "mine", "-", "-"), ("check", "mine", "-", "--answers", "-"),
                      ("convert", "mine", "-", "-"), ("table", "-", "-"), ("find", "-", "-")):
            self.assertEqual(self.tool(*words), (
                2, b"", f"{words[0]}: standard input (-) is named twice\n"))

    def test_codings_by_line(self) -> None:
        text = "Gr\u00f6\u00dfe\n".encode() + ONE.encode() + b"Ma\xdfe \x93q\x94\n"
        self.write("a.txt", text)
        self.assertEqual(self.tool("convert", "out", "a.txt").status, 0)
        found = self.read("out.xsb").decode()
        self.assertIn("Gr\u00f6\u00dfe\n", found)
        self.assertIn("Ma\u00dfe \u201cq\u201d\n", found)

    def test_words_about_what_is_wrong(self) -> None:
        self.write("empty", "nothing\n")
        self.write("a.txt", ONE)
        for words, why in (
                (("twins", "empty"), "twins: empty has no level\n"),
                (("convert", "", "a.txt"), "convert: the name '' has nothing before .xsb\n"),
                *((("check", name, "a.txt"), f"check: the name '{name}' has nothing before .xsb\n")
                  for name in ("in/", ".", "..", "in/.")),
                (("carry", "a.txt", "a.txt", "a.txt"), "carry: a.txt is no answers file: line 1 "
                                                       "isn't 'sokoban-answers 1'\n"),
                (("table", "a.txt", "-"), "table: an entrant is named after a file, so - is none\n")
                ):
            result = self.tool(*words)
            self.assertEqual((result.status, result.out, result.err), (2, b"", why))
        self.write("many.txt", "\n".join([ONE] * 10_001))
        self.assertEqual(self.tool("check", "my", "many.txt").err,
                         "check: many.txt line 40001: more than 10000 levels\n")

    @is_slow
    @needs_a_memory_limit
    def test_hostile_lines(self) -> None:
        """33 MB of such lines take at most 30 s and 1 GB; some are tried here within 1 GB."""
        import resource  # which Windows lacks

        def bound() -> None:
            resource.setrlimit(resource.RLIMIT_AS, (1_000_000_000, 1_000_000_000))
            resource.setrlimit(resource.RLIMIT_CPU, (30, 30))
        for unit, count in (("r,R,", 5_000_000), ("|#|#|", 2_000_000), ("1#\n", 1_000_000),
                            ("~#@$.#~\n", 500_000)):
            self.write("a.txt", ONE + unit * count)
            found = subprocess.run([TOOL, "convert", "out", "a.txt", "--replace"], check=False,
                                   stdout=subprocess.PIPE, stderr=subprocess.STDOUT,
                                   preexec_fn=bound)
            self.assertIn(found.returncode, (0, 1), found.stdout[:1000])
            for name in glob.glob("out.*"):
                os.remove(name)

    @needs_a_memory_limit
    def test_own_files_within_a_limit(self) -> None:
        """A run that reads what a former one wrote needs no more memory."""
        import resource  # which Windows lacks

        def bound() -> None:
            resource.setrlimit(resource.RLIMIT_AS, (250_000_000, 250_000_000))
        self.write("a.txt", ONE + "rR\n")
        for _ in range(2):
            found = subprocess.run([TOOL, "check", "mine", "a.txt"], check=False,
                                   stdout=subprocess.PIPE, stderr=subprocess.STDOUT,
                                   preexec_fn=bound)
            self.assertEqual(found.returncode, 0, found.stdout)

    @is_slow
    def test_long_lines_of_a_pair(self) -> None:
        """No search takes more than linear time, whatever two characters a line repeats."""
        pairs = [one + other for one in " #-1(a.<[\"'`,;:>" for other in " #-1(a.<[\"'`,;:=)"]
        self.write("a.txt", "\n".join([ONE, *(it * 10_000 for it in [
            *pairs, *"\t_@$|lurd\\", "<br>", "```", "1. l", "solution ", "\"#\",", "2#|"]), ONE]))
        self.takes_less(12, lambda: self.tool("convert", "out", "a.txt", "--replace"))

    @is_slow
    def test_long_lines_without_a_level(self) -> None:
        """Nor do those by which the words of a list of solutions are told from its numbers."""
        self.write("a.txt", ONE)
        self.write("b.txt", "\n".join(["R", *(it * 5_000 for it in ("!", "! ", "no", "1!"))]))
        self.takes_less(.4, lambda: self.tool("convert", "out", "a.txt", "b.txt", "--replace"))

    @is_slow
    def test_short_lines(self) -> None:
        """33 MB of short lines take at most 20 s and 1 GB; a twentieth is tried here."""
        for unit in ("a\n", "r\n", "#\n", "r a\n"):
            self.write("a.txt", (OTHER + unit * (1_650_000 // len(unit))))
            for words in (["convert", "out", "a.txt", "--replace"], ["warn", "a.txt"]):
                self.takes_less(8, lambda words=words: self.tool(*words))  # type: ignore[misc]


class Words(Case):
    def test_version(self) -> None:
        with open(os.path.join(TOP, "crates/arguments/src/command.rt"), encoding="utf-8") as file:
            source = file.read()
        version = source.partition('VERSION: &str = "')[2].partition('"')[0]
        for word in ("--version", "-V"):
            result = self.tool(word)
            self.assertEqual((result.status, result.out.decode()), (0, f"sokotool {version}\n"))

    def test_help(self) -> None:
        self.assertEqual(self.tool("help").out, self.tool("--help").out)
        self.assertEqual(self.tool("help", "convert").out, self.tool("convert", "--help").out)
        self.assertEqual(self.tool("help", "nothing").status, 2)

    def test_no_false_alarms(self) -> None:
        for text in (ONE + "Solution 1/1\nR\nSolution comment: hello\n",
                     "::   3#|#-#|3#  ::\n" + ONE):
            result, _, _ = self.convert(text)
            self.assertEqual((result.status, result.err.count("\n")), (0, 1), result.err)
