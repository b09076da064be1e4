"""How sokotool finds the program, and its notes if there is only the reference."""
import os
import unittest.mock
from typing import Union

from sokotool import auditor, own_files, system
from tests.tools import helping
from tests.tools.helping import TOP, Case, Result, needs_program, reference_here

LEVELS = "Corner\n#####\n#$ .#\n# @ #\n#####\n"
REFERENCE = os.path.join(TOP, "reference", "sokoaudit")


class Auditor(Case):
    def find(self, **variables: str) -> auditor.Auditor:
        with unittest.mock.patch.dict(os.environ, variables):
            if "SOKOAUDIT" not in variables:
                os.environ.pop("SOKOAUDIT", None)
            return auditor.find()

    def fake(self, name: str, text: Union[str, bytes] = "#!/bin/sh\necho $0 >&2\nexit 2\n") -> str:
        os.makedirs(os.path.dirname(name) or ".", exist_ok=True)
        self.write(name, text)
        os.chmod(name, 0o755)
        return os.path.realpath(name)

    def check(self, *words: str, **variables: str) -> Result:
        """Runs check without a search."""
        with unittest.mock.patch.dict(os.environ, variables):
            return self.tool("check", *words, "--seconds", "0")

    def use_reference_here(self) -> None:
        """Runs no process for an audit by either program."""
        patch = reference_here()
        patch.start()
        self.addCleanup(patch.stop)

    def test_places_in_order(self) -> None:
        top = os.path.join(self.folder, "top")
        reference = self.fake("top/reference/sokoaudit")
        with unittest.mock.patch.multiple(auditor, _TOP=top, _REFERENCES=["none", reference]):
            self.assertEqual(self.find(PATH=""), (reference, True))
            # The script may build, or run the reference, so it doesn't count.
            with open(os.path.join(TOP, "sokoaudit"), encoding="utf-8") as file:
                script = self.fake("top/sokoaudit", file.read())
            self.assertEqual(self.find(PATH=top), (reference, True))
            self.assertEqual(self.find(PATH="", SOKOAUDIT=script), (reference, True))
            for name, path in (("bin/x/sokoaudit" + system.PROGRAM, "bin/x"),
                               ("bin/sokoaudit", ""), ("top/crates/sokoaudit/out/sokoaudit", "")):
                place = self.fake(name, "\x7fELF")
                self.assertEqual(self.find(PATH=os.path.join(self.folder, path)), (place, False))
            self.assertEqual(self.find(SOKOAUDIT=self.fake("other")).path,
                             os.path.realpath("other"))

    def test_only_machine_code_is_the_program(self) -> None:
        """What may run the reference isn't taken from the PATH for the program."""
        reference = self.fake("top/reference/sokoaudit")
        starts = (b"\x7fELF", b"MZ", b"\xcf\xfa\xed\xfe", b"\xca\xfe\xba\xbe")
        scripts = (b'@py "%~dp0sokotool.pyz" %*\r\n', b"#!/bin/sh\n", b"", b"ELF", b"PK\3\4")
        name = "sokoaudit" + system.PROGRAM
        with unittest.mock.patch.multiple(auditor, _TOP="top", _REFERENCES=[reference]):
            for text in starts:
                place = self.fake(name, text)
                self.assertEqual(self.find(PATH=self.folder), (place, False), text)
            for text in scripts:
                self.fake(name, text)
                self.assertEqual(self.find(PATH=self.folder), (reference, True), text)
            # the script of a checkout, beside a program that was built
            built = self.fake("crates/sokoaudit/out/sokoaudit", b"\x7fELF")
            self.assertEqual(self.find(PATH=self.folder), (built, False))
            # what SOKOAUDIT names is taken, if it isn't known to run the reference
            self.assertEqual(self.find(PATH="", SOKOAUDIT=self.fake("other", scripts[1])),
                             (os.path.realpath("other"), False))
            self.assertEqual(self.find(PATH="", SOKOAUDIT=self.fake("it.bat", scripts[0])),
                             (reference, True))

    def test_no_program(self) -> None:
        self.write("a.txt", LEVELS)
        self.assertEqual(self.check("mine", "a.txt", SOKOAUDIT="nothing").err,
                         "check: cannot run nothing\n")
        result = self.check("mine", "a.txt", SOKOAUDIT=self.fake("other"))
        self.assertEqual((result.status, os.listdir().count("mine.xsb")), (2, 0))

    def test_reference_says_so_everywhere(self) -> None:
        self.write("a.txt", LEVELS)
        ends = (".xsb", ".answers", ".report", ".html")
        for quiet in ("", "", "1"):
            result = self.check("mine", "a.txt", SOKOAUDIT=REFERENCE, SOKOAUDIT_QUIET=quiet)
            count = [text.count(auditor.REFERENCE_NOTE.encode())
                     for text in (result.out, *(self.read("mine" + end) for end in ends))]
            self.assertEqual(count, [not quiet, 1, 1, 1, 1])
        self.assertEqual(self.tool("named", "mine.xsb", "mine.report").status, 0)
        self.assertEqual(self.tool("page", "mine.xsb", "mine.answers", "mine.report").status, 0)

    @needs_program
    def test_the_note_goes_when_the_program_checks(self) -> None:
        """Also if a record was typed below it."""
        self.use_reference_here()
        self.write("a.txt", LEVELS + "\nOpen\n#####\n#@$.#\n#####\n")
        note, record = auditor.REFERENCE_NOTE.encode(), b"level 2\nsolution\nR\nend\n"
        for between in (b"", b"; mine\n", b"\n"):
            self.check("mine", "a.txt", SOKOAUDIT=REFERENCE)
            self.write("mine.answers", self.read("mine.answers") + between + record)
            for program, count in ((REFERENCE, 1), (helping.PROGRAM, 0)):
                self.check("mine", "a.txt", SOKOAUDIT=program)
                self.assertEqual(self.read("mine.answers").count(note), count)
            self.assertIn(between.strip(), self.read("mine.answers"))
            os.remove("mine.answers")

    def test_comparing_needs_no_permission(self) -> None:
        self.write("a.txt", LEVELS)
        self.check("mine", "a.txt", SOKOAUDIT=helping.PROGRAM)
        os.chmod("mine.xsb", 0o444)
        for is_writable in (True, False):
            # Who runs as root may write everywhere.
            with unittest.mock.patch.object(
                    os, "access", lambda _, mode, it=is_writable: it or mode != os.W_OK), \
                    unittest.mock.patch.object(own_files, "alone", wraps=own_files.alone) as alone:
                result = self.check("mine", "a.txt", "--compare", SOKOAUDIT=helping.PROGRAM)
            self.assertEqual(result, (0, b"mine: no file would change\n", ""))
            self.assertEqual(alone.called, is_writable)

    def test_comparing_what_the_program_wrote(self) -> None:
        """The reference writes the same files but for its note, and --compare tells where files
        are other than a check would write them, and writes none."""
        self.use_reference_here()
        self.write("a.txt", LEVELS + "\nSolved\n#####\n#@$.#\n#####\nR\n")
        ends = (".xsb", ".answers", ".report", ".html", ".memory")
        self.check("mine", "a.txt", SOKOAUDIT=helping.PROGRAM)
        there = {"mine" + end: self.read("mine" + end) for end in ends}
        for program in (helping.PROGRAM, REFERENCE):
            result = self.check("mine", "a.txt", "--compare", SOKOAUDIT=program)
            self.assertEqual(result, (0, b"mine: no file would change\n", ""))
        for name, line, changed in (
                ("a.txt", 1, "mine.xsb line 2"), ("mine.xsb", 2, "mine.html line "),
                ("mine.report", 1, "mine.report line 1"), ("mine.html", 9, "mine.html line 9")):
            kept = self.read(name)
            lines = kept.split(b"\n")
            lines[line - 1] += b"x"
            self.write(name, b"\n".join(lines))
            result = self.check("mine", "a.txt", "--compare", SOKOAUDIT=REFERENCE)
            self.assertEqual((result.status, result.err), (1, ""))
            self.assertIn(changed, result.out.decode())
            self.write(name, kept)
        os.remove("mine.report")
        result = self.check("mine", "a.txt", "--compare", SOKOAUDIT=REFERENCE)
        self.assertEqual(result, (1, b"mine.report would be written\n", ""))
        self.write("mine.report", there["mine.report"])
        self.assertEqual(sorted(os.listdir()), ["a.txt", *sorted(there)])
        self.assertEqual({name: self.read(name) for name in there}, there)
