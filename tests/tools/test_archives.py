"""Archives within others or that can't be read, and what .sokoignore says."""
import gzip
import io
import os
import unittest.mock
import zipfile
from typing import List

from sokotool import report, sources, texts
from tests.tools.helping import ONE, Case


class Archives(Case):
    def archive(self, *names: str, form: int = zipfile.ZIP_STORED) -> bytes:
        """The bytes of an archive with a level in each of these files."""
        data = io.BytesIO()
        with zipfile.ZipFile(data, "w", form) as archive:
            for name in names:
                archive.writestr(name, ONE)
        return data.getvalue()

    def complaints(self) -> List[str]:
        """What a run says of the archive a.zip."""
        return self.tool("convert", "out", "a.zip").err.splitlines()

    def test_too_much_in_it(self) -> None:
        self.write("a.zip", self.archive("1.txt", "2.txt", "3.txt"))
        with unittest.mock.patch.object(sources, "MOST_IN_ARCHIVE", 2):
            self.assertIn("cannot read a.zip: more than 2 files", self.complaints()[0])
        self.assertFalse(os.path.exists("out.xsb"))
        with unittest.mock.patch.object(sources, "MOST_UNPACKED", 3 * len(ONE) - 1):
            self.assertIn("cannot read a.zip: more than", self.complaints()[0])
        with unittest.mock.patch.object(sources, "MOST_IN_ARCHIVE", 3), \
                unittest.mock.patch.object(sources, "MOST_UNPACKED", 3 * len(ONE)):
            self.assertEqual(self.complaints(), ["convert: 3 levels, 0 solutions, 0 left out"])
        self.assertEqual(self.read("out.xsb").count(b"@"), 3)

    def packed(self, **files: bytes) -> bytes:
        """The bytes of an archive with these files, each of whose names ends after '_'."""
        data = io.BytesIO()
        with zipfile.ZipFile(data, "w") as archive:
            for name, content in files.items():
                archive.writestr(name.replace("_", "."), content)
        return data.getvalue()

    def test_archives_in_others(self) -> None:
        """A zip in a zip and what gzip packed are read, each file by its whole name."""
        inner = self.packed(b_txt=ONE.encode(), c_txt_gz=gzip.compress(ONE.encode()))
        self.write("a.zip", self.packed(d_zip=inner, e_txt=ONE.encode()))
        self.write("f.xsb.gz", gzip.compress(ONE.encode()))
        self.assertEqual([it.name for it in sources.listed(["a.zip", "f.xsb.gz"])], [
            "a.zip/d.zip/b.txt", "a.zip/d.zip/c.txt.gz/c.txt", "a.zip/e.txt", "f.xsb.gz/f.xsb"])
        result = self.tool("convert", "out", "a.zip", "f.xsb.gz")
        self.assertEqual((result.status, result.err), (
            0, "convert: 4 levels, 0 solutions, 0 left out\n"))

    def test_the_list_of_files_is_read_once(self) -> None:
        """It would take seconds to read it for each of thousands of files, in a zip in a zip too.
        """
        inner = self.archive(*(f"{number}.txt" for number in range(9)))
        for name, data in (("a.zip", inner), ("b.zip", self.packed(c_zip=inner))):
            self.write(name, data)
            with unittest.mock.patch.object(zipfile, "ZipFile", wraps=zipfile.ZipFile) as opened:
                found = sources.listed([name])
                self.assertEqual([it.read() for it in found], [ONE.encode()] * 9)
                self.assertLessEqual(opened.call_count, 2)
        sources.close()

    def test_too_deep_or_large(self) -> None:
        """What isn't unpacked is reported, and no bomb takes the memory."""
        data = ONE.encode()
        for _ in range(sources.MOST_NESTED + 1):
            data = self.packed(a_zip=data)
        self.write("a.zip", data)
        self.assertIn("a.zip line 1: a damaged zip archive, or one too deep in others",
                      self.complaints()[0])
        bomb = gzip.compress(b"\0" * (texts.MOST_BYTES + 1))
        for name, content in (("a.zip", self.packed(b_gz=bomb, c_txt=ONE.encode())),
                              ("a.zip", self.packed(b_gz=gzip.compress(b"PK\3\4" + b"\0"
                                                                       * texts.MOST_BYTES),
                                                    c_txt=ONE.encode()))):
            self.write(name, content)
            self.assertIn(f"is longer than {texts.MOST_BYTES} bytes", self.complaints()[0])
        with unittest.mock.patch.object(sources, "MOST_IN_ARCHIVE", 3):
            self.write("a.zip", self.packed(b_zip=self.archive("1.txt", "2.txt"),
                                            c_zip=self.archive("3.txt")))
            self.assertIn("cannot read a.zip/b.zip: more than 3 files", self.complaints()[0])

    def test_encrypted(self) -> None:
        data = bytearray(self.archive("1.txt"))
        for start, place in ((b"PK\3\4", 6), (b"PK\1\2", 8)):
            data[data.index(start) + place] |= 1
        self.write("a.zip", bytes(data))
        self.assertIn("cannot read a.zip/1.txt: File ", self.complaints()[0])

    def test_broken(self) -> None:
        """Neither the bytes of a file nor its packed form are as they were."""
        for form in (zipfile.ZIP_STORED, zipfile.ZIP_DEFLATED, zipfile.ZIP_LZMA):
            data = bytearray(self.archive("1.txt", form=form))
            at = data.index(b"1.txt") + 5
            data[at:at + 4] = b"\xff" * 4
            self.write("a.zip", bytes(data))
            self.assertIn("cannot read a.zip/1.txt: ", self.complaints()[0])

    def test_broken_lists_of_files(self) -> None:
        """A name isn't in the encoding that it names, and a version is none that there is."""
        named = self.archive("\u00e4.txt")
        self.write("a.zip", named.replace(b"\xc3\xa4", b"\xc3\xc3"))
        self.assertIn("cannot read a.zip: 'utf-8' codec ", self.complaints()[0])
        data = bytearray(self.archive("1.txt"))
        data[data.index(b"PK\1\2") + 6] = 99
        self.write("a.zip", bytes(data))
        self.assertIn("cannot read a.zip: zip file version 9.9", self.complaints()[0])

    def test_long_numbers_in_names(self) -> None:
        names = ["2.txt", "010.txt", "10.txt", "9" * 5000 + ".txt"]
        self.write("a.zip", self.archive(*names[::-1]))
        self.assertEqual([it.name for it in sources.listed(["a.zip"])],
                         ["a.zip/" + name for name in names])

    def test_names_without_the_flag_of_their_encoding(self) -> None:
        """macOS writes UTF-8 and doesn't say so, and others write code page 437."""
        self.write(".sokoignore", "\u00f6.txt\n")
        for encoding in ("utf-8", "cp437"):
            data = self.archive("aa.txt", "oo.txt")
            for letter, other in (("a", "\u00e4"), ("o", "\u00f6")):
                data = data.replace(2 * letter.encode(), other.encode(encoding).rjust(2, b"_"))
            self.write("a.zip", data)
            named = {"utf-8": "\u00e4.txt", "cp437": "_\u00e4.txt"}
            found = sources.listed(["a.zip"])
            self.assertEqual(found[0].name, "a.zip/" + named[encoding])
            self.assertEqual([it.read() for it in found], [ONE.encode()] * len(found))
            self.assertEqual(len(found), 1 if encoding == "utf-8" else 2)

    def test_names_that_begin_with_a_dot(self) -> None:
        """Hidden files are left out, but an archive whose names begin with './' is read."""
        self.write("a.zip", self.archive("./1.txt", "./a/2.txt", "../3.txt", "./.git/4.txt",
                                         "./a/.5.txt", "__MACOSX/6.txt"))
        self.assertEqual([it.name for it in sources.listed(["a.zip"])],
                         ["a.zip/../3.txt", "a.zip/./1.txt", "a.zip/./a/2.txt"])

    def test_encodings_of_ignored_names(self) -> None:
        """Windows may write a byte order mark, or UTF-16."""
        for name in ("\u00e4.txt", "2.txt"):
            self.write(name, ONE)
        for encoding in ("utf-8", "utf-8-sig", "utf-16", "cp1252"):
            self.write(".sokoignore", "\u00e4.txt\r\n".encode(encoding))
            names = [os.path.basename(it.name) for it in sources.listed(["."])]
            self.assertEqual(names, ["2.txt"], encoding)

    def test_comments_of_ignored_names(self) -> None:
        for name in ("#1.txt", "2.txt", "3.txt"):
            self.write(name, ONE)
        self.write(".sokoignore", "#1.txt\n2.txt\n")
        names = [os.path.basename(it.name) for it in sources.listed(["."])]
        self.assertEqual(names, ["3.txt", "#1.txt"])


class Reports(Case):
    def test_lines_after_the_total(self) -> None:
        """A line after the total belongs to no report, but for a comment."""
        one = b"level 1 missing\ntotal 1 solved 0 unsolvable 0 refused 0 missing 1\n"
        self.assertIsNone(report.read(one + b"; note\n").fault(1))
        for more in (b"level 2 missing\n", b"total 1 solved 1 unsolvable 0 refused 0 missing 0\n"):
            self.assertEqual(report.read(one + more).fault(1), "line 3 isn't a line of a report")

    def test_lines_of_other_forms(self) -> None:
        """What was typed into a report is no line of it."""
        total = b"total 1 solved 1 unsolvable 0 refused 0 missing 0\n"
        for line in ("solved by Bob", "solved", "solved moves 4 pushes 2", "missing title",
                     "solved moves 4 pushes 2 changes 1 !", "refused line", "refused board 5",
                     "unsolvable patterns " + "9" * 5000):
            self.assertEqual(report.read(b"level 1 %b\n%b" % (line.encode(), total)).fault(1),
                             "line 1 isn't a line of a report", line)
        long = total.replace(b"1", b"1" * 5000)
        self.assertEqual(report.read(long).fault(1), "it isn't a report")
