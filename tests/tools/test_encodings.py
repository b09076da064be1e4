"""Files of any country: which encoding a text that isn't UTF-8 is in, and the order of names."""
import os
import zipfile

from sokotool import answers, encodings, levels
from tests.tools.exports import ALPHA, BETA
from tests.tools.helping import Case

# lines as keepers of these countries write them, by encodings
LINES = {
    "gb18030": (
        "答案：rRR|作者：张三|标题：第一关|推箱子 关卡集|仓库番 第1关|难度：中等，适合初学者。|"
        "Level 1 推箱子|解法: rRR"),
    "cp1251": (
        "Решение: rRR|Автор: Иван Петров|Уровень 1|Склад|Ключ|"
        "Большой лабиринт|УРОВЕНЬ ПЕРВЫЙ|решение|Переміщення ящиків|"
        "Ход|№ 5|«Склад» — игра"),
    "koi8-r": (
        "Решение: rRR|Автор: Иван Петров|Склад|Ключ|УРОВЕНЬ ПЕРВЫЙ|"
        "решение|уровни|Ход"),
    "cp932": (
        "答え：rRR|倉庫番|作者：山田太郎|解答|レベル１|はじめての問題|ねこ|パズル集 第二|"
        "面1 ｿｺﾊﾞﾝ 倉庫番"),
    "big5hkscs": (
        "解答：rRR|作者：張三|第一關 開始|"
        "推箱子 關卡集|倉庫番 第1關|"
        "難度：中等，適合初學者。"),
    "euc-jp": (
        "答え：rRR|倉庫番のパズル|レベル１|"
        "はじめての問題|ねこ"),
    "cp437": (
        "Lösung: rRR|Größe|Schöne Grüße|Ménagerie|Señor|"
        "Titel: Brücke|Autor: Jürgen Müller"),
    "cp1252": (
        "Lösung: rRR|Größe|Übung|café|Señor|À la carte|Bob’s level|"
        "“Quoted” – dash|© 2001 Me|naïve déjà vu|20° left|"
        "Æble på grød|Åse|½ box|L’été|Çà et là|ÉTÉ|Noël à Zoë|l’Île|"
        "×|…"),
}


class Encodings(Case):
    def test_lines(self) -> None:
        """Each line by itself, and all of them, which a real text has more of. Words in capitals
        alone are small letters in another encoding."""
        for codec, lines in LINES.items():
            for text in (*lines.split("|"), lines.replace("|", "\n")):
                data = text.encode(codec)
                if not data.isascii() and not ("\u0400" <= text[0] and text.isupper()):
                    self.assertEqual(encodings.CODECS[encodings.guessed(data)], codec, text)

    def test_other_encodings(self) -> None:
        """A language that isn't guessed is read as one of western Europe."""
        for codec, text in (
                ("latin2", "\u0141atwy pocz\u0105tek"), ("cp1250", "\u0141atwy pocz\u0105tek"),
                ("mac_roman", "Gr\u00f6\u00dfe"), ("cp1257", "m\u0101c\u012bba")):
            self.assertEqual(encodings.guessed(text.encode(codec)), encodings.CP1252, text)

    def test_what_is_no_text(self) -> None:
        """Bytes of no language are read as before."""
        for data in (b"", b"\xff\xfd\xa0", bytes(range(128, 256)), b"\x81\x8d", b"\xff" * 70000):
            self.assertIn(encodings.guessed(data), encodings.CODECS)
            self.assertEqual(len(encodings.decoded(b"\x81", encodings.CP1252)), 1)

    def test_levels_and_solutions(self) -> None:
        """Titles and letters are read in the encoding, and a note says which it is."""
        for codec, title, line in (
                ("gb18030", "推箱子", "答案：rRR"), ("cp1251", "Большой склад", "Решение: rRR"),
                ("koi8-r", "Большой склад", "Решение: rRR"), ("cp932", "倉庫番", "解答：rRR"),
                ("big5hkscs", "第一關 開始", "解答：rRR"),
                ("euc-jp", "ねこの問題", "答え：rRR"),
                ("cp437", "Schöne Lösung", "Lösung: rRR"), ("cp1252", "Löwe", "Lösung: rRR")):
            text = f"Title: {title}\n{ALPHA}\n{line}\n\nTitle: Two\n{BETA}\n"
            (name,) = (it for it, other in encodings.CODECS.items() if other == codec)
            for data in (text.encode(codec), text.replace("\n", "\r\n").encode(codec),
                         text.encode(codec) + "; Ωμέγα\n".encode()):
                result, found, solved = self.convert(data)
                self.assertEqual(result.status, 0, result.err)
                self.assertIn(f"not UTF-8: read as {name};", result.err)
                self.assertIn(f"Title: {title}\n".encode(), found)
                self.assertEqual([(it.level, it.letters) for it in answers.read(solved).records],
                                 [(1, b"rRR")], codec)
                os.remove("out.xsb")
                os.remove("out.answers")

    def test_answers(self) -> None:
        """Windows may write a byte order mark, or UTF-16: no certificate is lost."""
        self.write("a.xsb", ALPHA)
        text = "sokoban-answers 1\nlevel 1\nunsolvable\npattern 2,2 @ *\nend\n"
        for encoding in ("utf-8", "utf-8-sig", "utf-16"):
            self.write("a.answers", text.encode(encoding))
            result = self.tool("convert", "out", "a.xsb", "a.answers", "--replace")
            self.assertEqual(result.err, "convert: 1 level, 0 solutions, 0 left out\n", encoding)
            self.assertEqual(self.read("out.answers").decode(), text)
            self.assertEqual(self.tool("merge", "a.answers").out.decode(), text)

    def test_order_of_names(self) -> None:
        """Numbers in names count as numbers, in folders and archives."""
        names = ["a.2", "level1.txt", "level2.txt", "level10.txt", "level010.txt", "screen.9",
                 "screen.10", "x/1/b", "x/10/a", "z" + "9" * 200, "za"]
        os.mkdir("in")
        with zipfile.ZipFile("in.zip", "w") as archive:
            for width, name in enumerate(names, 1):
                text = "#" * (width + 4) + "\n#@$." + " " * width + "#\n" + "#" * (width + 5) + "\n"
                text = text.replace("#" * (width + 4) + "\n", "#" * (width + 5) + "\n", 1)
                os.makedirs(os.path.dirname(f"in/{name}"), exist_ok=True)
                self.write(f"in/{name}", text)
                archive.writestr(name, text)
        wanted = sorted(range(1, len(names) + 1))
        wanted[3:5] = [5, 4]  # of equal numbers the one with zeros comes first
        for place in ("in", "in.zip"):
            self.assertEqual(self.tool("convert", "out", place, "--replace").status, 0)
            found = levels.read(self.read("out.xsb"))
            self.assertEqual([len(level.rows[0]) - 5 for level in found], wanted, place)
