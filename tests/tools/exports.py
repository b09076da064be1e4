"""Exports in the forms that editors, players, forums and mail produce, and what they mean.

Each has the levels that its author meant, as rows, and solutions of some. If it can't be read as it
was meant, `levels` is None, and something has to be reported.
"""
from typing import Dict, List, NamedTuple, Optional, Sequence, Union


class Export(NamedTuple):
    """An export: its name, its text or bytes, and its levels and solutions."""

    name: str
    text: Union[str, bytes]
    levels: Optional[List[str]]
    solutions: Dict[int, str]
    file: str = "export.txt"


ALPHA = "#######\n#@ $ .#\n#######"  # solved by rRR
BETA = "######\n#@ $.#\n######"  # solved by rR
GAMMA = "#######\n#. $@ #\n# *   #\n#######"  # solved by LL
A, B, C = ALPHA + "\n", BETA + "\n", GAMMA + "\n"
ALL: List[Export] = []


def right(name: str, text: Union[str, bytes], levels: Sequence[str] = (ALPHA,),
          file: str = "export.txt", **solved: str) -> None:
    """Adds an export that can be read: its levels, and solutions such as `s1="rRR"`."""
    solutions = {int(key[1:]): letters for key, letters in solved.items()}
    ALL.append(Export(name, text, list(levels), solutions, file))


def reported(name: str, text: Union[str, bytes], file: str = "export.txt") -> None:
    """Adds an export about which something has to be reported."""
    ALL.append(Export(name, text, None, {}, file))


def _headings() -> None:
    """Headings of solutions, each above or before the letters rRR."""
    for form in (
            "Solution: {}", "Solution {}", "Solution={}", "Solution\n{}", "Solution:\n\n{}",
            "SOLUTION: {}", "solution - {}", "; Solution: {}", ";Solution\n;{}", "[Solution]\n{}",
            "<b>Solution:</b> {}", "<solution>{}</solution>", "{{Solution: {}}}", "- Solution: {}",
            "* Solution: {}", "// Solution: {}", "# Solution: {}", "' Solution: {}",
            ":: Solution: {}", "1. Solution: {}", "SOLUTIONS: {}", "Bob's solution: {}",
            "The solution is {}", "Sol: {}", "Soln: {}", "Moves: {}", "Answer: {}",
            "UserSolution: {}", "L\u00f6sung: {}", "L\u00f6sung:\n{}", "Soluci\u00f3n: {}",
            "\u0420\u0435\u0448\u0435\u043d\u0438\u0435: {}", "**Solution:** {}", "`{}`", "{}",
            "\n\n{}", "LURD: {}", "LURD={}", "Solution 1: {} (3 moves)", "Solution 1 (1/1): {}",
            "Solution #1:\n{}", "Solution/Moves\n{}", "Solution/Pushes\n{}",
            "Solution 3/2 (JSoko)\n{}", "Solution 3/2\n{}\nSolution comment: hello",
            "Solution\nDate: 2001-02-03\n{}", "Solution (moves/pushes) 3/2: {}",
            "Best solution: {}", "My best solution\n{}", "Solution by Bob:\n{}",
            "Solution by Bob: {}", "Solution found by a solver in 3 s:\n\n{}",
            "[b]Solution[/b]\n{}",
            "[spoiler]{}[/spoiler]", "[code]{}[/code]", "<p>Solution: {}</p>", "> Solution: {}",
            "> {}", "Solution: \"{}\"", "Solution: '{}'", "\"{}\"", "({})", "Solution: {}.",
            "Solution :{}", "Solution -> {}", "Solved! {}", "Solution\n\n\n{}", "Solution;{}",
            "Author: Bob\nSolution: {}\nDate: 2001", "Snapshot/Player\nr\n\nSolution/Moves\n{}",
            "Optimal solution, 3 moves: {}", "1) {}", "Level 1: {}", "Session\n{}",
            "ALPHA,3,2,{}", "Title: Alpha\n\n{}\n", "Comment: nice\n{}", "\t{}", "  {}  "):
        right("heading " + form, f"{A}{form.format('rRR')}\n", s1="rRR")


def _solutions() -> None:
    """Letters in many forms, and those that solve no level."""
    for letters in ("rrr", "RRR", "r2R", "3r", "r(2R)", "1r2R", "r RR", "r,R,R", "r, R, R", "r-R-R",
                    "r R\nR", "r\nR\nR", "r\nRR\n", "\nr\n\nRR", "rR,\nR", "rR\n\nR",
                    "\"rR\"\n\"R\"",
                    "r R\r\nR\r\n", "'r' 'R' 'R'", "rR\nR\n\nSnapshot\nrr",
                    "r;R;R", "> r\n> RR", "rr R"):
        right("letters " + letters, f"{A}Solution:\n{letters}\n", s1="rRR")
    right("two the same", f"{A}Solution/Moves\nrRR\n\nSolution/Pushes\nrrr\n", s1="rRR")
    right("for the second", f"{A}\n{B}Solution: rR\n", (ALPHA, BETA), s2="rR")
    right("for both", f"{A}rRR\n\n{B}rR\n", (ALPHA, BETA), s1="rRR", s2="rR")
    right("a title of letters", f"{A}Dull\n\nUrd\n{B}", (ALPHA, BETA))
    right("an author of letters", f"{A}Author: R. Dull\n{B}Author: L. Rudd\n", (ALPHA, BETA))
    right("a solved snapshot", f"{A}Snapshot\nrRR\n", s1="rRR")
    right("words on solutions", f"{A}No solution known\n\n{B}The solution is hard\n", (ALPHA, BETA))
    right("two that differ", f"{A}Solution: rlrRR\nSolution: rRR\n", s1="rRR")
    reported("the end is missing", f"{A}Solution: rR\n")
    reported("a wall", f"{A}Solution: rdR\n")
    reported("of another level", f"{C}Solution: rRR\n")
    reported("no letters", f"{A}Solution:\n\n{B}")
    right("other letters", f"{A}Solution: EEE\n", s1="rRR")
    right("arrows", f"{A}Solution: \u2192\u2192\u2192\n", s1="rRR")
    reported("long letters that don't play", f"{A}rrrrrrrrrrrr\n")
    reported("long letters among words", f"{A}Moves so far: rrrrrrrrrrrr\n")
    right("above the level", f"Solution: rRR\n{A}", s1="rRR")
    reported("a second one that fails", f"{A}Solution: rRR\nSolution: rrrr\n")


def _boards() -> None:
    """Spellings of rows."""
    for name, text in (
            ("plain", A), ("no line end", ALPHA), ("blanks after", A.replace("\n", "  \n")),
            ("tabs after", A.replace("\n", "\t\n")),
            ("tabs before", "\t" + ALPHA.replace("\n", "\n\t")),
            ("two tabs before", "\t\t" + ALPHA.replace("\n", "\n\t\t")),
            ("mail", "> " + ALPHA.replace("\n", "\n> ")), ("mail twice", "> > " + ALPHA.replace(
                "\n", "\n> > ")), ("mail without blank", ">" + ALPHA.replace("\n", "\n>")),
            ("pre", f"<pre>\n{A}</pre>\n"), ("pre beside", f"<pre>{ALPHA}</pre>\n"),
            ("code", f"[code]\n{A}[/code]"), ("code beside", f"[code]{ALPHA}[/code]"),
            ("fence", f"```\n{A}```\n"), ("breaks", ALPHA.replace("\n", "<br>\n") + "<br>\n"),
            ("breaks alone", ALPHA.replace("\n", "<br/>")),
            ("nbsp", ALPHA.replace(" ", "&nbsp;").replace("\n", "<br />\n")),
            ("no-break spaces", ALPHA.replace(" ", "\u00a0")),
            ("hyphens", ALPHA.replace(" ", "-")), ("underscores", ALPHA.replace(" ", "_")),
            ("run-length", "7#\n#@-$-.#\n7#\n"), ("groups", "7(#)\n#@-$-.#\n3(##)#\n"),
            ("bars", "7#|#@-$-.#|7#\n"), ("bars at ends", "7#|\n#@-$-.#|\n7#\n"),
            ("letters", "#######\n#p_b_o#\n#######\n"),
            ("letters with blanks", "#######\n#p b o#\n#######\n"),
            ("maze", "Maze: 1\nSize X: 7\n\nXXXXXXX\nX@ * .X\nXXXXXXX\n"),
            ("indented", "  " + A.replace("\n", "\n  ")),
            ("outer marks", "~#######\n~#@ $ .#~\n~#######~\n")):
        right("board " + name, text)
    right("board bars, two", "7#|#@-$-.#|7#\n6#|#@-$.#|6#\n", (ALPHA, BETA))
    right("board of one after another", f"{A}\n{B}\n\n{C}", (ALPHA, BETA, GAMMA))
    right("heading #1", f"#1\n{A}\n#2\n{B}", (ALPHA, BETA))
    right("heading ## 1 ##", f"## Level 1 ##\n{A}\n### 2 ###\n{B}", (ALPHA, BETA))
    right("heading in Markdown", f"# First\n\n{A}\n# Second #\n\n{B}", (ALPHA, BETA))
    right("heading #bob# apart", f"#bob#\n\n{A}\n#bob#\n\n{B}", (ALPHA, BETA))
    right("hash tags", f"#sokoban #puzzle\n{A}#hard\n", (ALPHA,))
    right("mark between", f"{A}\ufeff{B}", (ALPHA, BETA))
    right("head of an editor", f"::   3#|#-#|3#  ::\n:: ## Solution and snapshot ##\n\n{A}")
    right("quotes", f"'First'\n{A}\n\"Second\"\n{B}", (ALPHA, BETA))
    right("end of a DOS file", A + "\x1a")
    reported("heading between", f"{A}#bob#\n{B}")
    reported("number between", f"{A}### 2 ###\n{B}")
    reported("table", "| # | # | # |\n|---|---|---|\n| # | @ | # |\n| # | # | # |\n")
    reported("table below", f"{A}\n| # | # | # |\n| # | @ | # |\n| # | # | # |\n")
    reported("banner", f"##########\nMy levels\n##########\n\n{A}")
    right("rule below", f"{A}\n##########\n\n{B}", (ALPHA, BETA))
    reported("torn", A.replace("\n#@", "\n\n#@"))
    reported("torn at the end", A.replace(".#\n", ".#\n\n"))
    reported("a tab within", A.replace("@ ", "@\t"))
    reported("a strange row", A.replace("$", "?"))
    reported("a strange top", "#?#####\n" + A[8:])
    reported("a row of other walls", A.replace("#######\n#@", "#######\n%@"))
    reported("numbered rows", "1 #######\n2 #@ $ .#\n3 #######\n")
    reported("other walls", f"{A}\nXXXXX\nX@$.X\nXXXXX\n")
    wall = "\u2588"
    right("blocks", f"{A}\n{wall * 6}\n{wall}@ $.{wall}\n{wall * 6}\n", (ALPHA, BETA))
    reported("two players", A.replace("$", "@"))
    reported("a word after a maze", "Maze: 1\n\nXXXXX\nX@*.X\nXXXXX\n\nX\n")
    reported("other game", f"{A}Type: Hexoban\n")
    reported("other game for all", f"Type: Hexoban\n\n{A}\n{B}")
    reported("other game beside", f"{A}\n{B}Title: Two\nType: Trioban\nSolution: rR\n\n{C}")
    right("rows a line apart", A.replace("\n", "\n\n"))
    reported("too wide", "256#\n#@$.252-#\n256#\n")
    reported("a dash of mail", A.replace("\n#@", "\n> #@"))
    reported("no level", "Nothing here\n")
    reported("nothing", "")
    reported("no text", b"PK\3\4\0\0\0\0" + A.encode())
    reported("JSON", '{"levels": [["####", "#@.#"]]}')


def _dressed() -> None:
    """Rows in other texts."""
    one, two, three = ALPHA.split("\n")
    for name, text in (
            ("quotes", f'"{one}"\n"{two}"\n"{three}"\n'),
            ("Python", f"level = [\n    '{one}',\n    '{two}',\n    '{three}',\n]\n"),
            ("Python's bytes", f"[b'{one}',\n b'{two}',\n b'{three}']\n"),
            ("Java", f'String[] m = {{"{one}",\n "{two}",\n "{three}"}};\n'),
            ("Java, one string", f'String m = "{one}\\n" +\n "{two}\\n" +\n "{three}\\n";\n'),
            ("C", f'const char *m =\n "{one}\\n"\n "{two}\\n"\n "{three}\\n";\n'),
            ("C in a line", f'm = "{one}\\n{two}\\n{three}\\n";\n'),
            ("JSON in a line", f'{{"rows": ["{one}", "{two}", "{three}"]}}\n'),
            ("JSON in lines", f'[\n "{one}",\n "{two}",\n "{three}"\n]\n'),
            ("YAML", f"rows:\n  - '{one}'\n  - '{two}'\n  - '{three}'\n"),
            ("ticks", f"`{one}`\n`{two}`\n`{three}`\n"),
            ("Org", f"* First\n: {one}\n: {two}\n: {three}\n"),
            ("fences", f"```{one}\n{two}\n{three}```\n"),
            ("fence above", f"```{one}\n{two}\n{three}\n```\n"),
            ("fence below", f"```\n{one}\n{two}\n{three}```\n"),
            ("SokoSolve", "<Row>#######</Row>\n<Row>#P.X.O#</Row>\n<Row>#######</Row>\n"),
            ("colours", A.replace("#", "\x1b[1;31m#\x1b[0m")),
            ("hidden blanks", A.replace("@", "\u200b@"))):
        right("dressed by " + name, text)
    right("dressed, two", f'[["{one}",\n "{two}",\n "{three}"],\n' + '["######",\n "#@ $.#",\n '
          '"######"]]\n', (ALPHA, BETA))
    right("dressed, solved", f"A\n```{one}\n{two}\n{three}```\nSolution: r\u200bRR\n", s1="rRR")
    right("dressed, a title in the line",
          f'{{"title": "A", "rows": ["{one}", "{two}", "{three}"]}}\n')
    right("dressed, letters in the line", f'["{one}", "{two}", "{three}"], rRR\n', s1="rRR")
    for name, text in (
            ("a row is missing", f'"{one}"\n"{two}"\n"#@####"\n'),
            ("a row of another form", f'"{one}"\n\'{two}\'\n"{three}"\n'),
            ("an illegal level", f'"{one}"\n"{two.replace("@", " ")}"\n"{three}"\n'),
            ("a row between", f'"{one}"\n{two}\n"{three}"\n'),
            ("SokoSolve that is open", "<Row>#######</Row>\n<Row>#P.X.O#</Row>\n")):
        reported("dressed, " + name, text)


def _games() -> None:
    """Files of other games."""
    for name, text in (
            ("Gnu Robbo", f"[name]\nA\n[last_level]\n1\n[level]\n1\n[size]\n7.3\n[data]\n{A}"),
            ("xsok", f";WALLS\n.  1 2\n;OBJECTS\n@  0\n$  1\n-  4\n;LEVEL 1\n{A}"),
            ("Boulder Dash", f"[BDCFF]\n[map]\n{A}"),
            ("PuzzleScript", f"LEGEND\n. = Floor\nCOLLISIONLAYERS\nFloor\nLEVELS\n{A}"),
            ("a picture", f"/* XPM */\nstatic char * x[] = {{\n{A}}};\n")):
        reported("other game: " + name, text)
    right("xsok's Sokoban", f";WALLS\n.  1 2\n#  0\n\n;OBJECTS\n@  0\n$  1\n;LEVEL 1\n{A}")


def _texts() -> None:
    """Titles, comments, encodings."""
    above = f"Title: First\nAuthor: A\n{A}\nTitle: Second\n{B}"
    below = f"{A}Title: First\nAuthor: A\n\n{B}Title: Second\n"
    for name, text in (("above", above), ("below", below),
                       ("of the collection", f"Title: All\n\n{below}")):
        right("titles " + name, text, (ALPHA, BETA))
    comment = f"Comment:\nlike this one:\n{B}Comment-End:\n"
    right("board in a comment", f"{A}Title: First\n{comment}Solution: rRR\n\n{C}", (ALPHA, GAMMA),
          s1="rRR")
    right("rule in a comment", f"{A}Comment:\n## nice ##\n####\nComment-End:\n\n{B}", (ALPHA, BETA))
    right("comment of a line", f"{A}Comment: fine\n\n{B}Comment:\n\nok\nComment-End:\n",
          (ALPHA, BETA))
    right("rows in a note", f"; ####\n; #@.#\n{A}", (ALPHA,))
    both = f"Gr\u00f6\u00dfe\n{A}rRR\n\n{B}"
    for code in ("utf-8", "utf-8-sig", "utf-16", "utf-16-le", "utf-16-be", "latin-1", "cp1252"):
        right("coding " + code, both.encode(code), (ALPHA, BETA), s1="rRR")
    for end in ("\r\n", "\r", "\r\r\n"):
        right(f"line ends {end!r}", both.replace("\n", end), (ALPHA, BETA), s1="rRR")
    right("line ends mixed", both.replace("\n", "\r\n", 3), (ALPHA, BETA), s1="rRR")
    right("codings mixed", both.encode() + "Ma\u00dfe\n".encode("latin-1"), (ALPHA, BETA), s1="rRR")
    reported("UTF-32", both.encode("utf-32"))


def _slc() -> None:
    """Files of levels in XML."""
    rows = "".join(f"<L>{row}</L>" for row in ALPHA.split("\n"))
    head = '<?xml version="1.0" encoding="utf-8"?>'
    whole = ("<SokobanLevels><Title>T</Title><LevelCollection {}>{}</LevelCollection></"
             "SokobanLevels>")

    def file(level: str, attributes: str = 'Copyright="Jane Doe"') -> str:
        return head + whole.format(attributes, level)

    for name, level in (
            ("Id", f'<Level Id="Alpha">{rows}</Level>'),
            ("ID", f'<Level ID="Alpha">{rows}</Level>'),
            ("id", f"<Level id='Alpha' Copyright='Jim'>{rows}</Level>"),
            ("no id", f"<Level>{rows}</Level>"),
            ("an empty level", f"<Level></Level><Level>{rows}</Level>"),
            ("empty rows", f"<Level><L></L>{rows}<L> </L><L/></Level>"),
            ("run-length", "<Level><L>7#</L><L>#@-$-.#</L><L>7#</L></Level>"),
            ("in lines", f"<Level>\n{rows.replace('><', '>' + chr(10) + '<')}\n</Level>"),
            ("a commented level", f"<!-- <Level><L>###</L></Level> --><Level>{rows}</Level>")):
        right("SLC " + name, file(level), file="export.slc")
    for name, level in (("inside", f"<Level>{rows}<Solution>rRR</Solution></Level>"),
                        ("inside first", f"<Level><Solution>rRR</Solution>{rows}</Level>"),
                        ("other name", f"<Level>{rows}<BestSolution>rrr</BestSolution></Level>"),
                        ("in a remark", f"<Level>{rows}<!-- Solution: rRR --></Level>"),
                        ("as attribute", f"<Level Solution='rRR'>{rows}</Level>")):
        right("SLC solution " + name, file(level), file="export.slc", s1="rRR")
    right("SLC UTF-16", file(f"<Level>{rows}</Level>").replace("utf-8", "utf-16").encode("utf-16"),
          file="export.slc")
    reported("SLC that is cut", file(f"<Level>{rows}</Level>")[:-30] + "<", file="export.slc")
    reported("SLC with a strange row", file("<Level><L>####</L><L>#?@#</L></Level>"),
             file="export.slc")
    right("SLC rows in no L", file(f"<Level>\n{A}</Level>"), file="export.slc")
    reported("SLC solution that fails", file(f"<Level>{rows}<Solution>rR</Solution></Level>"),
             file="export.slc")


GROUPS: Dict[str, List[Export]] = {}
for group in (_headings, _solutions, _boards, _dressed, _games, _texts, _slc):
    begun = len(ALL)
    group()
    GROUPS[group.__name__.strip("_")] = ALL[begun:]
