"""Recognises the files of other games by their heads."""
import re

# what all heads of a game's files have
_HEADS = {name: [re.compile(part, re.I | re.M) for part in parts] for name, parts in {
    "Gnu Robbo": [r"^\[last_level\][ \t]*\n[ \t]*[0-9]", r"^\[size\][ \t]*\n[0-9]+\.[0-9]+"],
    "Boulder Dash": [r"\A\s*\[BDCFF\]"], "XPM": [r"\A/\* XPM \*/"],
    "PuzzleScript": [r"^LEGEND[ \t]*$", r"^COLLISIONLAYERS[ \t]*$"]}.items()}
# the sections of xsok, in which each line begins with a character that its levels have
_XSOK = re.compile(r"^;(?:WALLS|OBJECTS)[^;\n]*\n((?:[^;\n].*\n)*)", re.M)
_SOKOBAN = set(" #.@$")


def game_of(text: str) -> str:
    """Returns the game that a file is for, or "" if its head names none."""
    names = [name for name, parts in _HEADS.items() if all(part.search(text) for part in parts)]
    kinds = {line[0] for section in _XSOK.findall(text) for line in section.splitlines()}
    return names[0] if names else "xsok" if kinds - _SOKOBAN else ""
