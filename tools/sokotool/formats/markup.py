"""Takes lines out of their dress: colours of a terminal, tags of web pages and forums, signs that
stand for others, and the marks of quotes."""
import html
import re
import unicodedata

_DRESSED = re.compile("[<\\[&`\x1b]")
_COLOURS = re.compile("\x1b\\[[0-9;:]*[mK]")
_BREAK = re.compile(r"<br *\/?>(?=.)", re.I)
_TAG = re.compile(r"</?[A-Za-z!][^<>]*>|\[/?[A-Za-z]+\]|\A\s*```|```\s*\Z")
_VALUES = re.compile(r"""="([^"<>]*)\"""")
_HIDDEN = re.compile("[\u200b-\u200d\u2060\u00ad\ufe0e\ufe0f]")
_SAME = {**dict.fromkeys((*range(0x2010, 0x2013), 0x2212), "-"), 0x2588: "#"}
_ARROWS = str.maketrans("\u2190\u2191\u2192\u2193\u2b05\u2b06\u2b95\u27a1\u2b07", "lurdlurrd")


def untagged(line: str) -> str:
    """Returns a line without colours, tags and fences; breaks within it become '|'."""
    if not _DRESSED.search(line):
        return line
    return html.unescape(_TAG.sub("", _BREAK.sub("|", _COLOURS.sub("", line)))).replace(
        "\u00a0", " ")


def narrow(line: str) -> str:
    """Returns a line with plain characters for those that some programs put in their place."""
    if line.isascii():
        return line
    return unicodedata.normalize("NFKC", _HIDDEN.sub("", line).translate(_SAME))


def bare(line: str) -> str:
    """Returns a line as it is searched for letters: without tags, but with what their attributes
    say, and with letters for arrows."""
    if "<" in line:
        line = _TAG.sub(lambda tag: f"{tag[0]} {' '.join(_VALUES.findall(tag[0]))} ", line)
    line = untagged(line)
    return line if line.isascii() else narrow(line).translate(_ARROWS)


def has_arrows(line: str) -> bool:
    """Returns whether a line has arrows or wide characters, which are read as letters."""
    return not line.isascii() and any(c in "\u2190\u2191\u2192\u2193\u2b05\u2b06\u2b95\u27a1\u2b07"
                                      or "\uff01" <= c <= "\uff5e" for c in line)
