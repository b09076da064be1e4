"""Run-length coding, such as 4# or 3(ab).

A number says how often the character or the group in brackets after it is repeated.
"""
import io
import re

DEEPEST = 20
# a number, which may be none, and what comes after it: a bracket, characters, or the end
_TOKEN = re.compile(r"([0-9]*)([()]|[^0-9()]+|\Z)")


class Wrong(Exception):
    """Text that is no run-length coding, or too long when it is written out."""


class TooLong(Wrong):
    """Text that is too long when it is written out."""


def expand(text: str, most: int) -> str:
    """Returns a coded text written out, up to `most` characters, and any other text as it is. Never
    builds anything longer."""
    if not re.search("[0-9()]", text):
        return text
    # the open groups: how often each is repeated, and its text so far
    groups = [(1, io.StringIO())]

    def add(text: str, times: int, rest: str = "") -> None:
        if groups[-1][1].tell() + len(text) * times + len(rest) > most:
            raise TooLong(f"is longer than {most} when it is written out")
        groups[-1][1].write(text * times + rest)

    for number, after in (match.groups() for match in _TOKEN.finditer(text)):
        # No number of ten digits is within a limit.
        times = int(number or 1) if len(number) < 10 else most + 1
        if number and after in ("", ")"):
            raise Wrong("has a number with nothing after it")
        if after == "(":
            groups.append((times, io.StringIO()))
            if len(groups) > DEEPEST + 1:
                raise Wrong(f"has brackets more than {DEEPEST} deep")
        elif after == ")":
            if len(groups) == 1:
                raise Wrong("has a closing bracket too many")
            again, group = groups.pop()
            add(group.getvalue(), again)
        else:
            add(after[:1], times, after[1:])
    if len(groups) > 1:
        raise Wrong("has an unclosed bracket")
    return groups[0][1].getvalue()
