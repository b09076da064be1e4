"""The options of the commands of sokotool, as their help has them."""
import contextlib
import io
import os
import re
import unittest.mock
from typing import List, NamedTuple

from sokotool import main


class Option(NamedTuple):
    """An option: its names, and what its help calls its value, such as FILE or {a,b}, or ''."""
    names: List[str]
    value: str


def help_of(command: str) -> str:
    """The help of a command, with each option in a line."""
    said = io.StringIO()
    with unittest.mock.patch.dict(os.environ, COLUMNS="999"), contextlib.redirect_stdout(said), \
            contextlib.suppress(SystemExit):
        main.main([command, "--help"])
    return said.getvalue()


def options_of(command: str) -> List[Option]:
    """The options of a command."""
    listed = re.split(r"(?m)^option(?:s|al arguments):$", help_of(command))[-1]
    heads = re.findall(r"(?m)^  (-.*?)(?:   *(?! ).*)?$", listed)
    return [Option(re.findall(r"(?<!\S)-[\w-]+", it),
                   "".join(re.findall(r"(?<=\w )([A-Z]+|\{\S*\})", it)[:1])) for it in heads]
