"""The commands: a module for each, with `arguments(parser)`, which adds the command's arguments,
and `run(options)`, which returns the exit status."""
import argparse
import codecs
from typing import Any, Callable

from .. import texts

# how long a level is searched by default
SECONDS = 10


def above_zero(kind: Callable[[str], Any]) -> Callable[[str], Any]:
    """Returns a reader of numbers above 0 for the command line."""
    def number(text: str) -> Any:
        value = kind(text)
        if not value > 0:
            raise ValueError
        return value
    return number


def seconds(text: str) -> float:
    """Reads a number for the command line that is 0 or above."""
    value = float(text)
    if not value >= 0:
        raise ValueError
    return value


def encoding_argument(parser: argparse.ArgumentParser) -> None:
    """Adds the argument of commands that read exports."""
    parser.add_argument("--encoding", metavar="E", type=_encoding,
                        help="read files that aren't UTF-8 or UTF-16 in this encoding, by Python's "
                             "name, such as euc-kr (guessed by default)")


def _encoding(name: str) -> str:
    """Returns the name of an encoding, or refuses it."""
    try:
        b"ab".decode(name, "replace")
        return codecs.lookup(name).name
    except (LookupError, ValueError):
        raise argparse.ArgumentTypeError(f"there is no encoding {texts.shown(name)}") from None
