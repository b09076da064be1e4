"""The command line. Only the module of the command that is run is imported."""
import argparse
import contextlib
import importlib
import io
import os
import signal
import sys
from typing import Any, Dict, Sequence

from . import __version__, output, system, texts

MAIN = {
    "check": "do all of it: read exports, make certificates, search, audit, report what changed",
    "page": "write a web page that shows levels, answers and report",
    "table": "print the table of a contest",
    "find": "look for certificates of levels that have no solution",
    "export": "print a collection and its solutions in a form that other programs read",
}
PARTS = {
    "convert": "turn exports into levels and answers for sokoaudit",
    "warn": "warn about lines that an audit reads differently",
    "merge": "join answers files",
    "carry": "take answers over to a later version of a collection",
    "named": "append each level's position and title to its report line",
    "diff": "print what changed between two reports",
    "twins": "print levels with the same board as an earlier one",
}
COMMANDS = {**MAIN, **PARTS}
_PARTS = "\n".join(f"    {name:<13}{about}" for name, about in PARTS.items())
ABOUT = ("Tools around sokoaudit for keepers of Sokoban collections. Nobody has to trust them: "
         "sokoaudit checks what they write.")
NOTES = f"""parts of check, each by itself:
{_PARTS}

exit status:
  0  done
  1  done, but something was left out, is wrong or differs: the help of the command says what
  2  usage error, or a file that can't be read or written

'sokotool help COMMAND' describes a command. The file name - is standard input."""


def parser_for(words: Sequence[str]) -> argparse.ArgumentParser:
    """Returns the parser, with the arguments of the command that the words name."""
    layout = argparse.RawDescriptionHelpFormatter
    parser = argparse.ArgumentParser(prog="sokotool", description=ABOUT, epilog=NOTES,
                                     formatter_class=layout)
    parser.add_argument("-V", "--version", action="version", version=f"sokotool {__version__}")
    commands = parser.add_subparsers(dest="command", metavar="COMMAND", required=True,
                                     title="commands")
    for name in COMMANDS:
        # argparse lists the commands that have a help
        listed: Dict[str, Any] = {"help": MAIN[name]} if name in MAIN else {}
        command = commands.add_parser(name, **listed, formatter_class=layout)
        if name in words[:1]:
            module = importlib.import_module("sokotool.commands." + name)
            command.description = module.__doc__
            command.set_defaults(run=module.run, output=None)
            module.arguments(command)
            if name not in ("check", "convert"):  # the others print their result
                command.add_argument("-o", "--output", metavar="FILE",
                                     help="write to this file, whole or not at all")
    return parser


def main(words: Sequence[str]) -> int:
    """Runs the command and returns its exit status."""
    if words[:1] == ["help"]:
        words = [*words[1:2], "--help"]
    try:
        options = parser_for(words).parse_args(words)
        read = []
        for name, value in vars(options).items():
            if isinstance(value, list):  # a list is one of files
                setattr(options, name, texts.expanded(value))
            if name not in ("output", "page", "mail"):
                read += value if isinstance(value, list) else [value]
        if read.count("-") > 1:
            raise texts.Stop("standard input (-) is named twice")
        with output.into(options.output):
            status: int = options.run(options)
        sys.stdout.flush()
        return status
    except texts.Stop as stop:
        print(f"{words[0]}: {stop}", file=sys.stderr)
        return stop.status
    except OSError as error:
        # A reader that closed the pipe needs no message. What is still buffered is dropped.
        if not system.is_closed_pipe(error):
            print(f"{words[0]}: cannot write: {error.strerror}", file=sys.stderr)
        os.dup2(os.open(os.devnull, os.O_WRONLY), 1)
        return 2
    except MemoryError:
        print(f"{words[0]}: out of memory", file=sys.stderr)
        return 2
    except KeyboardInterrupt:
        return 130


def start() -> int:
    """Runs the command of the process's arguments, and returns its exit status: 130 after an
    interrupt."""
    if sys.stdout is None:
        print("sokotool: standard output is closed", file=sys.stderr)
        return 2
    if sys.stderr is None:
        sys.stderr = open(os.devnull, "w", encoding="utf-8")
    output.buffered()
    if isinstance(sys.stderr, io.TextIOWrapper):
        sys.stderr.reconfigure(encoding="utf-8", errors="replace")
    try:
        # An interrupt still ends the process here: Python may lose one while it loads a command.
        with contextlib.suppress(MemoryError, OSError):  # which `main` meets again and reports
            if sys.argv[1:] and sys.argv[1] in COMMANDS:
                importlib.import_module("sokotool.commands." + sys.argv[1])
        signal.signal(signal.SIGINT, signal.default_int_handler)
        status = main(sys.argv[1:])
    except KeyboardInterrupt:
        status = 130
    signal.signal(signal.SIGINT, signal.SIG_DFL)
    return status
