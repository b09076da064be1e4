"""The completions of bash, zsh and fish for both programs: commands, options, values and files, as
the helps of both have them."""
import os
import re
import shutil
import subprocess
import tempfile
import unittest
from typing import Dict, List, NamedTuple, Set

from sokotool import main
from tests.tools import helping
from tests.tools.helping import TOP, Case, needs_program
from tests.usage import options_of

FILES = ["a b.xsb", "c.txt"]
# what bash offers after the words of a line, the last of which is cut
TYPED = {
    "sokotool conv": {"convert"}, "sokotool help me": {"merge"}, "sokotool --v": {"--version"},
    "sokotool convert --s": {"--split"}, "sokotool convert --best m": {"moves"},
    "sokotool convert out a": {"a b.xsb"}, "sokoaudit au": {"audit"},
    "sokoaudit help ma": {"make"}, "sokoaudit audit a": {"a b.xsb"},
    "sokoaudit audit levels c": {"c.txt"}, "sokoaudit make -- -": {"-old.xsb"},
}
# what bash offers for the last of some words
BASH = r"""
. "$0" && COMP_WORDS=("$@") COMP_CWORD=$(($# - 1))
"$(complete -p "$1" | sed 's/.*-F \([^ ]*\) .*/\1/')"
printf '%s\n' "${COMPREPLY[@]}"
"""
FISH = "source $argv[1]; complete -C \"$argv[2]\""
# what zsh would pass to its own functions, which complete by such descriptions
ZSH = r"""
_arguments() { print -rl -- "$@" }
_describe() { print -rl -- "${(@P)4}" }
complete() { . $file }
file=$1 && shift && words=("$@") && CURRENT=$# && complete || true
"""
SPEC = re.compile(r"(?:\([^)]*\))?\*?(-[\w-]+)\[[^\]]*\](?::[^:]*:(.*))?")


class Word(NamedTuple):
    """What comes after an option, or in a place: the names of files, some words, or anything."""

    is_file: bool
    words: List[str]

    def offered(self) -> Set[str]:
        """Returns what a shell offers for it."""
        return set(FILES if self.is_file else self.words)


class Command(NamedTuple):
    """A command: its options, those with a value, and its places. The last one may repeat."""

    options: Set[str]
    values: Dict[str, Word]
    places: List[Word]


def sokotool() -> Dict[str, Command]:
    """Returns the commands of sokotool, by its help."""
    found = {}
    for name in main.COMMANDS:
        options = {it: option.value for option in options_of(name) for it in option.names}
        values = {it: Word(value in ("FILE", "FOLDER"), re.findall("[a-z]+", value))
                  for it, value in options.items() if value}
        found[name] = Command(set(options), values, [Word(True, [])] * 3)
    return found


def sokoaudit() -> Dict[str, Command]:
    """Returns the commands of sokoaudit, by what it prints."""
    def said(*words: str) -> str:
        return subprocess.run([helping.PROGRAM, *words], stdout=subprocess.PIPE,
                              check=True).stdout.decode()
    found = {}
    for name in re.findall(r"(?m)^  (\w+)  ", said("help").partition("Options:")[0]):
        text = said("help", name)
        options = set(re.findall(r"(?<=[ ,])--?\w+", text.partition("Options:")[2]))
        places = re.findall(r"<(\w+)>", re.findall("Usage: .*", text)[0])
        found[name] = Command({it for it in options if len(it) == 2 or it[:2] == "--"}, {}, [
            Word(it in ("LEVELS", "ANSWERS"), []) for it in places] + [Word(False, [])])
    del found["help"]
    return found


class Completions(Case):
    def setUp(self) -> None:
        super().setUp()
        made = tempfile.TemporaryDirectory()
        self.addCleanup(made.cleanup)
        self.made = made.name
        for name in FILES:
            self.write(name, "")

    def file(self, shell: str, program: str) -> str:
        """The file that completes the words of a program. Those of sokotool are made."""
        if program == "sokoaudit":
            return f"{TOP}/completions/{'_sokoaudit' if shell == 'zsh' else f'sokoaudit.{shell}'}"
        name = os.path.join(self.made, shell)
        if not os.path.exists(name):
            self.write(name, subprocess.run([f"{TOP}/packaging/completions", shell],
                                            stdout=subprocess.PIPE, check=True).stdout)
        return name

    def printed(self, *words: str) -> List[str]:
        """Returns the lines that a shell prints."""
        ran = subprocess.run(words, stdout=subprocess.PIPE, stderr=subprocess.PIPE, check=False,
                             env={**os.environ, "XDG_CONFIG_HOME": self.folder + "/.none"})
        self.assertEqual(ran.stderr, b"", words)
        return ran.stdout.decode().splitlines()

    def bash(self, *words: str) -> Set[str]:
        """What bash offers for the last word."""
        file = self.file("bash", words[0])
        return {it for it in self.printed("bash", "-c", BASH, file, *words) if it}

    def fish(self, *words: str) -> Set[str]:
        """What fish offers."""
        file = self.file("fish", words[0])
        lines = self.printed("fish", "-N", "-c", FISH, file, " ".join(words))
        return {it.partition("\t")[0].replace("\\", "") for it in lines}

    def zsh(self, *words: str) -> Set[str]:
        """What zsh offers, by the descriptions that it gets."""
        file = self.file("zsh", words[0])
        lines = self.printed("zsh", "-f", "-c", ZSH, "zsh", file, *words)
        options = {match[1]: match[2] for match in map(SPEC.fullmatch, lines) if match}
        places = [re.fullmatch(r"(\*|\d+):[^:]*:(.*)", line) for line in lines]
        if words[-1].startswith("-"):
            return set(options)
        if options.get(words[-2]):
            return self.action(options[words[-2]])
        if len(words) == 2:
            return {line.partition(":")[0] for line in lines if re.match(r"\w+:", line)}
        at, value = 1, False
        for word in words[2:-1]:
            at += not word.startswith("-") and not value
            value = bool(options.get(word))
        return set().union(*(self.action(it[2]) for it in places if it and it[1] in (str(at), "*")))

    @staticmethod
    def action(text: str) -> Set[str]:
        """What zsh offers by the last part of a description."""
        return set(FILES) if text == "_files" else set(text.strip("() ").split())

    def compare(self, shell: str) -> None:
        """Compares what a shell offers with what the programs take."""
        if not shutil.which(shell):
            self.skipTest(f"there is no {shell}")
        offers = getattr(self, shell)
        for program, commands in (("sokotool", sokotool()), ("sokoaudit", sokoaudit())):
            self.assertEqual(offers(program, ""), {*commands, "help"}, program)
            # fish offers the long form of an option alone
            self.assertLessEqual({"--help", "--version"}, offers(program, "--"))
            for name, command in commands.items():
                longs = {it for it in command.options if it.startswith("--")}
                self.assertEqual({it for it in offers(program, name, "--") if it[:2] == "--"},
                                 longs, (program, name))
                self.assertLessEqual(offers(program, name, "-"), command.options)
                for option, value in command.values.items():
                    self.assertEqual(offers(program, name, option, ""), value.offered(),
                                     (program, name, option))
                for at, place in enumerate(command.places):
                    self.assertEqual(offers(program, name, *["c.txt"] * at, ""), place.offered(),
                                     (program, name, at))

    @needs_program
    def test_bash(self) -> None:
        self.compare("bash")

    @unittest.skipUnless(shutil.which("bash"), "there is no bash")
    def test_typed_words(self) -> None:
        self.write("-old.xsb", "")
        for line, offered in TYPED.items():
            self.assertEqual(self.bash(*line.split()), offered, line)

    @needs_program
    def test_zsh(self) -> None:
        self.compare("zsh")

    @needs_program
    def test_fish(self) -> None:
        self.compare("fish")
