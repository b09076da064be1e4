"""Progress of a command on standard error."""
import os
import sys


class Progress:
    """Messages, and on a terminal a status line, which the next message or status replaces."""

    def __init__(self, command: str) -> None:
        self.command = command
        # a terminal that goes back to the start of a line
        self.is_terminal = sys.stderr.isatty() and os.environ.get("TERM") != "dumb"
        self._shown = ""

    def keep(self, line: str) -> None:
        self.clear()
        print(f"{self.command}: {line}", file=sys.stderr, flush=True)

    def show(self, line: str) -> None:
        """Shows a status line, on a terminal only."""
        if self.is_terminal:
            columns = os.get_terminal_size(sys.stderr.fileno()).columns or 80
            line = f"{self.command}: {line}"[:columns - 1]
            if line != self._shown:
                self.clear()
                print(line, end="", file=sys.stderr, flush=True)
                self._shown = line

    def clear(self) -> None:
        """Removes the status line. Blanks do that on every terminal."""
        if self._shown:
            blanks = " " * len(self._shown)
            print(f"\r{blanks}\r", end="", file=sys.stderr, flush=True)
            self._shown = ""
