"""Writes results to standard output or to files: all of a result, or an error."""
import contextlib
import errno
import io
import os
import secrets
import stat
import sys
from typing import Iterator, List, Optional, Sequence, Tuple

from . import system, texts

File = Tuple[str, bytes]  # its name and its contents
TEMPORARY = ".sokotool-"


def put(data: bytes) -> None:
    """Writes bytes to standard output, all of them, or raises OSError."""
    sys.stdout.flush()
    sys.stdout.buffer.write(data)
    sys.stdout.buffer.flush()


def buffered() -> None:
    """Replaces standard output by a stream that writes everything or raises OSError.

    With PYTHONUNBUFFERED, Python's own may write a part and report nothing.
    """
    sys.stdout = open(1, "w", encoding="utf-8", errors="replace", newline="\n", closefd=False)


@contextlib.contextmanager
def into(name: Optional[str]) -> Iterator[None]:
    """Collects what is printed, and writes it to the file at the end; does nothing without a name,
    or for `-`."""
    if name is None or name == "-":
        yield
        return
    kept = io.TextIOWrapper(io.BytesIO(), "utf-8", errors="replace", newline="\n")
    with contextlib.redirect_stdout(kept):
        yield
    kept.flush()
    write_files([(name, kept.buffer.getvalue())])  # type: ignore[attr-defined]


@contextlib.contextmanager
def made(files: Sequence[Tuple[str, Optional[bytes]]], mark: str = ""
         ) -> Iterator[List[Tuple[str, str]]]:
    """Writes new files beside those that they replace, given by name and bytes, and yields pairs of
    both paths; "" is no new file, for None. What is left in the list at the end is removed. The
    names of new files begin with TEMPORARY and the mark."""
    found: List[Tuple[str, str]] = []
    name = ""
    try:
        for name, data in files:
            path = os.path.realpath(name)
            check_writable(name)
            if data is not None and os.path.exists(path) and not os.path.isfile(path):
                with open(path, "wb") as device:
                    device.write(data)
                continue
            # The name is kept first, so an interrupt leaves no file behind.
            found.append((name_beside(path, mark) if data is not None else "", path))
            if data is not None:
                _write(found[-1][0], data, path)
        yield found
    except OSError as error:
        where = error.filename2 or name  # The error of a rename has both names.
        raise texts.Stop(f"cannot write {texts.shown(where)}: {error.strerror}") from None
    finally:
        for new, _ in found:
            with contextlib.suppress(OSError):
                remove(new)


def write_files(files: Sequence[File]) -> None:
    """Writes files, given by name and bytes. None is replaced before all are written in full."""
    with made(files) as found:
        while found:
            system.patiently(os.replace, *found[0])
            found.pop(0)


def remove(path: str) -> None:
    """Removes a file, if there is one."""
    if path:
        with contextlib.suppress(FileNotFoundError):
            system.patiently(os.unlink, path)


def name_beside(path: str, mark: str = "") -> str:
    """Returns a new name for a file that may replace the one at this path."""
    return os.path.join(os.path.dirname(path), TEMPORARY + mark + secrets.token_hex(8))


def _write(made: str, data: bytes, path: str) -> None:
    """Writes a new file that may replace the one at this path."""
    with open(made, "xb", opener=lambda name, flags: os.open(name, flags, 0o600)) as file:
        file.write(data)
        system.keep(file)
    os.chmod(made, _mode(path))
    system.copy_rights(path, made)


def check_writable(name: str) -> None:
    """Refuses a folder, and a write-protected file, although it could be replaced."""
    path = os.path.realpath(name)
    if os.path.isdir(path):
        raise texts.Stop(f"cannot write {texts.shown(name)}: it is a folder")
    if os.path.exists(path):
        has_no_bit = not os.stat(path).st_mode & (stat.S_IWUSR | stat.S_IWGRP | stat.S_IWOTH)
        if has_no_bit or not os.access(path, os.W_OK):
            raise texts.Stop(f"cannot write {texts.shown(name)}: it is write-protected")
    elif not os.access(os.path.dirname(path), os.W_OK):
        why = errno.EACCES if os.path.isdir(os.path.dirname(path)) else errno.ENOENT
        raise texts.Stop(f"cannot write {texts.shown(name)}: {os.strerror(why)}")


def _mode(path: str) -> int:
    """Returns the permissions of the file at this path, or the default for a new file."""
    try:
        return os.stat(path).st_mode & 0o777
    except OSError:
        mask = os.umask(0)
        os.umask(mask)
        return 0o666 & ~mask
