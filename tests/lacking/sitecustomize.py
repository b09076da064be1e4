"""Takes away what Python lacks on the system that LACKING names, windows or macos, as far as Linux
lets one. Python imports this module when it starts, and so does each Python that a test starts.

The standard library keeps what it needs: its modules get copies of what is cut.
"""
import ctypes
import errno
import importlib
import multiprocessing
import os
import shutil
import signal
import subprocess
import sys
import types
from typing import Any, Optional

# what uses os or signal, and is imported before they are cut
LIBRARY = """argparse contextlib fileinput gettext glob importlib.util json
multiprocessing.connection multiprocessing.context multiprocessing.popen_fork
multiprocessing.popen_spawn_posix multiprocessing.queues multiprocessing.reduction
multiprocessing.resource_tracker multiprocessing.spawn multiprocessing.synchronize
multiprocessing.util pathlib pkgutil random runpy selectors shlex shutil socket stat subprocess
tempfile threading traceback zipfile""".split()
# the same that the tests use, and no process that they start
TESTS = """asyncio concurrent.futures.process difflib inspect logging mimetypes
multiprocessing.managers pprint ssl unittest unittest.mock urllib.request xml.etree.ElementTree
xml.sax xml.sax.saxutils""".split()
# the variable PATHEXT
ENDS = (".com", ".exe", ".bat", ".cmd")
LACKS = {
    "windows": {
        "modules": "resource fcntl termios pwd grp pty tty posix syslog",
        "os": """fork forkpty killpg setsid setpgid setpgrp getpgid getpgrp getsid getuid geteuid
            getgid getegid getgroups waitid wait wait3 wait4 P_PID P_PGID P_ALL WEXITED WNOWAIT
            WSTOPPED WNOHANG WUNTRACED WCONTINUED WIFEXITED WEXITSTATUS WIFSIGNALED WTERMSIG
            mkfifo mknod chown lchown fchown chroot set_blocking sysconf nice getloadavg
            sched_getaffinity sched_setaffinity sched_yield statvfs fstatvfs pread pwrite sendfile
            openpty pipe2 posix_spawn posix_spawnp register_at_fork uname ttyname O_NONBLOCK
            O_NOCTTY O_CLOEXEC O_DIRECTORY O_NOFOLLOW O_SYNC O_TMPFILE O_PATH""",
        "signal": """SIGALRM SIGKILL SIGHUP SIGPIPE SIGQUIT SIGUSR1 SIGUSR2 SIGCHLD SIGSTOP SIGCONT
            SIGTSTP SIG_BLOCK SIG_UNBLOCK SIG_SETMASK setitimer getitimer ITIMER_REAL alarm pause
            pthread_sigmask pthread_kill sigwait sigpending siginterrupt""",
    },
    "macos": {
        "modules": "",
        # Python on macOS has waitid from 3.13 on.
        "os": """waitid P_PID P_PGID P_ALL WEXITED WNOWAIT WSTOPPED sched_getaffinity
            sched_setaffinity pipe2 O_TMPFILE O_PATH memfd_create eventfd""",
        "signal": "sigwaitinfo sigtimedwait SIGPWR SIGRTMIN SIGRTMAX",
    },
}


def cut(module: types.ModuleType, names: str) -> None:
    """Takes names out of a module. What is imported so far goes on with a copy of it."""
    full = types.ModuleType(module.__name__)
    full.__dict__.update(module.__dict__)
    for user in [it for it in sys.modules.values() if isinstance(it, types.ModuleType)]:
        for name, value in [*user.__dict__.items()]:
            if value is module and user.__name__ != __name__:
                setattr(user, name, full)
    for name in names.split():
        module.__dict__.pop(name, None)


def refuse_preexec() -> None:
    """Lets no process call a function before it runs its command."""
    start = subprocess.Popen.__init__

    def init(self: Any, *words: Any, **named: Any) -> None:
        if named.get("preexec_fn") is not None:
            raise ValueError("preexec_fn is not supported on Windows platforms")
        start(self, *words, **named)
    setattr(subprocess.Popen, "__init__", init)


def find_by_ends() -> None:
    """Finds commands also by the ends of names of programs that are left out."""
    find = shutil.which

    def which(name: str, *words: Any, **named: Any) -> Optional[str]:
        found = (find(name + end, *words, **named) for end in ("", *ENDS))
        return next(filter(None, found), None)
    setattr(shutil, "which", which)


def lock_as_windows() -> None:
    """Gives locks of files by the module that Windows has for them."""
    fcntl = importlib.import_module("fcntl")
    windows: Any = types.ModuleType("msvcrt")

    def locking(handle: int, *_: int) -> None:
        try:
            fcntl.flock(handle, fcntl.LOCK_EX | fcntl.LOCK_NB)
        except OSError:
            raise PermissionError(errno.EACCES, os.strerror(errno.EACCES)) from None
    windows.locking, windows.LK_NBLCK = locking, 2
    sys.modules["msvcrt"] = windows


def rename_as_windows() -> None:
    """Renames no file to the name of another one."""
    rename = os.rename

    def rename_new(old: Any, new: Any, **named: Any) -> None:
        if os.path.lexists(new):
            raise FileExistsError(errno.EEXIST, os.strerror(errno.EEXIST), new)
        rename(old, new, **named)
    setattr(os, "rename", rename_new)


def no_library(name: object, *_: object, **__: object) -> None:
    """Refuses to load the C library, which has no name on Windows."""
    raise TypeError(f"bad argument type for built-in operation: {name}")


class Library:
    """A C library without the functions of Linux alone."""

    def __init__(self, name: object) -> None:
        self.name = name

    def __getattr__(self, name: str) -> None:
        raise AttributeError(f"dlsym(RTLD_DEFAULT, {name}): symbol not found")


def refuse_limit() -> None:
    """Refuses limits of memory, as macOS may."""
    resource = importlib.import_module("resource")
    real = resource.setrlimit

    def limit(which: int, values: Any) -> None:
        if which == resource.RLIMIT_AS:
            raise ValueError("current limit exceeds maximum limit")
        real(which, values)
    setattr(resource, "setrlimit", limit)


def become(system: str) -> None:
    """Makes this process one of that system."""
    for name in [*LIBRARY, *(TESTS if os.environ.pop("LACKING_TESTS", "") else [])]:
        importlib.import_module(name)
    if system == "windows":
        lock_as_windows()
    for name in LACKS[system]["modules"].split():
        sys.modules[name] = None  # type: ignore[assignment]
    cut(os, LACKS[system]["os"])
    cut(signal, LACKS[system]["signal"])
    if system == "macos":
        refuse_limit()
        setattr(ctypes, "CDLL", Library)
        return
    os.sep, os.O_BINARY = "\\", 0x8000  # Linux ignores the flag
    multiprocessing.set_start_method("spawn")
    spawn = multiprocessing.get_context("spawn")
    setattr(multiprocessing.context, "_concrete_contexts", {"spawn": spawn})
    setattr(ctypes, "CDLL", no_library)
    refuse_preexec()
    find_by_ends()
    rename_as_windows()


if os.environ.get("LACKING"):
    become(os.environ["LACKING"])
