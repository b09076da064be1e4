"""What the system does for a process: limits, locks, groups of processes, command lines. What a
system lacks, as Windows and macOS do, is asked here alone."""
import contextlib
import ctypes
import errno
import importlib
import multiprocessing
import multiprocessing.connection
import os
import re
import shlex
import signal
import subprocess
import sys
import threading
import time
from typing import IO, Any, Callable, Iterator, List, Optional, Sequence

try:
    import fcntl
    import resource
except ImportError:
    fcntl = resource = None  # type: ignore[assignment]

IS_WINDOWS = os.sep == "\\"
# the end of a program's name
PROGRAM = ".exe" if IS_WINDOWS else ""
# A search starts as a copy of this process where there are copies: a new Python takes longer.
PROCESSES: Any = multiprocessing.get_context("fork" if hasattr(os, "fork") else "spawn")
_HAS_GROUPS = hasattr(os, "killpg")
# whether the system can end the processes that a command starts
ENDS_CHILDREN = _HAS_GROUPS or hasattr(ctypes, "WinDLL")
_KILL = getattr(signal, "SIGKILL", signal.SIGTERM)
# whether a process has ended, without taking it off the system's list: its number stays its own
_LOOK = os.WEXITED | os.WNOHANG | os.WNOWAIT if hasattr(os, "waitid") else 0
_PR_SET_PDEATHSIG = 1
# the folder of the process for renameat2, and its flag
_HERE, _NO_REPLACE = -100, 1
# how many processes may be waited for at once: before Python 3.13 Windows waits for up to 63
MOST_PROCESSES = 60 if IS_WINDOWS else sys.maxsize
_DEVICE = re.compile(
    r"(?i)(con|con(in|out)\$|prn|aux|nul|(com|lpt)[1-9\u00b9\u00b2\u00b3]) *([.:]|$)")
# the seconds in which a file is tried again
PATIENCE = 1.0


def processors() -> int:
    """Returns how many processors this process may use."""
    if hasattr(os, "sched_getaffinity"):
        return len(os.sched_getaffinity(0))
    return os.cpu_count() or 1


@contextlib.contextmanager
def uninterrupted() -> Iterator[None]:
    """Lets an interrupt wait for the end of some work, also if that fails."""
    came: List[int] = []
    former = signal.signal(signal.SIGINT, lambda number, _: came.append(number))
    try:
        yield
    finally:
        signal.signal(signal.SIGINT, former)
        if came:
            raise KeyboardInterrupt


def is_device(name: str) -> bool:
    """Returns whether a name, whatever end it has, is that of a device."""
    return IS_WINDOWS and bool(_DEVICE.match(name))


def is_closed_pipe(error: OSError) -> bool:
    """Returns whether a write failed because the reader has closed the pipe."""
    return isinstance(error, BrokenPipeError) or IS_WINDOWS and error.errno == errno.EINVAL


def patiently(work: Callable[..., None], *words: str) -> None:
    """Replaces or removes a file by this function. On Windows that fails while another program
    reads the file, as a scanner does with new ones for a moment: it is tried again for a second."""
    end = time.monotonic() + PATIENCE
    while True:
        try:
            return work(*words)
        except PermissionError:
            if not IS_WINDOWS or time.monotonic() > end:
                raise
            time.sleep(PATIENCE / 20)


def words_of(command: str) -> List[str]:
    """Returns the words of a command line, or raises ValueError. A backslash quotes the character
    after it, unless it separates the names of folders."""
    lexer = shlex.shlex(command, posix=True, punctuation_chars=False)
    lexer.whitespace_split, lexer.commenters = True, ""
    if IS_WINDOWS:
        lexer.escape = ""
    return list(lexer)


def memory_limit(megabytes: int) -> Optional[Callable[[], None]]:
    """Returns what a new process calls to limit its memory, or None where there is no limit."""
    def bound() -> None:
        # macOS has the limit and may refuse to set it. Others have none so large.
        with contextlib.suppress(ValueError, OSError, OverflowError):
            resource.setrlimit(resource.RLIMIT_AS, (megabytes * 1_000_000,) * 2)
    return bound if resource else None


def megabytes_used() -> int:
    """Returns the address space of this process, or 0 where the system doesn't say."""
    with contextlib.suppress(OSError, AttributeError), open("/proc/self/statm", "rb") as file:
        return int(file.read().split()[0]) * resource.getpagesize() // 1_000_000 + 1
    return 0


def lock(handle: int) -> bool:
    """Locks an open file. Returns false if another process has the lock, which ends with that
    process or when it closes the file. Where files have no locks nothing is locked."""
    try:
        if fcntl:
            fcntl.flock(handle, fcntl.LOCK_EX | fcntl.LOCK_NB)
        else:
            windows: Any = importlib.import_module("msvcrt")
            windows.locking(handle, windows.LK_NBLCK, 1)
    except OSError as error:
        return error.errno not in (errno.EACCES, errno.EAGAIN, errno.EDEADLK)
    return True


def keep(file: IO[Any]) -> None:
    """Writes a file to the disk, so that it outlasts a power cut."""
    file.flush()
    os.fsync(file.fileno())


def keep_names(folder: str) -> None:
    """Writes the names in a folder to the disk, where the system can."""
    with contextlib.suppress(OSError):
        handle = os.open(folder, os.O_RDONLY)
        try:
            os.fsync(handle)
        finally:
            os.close(handle)


def copy_rights(path: str, made: str) -> None:
    """Gives a new file the group, access lists and labels of the file at a path, where it has some,
    and its owner if that is allowed."""
    with contextlib.suppress(OSError, AttributeError):  # Windows has no groups.
        known = os.stat(path)
        os.chown(made, -1, known.st_gid)
        os.chown(made, known.st_uid, -1)
    if hasattr(os, "listxattr"):
        with contextlib.suppress(OSError):
            for name in os.listxattr(path):
                os.setxattr(made, name, os.getxattr(path, name))


def rename_new(made: str, path: str) -> None:
    """Renames a file, or raises FileExistsError if a file has the new name."""
    if IS_WINDOWS:
        patiently(os.rename, made, path)
        return
    try:
        os.link(made, path)
    except FileExistsError:
        raise
    except OSError:
        # A file system without links. There nothing but Linux can do both at once.
        if not _RENAME or _RENAME(_HERE, os.fsencode(made), _HERE, os.fsencode(path), _NO_REPLACE):
            if os.path.lexists(path):
                raise FileExistsError from None
            os.replace(made, path)
    else:
        os.unlink(made)


def end_with_parent() -> None:
    """Ends this process, which multiprocessing started, once its parent is gone."""
    parent = multiprocessing.parent_process()

    def watch() -> None:
        multiprocessing.connection.wait([parent.sentinel])  # type: ignore[union-attr]
        os._exit(1)
    threading.Thread(target=watch, daemon=True).start()


class Group:
    """A command that runs, with all processes that it starts, if the system ends children."""

    def __init__(self, words: Sequence[str], **streams: Any) -> None:
        if _HAS_GROUPS:
            streams.update(start_new_session=True, preexec_fn=_die_with_parent)
        else:
            # An interrupt of the console is for this process alone.
            streams.update(creationflags=getattr(subprocess, "CREATE_NEW_PROCESS_GROUP", 0))
        self.process = subprocess.Popen(words, **streams)
        job = _Job(self.process.pid) if hasattr(ctypes, "WinDLL") else None
        self._job = job if job and job.has_process else None

    def has_ended(self) -> bool:
        """Returns whether the command itself has ended."""
        if _LOOK:
            return os.waitid(os.P_PID, self.process.pid, _LOOK) is not None
        return self.process.poll() is not None

    def terminate(self) -> None:
        """Asks all processes to end, where the system can ask."""
        self._end(signal.SIGTERM)

    def kill(self) -> None:
        """Ends all processes, and waits for the command."""
        self._end(_KILL)
        self.process.wait()
        if self._job:
            self._job.close()

    def _end(self, number: int) -> None:
        with contextlib.suppress(OSError):
            if _HAS_GROUPS:
                os.killpg(self.process.pid, number)
            elif self._job:
                self._job.end()
            else:
                self.process.kill()


def _linux(name: str) -> Any:
    """Returns a function of Linux, or None."""
    with contextlib.suppress(AttributeError, OSError, TypeError):
        return getattr(ctypes.CDLL(None), name)
    return None


_PRCTL, _RENAME = _linux("prctl"), _linux("renameat2")


def _die_with_parent() -> None:
    if _PRCTL:
        _PRCTL(_PR_SET_PDEATHSIG, signal.SIGKILL)


# ---- Windows

class _Job:
    """A job of Windows: processes and all that they start. It ends them when this process ends."""

    _SET_QUOTA_AND_TERMINATE = 0x0101
    _EXTENDED_LIMITS = 9
    _KILL_ON_CLOSE = 0x2000

    def __init__(self, pid: int) -> None:
        self._kernel = kernel = ctypes.WinDLL("kernel32")  # type: ignore[attr-defined]
        kernel.CreateJobObjectW.restype = kernel.OpenProcess.restype = ctypes.c_void_p
        self._job = ctypes.c_void_p(kernel.CreateJobObjectW(None, None))
        process = ctypes.c_void_p(kernel.OpenProcess(self._SET_QUOTA_AND_TERMINATE, False, pid))
        # JOBOBJECT_EXTENDED_LIMIT_INFORMATION: its flags come after two numbers of 64 bits.
        limits = (ctypes.c_uint32 * (36 if sys.maxsize > 1 << 32 else 28))()
        limits[4] = self._KILL_ON_CLOSE
        is_set = kernel.SetInformationJobObject(self._job, self._EXTENDED_LIMITS,
                                                ctypes.byref(limits), ctypes.sizeof(limits))
        self.has_process = bool(is_set and kernel.AssignProcessToJobObject(self._job, process))
        kernel.CloseHandle(process)

    def end(self) -> None:
        """Ends all processes of the job."""
        self._kernel.TerminateJobObject(self._job, 1)

    def close(self) -> None:
        """Ends all processes of the job, and removes it."""
        self._kernel.CloseHandle(self._job)
