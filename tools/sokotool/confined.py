"""Does some work in a process of its own, within limits of time and memory, so that no input can
stop the others."""
import contextlib
import os
import signal
from typing import Any, Callable

from . import system, texts


def result(work: Callable[..., Any], *given: Any, seconds: float, megabytes: int) -> Any:
    """Returns what some work returns, or raises `Stop` with the limit that it exceeded or with its
    own reason. The limit of memory is for what it takes beside what this process has."""
    ours, theirs = system.PROCESSES.Pipe(False)
    process = system.PROCESSES.Process(target=_work, args=(theirs, megabytes, work, given),
                                       daemon=True)
    try:
        process.start()
        theirs.close()
        # A system can't wait for any number of seconds.
        if not ours.poll(seconds if seconds < 1e6 else None):
            raise texts.Stop(f"stopped after {seconds:g} s")
        is_made, made = ours.recv()
    except EOFError:
        process.join()
        raise texts.Stop(f"ended by signal {-process.exitcode}") from None
    finally:
        process.kill()
        process.join()
        ours.close()
    if not is_made:
        raise texts.Stop(made)
    return made


def _work(pipe: Any, megabytes: int, work: Callable[..., Any], given: Any) -> None:
    """Does the work, and sends the result or the reason why there is none."""
    signal.signal(signal.SIGINT, signal.SIG_IGN)
    system.end_with_parent()
    if bound := system.memory_limit(megabytes + system.megabytes_used()):
        bound()
    why = ""
    try:
        pipe.send((True, work(*given)))
    except texts.Stop as stop:
        why = str(stop)
    except MemoryError:
        why = "out of memory"
    except Exception as error:  # Whatever a file makes of its reader costs that file alone.
        why = f"cannot be read: {error!r}"
    if why:
        with contextlib.suppress(OSError):
            pipe.send((False, why))
    os._exit(0)  # without what is still to be printed there
