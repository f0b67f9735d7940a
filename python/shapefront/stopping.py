"""How a command is stopped: by Ctrl-C or a signal its work ends as by an error; and where that takes long the whole command ends all the same.
"""
from __future__ import annotations

import os
import signal
import sys
import threading
from collections.abc import Callable, Iterator
from contextlib import contextmanager, suppress
from types import FrameType

SIGNALS = (signal.SIGINT, signal.SIGTERM, signal.SIGHUP)
# So many seconds after a signal the command is at its end, whatever it is at work on.
GRACE = 1.0
STOPPED = 130
SAID = "\nshapes: stopped; the same command goes on where it was"

# What is to be taken away where a command is ended in the middle of its work.
_at_end: list[Callable[[], None]] = []


class Stopped(KeyboardInterrupt):
    """A signal that asks the command to end."""


@contextmanager
def cleared(clear: Callable[[], None]) -> Iterator[None]:
    """Calls it at the end of the block, however that comes."""
    _at_end.append(clear)
    try:
        yield
    finally:
        _at_end.remove(clear)
        clear()


@contextmanager
def stoppable() -> Iterator[None]:
    """Within the block Ctrl-C and the signals that end a program raise `Stopped` once, and `GRACE` seconds later end the process."""
    if threading.current_thread() is not threading.main_thread():
        yield
        return
    before = {kind: signal.signal(kind, _raise) for kind in SIGNALS if signal.getsignal(kind) != signal.SIG_IGN}
    ear, mouth = os.pipe()
    os.set_blocking(mouth, False)
    wakeup = signal.set_wakeup_fd(mouth, warn_on_full_buffer=False)
    ended = threading.Event()
    threading.Thread(target=_watch, args=(ear, ended), daemon=True).start()
    try:
        yield
    finally:
        ended.set()
        signal.set_wakeup_fd(wakeup)
        os.close(mouth)
        for kind, handler in before.items():
            signal.signal(kind, handler)


def _raise(kind: int, _frame: FrameType | None) -> None:
    for other in SIGNALS:
        signal.signal(other, signal.SIG_IGN)
    raise Stopped


def _watch(ear: int, ended: threading.Event) -> None:
    """Waits for a signal, and then for the end of the command; ends it where that does not come."""
    with os.fdopen(ear, "rb", 0) as file:
        while told := file.read(1):
            if told[0] in SIGNALS:
                break
        else:
            return
    if ended.wait(GRACE):
        return
    for clear in reversed(_at_end):
        with suppress(Exception):
            clear()
    with suppress(Exception):
        print(SAID, file=sys.stderr, flush=True)
    os._exit(STOPPED)
