"""Which run has a folder in hand: a mark there tells its host, its process and since when, and the run renews it as long as it lives.

Of a process of this very system it can be known whether it lives. Of any other a mark that is not renewed for its whole patience has run
out, by the clock of the one who waits: no two clocks are compared, and nobody looks for a process where it is not.
"""
from __future__ import annotations

import json
import os
import secrets
import socket
import sys
import threading
import time
from contextlib import suppress
from dataclasses import asdict, dataclass
from datetime import UTC, datetime
from pathlib import Path
from types import TracebackType

from .faults import Busy, Fault
from .files import TOKEN, parsed, shown

MARK = ".in-hand"
# A mark that is not renewed for so many seconds has run out; it is renewed so many times in them.
PATIENCE, RENEWALS = 60.0, 12
_UNKNOWN = "the mark of which cannot be read"


@dataclass(frozen=True)
class Owner:
    """Who has a folder in hand: its host and process, since when, how long it may give no sign of life, and a word of its own.

    `system` names the running system and the name space that its process number counts in, and `started` is when the process began there;
    both are empty where that is not known.
    """

    host: str
    process: int
    since: str
    patience: float
    token: str
    system: str
    started: str

    @classmethod
    def own(cls, patience: float) -> Owner:
        """This process."""
        since, system = datetime.now(UTC).strftime("%Y-%m-%d %H:%M:%S UTC"), _system()
        return cls(socket.gethostname(), os.getpid(), since, patience, f"{TOKEN}-{secrets.token_hex(3)}", system, _started(os.getpid()) if system else "")

    @classmethod
    def told(cls, mark: bytes) -> Owner | None:
        """Whom a mark tells; None where it is none."""
        try:
            value = parsed(mark)
            return cls(**{name: value[name] for name in cls.__dataclass_fields__})
        except (TypeError, KeyError):
            return None

    def is_gone(self) -> bool:
        """Whether it is known that the process is no more: it was one of this system, and is not there."""
        return bool(self.system) and self.system == _system() and _started(self.process) != self.started

    def __str__(self) -> str:
        return f"host {self.host}, process {self.process}, since {self.since}"


def _system() -> str:
    """The running system and this process's name space of process numbers; empty where they cannot be told, or /proc is that of another one."""
    try:
        if os.readlink("/proc/self") != str(os.getpid()):
            return ""
        return Path("/proc/sys/kernel/random/boot_id").read_text().strip() + " " + os.readlink("/proc/self/ns/pid")
    except OSError:
        return ""


def _started(process: int) -> str:
    """When a process of this system began, in its own measure; empty where there is none."""
    try:
        return Path(f"/proc/{process}/stat").read_text().rpartition(")")[2].split()[19]
    except OSError:
        return ""


class Hand:
    """A folder in hand, for as long as the block lasts. Busy, a Fault, where another run has it."""

    def __init__(self, folder: Path, patience: float = PATIENCE) -> None:
        self.folder, self.path, self.owner = folder, folder / MARK, Owner.own(patience)
        self._ended, self._renewals = threading.Event(), 0
        self._thread = threading.Thread(target=self._renew, daemon=True)

    def __enter__(self) -> Hand:
        try:
            while not self._made():
                if (mark := self._mark()) is not None and self._has_run_out(mark):
                    self._write()
        except OSError as error:
            raise Fault(shown(self.folder), f"cannot be written ({error.strerror})", "choose another folder with -o") from error
        self._thread.start()
        return self

    def __exit__(self, kind: type[BaseException] | None, error: BaseException | None, trace: TracebackType | None) -> None:
        self._ended.set()
        self._thread.join()
        self.give_back()

    def give_back(self) -> None:
        """Takes the mark away, where it is this run's."""
        with suppress(OSError):
            if self.holds():
                self.path.unlink()

    def holds(self) -> bool:
        """Whether the folder is still in this run's hand: no other has taken it over."""
        mark = self._mark()
        owner = Owner.told(mark) if mark else None
        return owner is not None and owner.token == self.owner.token

    def keep(self) -> None:
        """Busy, a Fault, where another run has taken the folder over."""
        if not self.holds():
            raise Busy(shown(self.folder), "another run took this folder over, as this one gave no sign of life", "let that one go on")

    def _made(self) -> bool:
        """Whether the mark is this run's: it is made where there is none."""
        try:
            with open(self.path, "xb") as file:
                file.write(self._spelled())
            return True
        except FileExistsError:
            return self.holds()

    def _mark(self) -> bytes | None:
        try:
            return self.path.read_bytes()
        except FileNotFoundError:
            return None

    def _spelled(self) -> bytes:
        return json.dumps({**asdict(self.owner), "renewals": self._renewals}).encode()

    def _write(self) -> None:
        aside = self.path.with_name(f"{MARK}-{self.owner.token}")
        aside.write_bytes(self._spelled())
        os.replace(aside, self.path)

    def _has_run_out(self, mark: bytes) -> bool:
        """Whether another's mark has run out, which is waited for; False where it was given back. Busy where it is renewed."""
        owner = Owner.told(mark)
        if owner and owner.is_gone():
            return True
        patience = owner.patience if owner else self.owner.patience
        print(f"{shown(self.folder)}: another run has it in hand ({owner or _UNKNOWN}): whether it lives shows within {patience:g} seconds", file=sys.stderr, flush=True)
        until = time.monotonic() + patience
        while time.monotonic() < until:
            time.sleep(min(patience / RENEWALS / 2, 0.5))
            now = self._mark()
            if now is None:
                return False
            if now != mark:
                raise Busy(shown(self.folder), f"another run is at work here ({Owner.told(now) or owner})", "wait for it, or choose another folder with -o")
        return True

    def _renew(self) -> None:
        """Renews the mark until the block ends, or another run has the folder."""
        while not self._ended.wait(self.owner.patience / RENEWALS):
            with suppress(OSError):
                if not self.holds():
                    return
                self._renewals += 1
                self._write()
