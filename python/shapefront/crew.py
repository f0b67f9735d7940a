"""Several processes of this program, each at work on one thing at a time; all of them, and what they called, end at once where the run ends.

With one there is no process but this one.
"""
from __future__ import annotations

import multiprocessing
import os
import signal
from collections.abc import Callable, Iterable, Iterator
from contextlib import suppress
from dataclasses import dataclass
from itertools import islice
from multiprocessing.connection import Connection, wait
from multiprocessing.process import BaseProcess
from typing import Any, Generic, TypeVar, cast

from .faults import Fault
from .stopping import SIGNALS, cleared

Thing = TypeVar("Thing")
Made = TypeVar("Made")


class Lost(Fault):
    """A process that was ended by another, as the system does where memory is short."""


@dataclass
class Worker(Generic[Thing]):
    """A process, the pipe to it, and the thing that it is at work on."""

    process: BaseProcess
    pipe: Connection
    thing: Thing | None = None

    def end(self) -> None:
        """Ends the process with all that it called."""
        with suppress(ProcessLookupError, PermissionError):
            os.killpg(self.process.pid or 0, signal.SIGKILL)
        self.process.kill()
        self.process.join()
        self.pipe.close()


class Crew(Generic[Thing, Made]):
    """So many processes that make something of each of some things."""

    def __init__(self, work: Callable[[Thing], Made], size: int) -> None:
        self._work, self._size, self._workers = work, size, list[Worker[Thing]]()
        # on other systems a copy of this process may not call all of them
        self._context: Any = multiprocessing.get_context("fork" if os.uname().sysname == "Linux" else "spawn")

    def results(self, things: Iterable[Thing]) -> Iterator[tuple[Thing, Made | Fault]]:
        """Each thing with what was made of it, as they become ready. A Fault is given back; any other error is raised here.

        Where the iteration ends before, or by an error, all processes are ended at once.
        """
        if self._size == 1:
            yield from ((thing, _tried(self._work, thing)) for thing in things)
            return
        rest = iter(things)
        with cleared(self.end):
            for thing in rest:
                self._begin(self._hired(), thing)
                if len(self._workers) == self._size:
                    break
            while at_work := [worker for worker in self._workers if worker.thing is not None]:
                for pipe in wait([worker.pipe for worker in at_work]):
                    worker = next(worker for worker in at_work if worker.pipe is pipe)
                    done, answer = cast(Thing, worker.thing), self._answer(worker)
                    for thing in islice(rest, 1):
                        self._begin(worker if worker in self._workers else self._hired(), thing)
                    yield done, answer

    def in_order(self, things: Iterable[Thing]) -> Iterator[Made]:
        """What was made of each thing, in their order. A Fault is raised."""
        ready, due = dict[int, Made | Fault](), 0
        crew = Crew(_Numbered(self._work), self._size)
        for (k, _), made in crew.results(enumerate(things)):
            ready[k] = made
            while due in ready:
                one, due = ready.pop(due), due + 1
                if isinstance(one, Fault):
                    raise one
                yield one

    def end(self) -> None:
        """Ends all processes."""
        for worker in self._workers:
            worker.end()
        self._workers.clear()

    def _hired(self) -> Worker[Thing]:
        """A new process, in a group of its own: a signal of the terminal does not reach it, and it ends with all that it called."""
        own, its = self._context.Pipe()
        others = [worker.pipe for worker in self._workers] + [own]
        process = self._context.Process(target=_serve, args=(self._work, its, others), daemon=True)
        process.start()
        with suppress(OSError):
            os.setpgid(process.pid, process.pid)
        its.close()
        self._workers.append(Worker(process, own))
        return self._workers[-1]

    def _begin(self, worker: Worker[Thing], thing: Thing) -> None:
        worker.thing = thing
        with suppress(OSError):
            worker.pipe.send(thing)

    def _answer(self, worker: Worker[Thing]) -> Made | Fault:
        """What a process made of its thing. Lost where it is no more; then it is none of the crew any more."""
        worker.thing = None
        try:
            answer = worker.pipe.recv()
        except (EOFError, OSError):
            worker.process.join(1)
            worker.end()
            self._workers.remove(worker)
            return Lost("a process", f"was ended by signal {-(worker.process.exitcode or 0)}", "give fewer --jobs, if memory is short")
        if isinstance(answer, BaseException) and not isinstance(answer, Fault):
            raise answer
        return answer


@dataclass(frozen=True)
class _Numbered(Generic[Thing, Made]):
    """Makes of a thing with its number what is made of the thing."""

    work: Callable[[Thing], Made]

    def __call__(self, thing: tuple[int, Thing]) -> Made:
        return self.work(thing[1])


def _tried(work: Callable[[Thing], Made], thing: Thing) -> Made | Fault:
    try:
        return work(thing)
    except Fault as fault:
        return fault


def _serve(work: Callable[[Thing], Made], pipe: Connection, others: list[Connection]) -> None:
    """Makes something of each thing that comes through the pipe, until it is closed."""
    with suppress(OSError):
        os.setpgid(0, 0)
    signal.set_wakeup_fd(-1)
    for kind in SIGNALS:
        signal.signal(kind, signal.SIG_DFL)
    for other in others:
        other.close()
    with suppress(EOFError, OSError):
        while True:
            thing = pipe.recv()
            try:
                answer: Any = _tried(work, thing)
            except Exception as error:  # noqa: BLE001  it is raised again by the one who waits for it
                answer = error
            pipe.send(answer)
