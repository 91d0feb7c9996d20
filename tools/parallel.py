"""Runs work in parallel, and ends it if the script ends."""
from __future__ import annotations

import _thread
import os

TYPE_CHECKING = False
if TYPE_CHECKING:
    from collections.abc import Callable
    from typing import Any

SPELL = 0.5  # of waiting, in seconds


class Lanes:
    """Starts threads that take items one by one, until one of them fails."""

    def __init__(self, work: Callable[[Any], Any], items: list[Any], end: Callable[[], None]) -> None:
        self.work, self.items, self.end = work, items, end
        self.came: list[Any] = [None] * len(items)
        self.waiting, self.lock = list(range(len(items)))[::-1], _thread.allocate_lock()
        self.fault: BaseException | None = None
        self.alive: list[_thread.LockType] = []  # one for each thread, which lets it go at its end

    def next_number(self) -> int | None:
        with self.lock:
            return self.waiting.pop() if self.waiting and self.fault is None else None

    def run(self) -> None:
        while (number := self.next_number()) is not None:
            try:
                self.came[number] = self.work(self.items[number])
            except BaseException as fault:
                self.stop(fault)

    def start(self) -> None:
        """Starts a thread."""
        ended = _thread.allocate_lock()
        ended.acquire()
        self.alive.append(ended)
        try:
            _thread.start_new_thread(self.run_in_thread, (ended,))
        except BaseException:
            self.alive.remove(ended)
            raise

    def run_in_thread(self, ended: _thread.LockType) -> None:
        try:
            self.run()
        finally:
            self.alive.remove(ended)
            ended.release()

    def wait(self) -> None:
        """Waits for all threads, in short spells: where two signals come at once another thread may take both, and this one would sleep
        on."""
        for it in list(self.alive):
            while it in self.alive:
                it.acquire(timeout=SPELL)

    def stop(self, fault: BaseException) -> None:
        """Starts no more work, and ends what is running; the first fault counts."""
        with self.lock:
            self.fault = self.fault or fault
        self.end()


def side_by_side(work: Callable[[Any], Any], items: list[Any], jobs: int | None, end: Callable[[], None]) -> list[Any]:
    """Returns the results of work on each item. If one fails, or the script is interrupted, `end` ends what is running, and no more
    starts."""
    lanes = Lanes(work, items, end)
    try:
        for _ in range(min(jobs or (os.cpu_count() or 1) + 4, len(items))):
            lanes.start()
        lanes.wait()
    except BaseException as fault:
        lanes.stop(fault)
        lanes.wait()
        raise
    if lanes.fault is not None:
        raise lanes.fault
    return lanes.came
