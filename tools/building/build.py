"""Proves crates side by side, as the plan has it, and says how far that is."""
import concurrent.futures
import functools
import hashlib
import pathlib
import subprocess
import sys
import time

from tools.building.crates import OUT, PROGRAM, Crate, longest_way_first
from tools.building.kit import Kit
from tools.building.plan import Check, Plan

GB = 1_000_000_000


class Build:
    """Holds what is proved, what is being proved, and the processors and the memory that the whole build may take. `below` has libraries
    that checks have made, by the names of their crates: with some, the last crate alone is left."""

    def __init__(self, kit: Kit, crates: dict[str, Crate], jobs: int, room: int, below: dict[str, pathlib.Path] | None = None) -> None:
        self.kit, self.crates, self.jobs, self.room, self.below = kit, crates, jobs, room, below or {}
        self.proved = {it.name for it in crates.values() if it.name in self.below or self.is_made(it)}
        self.plan = Plan([it for it in longest_way_first(crates) if it.name not in self.proved], jobs, room)
        self.commands: set[subprocess.Popen] = set()
        self.failed: list[str] = []
        self.start = time.monotonic()
        # Of the checks that have ended: the seconds there, if they were measured, and here.
        self.measured, self.taken = 0.0, 0.0

    @property
    def pace(self) -> float:
        """Returns how many seconds on this machine equal one second of the measurement."""
        return self.taken / self.measured if self.measured else 1

    @functools.cache
    def digest(self, name: str) -> str:
        """Returns a digest of all that a crate is proved and made from: the toolchain, its files, and the crates below."""
        crate = self.crates[name]
        parts = [self.kit.version, crate.digest, *(self.digest(it) for it in crate.listed if it in self.crates)]
        return hashlib.sha256("\n".join(parts).encode()).hexdigest()

    def is_made(self, crate: Crate) -> bool:
        return crate.made.exists() and crate.stamp.is_file() and crate.stamp.read_text() == self.digest(crate.name)

    def make(self, check: Check) -> bool:
        """Proves a crate, and makes its library, the program or the library for C."""
        crate = check.crate
        crate.stamp.unlink(missing_ok=True)
        steps = [self.kit.build(crate, check.processors, self.below), *([self.kit.link()] if crate.name == PROGRAM else [])]
        with open(crate.log, "wb") as log:
            for words in steps:
                with subprocess.Popen(words, cwd=crate.folder, stdin=subprocess.DEVNULL, stdout=log, stderr=subprocess.STDOUT) as command:
                    self.commands.add(command)
                self.commands.discard(command)
                if command.returncode:
                    return False
        crate.stamp.write_text(self.digest(crate.name))
        return True

    def end(self, check: Check, is_proved: bool, at_work: list[Check]) -> None:
        """Keeps what came of a check, and says how much is done."""
        now, name = time.monotonic(), check.crate.name
        self.measured += check.crate.seconds(check.processors)
        self.taken += now - check.begin
        if not is_proved:
            self.failed.append(name)
            return
        self.proved.add(name)
        if len(self.proved) < len(self.crates):
            left = self.plan.seconds_left(at_work, now, self.pace) / 60
            print(f"meson: {len(self.proved)} of {len(self.crates)} crates proved in {(now - self.start) / 60:.0f} minutes, "
                  f"about {left:.0f} more: {name}", file=sys.stderr, flush=True)

    def prove(self) -> None:
        """Proves what isn't made yet, or begins nothing more at the first crate that isn't proved."""
        print(f"meson: proving {len(self.crates) - len(self.proved)} crates, at most {self.jobs} at once in {self.room // GB} GB; "
              f"the logs are {OUT}/build-*.log", file=sys.stderr)
        running: dict[concurrent.futures.Future, Check] = {}
        with concurrent.futures.ThreadPoolExecutor(self.jobs) as lanes:
            try:
                while len(self.proved) < len(self.crates):
                    if not self.failed:
                        begun = self.plan.begin([*running.values()], time.monotonic(), self.pace)
                        running |= {lanes.submit(self.make, it): it for it in begun}
                    if not running:
                        return
                    for it in concurrent.futures.wait(running, return_when=concurrent.futures.FIRST_COMPLETED).done:
                        self.end(running.pop(it), it.result(), [*running.values()])
            finally:
                # None is left, unless a signal ends the build.
                for command in self.commands.copy():
                    command.terminate()
