"""Runs the commands that query the machine. Each has a process group of its own, so that it is ended with all that it has started.

`subprocess` takes as long to load as ten such commands take to run, and looks for the end of a command in spells. Here a command is begun
and waited for by the calls of the system.
"""
from __future__ import annotations

import _thread
import os
import select
import time

from tools import records as dataclasses
from tools.early_signals import signal
from tools.ending import Stop
from tools.variables import path_of_program

TYPE_CHECKING = False
if TYPE_CHECKING:
    from collections.abc import Callable

SECONDS, GRACE = 300, 20  # that a command may take, and that it may take to end its own commands
# Bytes that a command may print or say, that the program may report, and that are read at once.
MOST_BYTES, MOST_TOLD, PIECE = 1 << 24, 1 << 28, 1 << 16
AT_WORK: set[int] = set()  # the groups of processes of the commands that run
ENDED: list[bool] = []  # holds something if no further command is begun
BEGINS = _thread.allocate_lock()  # so that one that is being begun is among those that are ended
# Signals that the interpreter ignores, and a command doesn't.
IGNORED_HERE = (signal.SIGPIPE, signal.SIGXFSZ)
NOT_BEGUN = 127
SHORTEST, LONGEST = 0.0001, 0.005  # spells of waiting, in seconds


class NoAnswer(Stop):
    """Reports that a question has no answer, neither true nor false. A command may not have ended in time."""


@dataclasses.dataclass(frozen=True)
class Done:
    """Holds how a command ended: its status, or None if it could not be started, its two outputs, and what it made."""
    status: int | None
    printed: str
    said: str
    made: bytes = b""

    @property
    def is_good(self) -> bool:
        return self.status == 0

    @property
    def why(self) -> str:
        """Returns what it said, in one line."""
        return "; ".join(it.strip() for it in self.said.splitlines() if it.strip()) or f"it ended with status {self.status}"


class Refused(Exception):
    """Reports that the system refuses to limit what a command may do."""


class Late(Exception):
    """Reports that a command didn't end in time."""


class TooMuch(Exception):
    """Reports that a command prints or says more than anybody reads."""


class Running:
    """Holds a command that was begun: its number, the ends of its outputs, and what these have held so far."""

    def __init__(self, name: str) -> None:
        self.name, self.pid, self.most, self.is_asked_first = name, 0, MOST_BYTES, False
        self.parts: dict[int, list[bytes]] = {}
        self.status: int | None = None

    def wait(self, end: float) -> None:
        """Reads its outputs until they end, and waits until it has ended itself. Ends a command that is late or prints too much."""
        try:
            waiting = select.poll()
            room = dict.fromkeys(self.parts, self.most)
            for it in room:
                waiting.register(it, select.POLLIN)
            while room:
                for number, _ in self.ready(waiting, end):
                    data = os.read(number, PIECE)
                    self.parts[number].append(data)
                    room[number] -= len(data)
                    if room[number] < 0:
                        raise TooMuch
                    if not data:
                        waiting.unregister(number)
                        del room[number]
            self.reap(end)
        finally:
            self.end()

    def end(self) -> None:
        """Ends it, if it runs yet, and reads no more of it."""
        try:
            self.kill_early()
        finally:
            for it in self.parts:
                os.close(it)
            AT_WORK.discard(self.pid)

    def ready(self, waiting: select.poll, end: float) -> list[tuple[int, int]]:
        ready = waiting.poll(max(end - time.monotonic(), 0) * 1000)
        if not ready:
            raise Late
        return ready

    def reap(self, end: float) -> None:
        """Waits until it has ended, and takes its status. Nearly always it ends at once after its outputs."""
        spell = SHORTEST
        while True:
            pid, status = os.waitpid(self.pid, os.WNOHANG)
            if pid:
                self.status = os.waitstatus_to_exitcode(status)
                return
            if time.monotonic() > end:
                raise Late
            time.sleep(spell)
            spell = min(2 * spell, LONGEST)

    def kill_early(self) -> None:
        """Ends it, and all that it has started in its group."""
        if self.status is not None:
            return
        if self.is_asked_first:
            os.kill(self.pid, signal.SIGTERM)
            try:
                self.reap(time.monotonic() + GRACE)
            except Late:
                pass
        kill(self.pid)
        if self.status is None:
            os.waitpid(self.pid, 0)


def run(words: list[str], folder: str | None = None, executable: str | None = None, hears: bool = True, seconds: int = SECONDS,
        variables: dict[str, str] | None = None, enter: Callable[[], None] | None = None, errors: str = "replace",
        most: int = MOST_BYTES, is_asked_first: bool = False) -> Done:
    """Runs a command, in plain English if it has no `variables` of its own. Ends a command that is late, or prints more than `most`
    bytes. With `is_asked_first` the command gets a signal before it is killed, so that it can end its own commands. Without `hears` its
    output is lost. The new process calls `enter` before the command begins. `errors` says what becomes of bytes that are no text."""
    try:
        running = Command(words, folder, executable, variables, enter).begin(hears)
    except (OSError, ValueError) as error:  # a ValueError where a word has a NUL
        return Done(None, "", f"{executable or words[0]}: {getattr(error, 'strerror', error)}")
    except Refused as error:
        raise Stop(f"{words[0]}: the system refuses to limit what it may do") from error
    running.most, running.is_asked_first = most, is_asked_first
    return finish(running, seconds, errors)


def finish(running: Running, seconds: int = SECONDS, errors: str = "replace") -> Done:
    """Waits for a command that was begun."""
    try:
        running.wait(time.monotonic() + seconds)
    except Late as error:
        raise NoAnswer(f"{running.name} didn't end within {seconds} seconds") from error
    except TooMuch as error:
        raise NoAnswer(f"{running.name} prints more than {running.most:,} bytes") from error
    printed, said = (b"".join(it).decode(errors=errors) for it in [*running.parts.values(), [], []][:2])
    return Done(running.status, printed, said)


def begin(words: list[str], folder: str | None = None, executable: str | None = None) -> Running:
    """Begins a command as `run` does, and doesn't wait for it."""
    return Command(words, folder, executable).begin()


class Command:
    """Describes a command: its words, its folder, the file that is executed, its environment, and what the new process calls first."""

    def __init__(self, words: list[str], folder: str | None = None, executable: str | None = None,
                 variables: dict[str, str] | None = None, enter: Callable[[], None] | None = None) -> None:
        self.words, self.folder, self.enter = words, folder, enter
        self.variables = {**os.environ, "LC_ALL": "C"} if variables is None else variables
        self.path = executable or path_of_program(words[0], self.variables, folder or "")

    def begin(self, hears: bool = True) -> Running:
        """Begins it. Without `hears` its output is lost."""
        running, opened = Running(self.words[0]), []
        try:
            with BEGINS:
                if ENDED:
                    raise NoAnswer(f"{self.words[0]} was not started")
                for _ in range(2 if hears else 0):
                    reading, writing = os.pipe()
                    opened.append(writing)
                    running.parts[reading] = []
                # In this folder and without limits the new process needs no copy of this one.
                start = self.begin_here if self.folder is None and self.enter is None else self.begin_apart
                running.pid = start(opened)
                AT_WORK.add(running.pid)
        except BaseException:
            for it in running.parts:
                os.close(it)
            raise
        finally:
            for it in opened:
                os.close(it)
        return running

    def begin_here(self, outputs: list[int]) -> int:
        """Begins it in this folder. Returns its number."""
        to = [(os.POSIX_SPAWN_DUP2, it, number) for number, it in enumerate(outputs, 1)]
        to = to or [(os.POSIX_SPAWN_OPEN, it, os.devnull, os.O_WRONLY, 0) for it in (1, 2)]
        streams = [(os.POSIX_SPAWN_OPEN, 0, os.devnull, os.O_RDONLY, 0), *to]
        return os.posix_spawn(self.path, self.words, self.variables, file_actions=streams, setsid=True, setsigdef=IGNORED_HERE)

    def begin_apart(self, outputs: list[int]) -> int:
        """Begins it by a copy of this process, which goes to its folder and calls `enter` first. Returns its number."""
        reading, writing = os.pipe()
        pid = os.fork()
        if pid == 0:
            os._exit(self.replace_process(outputs, writing))
        os.close(writing)
        with open(reading, "rb") as it:
            said = it.read()
        if said:
            os.waitpid(pid, 0)
            number, _, text = said.decode(errors="replace").partition(" ")
            raise OSError(int(number), text) if number != "0" else Refused(text)
        return pid

    def replace_process(self, outputs: list[int], to: int) -> int:
        """Replaces this new process. If that fails it writes to a pipe why: a number of the system, or 0 if `enter` has failed."""
        has_entered = True
        try:
            os.setsid()
            for it in IGNORED_HERE:
                signal.signal(it, signal.SIG_DFL)
            null = os.open(os.devnull, os.O_RDWR)
            for place, it in enumerate([null, *(outputs or (null, null))]):
                os.dup2(it, place)
            if self.folder is not None:
                os.chdir(self.folder)
            if self.enter is not None:
                has_entered = False
                self.enter()
                has_entered = True
            os.execve(self.path, self.words, self.variables)
        except BaseException as error:
            code = (getattr(error, "errno", None) or 1) if has_entered else 0
            os.write(to, f"{code} {getattr(error, 'strerror', error)}".encode(errors="replace"))
        return NOT_BEGUN


def end_all() -> None:
    """Ends the commands that run, which others wait for."""
    with BEGINS:
        ENDED.append(True)
        for group in list(AT_WORK):
            kill(group)


def begin_again() -> None:
    """Lets commands begin again after all that ran were ended."""
    with BEGINS:
        ENDED.clear()


def kill(group: int) -> None:
    try:
        os.killpg(group, signal.SIGKILL)
    except ProcessLookupError:
        pass  # it has ended meanwhile
