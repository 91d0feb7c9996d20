"""Runs a program several times at the same moment, and watches the outputs while these runs go on."""
import dataclasses
import os
import subprocess
import time
from collections.abc import Callable

# The most seconds that runs may take together; then they are ended.
MOST_SECONDS = 60

# Waits until its standard input ends, and is then the program.
WAITS = 'read gate; exec "$0" "$@"'


@dataclasses.dataclass
class Run:
    """Holds a run that has ended: its arguments, its status (negative if a signal ended it), and its messages. Also says whether it was
    ended since it went on for too long."""

    words: list
    status: int
    log: str
    complaint: str
    is_late: bool = False


def run_at_once(program: str, folder: str, lines: list, look: Callable = lambda: None, kills: Callable = lambda: {}) -> list:
    """Runs the program with each of these lines of words in a folder, all of them at once, and looks again and again while they run.
    'kills' gives the runs to be killed, by their places among the lines, and the seconds after which each is."""
    reading, writing = os.pipe()
    running = [start(program, folder, words, reading) for words in lines]
    os.close(reading)
    os.close(writing)
    began, waiting, since = time.monotonic(), dict(kills()), 0.0
    while since < MOST_SECONDS and any(it.poll() is None for it in running):
        since = time.monotonic() - began
        for place in [place for place, after in waiting.items() if after <= since]:
            running[place].kill()
            del waiting[place]
        look()
        time.sleep(0.0005)
    late = [it.poll() is None for it in running]
    for it in running:
        it.kill()
    ended = [(it, *it.communicate()) for it in running]
    return [Run(words, it.returncode, log, complaint, is_late) for words, (it, log, complaint), is_late in zip(lines, ended, late)]


def start(program: str, folder: str, words: list, gate: int) -> subprocess.Popen:
    return subprocess.Popen(
        ["sh", "-c", WAITS, program, *words], cwd=folder, stdin=gate, stdout=subprocess.PIPE, stderr=subprocess.PIPE, text=True,
    )
