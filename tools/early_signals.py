"""Ends a script that gets a signal before it has begun. Each script imports this first.

There is nothing to clean up yet, so the script ends at once, with one line and the status of an interrupted script. Later `run_script`
handles the signals. This module imports only parts that the interpreter has loaded by then: `signal` takes milliseconds, in which SIGINT
would still end the script by a traceback.
"""
from __future__ import annotations

import _signal as signal
import os
import sys

try:
    import _signal as signal  # `signal` makes classes of its numbers, which takes half as long as a command
except ImportError:
    import signal

TYPE_CHECKING = False
if TYPE_CHECKING:
    from types import FrameType
    from typing import NoReturn

# The name by which the command was called, which is none of what it runs.
CALLED = os.environ.pop("HAWKOTTOMAN_CALLED", "meson")
SIGNALS = (signal.SIGINT, signal.SIGTERM, signal.SIGHUP)
INTERRUPTED = 130


def end_at_once(number: int, frame: FrameType | None) -> NoReturn:
    try:
        os.write(2, f"{CALLED} {os.path.basename(sys.argv[0])}: interrupted\n".encode(errors="backslashreplace"))
    except OSError:
        pass  # nobody can read it
    os._exit(INTERRUPTED)


# Where a signal is ignored, as `nohup` has it, it stays so.
for it in SIGNALS:
    if signal.getsignal(it) in (signal.SIG_DFL, signal.default_int_handler):
        signal.signal(it, end_at_once)
