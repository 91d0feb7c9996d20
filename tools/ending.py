"""Ends a script with a status and, if something went wrong, with one line on the standard error that says what.

This covers what can go wrong outside of a script: a standard output that is full or closed, and a signal that asks the script to end. If
the reader of a pipe has gone, nothing is said.
"""
from __future__ import annotations

import os
import sys

TYPE_CHECKING = False
if TYPE_CHECKING:
    from collections.abc import Callable
    from types import FrameType
    from typing import NoReturn

from tools.early_signals import CALLED, INTERRUPTED, SIGNALS, signal


def as_called(text: str) -> str:
    """Returns a message with the name by which the command was called, at its beginning and after backquotes."""
    begin = CALLED + text[len("meson"):] if text.startswith(("meson ", "meson:")) else text
    return begin.replace("`meson ", f"`{CALLED} ")


def help_as_called(text: str) -> str:
    """Returns a help text in which each command of `meson` has the name by which it was called."""
    import re
    return re.sub(r"(?<![\w./-])meson (?=[a-z])", CALLED + " ", text)


class Stop(Exception):
    """Ends the script, and says why unless the text is empty. Without a status, that of `run_script` is used."""

    def __init__(self, why: str, status: int | None = None) -> None:
        super().__init__(why)
        self.why, self.status = why, status


def one_line(text: str) -> str:
    """Returns a text with escapes in place of characters that are not shown as themselves, as the end of a line."""
    return "".join(it if it.isprintable() else it.encode("unicode_escape").decode() for it in text)


def let_go(number: int) -> None:
    """Drops what a stream could not take, so that the interpreter doesn't try again when it ends."""
    os.dup2(os.open(os.devnull, os.O_WRONLY), number)


def say(script: str, why: str) -> None:
    """Prints one line on the standard error. If that can't be written, nobody can read it."""
    try:
        print(as_called(f"{script}: {one_line(why)}"), file=sys.stderr, flush=True)
    except OSError:
        let_go(2)


def write(data: bytes) -> None:
    """Writes to the standard output, at once."""
    try:
        sys.stdout.buffer.write(data)
        sys.stdout.buffer.flush()
    except BrokenPipeError:
        # Its reader wants no more, as `head` does when it has its lines.
        let_go(1)
        raise Stop("") from None
    except OSError as error:
        let_go(1)
        raise Stop(f"standard output: {error.strerror}") from error


def show(text: str = "") -> None:
    """Shows a line on the standard output, at once."""
    write((text + "\n").encode(sys.stdout.encoding, "backslashreplace"))


def take_closed_streams() -> None:
    """Gives each closed standard stream its number back, so that no other file gets it; a write to such a one fails."""
    for number, name in enumerate(("stdin", "stdout", "stderr")):
        try:
            os.fstat(number)
        except OSError:
            taken = os.open(os.devnull, os.O_RDONLY)
            if taken != number:
                os.dup2(taken, number)
                os.close(taken)
            os.set_inheritable(number, True)
            setattr(sys, name, open(number, "w" if number else "r", encoding="utf-8", errors="backslashreplace", closefd=False))


def let_pass(number: int, frame: FrameType | None) -> None:
    """Does nothing. With SIG_IGN the interpreter would complain of a signal that has come and was not yet handled."""


def let_signals_pass() -> None:
    """Has no signal interrupt what follows: the work is done, or is being cleaned up."""
    for number in SIGNALS:
        signal.signal(number, let_pass)


def interrupt(number: int, frame: FrameType | None) -> NoReturn:
    """Ends the script; from here on no signal interrupts what is being cleaned up."""
    let_signals_pass()
    raise KeyboardInterrupt


def heed_signals() -> None:
    """Lets Ctrl-C, SIGTERM and SIGHUP interrupt the script, unless they are ignored, as under `nohup`."""
    for number in SIGNALS:
        if signal.getsignal(number) != signal.SIG_IGN:
            signal.signal(number, interrupt)


def run_script(script: str, main: Callable[[], int], failed: int) -> NoReturn:
    """Runs a script and ends with its status; `failed` is that of a Stop that has none."""
    take_closed_streams()
    heed_signals()
    try:
        status = main()
        let_signals_pass()
    except Stop as stop:
        if stop.why:
            say(script, stop.why)
        status = failed if stop.status is None else stop.status
    except KeyboardInterrupt:
        say(script, "interrupted")
        status = INTERRUPTED
    except OSError as error:
        name = error.filename2 or error.filename
        say(script, f"{os.fsdecode(name)}: {error.strerror}" if isinstance(name, (str, bytes)) else str(error))
        status = failed
    except UnicodeEncodeError as error:
        say(script, f"no file can have this name in the present locale: {error.object!r}")
        status = failed
    except MemoryError:
        say(script, "out of memory")
        status = failed
    except RecursionError:
        say(script, "what it was given is nested too deeply")
        status = failed
    let_signals_pass()  # the interpreter would print a traceback while it ends
    sys.exit(status)
