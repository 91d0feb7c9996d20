"""Asks the program itself: `questions` over the result, which writes nothing, and what `explain` says of its fault."""
from __future__ import annotations

import os

from tools.asking.cache import Cache, cache_path
from tools.asking.early import begin_compiler, end_early
from tools.asking.last_output import LastOutput
from tools.asking.processes import NoAnswer, begin_again
from tools.early_signals import signal
from tools.ending import Stop, one_line
from tools.explaining.run import LONGEST, Asked, in_place
from tools.linked_copy import linked_copy
from tools.scratch import ScratchFolder

TYPE_CHECKING = False
if TYPE_CHECKING:
    from collections.abc import Callable
    from types import FrameType
    from typing import NoReturn

CHECKOUT = os.path.dirname(os.path.dirname(os.path.dirname(os.path.realpath(__file__))))
# A checkout has the list of its crates; what is installed has the program itself.
IS_CHECKOUT = os.path.exists(os.path.join(CHECKOUT, "crates.txt"))
OWN = os.path.join(CHECKOUT, *(("crates", "hawkottoman", "out") if IS_CHECKOUT else ()), "hawkottoman")
BUILD = "build-of-the-trial"


def program_of(given: str | None) -> str | None:
    """Returns the program to run: the given one, else that of this checkout or of this installation; None if it isn't built."""
    if given is not None:
        return os.path.abspath(given)
    return OWN if os.access(OWN, os.X_OK) else None


class Late(Exception):
    """Reports that a machine file takes too long."""


def give_up(number: int, frame: FrameType | None) -> NoReturn:
    raise Late


def machine_file(program: str, root: str, words: list[str]) -> tuple[bytes, bool]:
    """Returns the text of a machine file of the sources, empty if none can be made, and whether it is known that the program takes the
    sources with it. It is made here, and not by a script of its own: that would load the same modules once more."""
    signal.signal(signal.SIGALRM, give_up)
    signal.setitimer(signal.ITIMER_REAL, LONGEST)
    try:
        return made_machine_file(program, root, words)
    except Late:
        raise NoAnswer(f"its machine file wasn't made within {LONGEST} seconds") from None
    except (Stop, OSError, ValueError, LookupError, TypeError, RecursionError):
        return b"", False
    finally:
        signal.setitimer(signal.ITIMER_REAL, 0)
        begin_again()


def made_machine_file(program: str, root: str, words: list[str]) -> tuple[bytes, bool]:
    path = cache_path()
    last = LastOutput(path, program, root, words)
    with ScratchFolder() as scratch:
        try:
            printed = last.printed(scratch)
            if printed is not None:
                return printed, True
            begin_compiler(scratch, path)
            from tools.asking.answers import answer_silently
            return answer_silently(last, root, scratch, Cache(path))
        finally:
            end_early()


def first_fault(program: str, root: str, changed: dict[str, str], words: list[str],
                show: Callable[[str], None]) -> tuple[str | None, bytes]:
    """Returns what the program says first of the sources, in which these files are others, or None if it takes them. Also returns the
    machine file that it got."""
    with ScratchFolder() as scratch:
        folder = os.path.join(scratch, "sources") if changed else root
        if changed:
            linked_copy(root, folder, changed)
        machine = b""
        try:
            machine, is_taken = machine_file(program, folder, words)
            if not machine:
                show("no machine file could be made, so no dependency and no check is found")
            return None if is_taken else of_sources(program, folder, words, machine), machine
        except (OSError, NoAnswer) as error:
            return one_line(f"the program {program} could not be run: {error}"), machine


def of_sources(program: str, root: str, words: list[str], machine: bytes) -> str | None:
    asked = Asked(program, root, [*words, *(["--native-file", "native.ini"] if machine else []), BUILD], machine or None)
    outcome = in_place(asked)
    if outcome.fault is not None:
        from tools.explaining.faults import explained
        return "\n".join(explained(asked, outcome.fault))
    if outcome.status == 0:
        return None
    return one_line(outcome.complaint.strip().split("\n")[-1]) or f"it ended with status {outcome.status}"
