"""Limits the processor's time for what is not worth more: sources can be made so that they are dear to look at."""
from __future__ import annotations

from tools.early_signals import signal

TYPE_CHECKING = False
if TYPE_CHECKING:
    from collections.abc import Callable
    from types import FrameType
    from typing import NoReturn

SECONDS = 4


class TooLong(Exception):
    """Reports that the time is over."""


def give_up(number: int, frame: FrameType | None) -> NoReturn:
    raise TooLong


def within_limit(look: Callable[[], list[str]], otherwise: str) -> list[str]:
    """Returns the lines that a function finds, or one line that says otherwise if it takes too long."""
    signal.signal(signal.SIGVTALRM, give_up)
    signal.setitimer(signal.ITIMER_VIRTUAL, SECONDS)
    try:
        return look()
    except TooLong:
        return [otherwise]
    finally:
        signal.setitimer(signal.ITIMER_VIRTUAL, 0)
