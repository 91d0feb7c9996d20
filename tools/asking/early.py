"""Begins the commands that say which compiler this is, so that they run while the modules are loaded that need to know it."""
from __future__ import annotations

import os

from tools.asking.processes import MOST_BYTES, Done, Running, begin, finish, run
from tools.variables import words_of

# Commands that run the compiler that is named after them.
LAUNCHERS = ("ccache", "sccache", "distcc", "icecc")
BEGUN: dict[tuple[str | None, ...], Running] = {}  # by the words of the commands, and of the program by its folder too
VERSION, FOLDERS = ["--version"], ["-print-search-dirs"]
# Prints what the compiler defines before all sources, and says which folders it searches for headers.
DEFINED = ["-v", "-dM", "-E", "-x", "c", os.devnull]


def compiler_words() -> list[str]:
    return words_of("CC") or ["cc"]


def after_launchers(words: list[str]) -> list[str]:
    """Returns the words of the compiler without those that cache or distribute its work."""
    while len(words) > 1 and os.path.basename(words[0]) in LAUNCHERS and not words[1].startswith("-"):
        words = words[1:]
    return words


def begin_compiler(scratch: str, cache: str | None) -> None:
    """Begins the commands that say which compiler this is; if no answers are kept, also what it defines. One runs in an empty folder."""
    own = after_launchers(compiler_words())
    if cache is None or not os.path.exists(cache):
        begin_early([*own, *DEFINED])
    begin_early([*own, *VERSION])
    begin_early([*own, *FOLDERS], scratch)


def begin_early(words: list[str], folder: str | None = None, executable: str | None = None) -> None:
    """Begins a command, whose end `early_or_run` waits for. One that can't begin is begun again there, and fails there."""
    label = (executable and folder, *words)
    if label in BEGUN:
        return
    try:
        BEGUN[label] = begin(words, folder, executable)
    except (OSError, ValueError):
        pass


def early_or_run(words: list[str], folder: str | None = None, executable: str | None = None, most: int = MOST_BYTES) -> Done:
    """Returns how a command ended: one that was begun early, or a new one."""
    running = BEGUN.pop((executable and folder, *words), None)
    if running is None:
        return run(words, folder, executable, most=most)
    running.most = most
    return finish(running)


def end_early() -> None:
    """Ends the commands that nobody waits for."""
    while BEGUN:
        BEGUN.popitem()[1].end()
