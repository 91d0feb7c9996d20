"""Runs the command: makes the run, and shows what its fault is about."""
from __future__ import annotations

import os

from tools.ending import Stop, help_as_called, say, show
from tools.explaining.run import MOST_BYTES, Asked, Outcome, in_place
from tools.setup_arguments import MACHINE_FILE, cut, is_pipe, machine_path, read_setup

DONE, NOT_READ, BAD_WORDS = 0, 2, 4
LONGEST = 1000  # characters of arguments that are shown


def main(told: str, program: str, words: list[str]) -> int:
    before = words[:words.index("--")] if "--" in words else words
    if {"-h", "--help"} & set(before):
        subject, usage, more = told.strip().split("\n\n", 2)
        show(help_as_called(f"usage: {usage.strip()}\n\n{subject}\n\n{more}"))
        return DONE
    used = with_saved(words)
    if used != words:
        import shlex
        shown = shlex.join(used)
        say("meson explain", f"with the arguments of the last setup: {shown if len(shown) <= LONGEST else shown[:LONGEST] + '..'}")
    asked = Asked(program, os.getcwd(), used, machine_of(used))
    return explain(asked, in_place(asked))


def with_saved(words: list[str]) -> list[str]:
    """Returns the arguments of the run that is explained. If they name a folder alone, these are those of its last setup, or the folder
    with the machine file that `meson configure` has made in it."""
    options = [name for name, _ in cut(words)]
    folder = words[-1] if options == [""] else None
    if folder is None:
        return words
    try:
        setup = read_setup(folder)
        if os.path.samefile(setup.sources, ".") and not is_pipe(machine_path(setup.words) or ""):
            return setup.words
    except (Stop, OSError, ValueError):
        pass  # its last setup has failed, or it isn't there
    made = os.path.join(folder, MACHINE_FILE)
    return ["--native-file", made, *words] if os.path.isfile(made) else words


def machine_of(words: list[str]) -> bytes | None:
    """Returns the bytes of the machine file that the words name."""
    path = machine_path(words)
    if path is None:
        return None
    try:
        with open(path, "rb") as it:
            return it.read(MOST_BYTES)
    except (OSError, ValueError) as error:
        raise Stop(f"{path}: the machine file: {getattr(error, 'strerror', None) or error}") from error


def explain(asked: Asked, outcome: Outcome) -> int:
    """Shows what came of the run, and gives its status."""
    if outcome.status == DONE:
        from tools.explaining import devices
        why = devices.unwritten(asked)
        if why:
            raise Stop(why)
        show("there is no fault")
        return DONE
    if outcome.fault is not None:
        from tools.explaining.faults import explained
        for line in explained(asked, outcome.fault):
            show(line)
        return outcome.status
    if outcome.status == NOT_READ:
        from tools.explaining import devices
        why = devices.failed(asked)
        raise Stop(why or outcome.complaint.strip().split("\n")[-1].removeprefix("meson: "))
    if outcome.status == BAD_WORDS:
        complaint = outcome.complaint.strip().replace("meson questions", "meson explain")
        raise Stop(" ".join(complaint.split("\n\n")[0].split()).removeprefix("error: ").removeprefix("meson: "), BAD_WORDS)
    if outcome.status < 0:
        raise Stop(f"the program was ended by signal {-outcome.status}", 128 - outcome.status)
    say("meson explain", outcome.complaint.strip().removeprefix("meson: "))
    return outcome.status
