"""Says more of a `setup` that has failed: `tools/command advise PROGRAM STATUS [ARGUMENT]..`, in the source directory.

It prints two lines at most: what the fault is about, which file it is, or what the arguments should be; and which command says more.
"""
from __future__ import annotations

import os
import sys

from tools.ending import CALLED, one_line, run_script
from tools.meson_arguments import FLAGS, LEFT_OUT, NO_EFFECT, NO_EFFECT_FLAGS, OPTIONS, named_in
from tools.setup_arguments import build_folder_of, cut, machine_path
from tools.time_limit import within_limit

DONE, FAULT, DEVICE, BAD_WORDS = 0, 1, 2, 4
# The longest line that is printed.
LONGEST = 240


def report(text: str) -> None:
    """Prints a line on the standard error, cut if it is too long."""
    line = one_line(text)
    print(f"{CALLED}: {line if len(line) <= LONGEST else line[:LONGEST - 2] + '..'}", file=sys.stderr)


def quoted(words: list[str]) -> str:
    import shlex
    return shlex.join(words)


def of_fault(program: str, words: list[str]) -> None:
    """Prints what the fault is about, and which command says more."""
    from tools.explaining.brief import brief
    for line in within_limit(lambda: brief(program, words), "it takes too long to say here what the fault is about"):
        report(line)
    report(f"more: {CALLED} explain {quoted(words)}")


def in_place_of(path: str) -> str:
    """Returns which file may have been meant by a machine file that is absent, or how that is made."""
    import difflib
    folder = os.path.dirname(path)
    names = os.listdir(folder or ".") if os.path.isdir(folder or ".") else []
    near = difflib.get_close_matches(os.path.basename(path), names, 1, 0.6)
    if near:
        return f"did you mean {os.path.join(folder, near[0])}?"
    return f"`{CALLED} machine-file > {quoted([path])}` makes one"


def is_special(path: str) -> bool:
    """Returns whether a machine file is neither a file nor a folder: a pipe or a device, which can't be read twice."""
    return os.path.exists(path) and not os.path.isfile(path) and not os.path.isdir(path)


def why_unread(path: str) -> str:
    """Returns the system's reason if a machine file can't be read; empty if it can."""
    from tools.files import open_file
    try:
        open_file(path).close()
    except FileNotFoundError as error:
        return f"{error.strerror}; {in_place_of(path)}"
    except OSError as error:
        return error.strerror or ""
    return ""


def of_device(program: str, words: list[str]) -> None:
    """Prints which file can't be read or written, and the system's reason."""
    path = machine_path(words)
    why = why_unread(path) if path is not None else ""
    if why:
        report(f"{path}: the machine file: {why}")
        return
    from tools.explaining.devices import failed
    from tools.explaining.run import Asked
    why = failed(Asked(program, os.getcwd(), words, None)) or ""
    if why:
        report(why)


def tip_of(words: list[str]) -> str:
    """Returns what a bad command line should be; empty if the program says it."""
    name, value, rest = named_in(words)
    folder = build_folder_of(rest) or ""
    tip = instead_of(name, value, quoted([folder or "build"])) if name else ""
    parts = [it for it in folder.split("/") if it not in ("", ".")]
    is_bad = not parts or ".." in parts or os.path.isabs(folder)
    if not tip and (folder and is_bad or "-C" in rest):
        tip = f"run setup in the folder of the sources, and name a folder below it: `{CALLED} setup build`"
    elif not tip and sum(name == "" for name, _ in cut(rest)) > 1:
        tip = f"setup takes one folder, that of the build: run it in the folder of the sources, as `{CALLED} setup build`"
    return tip


def instead_of(name: str, value: str, folder: str) -> str:
    """Returns what to write in place of an argument of the real Meson."""
    if name in LEFT_OUT:
        return LEFT_OUT[name]
    if name == "wipe":
        return f"{NO_EFFECT_FLAGS[name]}: remove the folder first, as `rm -r {folder}`"
    why = {**NO_EFFECT, **NO_EFFECT_FLAGS}.get(name)
    if why:
        return f"{why}: leave --{name} out"
    option = FLAGS.get(name) or f"-D{OPTIONS[name]}={quoted([value])}"
    return f"the option is {option}; `{CALLED} configure {folder}` takes --{name} too"


def main() -> int:
    program, status, words = sys.argv[1], int(sys.argv[2]), sys.argv[3:]
    path = machine_path(words)
    if path is not None and is_special(path):
        return DONE
    if status == FAULT:
        of_fault(program, words)
    elif status == DEVICE:
        of_device(program, words)
    elif status == BAD_WORDS:
        tip = tip_of(words)
        if tip:
            report(tip)
    return DONE


def run() -> None:
    run_script("meson setup", main, failed=DONE)
