"""Asks the real Meson about sources, in a temporary folder. It runs what the project has it run while configuring."""
from __future__ import annotations

import os
import re
import tempfile

from tools.asking.processes import NoAnswer, run
from tools.explaining.run import LONGEST
from tools.linked_copy import linked_copy

BUILD = "build-of-the-trial"
# What it says of its version; the command of this project says its name before.
VERSION = re.compile(r"\d+\.\d+[\w.]*\n")


def real_meson() -> str | None:
    """Returns the path of the real Meson, the first of PATH, or None if there is none."""
    for folder in os.get_exec_path():
        path = os.path.join(folder, "meson")
        if os.path.isabs(folder) and os.path.isfile(path) and os.access(path, os.X_OK) and VERSION.fullmatch(said(path, "--version")):
            return path
    return None


def said(path: str, word: str) -> str:
    """Returns what a command prints. It runs at the root, so that no PYTHONPATH with an empty part names a folder of the project."""
    try:
        return run([path, word], "/", seconds=LONGEST, variables=dict(os.environ)).printed
    except NoAnswer:
        return ""


def refusal(meson: str, root: str, changed: dict[str, str], words: list[str]) -> str | None:
    """Returns what the real Meson says first against sources in which these files are others, or None if it takes them."""
    with tempfile.TemporaryDirectory(prefix="meson-port-") as scratch:
        folder = os.path.join(scratch, "sources")
        linked_copy(root, folder, changed)
        try:
            done = run([meson, "setup", "--wrap-mode=nodownload", *words, BUILD], folder, seconds=LONGEST, variables=dict(os.environ))
        except NoAnswer as late:
            return late.why
    lines = [it for it in (done.printed + done.said).splitlines() if it.strip()] or [f"it ended with status {done.status}"]
    return None if done.is_good else next((it for it in lines if "ERROR: " in it), lines[-1])
