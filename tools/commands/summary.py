"""Prints one line that says what was configured, and what comes next: `tools/command summary BUILDDIR`."""
from __future__ import annotations

import sys

from tools.document import read_content
from tools.ending import CALLED, run_script, show


def counted(number: int, name: str) -> str:
    return f"{number} {name}{'' if number == 1 else 's'}"


def main() -> int:
    folder = sys.argv[1]
    content = read_content(folder)
    project = content["projectinfo"]
    parts = [counted(len(content["targets"]), "target"), counted(len(content["tests"]), "test"),
             counted(len(content["installed"]), "file") + " to install"]
    version = f" {project['version']}" if project["version"] != "undefined" else ""
    line = f"{project['name']}{version}: {', '.join(parts)}; next: {CALLED} compile -C {folder}"
    show("".join(it if it.isprintable() else "?" for it in line))
    return 0


def run() -> None:
    run_script("meson setup", main, failed=0)
