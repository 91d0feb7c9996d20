"""Runs the program for the questions of a project."""
from __future__ import annotations

import os

from tools.asking.early import begin_early, early_or_run
from tools.asking.processes import MOST_TOLD, Done

BUILD, MACHINE = "build-of-the-questions", "native.ini"


class ProgramRun:
    """Holds the program, the source directory, the arguments `-D..`, and a folder for temporary files."""

    def __init__(self, program: str, sources: str, words: list[str], scratch: str) -> None:
        path = os.path.join(scratch, MACHINE)
        self.program, self.here, self.path = os.path.abspath(program), None if sources == os.curdir else sources, path
        self.words = ["meson", "questions", *words, "--native-file", path, BUILD]

    def begin(self, machine_file: str) -> None:
        """Begins a run that knows this machine file. The next one waits for it; both have one machine file."""
        self.write(machine_file)
        begin_early(self.words, self.here, self.program)

    def end(self, machine_file: str) -> Done:
        """Returns how a run ends that knows this machine file; it prints its questions."""
        self.write(machine_file)
        return early_or_run(self.words, self.here, self.program, MOST_TOLD)

    def write(self, machine_file: str) -> None:
        with open(self.path, "w", encoding="utf-8") as it:
            it.write(machine_file)
