"""Keeps what `machine-file` printed for a project, so that the next time takes one run of the program, if nothing has changed.

Kept are the output, and all that it comes from: the questions of the last run, the time and size of each file that an answer depends on,
the places of programs, and what the compiler and pkg-config say of their versions. If one of these is another, all questions are answered
again.
"""
from __future__ import annotations

import os

from tools.asking.cache import FORM, around, read_own, replace, short_name
from tools.asking.early import begin_early, early_or_run
from tools.asking.program_runs import ProgramRun
from tools.asking.stamps import stamp_of
from tools.light_json import dumps, loads
from tools.variables import found_program

TYPE_CHECKING = False
if TYPE_CHECKING:
    from tools.asking.stamps import Stamp

FOLDER = "outputs"  # with as many files as two digits have values: a project may take the place of another
# Variables that may change an answer, and are no part of the environment that each answer is kept with.
OF_ANSWERS = ("CC", "AR", "PKG_CONFIG", "CFLAGS", "CPPFLAGS", "LDFLAGS")
Commands = list[tuple[list[str], str]]


class Origin:
    """Holds what an output comes from in addition to the questions."""

    def __init__(self, commands: Commands, programs: dict[str, str | None], files: dict[str, bool], stamps: dict[str, Stamp]) -> None:
        self.commands, self.programs, self.files, self.stamps = commands, programs, files, stamps

    def plain(self) -> list[object]:
        return [self.commands, self.programs, self.files, self.stamps]

    def is_as_it_was(self) -> bool:
        """Returns whether nothing has changed but perhaps what commands print."""
        return (all(stamp_of(path) == it for path, it in self.stamps.items())
                and all(found_program(name) == it for name, it in self.programs.items())
                and all(os.path.isfile(path) == it for path, it in self.files.items()))


class LastOutput:
    """Finds what was printed for a project with these arguments and this program."""

    def __init__(self, cache: str | None, program: str, sources: str, words: list[str]) -> None:
        self.program, self.sources, self.words = os.path.abspath(program), sources, words
        root, variables = os.path.abspath(sources), [os.environ.get(it) for it in OF_ANSWERS]
        self.key = short_name([FORM, around(), variables, root, words, self.program, os.uname().release])
        name = short_name([root, words])[:2]
        self.path = os.path.join(os.path.dirname(cache), FOLDER, name + ".json") if cache else None

    def printed(self, scratch: str) -> bytes | None:
        """Returns what was printed, if it would be printed again."""
        try:
            key, asked, head, machine, origin = loads(read_own(self.path) if self.path else b"")
            origin = Origin(*origin)
            if key != self.key:
                return None
            for words, _ in origin.commands:
                begin_early(words)
            if not origin.is_as_it_was():
                return None
            done = ProgramRun(self.program, self.sources, self.words, scratch).end(machine)
            is_same = done.status == 0 and short_name(done.printed) == asked
            same = [early_or_run(words).printed == printed for words, printed in origin.commands]
            return (head + machine).encode() if is_same and all(same) else None
        except (ValueError, TypeError, AttributeError, RecursionError):
            return None

    def keep(self, asked: str, head: str, machine: str, origin: Origin) -> None:
        if self.path:
            replace(self.path, dumps([self.key, short_name(asked), head, machine, origin.plain()]).encode())
