"""Reads the questions that a run of the program has for the machine, as `meson questions` prints them."""
from __future__ import annotations

import os
from collections.abc import Callable

from tools import records as dataclasses
from tools.asking.checks import OF_WORDS
from tools.asking.program_runs import ProgramRun
from tools.ending import Stop
from tools.files import DEFINITION, OPTION_FILES, read_text
from tools.light_json import loads
from tools.linked_copy import linked_copy
from tools.porting.lexer import SyntaxFault, tokens_in, tokens_of
from tools.scratch import ScratchFolder

TYPE_CHECKING = False
if TYPE_CHECKING:
    from typing import Any

ROOT_FILE = "meson.build"
# After the call of `project`: two checks, which have the options in use.
IN_USE = """
meson.get_compiler('c').sizeof('in use', prefix: get_option('c_std'), args: get_option('c_args'))
meson.get_compiler('c').sizeof('in use by the linker', args: get_option('c_link_args'))
"""
# What changes the answer of a check.
CHANGING = ("prefix", "args", "dependencies", "include_directories")


@dataclasses.dataclass(frozen=True)
class Question:
    """Holds a section, and a key if the question is not about the whole section. Also holds the first place of the question, and what else
    the call says."""
    section: str
    key: str | None
    file: str
    line: int
    beside: dict[str, list[str]]

    @property
    def place(self) -> str:
        return f"{self.file}:{self.line}"

    @property
    def name(self) -> str:
        """Returns its name in messages: a check by its key, a program by its name, a dependency by its section."""
        return {"checks": "", "binaries": "program "}.get(self.section, self.section) + (self.key or "")

    @property
    def dependency(self) -> str | None:
        return self.section.removeprefix("dependency ") if self.section.startswith("dependency ") else None

    @property
    def method(self) -> str:
        """Returns the method of a check."""
        return (self.key or "").partition(" ")[0] if self.section == "checks" else ""

    @property
    def label(self) -> tuple[object, ...]:
        """Returns what two questions have in common that have one answer."""
        is_changed = self.method and self.method not in OF_WORDS
        return self.section, self.key, *(self.texts(it) for it in CHANGING if is_changed)

    def texts(self, keyword: str) -> tuple[str, ...]:
        return tuple(self.beside.get(keyword, ()))


def question_of(line: str) -> Question:
    told = loads(line)
    return Question(*(told[it] for it in ("section", "key", "file", "line", "beside")))


@dataclasses.dataclass(frozen=True)
class Told:
    """Holds the questions of a run in their order, the line of the fault that it ended with, if there was one, and what it printed."""
    questions: list[Question]
    fault: str
    printed: str


@dataclasses.dataclass(frozen=True)
class Project:
    """Holds the input of a run of the program: the program, the source directory, the arguments `-D..`, and a folder for temporary
    files."""
    program: str
    sources: str
    words: list[str]
    scratch: str

    def ask(self, machine_file: str, folder: str | None = None) -> Told:
        """Returns the questions of a run that knows this machine file, over the sources or another folder."""
        done = ProgramRun(self.program, folder or self.sources, self.words, self.scratch).end(machine_file)
        if done.status not in (0, 1):
            raise Stop(done.why)
        return Told([question_of(it) for it in done.printed.split("\n") if it], done.why if done.status else "", done.printed)

    def begin(self, machine_file: str) -> None:
        """Begins a run over the sources, for which the next call of `ask` with this machine file waits."""
        ProgramRun(self.program, self.sources, self.words, self.scratch).begin(machine_file)

    def in_use(self, machine_file: str) -> tuple[str, list[str], list[str]]:
        """Returns c_std, c_args and c_link_args as the project has them in the end, by a run of its first statement alone. A run that lacks
        another file of the project than its option files ends in a fault, and is run again with all."""
        begin = {ROOT_FILE: first_statement(self.sources) + IN_USE}
        with ScratchFolder(self.scratch) as folder:
            linked_copy(self.sources, folder, begin, OPTION_FILES)
            told = self.ask(machine_file, folder)
        if told.fault:
            with ScratchFolder(self.scratch) as folder:
                linked_copy(self.sources, folder, begin)
                told = self.ask(machine_file, folder)
        if told.fault:
            raise Stop(told.fault)
        to_compile, to_link = told.questions[-2:]
        return to_compile.texts("prefix")[0], list(to_compile.texts("args")), list(to_link.texts("args"))


def first_statement(sources: str) -> str:
    """Returns the text of a project's root file up to the end of its first statement."""
    return read_root(sources, end_of_statement)


def end_of_statement(text: str) -> str:
    """Returns a text up to the end of its first statement."""
    has_begun = False
    for it in tokens_in(text):
        if it.kind == "end" or it.kind == "newline" and has_begun:
            return text[:it.start]
        has_begun = has_begun or it.kind != "newline"
    return text


def check_tokens(sources: str) -> None:
    """Stops if a project's root file is no definition file; the first statement alone is read otherwise."""
    read_root(sources, tokens_of)


def read_root(sources: str, use: Callable[[str], Any]) -> Any:
    """Returns what a call makes of the text of a project's root file. Stops if it can't be read."""
    path = os.path.join(sources, ROOT_FILE)
    try:
        return use(read_text(path, DEFINITION))
    except OSError as error:
        raise Stop(f"{path}: {error.strerror}") from error
    except SyntaxFault as fault:
        raise Stop(f"{path}:{fault.line}: {fault.why}") from fault
