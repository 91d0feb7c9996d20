"""Runs the program: over the sources, and over a temporary folder of links to them in which one file is another one."""
from __future__ import annotations

import os
import time

from tools import records as dataclasses
from tools.asking.processes import MOST_TOLD, Done, NoAnswer, run
from tools.linked_copy import linked_copy
from tools.scratch import ScratchFolder
from tools.setup_arguments import build_folder_of, machine_path, settings_of

TYPE_CHECKING = False
if TYPE_CHECKING:
    from types import TracebackType

FAULT = r"(?s)(.+?):(\d+): ERROR: E(\d+) ?(.*)"
MACHINE, WORDS = "<machine file>", "<command line>"
# How long one run may take, in seconds, and how many bytes of a machine file are read: more than the program takes.
LONGEST, MOST_BYTES = 300, (32 << 20) + 1


@dataclasses.dataclass(frozen=True)
class Fault:
    """Holds a fault line: its file, the line there, its number, and the text after that. Also holds the questions of its run, a line of
    JSON each."""
    file: str
    line: int
    number: int
    text: str
    asked: str

    def shown(self) -> str:
        return f"{self.file}:{self.line}: ERROR: E{self.number} {self.text}"

    @property
    def name(self) -> str:
        """Returns what follows the words of the fault, if anything does."""
        return self.text.partition(": ")[2]


@dataclasses.dataclass(frozen=True)
class Outcome:
    """Holds the results of a run; `asked` as of a fault."""
    status: int
    fault: Fault | None
    asked: str
    complaint: str


@dataclasses.dataclass(frozen=True)
class Asked:
    """Holds the input of a run and when it began: the program, the source directory, the arguments, and the bytes of the machine file."""
    program: str
    root: str
    words: list[str]
    machine: bytes | None
    begun: float = dataclasses.field(default_factory=time.monotonic)

    @property
    def build(self) -> str | None:
        """Returns BUILDDIR, if the words have one that is below the sources."""
        folder = build_folder_of(self.words)
        if not folder or os.path.isabs(folder) or ".." in folder.split("/"):
            return None
        return os.path.normpath(folder)

    def settings(self) -> list[str]:
        """Returns the words `-D..`, as the program counts them, without `-D`."""
        return settings_of(self.words)


def with_machine(words: list[str], path: str) -> list[str]:
    """Returns the words with another path of the machine file."""
    made, is_next = [], False
    for number, word in enumerate(words):
        if word == "--":
            return made + words[number:]
        if is_next:
            word, is_next = path, False
        elif word == "--native-file":
            is_next = True
        elif word.startswith("--native-file="):
            word = "--native-file=" + path
        made.append(word)
    return made


def words_of(asked: Asked, scratch: str) -> list[str]:
    """Returns the arguments. The bytes of the machine file are in a file of their own, since they may have come through a pipe."""
    if asked.machine is None:
        return asked.words
    path = os.path.join(scratch, "native.ini")
    with open(path, "wb") as it:
        it.write(asked.machine)
    return with_machine(asked.words, path)


def setup_elsewhere(program: str, root: str, words: list[str], changed: dict[str, str], scratch: str) -> tuple[Done, str]:
    """Runs `setup` with these arguments over links to the sources and files with another text, in an empty folder. Returns how it ended,
    and its BUILDDIR."""
    machine, build = machine_path(words), f"build-{os.urandom(8).hex()}"
    given = [f"-D{it}" for it in settings_of(words)]
    given += ["--native-file", os.path.join(root, machine)] if machine is not None else []
    folder = os.path.join(scratch, "sources")
    linked_copy(root, folder, changed)
    done = run(["meson", "setup", *given, "--", build], folder, program, seconds=LONGEST, variables=dict(os.environ),
               errors="backslashreplace")
    return done, os.path.join(folder, build)


def files_below(folder: str) -> list[str]:
    """Returns the paths of the files below a folder."""
    return sorted(os.path.join(place, name) for place, _, names in os.walk(folder) for name in names)


def outputs(asked: Asked) -> dict[str, int]:
    """Returns the paths below BUILDDIR at which `setup` writes, with the sizes: those that it writes elsewhere."""
    with ScratchFolder() as scratch, ScratchFolder(scratch) as place:
        try:
            _, folder = setup_elsewhere(asked.program, asked.root, words_of(asked, scratch), {}, place)
        except NoAnswer:
            return {}
        return {os.path.relpath(it, folder): os.lstat(it).st_size for it in files_below(folder)}


def questions(asked: Asked, folder: str, scratch: str, task: str = "questions") -> Outcome:
    """Returns what the program reports of a folder, in which it writes nothing: the fault in which `setup` would end, and the questions
    before it. With the task `fault` it returns what that fault is about in place of the questions. Raises NoAnswer if the program can't
    be run, or prints too much."""
    done = run(["meson", task, *words_of(asked, scratch)], folder, asked.program, seconds=LONGEST, variables=dict(os.environ),
               errors="backslashreplace", most=MOST_TOLD)
    if done.status is None:
        raise NoAnswer(done.said)
    return Outcome(done.status, fault_of(done) if done.status == 1 else None, done.printed, done.said)


def fault_of(done: Done) -> Fault | None:
    """Returns the fault that a run has reported, if its line has the form of one."""
    import re
    found = re.fullmatch(FAULT, done.said.removesuffix("\n"))
    return Fault(found[1], int(found[2]), int(found[3]), found[4], done.printed) if found else None


def in_place(asked: Asked) -> Outcome:
    """Returns what the program says of the sources themselves."""
    with ScratchFolder() as scratch:
        return questions(asked, asked.root, scratch)


def about(asked: Asked, fault: Fault) -> str:
    """Returns what the program says that the fault is about; empty if it says no more than the fault's line."""
    with ScratchFolder() as scratch:
        outcome = questions(asked, asked.root, scratch, "fault")
    is_same = outcome.fault is not None and outcome.fault.shown() == fault.shown()
    return outcome.asked.removesuffix("\n") if is_same else ""


class Room:
    """Makes a folder of links to the sources, with another file in the place of one, which is removed at the end of a block."""

    def __init__(self, asked: Asked, path: str, text: str) -> None:
        self.asked, self.path, self.made = asked, path, ScratchFolder()
        self.scratch, self.folder, self.text = self.made.path, os.path.join(self.made.path, "sources"), text

    def __enter__(self) -> Room:
        self.made.__enter__()
        try:
            linked_copy(self.asked.root, self.folder, {self.path: self.text})
        except BaseException:
            self.made.__exit__(None, None, None)
            raise
        return self

    def __exit__(self, kind: type[BaseException] | None, fault: BaseException | None, trace: TracebackType | None) -> None:
        self.made.__exit__(kind, fault, trace)

    def run(self, text: str) -> Outcome:
        """Returns what the program says if the file has this text."""
        with open(os.path.join(self.folder, self.path), "w", encoding="utf-8", newline="") as it:
            it.write(text)
        return questions(self.asked, self.folder, self.scratch)
