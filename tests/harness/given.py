"""Holds what a run of a case is given, what it must come to, and what came of it, on a disk and in memory alike."""
import dataclasses
import os

from tests.harness.form import FormError, written_out
from tests.harness.judge import UNENDED, Expected, filled, result_parts, row_place

# The directives that ask for further runs.
MODES = {"cut", "fail", "pieces"}

# The kinds of calls that fail, in the order of their counts.
KINDS = ("memory", "device", "late", "put")

# The calls that remove a file.
REMOVALS = ("unlink", "unlinkat")

# How a directive 'fail' ends whose runs are over old outputs.
OVER_OLD = " over old outputs"


@dataclasses.dataclass
class Came:
    """Holds the results of a run: its status, its messages, its outputs by their names, and what it looked at, if that was traced."""

    status: int
    log: bytes
    complaint: bytes
    outputs: dict
    looks: set = None
    # What is no file below the build directory, and what it is; what changed of what has to stay.
    others: dict = dataclasses.field(default_factory=dict)
    changes: list = dataclasses.field(default_factory=list)
    # The outputs that were begun, in their order; the call that failed, and whether a run may go on after that.
    begun: tuple = ()
    failed: str = ""
    may_go_on: bool = False
    # The calls of devices that came after it, each with its path.
    after: tuple = ()
    # How many calls of each kind were made.
    counts: dict = dataclasses.field(default_factory=dict)
    # The events in their order, each a word and its bytes; none if the run doesn't show it.
    order: list | None = None

    def given_up(self):
        """Returns the outputs that were begun and not ended, if the run was traced: the disk has none of them."""
        return [it for it in self.begun if it not in self.outputs]

    def left_over(self):
        """Returns the unfinished files that are left, which the run has to remove, unless it is the call to remove one that failed."""
        return [it + UNENDED for it in self.begun if it + UNENDED in self.outputs and self.failed not in REMOVALS]


class Given:
    """Holds the sources of one case, at the path of this root, what else it gives, and the results that it requires."""

    def __init__(self, case, root):
        self.root = root
        self.names = {"root": root}
        self.files, self.folders, self.words, self.command = {}, [], [], None
        self.machine, self.build, self.inside, self.task = None, "build", "", b"setup"
        # What is no plain file: of each its kind, its path and what it leads to. Streams by their numbers; the folder that is locked.
        self.things, self.streams, self.locked, self.is_piped = [], {"closed": [], "full": []}, None, False
        # How many bytes the outputs take, one a call, before a call fails; none if they take all.
        self.taken = None
        self.expected = Expected()
        where = row_place(case.items, case.columns, self.names) if case.columns else None
        for it in case.items:
            self.take(it, filled(it.text, case.columns), filled(it.content, case.columns), where)
        for word, text in result_parts(case) if case.columns else ():
            self.expected.take(word, text, "", self.names, where)
        self.expect_of_streams()
        if not self.expected.says and not case.columns:
            raise FormError("it does not say what must come: 'ok', a fault, a status, a log or an output")

    def take(self, item, text, content, where):
        out = lambda text: written_out(text, self.names)
        path = lambda text: os.fsdecode(out(text))
        word = item.word
        if word == "L2":
            self.files["meson.build"] = b"project('p','c')\n" + out(content)
        elif word == "file":
            self.take_file(text, content)
        elif word == "files":
            self.files.update((path(it), b"") for it in text.split())
        elif word == "folder":
            self.folders.append(path(text))
        elif word == "in":
            self.inside = path(text)
            self.folders.append(self.inside)
        elif word == "machine":
            self.take_machine(text, out(content))
        elif word in ("link", "hardlink"):
            self.take_link(word, text, path)
        elif word in ("fifo", "socket"):
            self.things += [(word, path(it), "") for it in text.split()]
        elif word in self.streams:
            self.streams[word] += [int(it) for it in text.split()]
        elif word == "locked":
            self.locked = path(text)
        elif word == "takes":
            self.taken = int(text)
        elif word == "word":
            self.words.append(b"-D" + out(text.replace("¶", "\n")))
        elif word == "build":
            self.build = path(text)
        elif word == "command":
            self.command = out(content).split(b"\n")[:-1] if content else out(text).split()
        elif word == "questions":
            self.task, self.expected.tells, self.expected.log = b"questions", True, None
        elif word == "fail":
            self.check_fail(text)
        elif word not in MODES:
            self.expected.take(word, text, content, self.names, where)

    def take_machine(self, text, content):
        if text not in ("", "through a pipe"):
            raise FormError(f"'machine {text}' is 'machine' or 'machine through a pipe'")
        self.machine, self.is_piped = content, bool(text)

    def take_link(self, word, text, path):
        place, to, target = text.partition(" to ")
        if not to:
            raise FormError(f"'{word} {text}' has no ' to '")
        self.things.append((word, path(place), path(target)))

    def expect_of_streams(self) -> None:
        """Expects nothing from a stream that is closed or full."""
        shut = self.streams["closed"] + self.streams["full"]
        if 1 in shut:
            self.expected.log, self.expected.log_parts = b"", []
        if 2 in shut:
            self.expected.complaint, self.expected.complaint_parts = b"", []

    @staticmethod
    def check_fail(text: str) -> None:
        kinds = (" " + text).partition(" begun ")[0].removesuffix(OVER_OLD).split()
        if not set(kinds) <= set(KINDS) or ("late" in kinds and not text.endswith(OVER_OLD)):
            raise FormError(f"'fail {text}' names kinds of {KINDS}, and 'late' ones over old outputs alone")

    def take_file(self, text, content):
        path, _, span = text.partition(" for i in ")
        numbers = [{}]
        if span:
            first, _, last = span.partition("..")
            numbers = [{"i": it} for it in range(int(first), int(last) + 1)]
        for it in numbers:
            names = {**self.names, **it}
            self.files[os.fsdecode(written_out(path, names))] = written_out(content, names)

    def is_of_build(self, path):
        """Returns whether a path is the build directory, one above it, or something below it."""
        path, build = path + "/", os.path.normpath(self.build) + "/"
        return path.startswith(build) or build.startswith(path)
