"""Runs a case through the library for Python, over files in memory."""
import faulthandler
import os

from python import hawkottoman
from tests.harness.given import Came, Given
from tests.harness.judge import UNENDED

# The source directory, which no disk needs to have.
ROOT = "/s"

# The most seconds that one run may take. Then the process ends and shows where it was, and no other case runs, so there are many.
MOST_SECONDS = 300


class Memory(Given):
    """Holds the sources of one case, in memory."""

    def __init__(self, case):
        super().__init__(case, ROOT)

    def is_whole(self):
        """Returns whether memory has all that the case is about: no part of it needs a disk, a device or the command line."""
        of_disk = [self.things, self.folders, self.inside, self.locked, self.is_piped, *self.streams.values(), self.expected.stays]
        asked = [self.command, self.taken, self.expected.looks]
        # The command line reads `-D=1` as the value `1`.
        of_disk.append([it for it in self.words if it.startswith(b"-D=")])
        if any(of_disk) or any(it is not None for it in asked) or self.expected.status not in (0, 1):
            return False
        return all(map(is_text, [*self.files, *map(os.fsdecode, self.words)])) and all(map(self.is_source, self.files))

    def is_source(self, path):
        """Returns whether a path of a file is spelled as the definitions spell it, and is not of the build directory."""
        return os.path.normpath(path) == path and not path.startswith(("/", "../")) and not self.is_of_build(path)

    def run(self, files=None, traced=False):
        """Runs the case over its files, or over these. What is looked at is not seen, even if it is to be traced."""
        call = getattr(hawkottoman, self.task.decode())
        words = [it.decode().removeprefix("-D") for it in self.words]
        faulthandler.dump_traceback_later(MOST_SECONDS, exit=True)
        try:
            return came_of(call(self.files if files is None else files, words, self.machine or b"", ROOT, self.build))
        finally:
            faulthandler.cancel_dump_traceback_later()


def is_text(text):
    """Returns whether the library takes this as one of its texts."""
    try:
        return "\0" not in text and text.encode() is not None
    except UnicodeEncodeError:
        return False


def came_of(run):
    """Returns what came of a run, as on a disk: an output that was begun and not ended is next to its place."""
    order, name = [], b""
    for event in run.events:
        name = event.data if event.kind is hawkottoman.Kind.OPEN else name
        order.append((event.kind.name.lower(), name if event.kind is hawkottoman.Kind.CLOSE else event.data))
    said = {word: b"".join(data for kind, data in order if kind == word) for word in ("log", "fault")}
    outputs, last = run.outputs, [number for number, (word, _) in enumerate(order) if word in ("open", "close")][-1:]
    if last and order[last[0]][0] == "open":
        outputs[name.decode() + UNENDED] = b"".join(data for word, data in order[last[0]:] if word == "bytes")
    return Came(int(run.status), said["log"], said["fault"], outputs, order=order)
