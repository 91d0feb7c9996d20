"""Puts new texts in the place of a project's files: all of them or none, whatever interrupts that.

The new texts are written below SOURCE-DIR/.meson-port first, then a journal that says where each belongs, then each is renamed to its
place. If there is no journal, the next run removes the folder. If there is one, the next run renames the rest. No place is outside of
SOURCE-DIR, and no file changes its owner, its mode or its other names.

A project may bring a folder .meson-port with a journal of its own. Such a journal can make what `port` itself makes, by its name, and no
other file: no hook in .git, and no settings.
"""
from __future__ import annotations

import contextlib
import fcntl
import os
import re
import stat
from collections.abc import Iterator

try:
    from _sha256 import sha256  # `hashlib` has it too, and loads all of OpenSSL first
except ImportError:
    from hashlib import sha256

from tools import records as dataclasses
from tools.ending import Stop
from tools.files import DEFINITION_FILES, read_bytes, read_text
from tools.light_json import dumps, loads

FOLDER, JOURNAL, UNFINISHED, NEW_FOLDER = ".meson-port", "journal.json", "journal.new", "folder"
WAITING = re.compile(r"[0-9]{1,9}")  # the name of a text that waits in the folder
MOST_JOURNAL = 1 << 24
# The names of files that `port` only makes, in addition to definition files.
TEMPLATES = re.compile(r".+\.(pc\.in|template)")


@dataclasses.dataclass(frozen=True)
class Entry:
    """Holds a file's place below the root, the name under which its new text waits, and the digest of its text before; empty for a new
    file."""
    place: str
    waiting: str
    before: str


def place_of(root: str, path: str) -> str | None:
    """Returns where a path of a project leads, by what is below the root alone; None if it leads out of it."""
    if os.path.isabs(path) or ".." in path.split("/") or "\0" in path:
        return None
    top = os.path.realpath(root)
    real = os.path.realpath(os.path.join(top, path))
    return os.path.relpath(real, top) if real.startswith(top.rstrip("/") + "/") else None


def may_change(place: str, is_new: bool) -> bool:
    """Returns whether a file has a name that `port` changes, or that it makes if the file is new."""
    name = os.path.basename(place)
    return name in DEFINITION_FILES or is_new and TEMPLATES.fullmatch(name) is not None


def sync_folder(path: str) -> None:
    """Returns when the disk has the names that a folder has now."""
    number = os.open(path, os.O_RDONLY | os.O_DIRECTORY | os.O_CLOEXEC)
    try:
        os.fsync(number)
    finally:
        os.close(number)


def digest(data: bytes) -> str:
    return sha256(data).hexdigest()


@contextlib.contextmanager
def locked(root: str) -> Iterator[None]:
    """Keeps other runs away from the files of a project; where there is no such folder nothing is kept."""
    if not os.path.isdir(root):
        yield
        return
    number = os.open(root, os.O_RDONLY | os.O_DIRECTORY | os.O_CLOEXEC)
    try:
        fcntl.flock(number, fcntl.LOCK_EX | fcntl.LOCK_NB)
        yield
    except BlockingIOError:
        raise Stop(f"{root}: another `meson port` is at work there") from None
    finally:
        os.close(number)


class Journal:
    def __init__(self, root: str) -> None:
        self.root = os.path.realpath(root)
        self.folder = os.path.join(self.root, FOLDER)

    def path(self, name: str) -> str:
        return os.path.join(self.folder, name)

    def recover(self) -> str:
        """Finishes or takes back what an interrupted run has begun, and returns which; empty if nothing was begun."""
        if not os.path.lexists(self.folder):
            return ""
        if os.path.islink(self.folder) or not os.path.isdir(self.folder):
            raise Stop(f"{self.folder}: is not the folder of `meson port`; move it away")
        if not os.path.lexists(self.path(JOURNAL)):
            # The run was killed before it changed a file, or after it had changed all.
            self.clear()
            return f"an interrupted run has left {FOLDER}, which is removed: no change was half made"
        entries = self.entries()
        self.check_unchanged(entries)
        self.finish(entries)
        return "an interrupted run is finished: its changes are made"

    def entries(self) -> list[Entry]:
        """Reads the journal; each of its places is below the root."""
        try:
            rows = loads(read_text(self.path(JOURNAL), MOST_JOURNAL))
            found = [Entry(*it) for it in rows]
            is_good = isinstance(rows, list) and all(isinstance(text, str) for it in found for text in dataclasses.astuple(it)) and all(
                WAITING.fullmatch(it.waiting) and place_of(self.root, it.place) == it.place and may_change(it.place, not it.before)
                for it in found)
        except (OSError, ValueError, TypeError, RecursionError):
            is_good = False
        if not is_good:
            raise Stop(f"{self.path(JOURNAL)}: is no journal of `meson port`; remove {FOLDER} if you don't need what is in it")
        return found

    def check_unchanged(self, entries: list[Entry]) -> None:
        """Stops where a file that still waits for its new text is not what it was."""
        for it in entries:
            if os.path.lexists(self.path(it.waiting)) and self.before(it.place) != it.before:
                raise Stop(f"{it.place}: was changed after `meson port` was interrupted; its new text is {FOLDER}/{it.waiting}: "
                           f"move both where you want them, and remove {FOLDER}")

    def before(self, place: str) -> str:
        path = os.path.join(self.root, place)
        return digest(read_bytes(path)) if os.path.lexists(path) else ""

    def finish(self, entries: list[Entry]) -> None:
        """Renames the texts that wait, and removes the folder."""
        for it in entries:
            try:
                self.make_folder(os.path.dirname(it.place))
                os.replace(self.path(it.waiting), os.path.join(self.root, it.place))
            except FileNotFoundError:
                if os.path.lexists(self.path(it.waiting)):
                    raise
        # The journal goes only after the disk has the changes.
        for folder in {os.path.dirname(it.place) for it in entries}:
            sync_folder(os.path.join(self.root, folder))
        self.clear()

    def make_folder(self, place: str) -> None:
        """Makes the folder of a new file if it is absent. It gets the owner of the project before it gets its name."""
        folder = os.path.join(self.root, place)
        if os.path.isdir(folder):
            return
        self.make_folder(os.path.dirname(place))
        made = self.path(NEW_FOLDER)
        with contextlib.suppress(FileNotFoundError):
            os.rmdir(made)
        os.mkdir(made)
        owner = os.stat(self.root)
        if os.geteuid() == 0:
            os.chown(made, owner.st_uid, owner.st_gid)
        os.rename(made, folder)

    def clear(self) -> None:
        """Removes what a run has left in the folder, the journal first, and the folder."""
        names = os.listdir(self.folder)
        for name in sorted(names, key=lambda it: it != JOURNAL):
            if name in (JOURNAL, UNFINISHED) or WAITING.fullmatch(name):
                os.unlink(self.path(name))
            elif name == NEW_FOLDER:
                os.rmdir(self.path(name))
        try:
            os.rmdir(self.folder)
        except OSError as error:
            raise Stop(f"{self.folder}: has files that are not of `meson port`; move them away") from error

    def put(self, texts: dict[str, tuple[bytes | None, bytes]]) -> None:
        """Puts texts in their places: for each path the bytes before, none if the file is new, and the bytes after."""
        entries = []
        owners = [self.checked(path, before) for path, (before, _) in texts.items()]
        os.mkdir(self.folder, 0o700)
        try:
            for number, ((path, (before, after)), old) in enumerate(zip(texts.items(), owners)):
                self.write(str(number), after, old)
                entries.append(Entry(place_of(self.root, path) or "", str(number), digest(before) if before is not None else ""))
            self.commit(entries)
        except BaseException as error:
            self.clear()
            if isinstance(error, OSError) and not error.filename:
                raise Stop(f"{self.folder}: {error.strerror}; nothing is changed") from error
            raise
        try:
            self.finish(entries)
        except KeyboardInterrupt:
            self.finish(entries)
            raise
        except OSError as error:
            raise Stop(f"{error.filename2 or error.filename or self.folder}: {error.strerror}; not all changes are made: "
                       "the next `meson port` makes the rest") from error

    def checked(self, path: str, before: bytes | None) -> os.stat_result | None:
        """Returns the state of the file at a path. Stops if more than its bytes would change."""
        place = place_of(self.root, path)
        if place is None:
            raise Stop(f"{path}: is outside of {self.root}, or a link leads there; nothing is changed")
        if not may_change(place, before is None):
            raise Stop(f"{path}: is no file that `meson port` changes or makes; nothing is changed")
        real = os.path.join(self.root, place)
        if before is None:
            if os.path.lexists(real):
                raise Stop(f"{path}: is there meanwhile; nothing is changed")
            return None
        old = os.stat(real, follow_symlinks=False)
        if read_bytes(real) != before:
            raise Stop(f"{path}: was changed meanwhile; nothing is changed")
        if old.st_nlink > 1:
            raise Stop(f"{path}: has {old.st_nlink} names (hard links), which would be two files then; nothing is changed")
        if not old.st_mode & 0o222:
            raise Stop(f"{path}: is write-protected; nothing is changed")
        return old

    def write(self, name: str, data: bytes, old: os.stat_result | None) -> None:
        """Writes a text that waits, with the owner and the mode of the file that it replaces; a new one has those of the project."""
        made = os.open(self.path(name), os.O_WRONLY | os.O_CREAT | os.O_EXCL | os.O_NOFOLLOW | os.O_CLOEXEC, 0o666)
        with open(made, "wb") as it:
            it.write(data)
            it.flush()
            own, wanted = os.fstat(made), old or os.stat(self.root)
            if (own.st_uid, own.st_gid) != (wanted.st_uid, wanted.st_gid) and (old or os.geteuid() == 0):
                os.fchown(made, wanted.st_uid, wanted.st_gid)
            if old:
                os.fchmod(made, stat.S_IMODE(old.st_mode))
            os.fsync(made)

    def commit(self, entries: list[Entry]) -> None:
        """Writes the journal: from here on the next run finishes this one, whatever interrupts it."""
        with open(self.path(UNFINISHED), "x", encoding="utf-8") as it:
            it.write(dumps([dataclasses.astuple(entry) for entry in entries]))
            it.flush()
            os.fsync(it.fileno())
        os.rename(self.path(UNFINISHED), self.path(JOURNAL))
        sync_folder(self.folder)
