"""Keeps answers from one machine file to the next, in a file of the user's cache.

Each is kept by the whole question, the compiler and the environment, with its evidence: it is good as long as each of these files is as it
was. A cache that is damaged, or isn't the user's, counts as empty, and one that can't be written is left alone.
"""
from __future__ import annotations

import os
import stat
import time

try:
    from _blake2 import blake2b  # `hashlib` has it too, and loads all of OpenSSL first
except ImportError:
    from hashlib import blake2b

from tools.asking.stamps import Evidence, Stamp, stamp_of
from tools.light_json import dumps, loads

FORM = 3  # another number where the file has another form, or an answer another meaning: what was kept before is then not taken
FOLDER, NAME = "hawkottoman", "answers.json"
MOST_BYTES, MOST_ANSWERS = 2**24, 100_000
# Variables that change no answer; any other one is part of the question.
FREE = {"PWD", "OLDPWD", "SHLVL", "_", "TERM", "COLUMNS", "LINES", "HOSTNAME", "USER", "LOGNAME", "MAIL", "EDITOR", "PAGER", "LS_COLORS",
        "DISPLAY", "WAYLAND_DISPLAY", "TMPDIR", "DESTDIR", "MAKEFLAGS", "MFLAGS", "MAKELEVEL", "HOME", "SHELL", "COLORTERM", "WINDOWID",
        "CFLAGS", "CPPFLAGS", "LDFLAGS", "CC", "AR", "PKG_CONFIG", "XDG_CACHE_HOME", "XDG_RUNTIME_DIR", "XDG_SESSION_ID"}


def cache_path() -> str | None:
    """Returns where answers are kept; None if the environment names no such place."""
    base = os.environ.get("XDG_CACHE_HOME", "")
    if not os.path.isabs(base):
        home = os.environ.get("HOME", "")
        base = os.path.join(home, ".cache") if os.path.isabs(home) else ""
    return os.path.join(base, FOLDER, NAME) if base else None


def label_of(question: object) -> str:
    """Returns a question with the environment, as a short name."""
    return short_name([FORM, question, around()])


def short_name(value: object) -> str:
    return blake2b(dumps(value).encode(), digest_size=16).hexdigest()


AROUND: list[str] = []  # the environment, once it was looked at


def around() -> str:
    """Returns the variables of the environment that may change an answer, as a short name."""
    if not AROUND:
        AROUND.append(short_name(sorted((name, it) for name, it in os.environ.items() if name not in FREE)))
    return AROUND[0]


class Kept:
    """Holds the contents of a file of answers: times and sizes of paths, lists of paths, and answers with the numbers of these lists."""

    def __init__(self, text: bytes = b"") -> None:
        self.stamps: dict[str, Stamp] = {}
        self.lists: list[list[str]] = []
        self.answers: dict[str, tuple[object, int]] = {}
        try:
            form, names, stamps, lists, answers = loads(text) if text else (None,) * 5
            if form == FORM:
                paths = [str(it) for it in names]
                read = [[paths[it] for it in one] for one in lists]
                pairs = {str(label): (it, int(number)) for label, (it, number) in answers.items() if 0 <= int(number) < len(read)}
                self.stamps, self.lists, self.answers = dict(zip(paths, stamps, strict=True)), read, pairs
        except (ValueError, TypeError, KeyError, IndexError, RecursionError):
            pass  # it counts as empty

    def text(self) -> bytes:
        number = {it: place for place, it in enumerate(self.stamps)}
        lists = [[number[it] for it in one] for one in self.lists]
        return dumps([FORM, list(self.stamps), list(self.stamps.values()), lists, self.answers]).encode()

    def add(self, stamps: dict[str, Stamp], answers: dict[str, object]) -> None:
        """Adds answers with their evidence. Lists that say otherwise of a path go, with the answers that depend on them."""
        changed = {it for it, stamp in stamps.items() if it in self.stamps and self.stamps[it] != stamp}
        gone = {number for number, it in enumerate(self.lists) if not changed.isdisjoint(it)} if changed else set()
        self.answers = {label: it for label, it in self.answers.items() if it[1] not in gone}
        for number in gone:
            self.lists[number] = []
        self.stamps.update(stamps)
        self.lists.append(sorted(stamps))
        self.answers.update({label: (it, len(self.lists) - 1) for label, it in answers.items()})


def read_own(path: str) -> bytes:
    """Returns the bytes of a file that is the user's own; none of another, or of one that is too great."""
    try:
        with open(os.open(path, os.O_RDONLY | os.O_NOFOLLOW | os.O_NONBLOCK | os.O_CLOEXEC), "rb") as it:
            found = os.fstat(it.fileno())
            is_own = stat.S_ISREG(found.st_mode) and found.st_uid == os.getuid() and found.st_size <= MOST_BYTES
            return it.read() if is_own else b""
    except OSError:
        return b""


class Cache:
    def __init__(self, path: str | None) -> None:
        self.path, self.begun = path, time.time_ns()
        self.kept = Kept(read_own(path) if path else b"")
        self.new: list[tuple[dict[str, Stamp], dict[str, object]]] = []
        self.now: dict[str, Stamp] = {}  # stamps when they were first looked at: what changes after that is no longer good next time
        self.good: dict[int, bool] = {}  # lists of which each path is as it was

    def stamp(self, path: str) -> Stamp:
        if path not in self.now:
            self.now[path] = stamp_of(path)
        return self.now[path]

    def get(self, label: str) -> tuple[object, bool]:
        """Returns a kept answer, and whether there is one that is still good."""
        found, number = self.kept.answers.get(label, (None, -1))
        if number < 0:
            return None, False
        if number not in self.good:
            self.good[number] = all(self.stamp(it) == self.kept.stamps[it] for it in self.kept.lists[number])
        return found, self.good[number]

    def put(self, evidence: Evidence, answers: dict[str, object]) -> None:
        """Keeps answers, unless what they rest on isn't known, or has changed since the script began."""
        stamps = self.settled_stamps(evidence.paths)
        if self.path and answers and evidence.is_whole and stamps is not None:
            self.new.append((stamps, answers))

    def paths_of(self, label: str) -> set[str] | None:
        """Returns the paths that an answer depends on; None if it isn't kept."""
        number = self.kept.answers.get(label, (None, -1))[1]
        if self.good.get(number):
            return set(self.kept.lists[number])
        return next((set(stamps) for stamps, answers in self.new if label in answers), None)

    def settled_stamps(self, paths: set[str]) -> dict[str, Stamp] | None:
        """Returns the times and sizes of paths, unless one has changed since the script began."""
        stamps = {it: self.stamp(it) for it in sorted(paths)}
        return stamps if all(it is None or it[0] < self.begun for it in stamps.values()) else None

    def save(self) -> None:
        """Writes the new answers, together with those that other runs have kept meanwhile. Replaces the file as a whole."""
        if not self.path or not self.new:
            return
        kept = Kept(read_own(self.path))
        if len(kept.answers) > MOST_ANSWERS:
            kept = Kept()
        for stamps, answers in self.new:
            kept.add(stamps, answers)
        replace(self.path, kept.text())


def replace(path: str, text: bytes) -> None:
    """Writes a file as a whole, if it can be written."""
    beside = f"{path}.{os.urandom(8).hex()}"
    try:
        os.makedirs(os.path.dirname(path), mode=0o700, exist_ok=True)
        with open(os.open(beside, os.O_WRONLY | os.O_CREAT | os.O_EXCL | os.O_NOFOLLOW | os.O_CLOEXEC, 0o600), "wb") as it:
            it.write(text)
        os.replace(beside, path)
    except OSError:
        remove(beside)


def remove(path: str) -> None:
    try:
        os.unlink(path)
    except OSError:
        pass  # it isn't there
