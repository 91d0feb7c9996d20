"""Provides Hawkottoman for Python: `meson setup` for C projects as a pure function from a source tree in memory to the build files.

    import hawkottoman

    run = hawkottoman.setup({"meson.build": b"project('x', 'c')\n"})
    print(run.outputs["build.ninja"].decode())

A call opens no file, starts no process and keeps no state, so any number of threads may call at the same time. The module
needs libhawkottoman.so and nothing but the standard library. HAWKOTTOMAN_LIBRARY names the library; otherwise it is sought next to this
file, in the checkout that this file is in, and where the system looks for libraries.
"""
from __future__ import annotations

import ctypes
import ctypes.util
import dataclasses
import enum
import os
import pathlib
from collections.abc import Iterable, Mapping

__all__ = ["BadSettings", "BadSlices", "Event", "Kind", "OutOfMemory", "Run", "Status", "fault", "load", "questions", "setup"]


class Status(enum.IntEnum):
    """Says how a run ended."""
    DONE = 0
    FAULT = 1


class Kind(enum.Enum):
    """Names the kind of an event."""
    OPEN = ord("O")
    BYTES = ord("B")
    CLOSE = ord("C")
    LOG = ord("L")
    FAULT = ord("E")


class OutOfMemory(MemoryError):
    """The library ran out of memory."""


class BadSettings(ValueError):
    """The source directory is no absolute path, or the build directory is none of 1 to 64 parts without `..`."""


class BadSlices(ValueError):
    """A path, a word or a directory has a zero byte."""


ERRORS: dict[int, type[Exception]] = {3: OutOfMemory, 4: BadSettings, 5: BadSlices}


@dataclasses.dataclass(frozen=True)
class Event:
    """Holds one thing that a run wrote. It is the path of an output that begins, bytes of the open output, its end, or bytes of the log or
    of a fault's line."""
    kind: Kind
    data: bytes


@dataclasses.dataclass(frozen=True)
class Run:
    """Holds what a run wrote, in order, and how it ended."""
    status: Status
    events: tuple[Event, ...]

    @property
    def outputs(self) -> dict[str, bytes]:
        """Returns the outputs that the run wrote whole, by their paths."""
        outputs: dict[str, bytes] = {}
        name, data = "", b""
        for event in self.events:
            if event.kind is Kind.OPEN:
                name, data = event.data.decode(), b""
            elif event.kind is Kind.BYTES:
                data += event.data
            elif event.kind is Kind.CLOSE:
                outputs[name] = data
        return outputs

    @property
    def log(self) -> str:
        """Returns the log."""
        return b"".join(event.data for event in self.events if event.kind is Kind.LOG).decode(errors="replace")

    @property
    def fault(self) -> str:
        """Returns the fault's line, or an empty text."""
        return b"".join(event.data for event in self.events if event.kind is Kind.FAULT).decode(errors="replace")


def _candidates() -> list[str]:
    named = os.environ.get("HAWKOTTOMAN_LIBRARY")
    if named:
        return [named]
    here = pathlib.Path(__file__).resolve().parent
    places = [here, here.parent / "crates" / "hawkottoman_c" / "out", here.parent.parent]
    found = [str(place / "libhawkottoman.so") for place in places if (place / "libhawkottoman.so").is_file()]
    return [*found, ctypes.util.find_library("hawkottoman") or "libhawkottoman.so"]


_library: ctypes.CDLL | None = None


def load(path: str | None = None) -> ctypes.CDLL:
    """Loads the library: the one at `path`, or the one that is found first. A call loads it by itself."""
    global _library
    if path is not None or _library is None:
        library = ctypes.CDLL(path or _candidates()[0])
        for name in ("setup", "questions", "fault"):
            call = getattr(library, f"hawkottoman_{name}")
            call.argtypes = [ctypes.c_void_p, ctypes.c_size_t] * 8 + [ctypes.POINTER(ctypes.c_uint64)]
            call.restype = ctypes.c_uint8
        _library = library
    return _library


def _events(answer: bytes) -> tuple[Event, ...]:
    events, at = [], 0
    while at < len(answer):
        end = at + 9 + int.from_bytes(answer[at + 1:at + 9], "little")
        events.append(Event(Kind(answer[at]), answer[at + 9:end]))
        at = end
    return tuple(events)


def _call(name: str, files: Mapping[str, bytes], words: list[str], machine: bytes, source_root: str, build_folder: str) -> Run:
    call = getattr(load(), f"hawkottoman_{name}")
    sizes = (ctypes.c_uint64 * max(len(files), 1))(*(len(it) for it in files.values()))
    texts = [*files, *words, source_root, build_folder]
    if any("\0" in text for text in texts):
        raise BadSlices("a path, a word or a directory has a zero byte")
    slices = [
        b"".join(path.encode() + b"\0" for path in files),
        b"".join(files.values()),
        b"".join(word.encode() + b"\0" for word in words),
        machine,
        source_root.encode(),
        build_folder.encode(),
    ]
    paths, contents, *others = ((ctypes.cast(ctypes.c_char_p(it), ctypes.c_void_p), len(it)) for it in slices)
    given = [*paths, ctypes.cast(sizes, ctypes.c_void_p), len(files), *contents, *(part for pair in others for part in pair)]
    length, size = ctypes.c_uint64(), 1 << 16
    while True:
        room = ctypes.create_string_buffer(max(size, 1))
        status = call(*given, ctypes.cast(room, ctypes.c_void_p), size, ctypes.byref(length))
        if status in ERRORS:
            raise ERRORS[status](ERRORS[status].__doc__)
        if length.value <= size:
            return Run(Status(status), _events(room.raw[:length.value]))
        size = length.value


def setup(files: Mapping[str, bytes], words: Iterable[str] = (), machine: bytes = b"", source_root: str = "/src",
          build_folder: str = "build") -> Run:
    """Configures the project whose files these are, by their paths in the source directory, as `meson setup` does.

    `words` are option arguments (`name=value`), `machine` is the machine file. Raises OutOfMemory, BadSettings or BadSlices.
    """
    return _call("setup", files, list(words), machine, source_root, build_folder)


def questions(files: Mapping[str, bytes], words: Iterable[str] = (), machine: bytes = b"", source_root: str = "/src",
              build_folder: str = "build") -> Run:
    """Lists what the project asks the machine file, as `meson questions` does: the log has the lines."""
    return _call("questions", files, list(words), machine, source_root, build_folder)


def fault(files: Mapping[str, bytes], words: Iterable[str] = (), machine: bytes = b"", source_root: str = "/src",
          build_folder: str = "build") -> Run:
    """Says in which fault the project ends, and what the fault is about, as `meson fault` does."""
    return _call("fault", files, list(words), machine, source_root, build_folder)
