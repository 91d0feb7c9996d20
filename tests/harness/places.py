"""Makes, describes and compares what is at places of a disk and is no plain file, such as links, FIFOs and sockets. Also closes and
fills streams."""
import fcntl
import os
import stat
import threading
from collections.abc import Callable, Iterator
from contextlib import contextmanager

# What each kind of thing is called.
KINDS = {
    stat.S_IFLNK: "link", stat.S_IFIFO: "FIFO", stat.S_IFSOCK: "socket", stat.S_IFDIR: "folder", stat.S_IFREG: "file",
    stat.S_IFCHR: "device", stat.S_IFBLK: "device",
}


def kind_of(path: str) -> str:
    """Returns the kind of what is at a path, without following a link; 'nothing' if nothing is there."""
    try:
        return KINDS[stat.S_IFMT(os.lstat(path).st_mode)]
    except (FileNotFoundError, NotADirectoryError):
        return "nothing"


def make_thing(kind: str, path: str, target: str = "") -> None:
    """Makes a link, a hard link, a FIFO or a socket at a path, and the folders above it. Keeps what is there already."""
    os.makedirs(os.path.dirname(path), exist_ok=True)
    if kind_of(path) != "nothing":
        return
    if kind == "link":
        os.symlink(target, path)
    elif kind == "hardlink":
        os.link(target, path, follow_symlinks=False)
    elif kind == "fifo":
        os.mkfifo(path)
    else:
        os.mknod(path, stat.S_IFSOCK | 0o644)


def state_of(path: str) -> tuple:
    """Returns what is at a path: its kind, and a file's bytes or a link's target."""
    kind = kind_of(path)
    if kind == "file":
        with open(path, "rb") as file:
            return kind, file.read()
    return kind, os.readlink(path) if kind == "link" else ""


def states_below(top: str) -> dict:
    """Returns what is at a path and at all paths below it, none of which is reached by a link."""
    found = {top: state_of(top)}
    for folder, folders, names in os.walk(top):
        found.update((path, state_of(path)) for path in (os.path.join(folder, name) for name in folders + names))
    return found


def changes(before: dict, after: dict) -> list:
    """Returns what changed between two states, a line for each path."""
    nothing = ("nothing", "")
    told = lambda states, path: f"{states.get(path, nothing)[0]} {states.get(path, nothing)[1][:60]!r}"
    paths = sorted(path for path in before.keys() | after.keys() if before.get(path, nothing) != after.get(path, nothing))
    return [f"{path} is changed: it was {told(before, path)}, and is {told(after, path)}" for path in paths]


def stream_changer(closed: list, full: list) -> Callable | None:
    """Returns what a process does with its streams before a program begins: closes those of these numbers, and has others take no byte."""
    def change() -> None:
        for number in full:
            device = os.open("/dev/full", os.O_WRONLY)
            os.dup2(device, number)
            os.close(device)
        for number in closed:
            os.close(number)
    return change if closed or full else None


@contextmanager
def locked(folder: str | None) -> Iterator[None]:
    """Holds the lock of a folder, where one is given."""
    if folder is None:
        yield
        return
    number = os.open(folder, os.O_RDONLY | os.O_DIRECTORY)
    try:
        fcntl.flock(number, fcntl.LOCK_EX | fcntl.LOCK_NB)
        yield
    finally:
        os.close(number)


@contextmanager
def pipe_of(data: bytes | None) -> Iterator[tuple]:
    """Returns a pipe that gives these bytes, as the numbers that a program has to be handed; none if no bytes are given."""
    if data is None:
        yield ()
        return
    reading, writing = os.pipe()
    writer = threading.Thread(target=write_whole, args=(writing, data), daemon=True)
    writer.start()
    try:
        yield (reading,)
    finally:
        # A writer whose bytes nobody takes ends once nobody can read them.
        os.close(reading)
        writer.join()


def write_whole(number: int, data: bytes) -> None:
    try:
        with open(number, "wb") as pipe:
            pipe.write(data)
    except BrokenPipeError:
        pass
