"""Writes files below one folder, and nothing outside of it.

A destination is an absolute path whose root this folder is. Its `.` and `..` are carried out first, by its text. On the way down each
folder is opened in the one above it; a link there is read, and its text followed by the same rules: one that leads out of the root is
refused. So no place is reached by a path that could change after the check.
"""
from __future__ import annotations

import errno
import os
import stat

TYPE_CHECKING = False
if TYPE_CHECKING:
    from collections.abc import Callable, Iterable
    from typing import BinaryIO

FOLDER = os.O_PATH | os.O_DIRECTORY | os.O_CLOEXEC
LINKS = 40  # that one way may lead over, as the system has it
NEW_FILE = os.O_WRONLY | os.O_CREAT | os.O_EXCL | os.O_NOFOLLOW | os.O_CLOEXEC


class Outside(Exception):
    """Says why the destination isn't below the root."""


def parts_of(destination: str) -> list[str]:
    """Returns the parts of a destination after its `.` and `..` are carried out."""
    if not destination.startswith("/"):
        raise Outside("is a relative path; the option prefix has to be an absolute one")
    parts: list[str] = []
    for part in destination.split("/"):
        if part == "..":
            if not parts:
                raise Outside("climbs above the root")
            parts.pop()
        elif part not in ("", "."):
            parts.append(part)
    if not parts:
        raise Outside("is the root itself")
    return parts


class Root:
    def __init__(self, path: str) -> None:
        self.path = os.path.abspath(path) if path else "/"

    def place(self, destination: str) -> str:
        """Returns the path of a destination, to be shown."""
        return os.path.join(self.path, *parts_of(destination))

    def check(self, destination: str) -> None:
        """Raises Outside where a file could not be put there without leaving the root; makes nothing."""
        close(self.descend(parts_of(destination)[:-1], makes=False))

    def make_folder(self, destination: str) -> None:
        """Has a folder made, with those above it; one that is there stays as it is."""
        os.makedirs(self.path, exist_ok=True)
        opened = self.descend(parts_of(destination), makes=True)
        is_there = opened[-1] is not None
        close(opened)
        if not is_there:
            raise FileNotFoundError(errno.ENOENT, os.strerror(errno.ENOENT))

    def put(self, destination: str, make: Callable[[int, str], None]) -> None:
        """Makes a file next to its place, by the folder's number and a name, and renames it there."""
        *folders, name = parts_of(destination)
        os.makedirs(self.path, exist_ok=True)
        opened = self.descend(folders, makes=True)
        beside = f".install-{os.urandom(8).hex()}"
        try:
            if opened[-1] is None:
                raise FileNotFoundError(errno.ENOENT, os.strerror(errno.ENOENT))
            try:
                make(opened[-1], beside)
                os.replace(beside, name, src_dir_fd=opened[-1], dst_dir_fd=opened[-1])
            except BaseException:
                remove(opened[-1], beside)
                raise
        finally:
            close(opened)

    def open(self, destination: str) -> BinaryIO | None:
        """Returns a file that is no link, to be read, reached without leaving the root, or None if it is not there."""
        *folders, name = parts_of(destination)
        opened = self.descend(folders, makes=False)
        try:
            if opened[-1] is None:
                return None
            return open(os.open(name, os.O_RDONLY | os.O_NOFOLLOW | os.O_NONBLOCK | os.O_CLOEXEC, dir_fd=opened[-1]), "rb")
        except FileNotFoundError:
            return None
        finally:
            close(opened)

    def set_executable(self, destination: str, is_executable: bool) -> None:
        """Makes a file executable for all, or for nobody, reached without leaving the root; one that is a link or not there stays so."""
        *folders, name = parts_of(destination)
        opened = self.descend(folders, makes=False)
        try:
            if opened[-1] is None:
                return
            number = os.open(name, os.O_RDONLY | os.O_NOFOLLOW | os.O_NONBLOCK | os.O_CLOEXEC, dir_fd=opened[-1])
            try:
                mode = os.fstat(number).st_mode
                if stat.S_ISREG(mode):
                    os.fchmod(number, stat.S_IMODE(mode) | 0o111 if is_executable else stat.S_IMODE(mode) & ~0o111)
            finally:
                os.close(number)
        except FileNotFoundError:
            pass
        finally:
            close(opened)

    def remove(self, destination: str) -> None:
        """Removes a file, reached without leaving the root."""
        *folders, name = parts_of(destination)
        opened = self.descend(folders, makes=False)
        try:
            if opened[-1] is not None:
                remove(opened[-1], name)
        finally:
            close(opened)

    def descend(self, folders: list[str], makes: bool) -> list[int | None]:
        """Returns the numbers of the folders that are open from the root down to the last; None for one that is absent."""
        opened: list[int | None] = [open_folder(self.path, None)]
        waiting, links = folders[::-1], 0
        try:
            while waiting:
                part = waiting.pop()
                if part == ".." and len(opened) == 1:
                    raise Outside(f"has a link on its way that leads out of {self.path}")
                if part == "..":
                    close([opened.pop()])
                elif part not in ("", "."):
                    target = enter(opened, part, makes)
                    links += target is not None
                    if links > LINKS:
                        raise OSError(errno.ELOOP, os.strerror(errno.ELOOP))
                    if target is not None and target.startswith("/"):
                        target = self.below(target)
                        close(opened[1:])
                        del opened[1:]
                    if target is not None:
                        waiting += target.split("/")[::-1]
            return opened
        except BaseException:
            close(opened)
            raise

    def below(self, path: str) -> str:
        """Returns the part of an absolute path after that of the root."""
        for root in (self.path, os.path.realpath(self.path)):
            if (path + "/").startswith(root.rstrip("/") + "/"):
                return path[len(root.rstrip("/")):]
        raise Outside(f"has a link on its way that leads to {path}")


def open_folder(path: str, above: int | None) -> int | None:
    """Returns the number of a folder that is no link, but for the root, which has none above it."""
    try:
        return os.open(path, FOLDER if above is None else FOLDER | os.O_NOFOLLOW, dir_fd=above)
    except FileNotFoundError:
        return None


def enter(opened: list[int | None], part: str, makes: bool) -> str | None:
    """Opens a folder in the last one, or returns the text of the link that is there."""
    above = opened[-1]
    if above is None:
        opened.append(None)
        return None
    try:
        number = open_folder(part, above)
        if number is None and makes:
            make_folder(part, above)
            number = open_folder(part, above)
        opened.append(number)
    except OSError as error:
        if error.errno not in (errno.ENOTDIR, errno.ELOOP):
            raise
        try:
            return os.readlink(part, dir_fd=above)
        except OSError:
            raise error from None
    return None


def make_folder(name: str, above: int) -> None:
    try:
        os.mkdir(name, dir_fd=above)
    except FileExistsError:
        pass  # another has made it


def close(opened: list[int | None]) -> None:
    for number in opened:
        if number is not None:
            os.close(number)


def remove(folder: int, name: str) -> None:
    try:
        os.unlink(name, dir_fd=folder)
    except FileNotFoundError:
        pass


def write_file(data: bytes | bytearray, mode: int, times: tuple[int, int]) -> Callable[[int, str], None]:
    """Returns what makes a file with these bytes, mode and times (in nanoseconds)."""
    return write_pieces([data], mode, times)


def write_pieces(pieces: Iterable[bytes | bytearray], mode: int, times: tuple[int, int]) -> Callable[[int, str], None]:
    """Returns what makes a file of bytes that come piece by piece, once."""
    def make(folder: int, name: str) -> None:
        with open(os.open(name, NEW_FILE, 0o600, dir_fd=folder), "wb") as it:
            it.writelines(pieces)
            it.flush()
            os.fchmod(it.fileno(), mode)
            os.utime(it.fileno(), ns=times)
    return make


def write_link(target: str) -> Callable[[int, str], None]:
    """Returns what makes a link."""
    return lambda folder, name: os.symlink(target, name, dir_fd=folder)
