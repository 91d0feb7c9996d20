"""Reads files and makes logs: a pipe or device in the place of a file is neither waited for nor read to its end."""
from __future__ import annotations

import errno
import os
import stat

from tools.ending import Stop

TYPE_CHECKING = False
if TYPE_CHECKING:
    from typing import BinaryIO

# The names of an option file, of which the first that is there counts, and of all definition files.
OPTION_FILES = ("meson.options", "meson_options.txt")
DEFINITION_FILES = ("meson.build", *OPTION_FILES)
# Bytes of a file that is read: of a definition file as many as the program takes, of any other file more than it writes.
DEFINITION, MOST_BYTES = 1 << 24, 1 << 30
LOGS = "meson-logs"
FOLDER = os.O_PATH | os.O_DIRECTORY | os.O_CLOEXEC


def open_file(path: str) -> BinaryIO:
    """Opens a file to be read. If it can't be opened, an OSError says why."""
    try:
        number = os.open(path, os.O_RDONLY | os.O_NONBLOCK | os.O_CLOEXEC)
    except ValueError as error:  # a name that has a NUL
        raise OSError(errno.EINVAL, "a file can't have this name", path) from error
    kind = os.fstat(number).st_mode
    if stat.S_ISREG(kind):
        return open(number, "rb")
    os.close(number)
    if stat.S_ISDIR(kind):
        raise OSError(errno.EISDIR, os.strerror(errno.EISDIR), path)
    raise OSError(errno.EINVAL, "is no file, but a pipe or a device", path)


def read_bytes(path: str, most: int = MOST_BYTES) -> bytes:
    """Returns the bytes of a file that has no more than `most`; nothing is read of one that says that it has."""
    with open_file(path) as it:
        size = os.fstat(it.fileno()).st_size
        data = it.read(size + 1) if size <= most else None
        if data is not None and len(data) > size:  # it grows, or is one of those files of the system that have no size
            data += it.read(most + 1 - len(data))
    if data is None or len(data) > most:
        raise OSError(errno.EFBIG, f"has more than {most:,} bytes", path)
    return data


def read_text(path: str, most: int = MOST_BYTES) -> str:
    """Returns the text of a file, as `read_bytes` its bytes."""
    data = read_bytes(path, most)
    try:
        return data.decode()
    except UnicodeDecodeError as error:
        raise OSError(errno.EILSEQ, "not UTF-8", path) from error


def log_path(folder: str, name: str) -> str:
    return os.path.join(folder, LOGS, name)


def new_log(folder: str, name: str) -> BinaryIO:
    """Returns a new log of a build directory. An old one is removed, and a link in place of its folder is refused."""
    opened = [os.open(folder, FOLDER)]
    try:
        try:
            os.mkdir(LOGS, dir_fd=opened[0])
        except FileExistsError:
            pass
        if stat.S_ISLNK(os.stat(LOGS, dir_fd=opened[0], follow_symlinks=False).st_mode):
            raise Stop(f"{os.path.join(folder, LOGS)}: is a link; logs are written to a folder")
        opened.append(os.open(LOGS, FOLDER | os.O_NOFOLLOW, dir_fd=opened[0]))
        try:
            os.unlink(name, dir_fd=opened[1])
        except FileNotFoundError:
            pass
        made = os.O_WRONLY | os.O_CREAT | os.O_EXCL | os.O_NOFOLLOW | os.O_CLOEXEC
        return open(os.open(name, made, 0o666, dir_fd=opened[1]), "wb")
    except OSError as error:
        raise Stop(f"{log_path(folder, name)}: {error.strerror}") from error
    finally:
        for number in opened:
            os.close(number)


def unnamed_file(folder: str) -> BinaryIO:
    """Returns a file of this folder that has no name there, to be written and read."""
    try:
        return open(os.open(folder, os.O_TMPFILE | os.O_RDWR | os.O_CLOEXEC, 0o600), "w+b")
    except OSError:
        # A file system that has no such files.
        import tempfile
        return tempfile.TemporaryFile(dir=folder)
