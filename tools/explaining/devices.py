"""Explains status 2: which file or folder can't be read or written, and the system's reason."""
from __future__ import annotations

import errno
import fcntl
import os
import stat

from tools.explaining.run import Asked, outputs
from tools.files import DEFINITION_FILES

FOLDER = os.O_RDONLY | os.O_DIRECTORY | os.O_CLOEXEC | os.O_NOFOLLOW
OUTPUTS = ("build.ninja", "meson-info/introspect.json")
OF_ANOTHER_MESON = "meson-private/coredata.dat"


def failed(asked: Asked) -> str | None:
    """Returns which file or folder a run can't read or write, and why, or None if nothing is found."""
    return unread(asked) or unwritten(asked) or unread_by_name(asked)


def texts_named(asked: Asked) -> list[tuple[str, str]]:
    """Returns the texts of the definition files, each with the folder in which it may be a path."""
    from tools.explaining.context import statements_below
    from tools.porting import tree
    return [(os.path.dirname(path), node.value) for path, statement in statements_below(asked.root)
            for expression in statement.expressions() for node in tree.inside(expression) if isinstance(node, tree.Text)]


def unread(asked: Asked) -> str | None:
    """Finds a definition file, or a file that one names by its whole path, that can't be read. Returns its path and why."""
    texts = texts_named(asked)
    folders = {"", *(os.path.join(folder, text) for folder, text in texts)}
    paths = [*(os.path.join(folder, it) for folder in sorted(folders) for it in DEFINITION_FILES), *(os.path.join(*it) for it in texts)]
    for path in dict.fromkeys(os.path.normpath(it) for it in paths if "\0" not in it):
        why = reason(os.path.join(asked.root, path)) if ".." not in path.split("/") else None
        if why:
            return f"{path}: {why}"
    return None


def unread_by_name(asked: Asked) -> str | None:
    """Finds a file that can't be read and has the name of a definition file, or of a part of a path that their texts may name."""
    wanted = {*DEFINITION_FILES, *(part for _, text in texts_named(asked) for part in text.split("/"))}
    for folder, folders, names in os.walk(asked.root):
        folders[:] = [it for it in sorted(folders)
                      if not it.startswith(".") and os.path.relpath(os.path.join(folder, it), asked.root) != asked.build]
        for name in sorted(wanted.intersection(names)):
            path = os.path.join(folder, name)
            why = reason(path)
            if why:
                return f"{os.path.relpath(path, asked.root)}: {why}"
        for name in wanted.intersection(folders):
            if not os.access(os.path.join(folder, name), os.X_OK | os.R_OK):
                return f"{os.path.relpath(os.path.join(folder, name), asked.root)}: Permission denied"
    return None


def reason(path: str) -> str | None:
    """Returns why a file can't be read; a pipe is not opened, since that would wait. What isn't there is looked for, and not read."""
    try:
        kind = os.stat(path).st_mode
        if stat.S_ISDIR(kind):
            return None
        if not stat.S_ISREG(kind):
            return "is no file, but a pipe, a socket or a device"
        os.close(os.open(path, os.O_RDONLY | os.O_NONBLOCK | os.O_CLOEXEC))
    except (FileNotFoundError, NotADirectoryError):
        return None
    except OSError as error:
        return error.strerror
    return None


def unwritten(asked: Asked) -> str | None:
    """Returns why BUILDDIR or an output can't be written; nothing is made or changed there."""
    build = asked.build or "."
    path = os.path.join(asked.root, build)
    why = blocked(asked.root, build)
    if why or not os.path.lexists(path):
        return why
    why = of_folder(path, build)
    if why:
        return why
    sizes = outputs(asked)
    why = of_outputs(asked.root, [f"{build}/{it}" for it in (*OUTPUTS, *sizes)])
    return why or (f"{build}: {os.strerror(errno.ENOSPC)}" if is_full(path, list(sizes.values())) else None)


def blocked(root: str, path: str) -> str | None:
    """Returns why a folder below `root` is none, or can't be made."""
    place = root
    for part in path.split("/"):
        above, place = place, os.path.join(place, part)
        shown = os.path.relpath(place, root)
        try:
            kind = os.lstat(place).st_mode
        except FileNotFoundError:
            why = unwritable(above)
            return f"{shown}: can't be made: {why}" if why else None
        except OSError as error:
            return f"{shown}: {error.strerror}"
        if stat.S_ISLNK(kind):
            return f"{shown}: is a link, and no link is followed on the way to an output"
        if not stat.S_ISDIR(kind):
            return f"{shown}: Not a directory"
    return None


def of_outputs(root: str, paths: list[str]) -> str | None:
    """Returns which of these outputs can't get its place, and why."""
    for path in paths:
        folder, place = os.path.dirname(path), os.path.join(root, path)
        why = blocked(root, folder)
        if why:
            return why
        if os.path.isdir(place) and not os.path.islink(place):
            return f"{path}: {os.strerror(errno.EISDIR)}"
        if os.path.isdir(os.path.join(root, folder)) and unwritable(os.path.join(root, folder)):
            return f"{folder}: {unwritable(os.path.join(root, folder))}"
    return None


def is_full(folder: str, sizes: list[int]) -> bool:
    """Returns whether the disk of a folder has no room for the largest of files with these sizes."""
    disk = os.statvfs(folder)
    free = disk.f_bfree if os.geteuid() == 0 else disk.f_bavail
    return free * disk.f_frsize < max(sizes, default=0)


def unwritable(folder: str) -> str | None:
    """Returns the system's reason if nothing can be made in a folder."""
    if os.statvfs(folder).f_flag & os.ST_RDONLY:
        return os.strerror(errno.EROFS)
    return None if os.access(folder, os.W_OK | os.X_OK) else os.strerror(errno.EACCES)


def of_folder(path: str, build: str) -> str | None:
    """Returns why BUILDDIR can't be written, if it is there."""
    if os.path.lexists(os.path.join(path, "meson.build")):
        return f"{build}: holds a meson.build, so it is a folder of sources"
    if os.path.exists(os.path.join(path, OF_ANOTHER_MESON)):
        return f"{build}: is a build folder of another Meson (it has {OF_ANOTHER_MESON}): take another folder"
    if unwritable(path):
        return f"{build}: {unwritable(path)}"
    try:
        number = os.open(path, FOLDER)
    except OSError as error:
        return f"{build}: {error.strerror}"
    try:
        fcntl.flock(number, fcntl.LOCK_EX | fcntl.LOCK_NB)
    except OSError:
        return f"{build}: another run is at work there, which locks it"
    finally:
        os.close(number)
    return None
