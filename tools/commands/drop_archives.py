"""Removes each archive with a member that its edge no longer names: `tools/command drop-archives BUILDDIR`.

`ar csr` adds and replaces members, and never removes one, so an archive would keep the code of a source that is gone. Ninja makes the
archive again. Nothing outside of BUILDDIR is removed: no link is followed on the way to an archive.
"""
from __future__ import annotations

import os
import re
import sys
from collections.abc import Iterator

from tools.ending import run_script, say
from tools.files import read_text
from tools.ninja import paths_in, plain
from tools.root import Outside, Root

TYPE_CHECKING = False
if TYPE_CHECKING:
    from typing import BinaryIO

MAGIC, HEADER, END = b"!<arch>\n", 60, b"`\n"
MOST_BYTES = 1 << 24  # of long names
EDGE = re.compile(r"^build ((?:[^$ :|\n]|\$.)+): ar((?: (?:[^$ :|\n]|\$.)+)*)", re.M)


def archives_of(text: str) -> Iterator[tuple[str, set[str]]]:
    """Yields each archive of a build file, with the names of its members."""
    for output, inputs in EDGE.findall(text):
        yield plain(output), set(map(os.path.basename, paths_in(inputs)))


def members_of(archive: BinaryIO) -> Iterator[str]:
    """Yields the names of an archive's members; raises ValueError if it is no archive. Reads nothing of what the members are."""
    if archive.read(len(MAGIC)) != MAGIC:
        raise ValueError("no archive")
    at, long_names = len(MAGIC), b""
    while len(header := archive.read(HEADER)) == HEADER:
        name, size = header[:16].rstrip(b" "), int(header[48:58])
        if header[58:] != END or size < 0:
            raise ValueError("no member")
        if name == b"//":
            long_names = archive.read(min(size, MOST_BYTES))
        elif name not in (b"/", b"/SYM64/"):
            yield os.fsdecode(named_at(long_names, int(name[1:])) if name.startswith(b"/") else name.removesuffix(b"/"))
        at += HEADER + size + size % 2
        archive.seek(at)


def named_at(names: bytes, place: int) -> bytes:
    """Returns the name at a place of the list of long names."""
    return names[place:names.find(b"/\n", place)]


def is_left_over(archive: BinaryIO, wanted: set[str]) -> bool:
    """Returns whether an archive has a member that it shouldn't have. One that can't be read is made again too."""
    try:
        return not all(it in wanted for it in members_of(archive))
    except (ValueError, OverflowError):
        return True


def main() -> int:
    root = Root(sys.argv[1])
    for path, wanted in archives_of(read_text(os.path.join(root.path, "build.ninja"))):
        try:
            archive = root.open("/" + path)
            if archive is not None and is_left_over(archive, wanted):
                root.remove("/" + path)
        except (Outside, OSError) as error:
            say("meson setup", f"{path}: {getattr(error, 'strerror', None) or error}: it may keep members that are gone")
    return 0


def run() -> None:
    run_script("meson setup", main, failed=1)
