"""Reads the dynamic section of an ELF file, which says where a program looks for its libraries."""
from __future__ import annotations

import struct

TYPE_CHECKING = False
if TYPE_CHECKING:
    from collections.abc import Iterator

MAGIC = b"\x7fELF"
LOAD, DYNAMIC = 1, 2
STRTAB, RPATH, RUNPATH = 5, 15, 29


class NoElf(Exception):
    """Reports that the bytes are no whole ELF file."""


def drop_search(data: bytearray, folders: set[str]) -> None:
    """Takes folders out of those in which the libraries of a program or a shared library are searched."""
    try:
        Elf(data).drop_search(folders)
    except (IndexError, OverflowError, ValueError, struct.error) as error:
        raise NoElf from error


class Elf:
    """Holds a program or a shared library, with bytes that can be changed."""

    def __init__(self, data: bytearray) -> None:
        self.data = data
        is_64, order = data[4] == 2, "<" if data[5] == 1 else ">"
        self.entry = struct.Struct(order + ("qQ" if is_64 else "iI"))
        start, size, count = (struct.unpack_from(order + form, data, at)[0]
                              for form, at in ((("Q", 32), ("H", 54), ("H", 56)) if is_64 else (("I", 28), ("H", 42), ("H", 44))))
        header = struct.Struct(order + ("IIQQQQ" if is_64 else "IIIIII"))
        fields = (header.unpack_from(data, start + i * size) for i in range(count))
        # Of each segment: kind, place in the file, address, size.
        self.segments = [(it[0], it[2], it[3], it[5]) if is_64 else (it[0], it[1], it[2], it[4]) for it in fields]

    def place_of(self, address: int) -> int:
        for kind, at, start, size in self.segments:
            if kind == LOAD and start <= address < start + size:
                return at + address - start
        raise ValueError(f"no segment has the address {address}")

    def dynamic(self) -> Iterator[tuple[int, int, int]]:
        """Yields the place, tag and value of each entry, with the first that ends them."""
        for at, size in ((at, size) for kind, at, _, size in self.segments if kind == DYNAMIC):
            for place in range(at, at + size, self.entry.size):
                tag, value = self.entry.unpack_from(self.data, place)
                yield place, tag, value
                if tag == 0:
                    return

    def drop_search(self, folders: set[str]) -> None:
        entries = list(self.dynamic())
        texts = [self.place_of(value) for _, tag, value in entries if tag == STRTAB]
        for place, tag, value in reversed(entries):
            if tag not in (RPATH, RUNPATH) or not texts:
                continue
            start = texts[0] + value
            old = bytes(self.data[start:self.data.index(0, start)])
            new = b":".join(it for it in old.split(b":") if it.decode(errors="replace") not in folders)
            if new and new != old:
                self.data[start:start + len(new) + 1] = new + b"\0"
            elif not new:
                # The entries after it move up, and an empty one ends them.
                last = entries[-1][0] + self.entry.size
                self.data[place:last] = self.data[place + self.entry.size:last] + bytes(self.entry.size)
