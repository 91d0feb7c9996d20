"""Finds the files that a compiler and pkg-config execute: the commands themselves, the compiler's own programs, and their loaders."""
from __future__ import annotations

import functools
import os
import re
import struct

from tools.asking.early import FOLDERS, early_or_run
from tools.elf import Elf
from tools.variables import found_program

# The programs that GCC and Clang call.
CALLED = ("cc1", "collect2", "lto1", "lto-wrapper", "as", "ld", "ld.bfd", "ld.gold", "ld.lld", "ld.mold", "nm", "objcopy")
INTERPRETER = 3  # the kind of an ELF file's segment that names the loader
FIRST_BYTES, MOST_BYTES = 1 << 16, 1 << 20  # of a program that are read: of an ELF file the first ones, if they name its loader
DEEPEST = 4  # scripts that call scripts


def path_folders() -> list[str]:
    """Returns the folders of PATH, without those that are relative to the present folder, which may be the project's."""
    return [it for it in os.get_exec_path() if os.path.isabs(it)]


def files_named(name: str, folders: list[str]) -> list[str]:
    """Returns each executable file of a name in these folders, as the system has it."""
    found = [found_program(name)] if "/" in name else [found_program(name, [folder]) for folder in folders]
    return [os.path.realpath(it) for it in found if it]


def programs_of(compiler: list[str], others: list[str], folder: str) -> tuple[str, ...]:
    """Returns the files that these commands may execute. Runs the compiler in an empty folder to find its own."""
    found: dict[str, None] = {}
    on_path = path_folders()
    for word in (*compiler, *others):
        if not word.startswith("-"):
            # All of its name: a command that wraps a compiler calls the next one on PATH.
            add_all(found, [*files_named(word, on_path), *files_named(os.path.basename(word), on_path)], DEEPEST)
    searched = list(dict.fromkeys(map(os.path.realpath, [*own_folders(tuple(compiler), folder), *on_path])))
    for name in CALLED:
        add_all(found, files_named(name, searched), DEEPEST)
    return tuple(found)


@functools.cache
def own_folders(compiler: tuple[str, ...], folder: str) -> list[str]:
    """Returns the folders that a compiler searches for its own programs. Runs it in an empty folder."""
    listed = re.search(r"^programs: =?(.*)$", early_or_run([*compiler, *FOLDERS], folder).printed, re.M)
    return [it for it in (listed[1].split(":") if listed else []) if os.path.isabs(it)]


def add_all(found: dict[str, None], paths: list[str], deepest: int) -> None:
    """Adds files and what they are run by; of a script also the programs that its text names."""
    for path in paths:
        if path in found:
            continue
        found[path] = None
        head = head_of(path)
        if head.startswith(b"\x7fELF"):
            add_all(found, files_named(loader_of(head), []), 0)
        elif head.startswith(b"#!") and deepest:
            named = dict.fromkeys(re.findall(r"[\w.+/-]*\w", head.decode(errors="replace")))
            whole = [it for it in named if os.path.isabs(it) or "/" not in it]
            add_all(found, [it for word in whole for it in files_named(word, path_folders())], deepest - 1)


def head_of(path: str) -> bytes:
    """Returns the beginning of a program, with which its loader or its interpreter is found."""
    with open(path, "rb") as it:
        head = it.read(FIRST_BYTES)
        is_enough = head.startswith(b"\x7fELF") and loader_of(head) != "/"
        return head if is_enough else head + it.read(MOST_BYTES - FIRST_BYTES)


def loader_of(head: bytes) -> str:
    """Returns the path of the program that loads an ELF file, or of none that is there."""
    try:
        places = [(at, size) for kind, at, _, size in Elf(bytearray(head)).segments
                  if kind == INTERPRETER and at + size <= len(head)]
    except (IndexError, OverflowError, ValueError, struct.error):
        places = []
    return "".join(os.fsdecode(head[at:at + size].rstrip(b"\0")) for at, size in places) or "/"
