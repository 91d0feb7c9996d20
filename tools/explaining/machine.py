"""Explains E16: what the program reports of a line of a machine file, and what that line could be."""
from __future__ import annotations

import re
from collections.abc import Callable

from tools.asking.checks import METHODS
from tools.explaining.detail import Detail, detail, listed, near, quoted
from tools.explaining.fault_report import NONE, TWICE, FaultReport

SECTIONS = ("binaries", "built-in options", "project options", "host_machine", "compiler", "dependency NAME", "checks", "properties")
KEYS = {"host_machine": ("system", "cpu_family", "cpu", "endian"), "compiler": ("id", "version"),
        "dependency": ("version", "compile_args", "link_args")}
LINES = "a line is a section '[name]', 'key = value', or a comment '#'"


def section_at(lines: list[str], number: int) -> str | None:
    """Returns the section that a line is in."""
    for line in lines[:number - 1][::-1]:
        if line.strip().startswith("["):
            return line.strip()[1:].partition("]")[0]
    return None


def cut(section: str | None, line: str) -> tuple[str, str]:
    """Returns the key and the value of a line."""
    key, _, value = line.rpartition("=") if section == "checks" else line.partition("=")
    return key.strip(), value.strip()


def machine_detail(machine: bytes, number: int, told: FaultReport) -> Detail:
    """Says what is reported of a line, with what it could be."""
    lines = machine.decode(errors="replace").split("\n")
    line = lines[number - 1].strip() if number <= len(lines) else ""
    if told.key is not None:
        return of_key(lines, number, told)
    if told.section is not None and told.so in (NONE, TWICE):
        return of_section(lines, number, told)
    return detail(f"{told.shown}: {quoted(line)}", LINES)


def of_key(lines: list[str], number: int, told: FaultReport) -> Detail:
    section, key = told.section or "", told.key or ""
    if told.so == TWICE:
        before = line_before(lines, number, lambda it: "=" in it and cut(section, it)[0] == key)
        return detail(told.shown + (f": in line {before} before" if before else ""))
    if told.so == NONE and section == "checks":
        method, _, rest = key.partition(" ")
        if method in METHODS and not rest:
            return detail(told.shown, "the key is a method and its arguments, as 'has_function fsync'")
        return detail(told.shown + near(method, METHODS), f"checks: {listed(METHODS)}")
    if told.so == NONE:
        known = KEYS.get(section.split(" ")[0], ())
        return detail(told.shown + near(key, known), f"[{section}] has {listed(known)}" if known else "")
    if told.kind is None and number <= len(lines):
        return detail(told.shown, hint_of(cut(section, lines[number - 1])[1]))
    return detail(told.shown)


def hint_of(value: str) -> str:
    """Returns what a value would be that is none."""
    begun = value[:1]
    if re.fullmatch(r"[\w./+-]+", value):
        return f"a text is written between quotes, as '{value}'; a number is an integer, and true and false are truth values"
    if begun == '"':
        return "a text is written between single quotes, as 'text'"
    if begun == "[":
        return "a list has texts between single quotes and nothing else, as ['a', 'b']"
    if begun == "'":
        return "a text ends at the next single quote, and only a comment '#' may follow it"
    return "a value is a text '..', a number, true, false, or a list of texts ['a', 'b']"


def line_before(lines: list[str], number: int, fits: Callable[[str], bool]) -> int:
    """Returns the line above in the same section that fits; 0 if none does."""
    for above in range(number - 1, 0, -1):
        line = lines[above - 1].strip()
        if line.startswith("["):
            break
        if not line.startswith("#") and fits(line):
            return above
    return 0


def of_section(lines: list[str], number: int, told: FaultReport) -> Detail:
    name = told.section or ""
    if told.so == TWICE:
        before = next((above for above, it in enumerate(lines[:number - 1], 1) if it.strip() == f"[{name}]"), 0)
        return detail(told.shown + (f": in line {before} before" if before else ""))
    if name == "dependency":
        return detail(told.shown, "it names a dependency, as '[dependency zlib]'")
    return detail(told.shown + near(name, SECTIONS), f"there are: {listed(SECTIONS)}")
