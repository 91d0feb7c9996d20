"""Defines what an explanation says of a fault, and shows it."""
from __future__ import annotations

import difflib
from collections.abc import Iterable

from tools import records as dataclasses
from tools.porting.lexer import line_at

# How much of a text is shown, and of a line.
LONGEST, WIDEST = 40, 400


@dataclasses.dataclass(frozen=True)
class Detail:
    """Holds lines of words, and the place in the file that they are about, if it is known."""
    lines: tuple[str, ...]
    at: int | None = None


def detail(*lines: str, at: int | None = None) -> Detail:
    return Detail(tuple(it for it in lines if it), at)


def quoted(text: str) -> str:
    """Returns a text between quotes, cut to what is read at a glance, without what would break the line."""
    cut = text if len(text) <= LONGEST else text[:LONGEST - 2] + ".."
    return "'" + "".join(it if it.isprintable() else it.encode("unicode_escape").decode() for it in cut) + "'"


def named(text: str) -> str:
    """Returns a token as it is written; between quotes, if it has none of its own."""
    return quoted(text) if not text.lstrip("f").startswith("'") else quoted(text)[1:-1]


def listed(words: Iterable[str]) -> str:
    return ", ".join(words)


def near(word: str, known: Iterable[str]) -> str:
    """Returns the known name that is nearest, as the end of a sentence; empty if none is near."""
    found = difflib.get_close_matches(word, sorted(set(known) - {word}), 1, 0.6)
    return f"; near: {quoted(found[0])}" if found else ""


def shown(text: str, line: int, at: int | None) -> list[str]:
    """Returns the line of the fault, and the one with the place, with a mark below it."""
    lines = text.split("\n")
    numbers = [line] if at is None else sorted({line, line_at(text, at)})
    width = len(str(numbers[-1]))
    start = text.rfind("\n", 0, at) + 1 if at is not None else 0
    # Of a long line the part round the place.
    begin = max(0, at - start - WIDEST // 2) if at is not None and len(lines[line_at(text, at) - 1]) > WIDEST else 0
    found = [f"  {number:{width}} | {printable(lines[number - 1][begin:begin + WIDEST])}" for number in numbers if number <= len(lines)]
    if at is not None and found:
        before = "".join("\t" if it == "\t" else " " for it in printable(text[start + begin:at]))
        mark = f"  {'':{width}} | {before}^"
        found.insert(len(found) if line_at(text, at) == numbers[-1] else 1, mark)
    return found


def printable(text: str) -> str:
    return "".join(it if it.isprintable() or it == "\t" else it.encode("unicode_escape").decode() for it in text.rstrip("\r"))
