"""Collects what an answer of the machine depends on: files that were read, and paths at which nothing was found.

While a thread answers a question, `gathered` collects for it each file that the compiler, the linker and pkg-config have read, and each
path that would have been read in its place. An answer is good as long as all of these are as they were.
"""
from __future__ import annotations

import os
import re
from _thread import get_ident

from tools.asking.stamps import Evidence
from tools.files import read_bytes

TYPE_CHECKING = False
if TYPE_CHECKING:
    from types import TracebackType

MOST_BYTES = 1 << 24  # of a header or a package
INCLUDE = r"#\s*include\s*[<\"]([^>\"\n]+)[>\"]|__has_include(?:_next)?\s*\(\s*[<\"]([^>\"\n]+)[>\"]"
MISSING = r"fatal error: '?([^:'\n]+)'?(?:: No such file or directory| file not found)"
OPENED = r"(?m)^attempt to open (/.*) (succeeded|failed)$"
LINKER_RAN = r"ld returned \d+ exit status|linker command failed"
BAD_OPTION = r"\bld(?:\.\w+)?: unrecognized option "  # with which it opens no file
# What GCC adds to the headers: paths, after which the linker may say something.
UNGUARDED = r"(?m)^Multiple include guards may be useful for:\n(?:[^:\n]*\n)*"
GATHERS: dict[int, Evidence] = {}  # by thread: the evidence of the question that it answers


class gathered:
    """Collects the evidence of what this thread does in a block."""

    def __enter__(self) -> Evidence:
        self.before, evidence = at_work(), Evidence()
        GATHERS[get_ident()] = evidence
        return evidence

    def __exit__(self, kind: type[BaseException] | None, fault: BaseException | None, trace: TracebackType | None) -> None:
        if self.before is None:
            del GATHERS[get_ident()]
        else:
            GATHERS[get_ident()] = self.before


def at_work() -> Evidence | None:
    """Returns what this thread gathers, or None if its answers aren't kept."""
    return GATHERS.get(get_ident())


def add_evidence(other: Evidence) -> None:
    """Adds what was gathered elsewhere to what this thread gathers."""
    evidence = at_work()
    if evidence is not None:
        evidence.paths |= other.paths
        evidence.is_whole = evidence.is_whole and other.is_whole


def cut_headers(said: str) -> tuple[str, list[tuple[int, str]]]:
    """Returns what the compiler prints apart from the headers that it reads, and these headers with their depths."""
    said = re.sub(UNGUARDED, "", said)
    headers = [(len(dots), path) for dots, path in re.findall(r"^(\.+) (.*)$", said, re.M) if path != os.devnull]
    return re.sub(r"^\.+ .*\n?", "", said, flags=re.M), headers


def folders_in(said: str) -> list[str] | None:
    """Returns the folders that `cc -v` searches for headers, those that aren't there among them, or None if it doesn't say so."""
    match = re.search(r"search starts here:\n(.*?)End of search list\.", said, re.S)
    if not match:
        return None
    missing = re.findall(r"^ignoring nonexistent directory \"(.*)\"$", said, re.M)
    return [it.strip() for it in match[1].split("\n") if it.startswith(" ")] + missing


def add_headers(evidence: Evidence, source: str, said: str, headers: list[tuple[int, str]], folders: list[str] | None) -> None:
    """Adds the headers that a source has read, and where each of them, or one that is missing, would be found before."""
    if folders is None:
        evidence.is_whole = False
        return
    names = {name for pair in re.findall(INCLUDE, source) for name in pair if name} | set(re.findall(MISSING, said))
    above: list[str] = []
    for depth, path in headers:
        del above[depth - 1:]
        folder = max((it for it in folders if path.startswith(it + "/")), key=len, default="")
        name = path[len(folder) + 1:] if folder else path
        names |= {name, *of_conditions(path)}
        evidence.paths |= {path, *(os.path.join(os.path.dirname(above[-1]), it) for it in (name, os.path.basename(name)) if above)}
        above.append(path)
    evidence.paths |= {os.path.join(folder, it) for folder in folders for it in names}


CONDITIONS: dict[str, set[str]] = {}  # by header


def of_conditions(path: str) -> set[str]:
    """Returns the headers of which a header asks whether they are there."""
    if path not in CONDITIONS:
        text = text_of(path)
        CONDITIONS[path] = {name for _, name in re.findall(INCLUDE, text) if name} if "__has_include" in text else set()
    return CONDITIONS[path]


def text_of(path: str) -> str:
    """Returns the text of a file that a compiler or pkg-config has read; none of what is no file, as a device, or too great to be one of
    these."""
    try:
        return read_bytes(path, MOST_BYTES).decode(errors="replace")
    except OSError:
        return ""


def add_linked(evidence: Evidence, is_good: bool, printed: str, said: str) -> None:
    """Adds what the linker has opened or not found. A linker that doesn't say so leaves a gap in the evidence."""
    opened = re.findall(OPENED, printed)
    if not opened and (is_good or re.search(LINKER_RAN, said)) and not re.search(BAD_OPTION, said):
        evidence.is_whole = False
    # What was opened and is gone was made for this link.
    evidence.paths |= {path for path, how in opened if how == "failed" or os.path.exists(path)}


def add_packages(name: str, folders: list[str]) -> None:
    """Adds the files of pkg-config that make up a package, and where they would be found before."""
    evidence = at_work()
    names, known = [name], set()
    while evidence and names:
        one = names.pop()
        if one in known:
            continue
        known.add(one)
        places = [os.path.join(folder, one + ending) for folder in folders for ending in ("-uninstalled.pc", ".pc")]
        evidence.paths |= set(places)
        for line in re.findall(r"^Requires(?:\.private)?:(.*)$", "\n".join(map(text_of, places)), re.M):
            names += re.findall(r"[A-Za-z][\w.+-]*", line)
