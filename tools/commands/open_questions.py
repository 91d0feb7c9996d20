"""Says what a `setup` that succeeded has left open: `tools/command open-questions PROGRAM [ARGUMENT]..`, in the source directory.

It lists questions to which the machine file has no answer, so that they count as "no"; include folders that don't exist; names in
`default_options` that are no options; and keywords of tests that have no effect. Each has its file and its line.

Exit status: 1 if a question has no answer, else 0.
"""
from __future__ import annotations

import os
import sys

from tools.asking import processes
from tools.ending import CALLED, Stop, as_called, one_line, run_script
from tools.files import read_text
from tools.light_json import loads
from tools.setup_arguments import build_folder_of, machine_path

TYPE_CHECKING = False
if TYPE_CHECKING:
    from typing import Any

SHOWN = 5
NOT_FOUND = "# not found: "
DONE, OPEN = 0, 1


def name_of(told: dict[str, Any]) -> str:
    """Returns the name of a question for users: a check's key, a program's name, a dependency's section."""
    before = {"checks": "", "binaries": "program "}.get(told["section"], told["section"] + " " * (told["key"] is not None))
    return before + (told["key"] or "")


def is_open(told: dict[str, Any], absent: set[str]) -> bool:
    """Returns whether a question counts as "no" because nobody has answered it."""
    section, key = told["section"], told["key"]
    if told["answer"] is not None or section.endswith(" options") or name_of(told) in absent:
        return False
    if section == "binaries":
        return key not in ("c", "ar") and not os.path.isfile(os.path.join(os.path.dirname(told["file"]), key))
    return True


def open_questions(program: str, words: list[str], machine: str) -> dict[str, str]:
    """Returns the questions without an answer, each with its first place."""
    done = processes.run(["meson", "questions", *words], executable=program, variables=dict(os.environ), most=processes.MOST_TOLD)
    asked = [loads(line) for line in done.printed.split("\n") if line]
    absent = {line.removeprefix(NOT_FOUND) for line in machine.splitlines() if line.startswith(NOT_FOUND)}
    found: dict[str, str] = {}
    for told in asked:
        if is_open(told, absent):
            found.setdefault(name_of(told), f"{told['file']}:{told['line']}")
    return found


def misspelt(machine: str, found: dict[str, str]) -> dict[str, str]:
    """Returns for questions that the machine file seems to answer by another name that name and its line."""
    import difflib
    named = {line.rpartition("=")[0].strip(): number for number, line in enumerate(machine.splitlines(), 1) if "=" in line}
    near = {name: difflib.get_close_matches(name.removeprefix("program "), list(named), 1, 0.9) for name in found}
    return {name: f"line {named[it[0]]} of the machine file answers {it[0]!r}" for name, it in near.items() if it and it[0] != name}


def report(text: str) -> None:
    """Prints a line on the standard error."""
    print(as_called(one_line(text)), file=sys.stderr)


def listed(title: str, lines: list[str], rest: str = "") -> None:
    """Prints a title and at most five lines below it, and the number of the others with how to see them."""
    report(f"{CALLED}: {title}")
    for line in lines[:SHOWN]:
        report(f"  {line}")
    if len(lines) > SHOWN:
        report(f"  and {len(lines) - SHOWN} more{rest}")


def report_open(found: dict[str, str], machine: str, path: str | None, folder: str) -> None:
    meant = misspelt(machine, found)
    lines = [f"{place}: {name}" + (f" ({meant[name]})" if name in meant else "") for name, place in found.items()]
    count = f"{len(found)} question{'s have' if len(found) > 1 else ' has'} no answer, and count{'' if len(found) > 1 else 's'} as \"no\":"
    listed(count, lines, f": `{CALLED} questions` lists all")
    if path is None:
        report(f"  to answer: `{CALLED} machine-file > native.ini`, then `{CALLED} setup --native-file native.ini {folder}`")
    else:
        report(f"  to answer: `{CALLED} machine-file --check {path}` says what this machine answers")


def main() -> int:
    program, words = sys.argv[1], sys.argv[2:]
    path, folder = machine_path(words), build_folder_of(words) or ""
    machine = read_text(path) if path is not None else ""
    found = open_questions(program, words, machine)
    if found:
        report_open(found, machine, path, folder)
    try:
        from tools.lint import notes
        from tools.time_limit import within_limit
        remarks = within_limit(lambda: notes(folder), "it takes too long to look for what has no effect")
    except (OSError, Stop):
        remarks = []
    if remarks:
        listed("to look at:", remarks)
    return OPEN if found else DONE


def run() -> None:
    run_script("meson setup", main, failed=DONE)
