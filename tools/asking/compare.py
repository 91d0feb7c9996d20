"""Finds the entries of a machine file that this machine answers otherwise."""
from __future__ import annotations

from tools.asking.text import BLANKS, Sections, spelled
from tools.ending import Stop
from tools.files import read_text

NOT_FOUND = "# not found: "
# What a file says of a key that it doesn't have.
ABSENT = object()


def value_of(text: str) -> object:
    """Returns the value that a line of a machine file gives to its key; its text if it is none."""
    import ast
    plain = {"true": True, "false": False}
    try:
        return plain[text] if text in plain else ast.literal_eval(text)
    except (ValueError, SyntaxError, MemoryError, RecursionError):
        return text


def read_sections(path: str) -> Sections:
    """Returns the sections of a machine file, each with its keys and their values."""
    sections: Sections = {}
    try:
        lines = read_text(path).split("\n")
    except OSError as error:
        raise Stop(f"{path}: {error.strerror}") from error
    title = ""
    for line in (it.strip(BLANKS) for it in lines):
        if line.startswith("[") and line.endswith("]"):
            title = line[1:-1]
            sections.setdefault(title, {})
        elif line and not line.startswith("#"):
            # A check may have a `=` in its name, and has none in its value.
            key, _, value = line.rpartition("=") if title == "checks" else line.partition("=")
            sections.setdefault(title, {})[key.strip(BLANKS)] = value_of(value.strip(BLANKS))
    return sections


def shown(value: object) -> str:
    return "nothing" if value is ABSENT else spelled(value)


def as_list(value: object) -> object:
    """Returns the form in which a text and a list with only this text are equal."""
    return [value] if isinstance(value, str) else value


def differences(path: str, known: Sections) -> list[str]:
    """Returns what would change if the file were written now: a line for each key that this machine answers otherwise."""
    said, found = read_sections(path), []
    for title, answers in known.items():
        of_file = said.get(title, {})
        for key, now in answers.items():
            then = of_file.get(key, ABSENT)
            if as_list(then) != as_list(now):
                found.append(f"[{title}] {key}: {shown(then)}, and this machine answers {shown(now)}")
        if title.startswith("dependency "):
            found += [f"[{title}] {key}: {shown(it)}, and this machine answers nothing" for key, it in of_file.items()
                      if key not in answers]
    return found


def gone(path: str, absent: set[str]) -> list[str]:
    """Returns what the file has and this machine no longer: programs and dependencies, by the names that questions have."""
    said = read_sections(path)
    names = {**{it: f"[{it}]" for it in said}, **{f"program {it}": f"[binaries] {it}" for it in said.get("binaries", {})}}
    return [f"{names[it]}: is in the file, and this machine has none" for it in sorted(absent & set(names))]
