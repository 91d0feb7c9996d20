"""Finds parts of a configured folder's definition files that have no effect, or not the one that they seem to have."""
from __future__ import annotations

import os

from tools.document import read_content
from tools.files import DEFINITION, read_text
from tools.porting import tree
from tools.porting.lexer import Lines, SyntaxFault
from tools.porting.parser import parse

TYPE_CHECKING = False
if TYPE_CHECKING:
    from collections.abc import Iterator

SERIAL = "serial"


def notes(folder: str) -> list[str]:
    """Returns what is noted, each with its file and its line."""
    content = read_content(folder)
    known = {it["name"] for it in content["buildoptions"]}
    found: list[str] = []
    for path in content["buildsystem_files"]["present"]:
        if os.path.basename(path) == "meson.build":
            found += of_file(path, folder, known)
    return found


def of_file(path: str, folder: str, known: set[str]) -> Iterator[str]:
    text = read_text(path, DEFINITION)
    try:
        statements = parse(text)
    except SyntaxFault:
        return
    line_of = Lines(text).at
    for statement in tree.statements_in(statements):
        for call in (it for whole in statement.expressions() for it in tree.inside(whole) if isinstance(it, tree.Call)):
            for at, remark in of_call(call, os.path.dirname(path), folder, known):
                yield f"{path}:{line_of(at)}: {remark}"


def of_call(call: tree.Call, here: str, folder: str, known: set[str]) -> Iterator[tuple[int, str]]:
    if call.receiver is not None:
        return
    for it in include_folders(call):
        if not any(os.path.isdir(os.path.join(root, here, it.value)) for root in (".", folder)):
            yield it.start, f"the include folder {it.value!r} is not there"
    if call.name == "test":
        yield from of_test(call)
    elif call.name == "project" and "default_options" in call.keywords:
        for it in tree.inside(call.keywords["default_options"].value):
            name = it.value.partition("=")[0].strip() if isinstance(it, tree.Text) and "=" in it.value else None
            if name and name not in known:
                yield it.start, f"default_options: there is no option {name!r}, so it has no effect"


def include_folders(call: tree.Call) -> list[tree.Text]:
    """Returns the texts of a call that name include folders: its arguments, or the items of its keyword."""
    keyword = call.keywords.get("include_directories")
    value = tree.plain(keyword.value) if keyword is not None else None
    items = call.arguments if call.name == "include_directories" else value.items if isinstance(value, tree.List) else [value]
    return [it for it in items if isinstance(it, tree.Text)]


def of_test(call: tree.Call) -> Iterator[tuple[int, str]]:
    """Yields the keywords of a test that the program takes, and that have no effect on `meson test`."""
    words = call.keywords
    suites = {it.value for it in tree.inside(words["suite"].value) if isinstance(it, tree.Text)} if "suite" in words else set()
    parallel = words.get("is_parallel")
    if parallel is not None and isinstance(parallel.value, tree.Truth) and not parallel.value.value and SERIAL not in suites:
        yield parallel.start, "`is_parallel: false` has no effect; a test of `suite: 'serial'` runs alone"
    if "workdir" in words:
        yield words["workdir"].start, "`workdir:` has no effect: tests run in the build folder; `meson port` writes `env -C`"
    if "depends" in words:
        yield words["depends"].start, "`depends:` has no effect: before tests the default targets are built, and what their commands name"
