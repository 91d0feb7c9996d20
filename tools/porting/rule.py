"""Defines a rule, and the means to write one."""
from __future__ import annotations

import importlib
import os
from collections.abc import Iterable, Iterator

from tools import records as dataclasses
from tools.porting import tree
from tools.porting.edits import Change, indent_at, indented, line_start, whole_lines, with_item, without_item
from tools.porting.project import File, Project, Site
from tools.porting.values import kind_of, texts_of

TARGETS = ("executable", "static_library", "shared_library", "library", "both_libraries", "shared_module", "build_target")
# What only the real Meson does. `meson` is a variable of this program and none of the real one.
REAL = "not is_variable('meson')"
REAL_ALONE = f"if {REAL}"
LIBRARIES = ("static_library", "shared_library", "library", "both_libraries")


@dataclasses.dataclass(frozen=True)
class Rule:
    """Holds a rule. The rule `is_sure` if what is built and installed stays as it was, and so do the tests. Other rules need an option:
    their name or, if they keep what is built and installed, `--all`.

    `place` names the module and the function that find its changes. They find none unless calls or keywords have one of the names in
    `words`; `a+b` needs both names. Without words the rule is always tried."""
    name: str
    does: str
    place: str
    words: str = ""
    is_sure: bool = True
    keeps: bool = True

    def may_change(self, project: Project) -> bool:
        """Returns whether the project has the names that the rule is about."""
        return not self.words or any(project.names.issuperset(it.split("+")) for it in self.words.split())

    def change(self, project: Project) -> Iterable[Change]:
        """Returns the changes of the rule. Its module is loaded now, since most projects need few of them."""
        module, _, function = self.place.partition(".")
        return getattr(importlib.import_module(f"tools.porting.{module}"), function)(project)


def drop_keyword(site: Site, name: str, what: str = "") -> Change:
    """Returns the call without a keyword."""
    start, end = without_item(site.file.text, site.call, site.call.keywords[name])
    return site.change(what or f"{site.call.name}: `{name}:` is dropped", (start, end, ""))


def add_argument(site: Site, text: str) -> tuple[int, int, str]:
    edit = with_item(site.file.text, site.call, text)
    return edit.start, edit.end, edit.text


def replaced(site: Site, node: tree.Node, text: str) -> tuple[int, int, str]:
    return node.start, node.end, text


def renamed(site: Site, name: str) -> tuple[int, int, str]:
    """Returns the edit that gives a call another name."""
    start = site.call.name_start
    return start, start + len(site.call.name), name


def added_to_list(site: Site, keyword: str, item: str) -> tuple[int, int, str]:
    """Returns the edit that adds an item at the beginning of a keyword's list, which may be missing."""
    found = site.call.keywords.get(keyword)
    if found is None:
        return add_argument(site, f"{keyword}: {item}")
    value = found.value
    if isinstance(value, tree.List) and value.items:
        return value.items[0].start, value.items[0].start, f"{item}, "
    if isinstance(value, tree.List):
        return value.start, value.end, f"[{item}]"
    return value.start, value.end, f"[{item}, {site.file.source(value)}]"


def added_behind(site: Site, keyword: str, items: str) -> tuple[int, int, str]:
    """Returns the edit that adds items at the end of a keyword's list, which may be missing."""
    found = site.call.keywords.get(keyword)
    if found is None:
        return add_argument(site, f"{keyword}: [{items}]")
    return found.value.start, found.value.end, f"[{site.file.source(found.value)}, {items}]"


def can_hoist(site: Site) -> bool:
    """Returns whether statements may be put before that of a call, whose condition may be that of an `elif`."""
    statement = site.statement
    if isinstance(statement, tree.If):
        first = statement.branches[0].condition
        if first is None or site.call not in set(tree.inside(first)):
            return False
    return site.file.text[line_start(site.file.text, statement.start):statement.start].strip() == ""


def before_statement(site: Site, lines: list[str]) -> tuple[int, int, str]:
    """Returns the edit that puts lines before the statement of a call."""
    text, statement = site.file.text, site.statement
    start = line_start(text, statement.start)
    return start, start, indented(lines, indent_at(text, statement.start))


def in_place_of_statement(file: File, statement: tree.Statement, lines: list[str]) -> tuple[int, int, str]:
    indent = indent_at(file.text, statement.start)
    whole = whole_lines(file.text, statement)
    if whole is None:
        return statement.start, statement.end, ("\n" + indent).join(lines)
    text = indented(lines, indent)
    return *whole, text if file.text[:whole[1]].endswith("\n") else text[:-1]


def is_whole_statement(site: Site) -> bool:
    """Returns whether a call is all of its statement."""
    return isinstance(site.statement, tree.Expression) and tree.plain(site.statement.value) is site.call


def assigned_name(site: Site) -> str | None:
    """Returns the variable that a call is assigned to by `=`, where it is all of the right side."""
    statement = site.statement
    if isinstance(statement, tree.Assignment) and statement.operator == "=" and tree.plain(statement.value) is site.call:
        return statement.name
    return None


def text_of(project: Project, node: tree.Node | None) -> str | None:
    """Returns the text that a node surely is."""
    value = project.known.value(node) if node else None
    return value if isinstance(value, str) else None


def texts_at(project: Project, node: tree.Node | None) -> list[str] | None:
    return texts_of(project.known.value(node)) if node else None


def uses_of(project: Project, name: str) -> Iterator[tuple[File, tree.Statement]]:
    """Yields the statements that use a variable's value, reached or not."""
    for file in project.entered:
        for statement in file.statements if name in file.variables else ():
            if any(name in tree.names_in(it) for it in statement.expressions()):
                yield file, statement


def free_name(project: Project, wanted: str) -> str:
    """Returns a variable's name that no file has."""
    number, name = 1, wanted
    while any(name in it.variables for it in project.entered):
        number += 1
        name = f"{wanted}_{number}"
    return name


def identifier(text: str) -> str:
    """Returns a text as a name of the language and of C."""
    name = "".join(it if it.isascii() and it.isalnum() else "_" for it in text.strip().lower())
    while "__" in name:
        name = name.replace("__", "_")
    name = name.strip("_") or "check"
    return name if not name[0].isdigit() else "is_" + name


def path_from(folder: str, path: str) -> str:
    """Returns how a file of the project is named in a definition file of a folder."""
    return os.path.relpath(path, folder or ".")


def compiler_text(project: Project, site: Site) -> str:
    """Returns how the C compiler is named at a call: by a variable that surely has it, else by the call that gives it."""
    for thing in project.known.things.get(site.call, []):
        for name, value in thing.names.items():
            if getattr(value, "kind", "") == "compiler" and getattr(value, "name", "") == "c":
                return name
    return "meson.get_compiler('c')"


def of_compiler(project: Project, *names: str) -> Iterator[Site]:
    for site in project.methods(*names):
        if site.call.receiver and kind_of(project.known.value(site.call.receiver)) == "compiler":
            yield site


def languages_of_real(project: Project) -> set[str]:
    """Returns the languages that the real Meson alone adds to the project."""
    calls = [it for file in project.entered for statement in file.statements
             for expression in statement.expressions() for it in tree.inside(expression)
             if isinstance(it, tree.Call) and it.name == "add_languages" and it not in project.known.reached]
    return {it.value for call in calls for it in call.arguments if isinstance(it, tree.Text)}


def comparison_of(site: Site) -> tree.Binary | None:
    """Returns the comparison whose left side is a call."""
    for expression in site.statement.expressions():
        for node in tree.inside(expression):
            if isinstance(node, tree.Binary) and node.left is site.call:
                return node
    return None


def guarded(site: Site, condition: str, what: str, notes: list[str] | None = None) -> Change:
    """Puts a statement into an `if`; brackets over several lines are moved with it."""
    text, statement = site.file.text, site.statement
    lines = text[statement.start:statement.end].split("\n")
    body = ["  " + lines[0], *("  " + line.removeprefix(indent_at(text, statement.start)) if line.strip() else "" for line in lines[1:])]
    change = site.change(what, in_place_of_statement(site.file, statement, [condition, *body, "endif"]))
    change.notes = notes or []
    return change
