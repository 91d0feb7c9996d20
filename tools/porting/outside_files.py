"""Has commands name files outside of the project by their paths."""
from __future__ import annotations

import os
import re
from collections.abc import Iterator

from tools.porting import tree
from tools.porting.edits import Change, without_item
from tools.porting.lexer import escaped
from tools.porting.options import declared
from tools.porting.project import File, Project, Site
from tools.porting.rule import add_argument, assigned_name, replaced, uses_of
from tools.porting.values import Thing, flat, kind_of

# What means an input in the texts of a custom target.
OF_INPUT = re.compile("(@INPUT@|@INPUT0@|@BASENAME@|@PLAINNAME@)")
NOT_MADE_AGAIN = "a file outside of the project is only an argument of a command: if it changes, nothing is made again"


def files_outside(project: Project) -> Iterator[Change]:
    """`files` of a path outside of the project is that path, where commands alone name it."""
    for site in project.functions("files"):
        name, arguments = assigned_name(site), site.call.arguments
        if name is None or len(arguments) != 1 or not is_outside(project, arguments[0]):
            continue
        uses = [is_of_commands(statement, name) for _, statement in uses_of(project, name)]
        if not uses or not all(uses):
            continue
        change = site.change("files: a path outside of the project is a text", replaced(site, site.call, site.file.source(arguments[0])))
        change.notes = [NOT_MADE_AGAIN]
        yield change


def is_outside(project: Project, node: tree.Node, depth: int = 8) -> bool:
    """Returns whether a path surely begins at the root of the disk: as a text, or by the option that it begins with."""
    node, value = tree.plain(node), project.known.value(node)
    if isinstance(value, str) or depth == 0:
        return isinstance(value, str) and value.startswith("/")
    if isinstance(node, tree.Binary) and node.operator in ("/", "+"):
        return is_outside(project, node.left, depth - 1)
    if isinstance(node, tree.Call) and node.name == "join_paths" and node.arguments:
        return is_outside(project, node.arguments[0], depth - 1)
    if isinstance(node, tree.Call) and node.name == "get_option" and node.receiver is None:
        return is_option_outside(project, node)
    if isinstance(node, tree.Name):
        given = [it.value for _, it in assignments(project, node.text)]
        return bool(given) and all(is_outside(project, it, depth - 1) for it in given)
    return False


def is_option_outside(project: Project, call: tree.Call) -> bool:
    first = call.arguments[0] if call.arguments else None
    option = declared(project, first.value) if isinstance(first, tree.Text) else None
    word = option.keywords.get("value") if option else None
    return word is not None and isinstance(word.value, tree.Text) and word.value.value.startswith("/")


def assignments(project: Project, name: str) -> Iterator[tuple[File, tree.Assignment]]:
    """Yields the statements by which a variable gets a value."""
    for file, statement in project.statements():
        if isinstance(statement, tree.Assignment) and statement.name == name:
            yield file, statement


def is_of_commands(statement: tree.Statement, name: str) -> bool:
    """Returns whether a statement names a variable in commands of custom targets alone."""
    for expression in statement.expressions():
        in_commands = {part for node in tree.inside(expression) if isinstance(node, tree.Call) and node.name == "custom_target"
                       and "command" in node.keywords for part in tree.inside(node.keywords["command"].value)}
        if any(isinstance(it, tree.Name) and it.text == name and it not in in_commands for it in tree.inside(expression)):
            return False
    return True


def inputs_outside(project: Project) -> Iterator[Change]:
    """An `input:` that is outside of the project where each option has its default is a word of the command alone."""
    sites = [it for it in project.functions("custom_target") if "input" in it.call.keywords and may_be_outside(project, it)]
    usual = project.usual() if sites else None
    for site in sites:
        paths = [input_of(it) for it in usual.things.get(site.call, [])] if usual else []
        known = [it for it in paths if it is not None]
        if any(it.startswith("/") for it in known):
            change = without_input(project, site, known) if len(known) == len(paths) else None
            if change is not None:
                yield change
            else:
                project.doubt(site, "custom_target: an input outside of the project: its path in the command, and no `input:`")


def may_be_outside(project: Project, site: Site) -> bool:
    items = flat(project.known.placed(site.call.keywords["input"].value))
    return any(kind_of(it.value) == "text" and (not isinstance(it.value, str) or it.value.startswith("/")) for it in items)


def input_of(thing: Thing) -> str | None:
    """Returns the one path that a target is made of in a round, or None if it isn't one text."""
    items = flat(thing.keywords["input"])
    value = items[0].value if len(items) == 1 and items[0].is_sure else None
    return value if isinstance(value, str) and "\0" not in value else None


def without_input(project: Project, site: Site, paths: list[str]) -> Change | None:
    """Returns the target whose command names the path that was its input, or None if that is named in a way that can't be followed."""
    words = site.call.keywords
    node, command = tree.plain(words["input"].value), tree.plain(words["command"].value) if "command" in words else None
    node = tree.plain(node.items[0]) if isinstance(node, tree.List) and len(node.items) == 1 else node
    shown = site.file.source(node) if isinstance(node, (tree.Name, tree.Call, tree.Index, tree.Text)) else f"({site.file.source(node)})"
    stems = stem_of(shown, paths)
    is_inside = not all(it.startswith("/") for it in paths)
    if not isinstance(command, tree.List) or stems is None or (is_inside and "depend_files" in words):
        return None
    meant = {"@INPUT@": f"meson.current_source_dir() / {shown}" if is_inside else shown, "@BASENAME@": stems,
             "@PLAINNAME@": f"{shown}.split('/')[-1]"}
    edits = []
    for it in [*command.items, *([words["output"].value] if "output" in words else [])]:
        texts = [item.value for item in flat(project.known.value(it))]
        if any(isinstance(text, str) and OF_INPUT.search(text) for text in texts):
            if not isinstance(tree.plain(it), tree.Text):
                return None
            edits.append(replaced(site, it, with_paths(str(texts[0]), meant)))
    start, end = without_item(site.file.text, site.call, words["input"])
    if is_inside:
        edits.append(add_argument(site, f"depend_files: {shown}.startswith('/') ? [] : {shown}"))
    change = site.change("custom_target: an input outside of the project is an argument of its command", (start, end, ""), *edits)
    change.notes = [NOT_MADE_AGAIN]
    return change


def stem_of(shown: str, paths: list[str]) -> str | None:
    """Returns the expression of a path's last part without its ending, or None if not all these paths end alike."""
    names = [os.path.basename(it) for it in paths]
    if all(it.count(".") <= 1 for it in names):
        return f"{shown}.split('/')[-1].split('.')[0]"
    ending = os.path.splitext(names[0])[1]
    if all(it.endswith(ending) and it.count(ending) == 1 for it in names):
        return f"{shown}.split('/')[-1].replace({escaped(ending)}, '')"
    return None


def with_paths(text: str, meant: dict[str, str]) -> str:
    """Returns a text in which each placeholder of an input is the expression that is meant."""
    parts = [it for it in OF_INPUT.split(text) if it]
    shown = [meant[it.replace("0", "")] if OF_INPUT.fullmatch(it) else escaped(it) for it in parts]
    return shown[0] if len(shown) == 1 else " + ".join(f"({it})" if " / " in it and not it.startswith("(") else it for it in shown)
