"""Rewrites scripts of commands, and files that are copied or made while configuring."""
from __future__ import annotations

import os
import re
from collections.abc import Iterator

from tools.files import DEFINITION, open_file, read_text
from tools.porting import tree
from tools.porting.edits import Change
from tools.porting.lexer import escaped
from tools.porting.project import Project, Site
from tools.porting.rule import TARGETS, add_argument, renamed, replaced, text_of
from tools.porting.values import ROOT, Many, Thing, choices_of, flat, kind_of

INTERPRETERS = {"python": "python3", "python3": "python3", "sh": "sh", "bash": "bash", "perl": "perl", "awk": "awk", "ruby": "ruby"}
LONGEST_LINE = 200  # of which an interpreter is read
PLACEHOLDER = re.compile(r"@[-A-Za-z0-9_]+@|^\s*#mesondefine", re.MULTILINE)


def interpreter_of(path: str) -> str | None:
    """Returns what a script is run by, by its first line."""
    try:
        with open_file(path) as it:
            first = it.readline(LONGEST_LINE).decode("utf-8", "replace")
    except OSError:
        return None
    words = first[2:].split() if first.startswith("#!") else []
    names = [os.path.basename(it) for it in words if os.path.basename(it) != "env" and not it.startswith("-")]
    found = INTERPRETERS.get(names[0]) if names else None
    return found or ("python3" if path.endswith(".py") else "sh" if path.endswith(".sh") else None)


def named_scripts(project: Project) -> Iterator[Change]:
    """A command whose first word is the path of a script of the project, which the real Meson looks for."""
    for site in project.functions("custom_target", "run_target"):
        word = site.call.keywords.get("command")
        command = tree.plain(word.value) if word else None
        first = tree.plain(command.items[0]) if isinstance(command, tree.List) and command.items else command
        name = text_of(project, first)
        if name and first is not None and os.path.isfile(os.path.join(project.root, site.folder, name)):
            yield site.change(f"{site.call.name}: {name} is looked for", replaced(site, first, f"find_program({site.file.source(first)})"))


def unmarked_scripts(project: Project) -> Iterator[Change]:
    """A script without its exec bit in a command is run by its interpreter."""
    for site in project.functions("custom_target", "run_target"):
        word = site.call.keywords.get("command")
        command = tree.plain(word.value) if word else None
        if not isinstance(command, tree.List) or not command.items:
            continue
        first = command.items[0]
        path = script_at(project, site, first)
        program = interpreter_of(path) if path else None
        if path and program and not os.access(path, os.X_OK):
            script = f"files({escaped(os.path.relpath(path, os.path.join(project.root, site.folder)))})"
            yield site.change(f"{site.call.name}: a script without its exec bit is run by {program}",
                              replaced(site, first, f"find_program('{program}'), {script}"))
    for site in project.functions("test"):
        yield from unmarked_test(project, site)


def unmarked_test(project: Project, site: Site) -> Iterator[Change]:
    if len(site.call.arguments) < 2:
        return
    node = site.call.arguments[1]
    path = script_at(project, site, node)
    program = interpreter_of(path) if path else None
    if not path or not program or os.access(path, os.X_OK):
        return
    script = f"files({escaped(os.path.relpath(path, os.path.join(project.root, site.folder)))})"
    word = site.call.keywords.get("args")
    args = f"args: [{script}, {site.file.source(word.value)}]" if word else f"args: {script}"
    edit = (word.start, word.end, args) if word else (node.end, node.end, f", {args}")
    yield site.change(f"test: a script without its exec bit is run by {program}", replaced(site, node, f"find_program('{program}')"), edit)


def script_at(project: Project, site: Site, node: tree.Node) -> str | None:
    """Returns the file of the sources that a program is, where it is one."""
    items = flat(project.known.value(node))
    value = items[0].value if len(items) == 1 and items[0].is_sure else None
    if not isinstance(value, Thing):
        return None
    if value.kind == "file" and value.function == "files":
        path = os.path.join(project.root, value.path)
    elif value.kind == "program" and value.function == "find_program" and value.name:
        path = os.path.join(project.root, os.path.dirname(value.path), value.name)
    else:
        return None
    return os.path.normpath(path) if os.path.isfile(path) else None


def copied_files(project: Project) -> Iterator[Change]:
    """`configure_file(copy: true)`: a template without names, or `cp` for a script and for what a template would change."""
    for site in project.functions("configure_file"):
        word, source = site.call.keywords.get("copy"), site.call.keywords.get("input")
        if word is None or source is None or project.known.value(word.value) is not True:
            continue
        paths = [it for it in source_paths(project, site, source.value)]
        if paths and all(is_plain_text(it) for it in paths):
            yield site.change("configure_file: `copy: true` becomes an empty configuration", (word.start, word.end, "configuration: {}"))
            continue
        change = copied_by_command(project, site, word)
        if change is None:
            project.doubt(site, "configure_file: `copy:`: a custom_target with cp, of a name of its own for each file")
        else:
            yield change
    for site in project.methods("copyfile"):
        module = project.known.value(site.call.receiver) if site.call.receiver else None
        if isinstance(module, Thing) and module.kind == "module" and module.name == "fs" and site.call.arguments:
            yield copied_by_module(project, site)


def absolute_inputs(project: Project) -> Iterator[Change]:
    """Changes nothing: notes where a command is given a path that the real Meson gives from the root of the disk."""
    for site in project.functions("custom_target"):
        word, command = site.call.keywords.get("input"), site.call.keywords.get("command")
        items = flat(project.known.placed(word.value)) if word else []
        if command and any(isinstance(it.value, str) and it.value.startswith(ROOT) for it in items) and (
                "@INPUT" in site.file.source(command.value)):
            project.note(site, "inputs",
                         "custom_target: the path in @INPUT@ is one from the build folder here, and absolute in the real Meson")
    return iter(())


def source_paths(project: Project, site: Site, node: tree.Node) -> list[str]:
    found = []
    for item in flat(project.known.value(node)):
        for value in choices_of(item.value):
            if isinstance(value, str):
                found.append(os.path.join(project.root, site.folder, value))
            elif isinstance(value, Thing) and value.kind == "file" and value.function == "files":
                found.append(os.path.join(project.root, value.path))
            else:
                return []
    return found


def is_plain_text(path: str) -> bool:
    """Returns whether a template comes out of configure_file as it went in, mode and all."""
    try:
        text = read_text(path, DEFINITION)
    except OSError:
        return False
    return not os.access(path, os.X_OK) and not PLACEHOLDER.search(text) and "\\@" not in text and all(
        len(line) < 60000 for line in text.split("\n"))


def name_of_copy(project: Project, site: Site, output: tree.Node, source: tree.Node) -> str | None:
    """Returns the name of a target that makes a copy, which no other copy has, or None if its file isn't named by a text. In a loop an
    output that has parts of the input's name is one for each round."""
    known = text_of(project, output)
    if known is not None and "@" not in known:
        return escaped(f"copy-of-{known}")
    if known is None:
        return f"'copy-of-' + {site.file.source(output)}"
    node = tree.plain(source)
    node = tree.plain(node.items[0]) if isinstance(node, tree.List) and len(node.items) == 1 else node
    if kind_of(project.known.value(node)) != "text":
        return None
    text = site.file.source(node) if isinstance(node, (tree.Name, tree.Text, tree.Index)) else f"({site.file.source(node)})"
    return f"'copy-of-' + {text}.underscorify()"


def copied_by_command(project: Project, site: Site, word: tree.Keyword) -> Change | None:
    words = site.call.keywords
    first = name_of_copy(project, site, words["output"].value, words["input"].value) if "output" in words else None
    if first is None:
        return None
    start = site.call.items[0].start
    edits = [renamed(site, "custom_target"), (start, start, f"{first}, "),
             (word.start, word.end, "command: ['cp', '@INPUT@', '@OUTPUT@'], build_by_default: true")]
    if "install_dir" in site.call.keywords and "install" not in site.call.keywords:
        edits.append((word.end, word.end, ", install: true"))
    return site.change("configure_file: `copy: true` becomes a custom_target with `cp`", *edits)


def copied_by_module(project: Project, site: Site) -> Change:
    arguments = [site.file.source(it) for it in site.call.arguments]
    source = text_of(project, site.call.arguments[0])
    output = arguments[1] if len(arguments) > 1 else escaped(os.path.basename(source)) if source else "'@PLAINNAME@'"
    words = [site.call.keywords[it] for it in ("install", "install_dir") if it in site.call.keywords]
    kept = "".join(f", {site.file.source(it)}" for it in words)
    name = f"'copy-of-' + {output}" if "@" not in output else f"'copy-of-' + {arguments[0]}"
    text = (f"custom_target({name}, input: {arguments[0]}, output: {output}, command: ['cp', '@INPUT@', '@OUTPUT@'], "
            f"build_by_default: true{kept})")
    return site.change("fs.copyfile becomes a custom_target with `cp`", replaced(site, site.call, text))


def commanded_files(project: Project) -> Iterator[Change]:
    """A file that a command makes while configuring is made while building, where it is a source of a target."""
    for site in project.functions("configure_file"):
        output = site.call.keywords.get("output")
        if "command" not in site.call.keywords or output is None or not is_source(project, site.call):
            continue
        known = text_of(project, output.value)
        start = site.call.items[0].start
        name = escaped(known) if known and "@" not in known else site.file.source(output.value)
        edits = [renamed(site, "custom_target"), (start, start, f"{name}, ")]
        if "install_dir" in site.call.keywords and "install" not in site.call.keywords:
            edits.append(add_argument(site, "install: true"))
        change = site.change("configure_file: `command:` becomes a custom_target", *edits)
        change.notes = [f"{name} is made while building: each target that includes it has to name it among its sources"]
        yield change


def is_source(project: Project, call: tree.Call) -> bool:
    """Returns whether what a call gives is a source of a target."""
    for site in project.functions(*TARGETS, "declare_dependency"):
        for thing in project.known.things[site.call]:
            items = [it for value in [*thing.arguments[1:], thing.keywords.get("sources", Many([]))] for it in flat(value)]
            if any(isinstance(it.value, Thing) and it.value.call is call for it in items):
                return True
    return False
