"""Replaces functions and methods that are left out here, if another call does the same."""
from __future__ import annotations

import os
from collections.abc import Iterator

from tools.porting import tree
from tools.porting.edits import Change, indent_at, without_item
from tools.porting.keywords import without_keywords
from tools.porting.lexer import escaped
from tools.porting.project import Project, Site
from tools.porting.rule import (REAL_ALONE, assigned_name, before_statement, can_hoist, free_name, guarded,
                                is_whole_statement, renamed, replaced, text_of)
from tools.porting.values import ROOT, UNKNOWN, Item, Many, Table, Thing, flat, kind_of, texts_of

OBJECTS_FOUND = ("dependency", "library", "internal", "program")
RENAMED = {"add_global_arguments": "add_project_arguments", "add_global_link_arguments": "add_project_link_arguments",
           "shared_module": "shared_library"}


def overrides(project: Project) -> Iterator[Change]:
    """What a project says to those that have it as a subproject goes into `if meson.is_subproject()`."""
    for site in project.methods("override_dependency", "override_find_program"):
        if is_whole_statement(site):
            yield guarded(site, "if meson.is_subproject()", f"meson.{site.call.name} is put into `if meson.is_subproject()`")


def summary(project: Project) -> Iterator[Change]:
    for site in project.functions("summary", "debug"):
        if not is_whole_statement(site):
            continue
        edits = [] if site.call.name == "debug" else summary_edits(project, site)
        if edits is None:
            yield guarded(site, REAL_ALONE, "summary is left to the real Meson: message can't print its values")
        else:
            yield site.change(f"{site.call.name} becomes message", renamed(site, "message"), *edits)


def summary_edits(project: Project, site: Site) -> list[tuple[int, int, str]] | None:
    """Returns a section before the values, objects by whether they are found, no other keywords, or None if a value can't be printed."""
    arguments = [tree.plain(it) for it in site.call.arguments]
    values = arguments
    if len(arguments) == 1 and isinstance(arguments[0], tree.Dictionary):
        values = [value for _, value in arguments[0].pairs]
    elif len(arguments) == 1:
        pairs = project.known.value(arguments[0])
        if not isinstance(pairs, Table) or not all(is_printed(it) for it in pairs.pairs.values()):
            return None
        values = []
    elif len(arguments) != 2:
        return None
    shown = [shown_value(project, site, it) for it in values]
    if None in shown:
        return None
    edits = [replaced(site, node, str(text)) for node, text in zip(values, shown) if text != site.file.source(node)]
    if site.call.keywords:
        edits.append((site.call.arguments[-1].end, site.call.items[-1].end, ""))
    section = site.call.keywords.get("section")
    if section is not None:
        start = site.call.arguments[0].start
        edits.append((start, start, f"{site.file.source(section.value)} + ':', "))
    return edits


def is_printed(value: object) -> bool:
    return all(kind_of(it.value) in ("text", "integer", "truth", "dictionary") for it in flat(value))


def shown_value(project: Project, site: Site, node: tree.Node) -> str | None:
    value, text = project.known.value(node), site.file.source(node)
    if is_printed(value):
        return text
    is_one = isinstance(tree.plain(node), (tree.Name, tree.Call, tree.Index))
    if is_one and not isinstance(value, Many) and all(kind_of(it.value) in OBJECTS_FOUND for it in flat(value)):
        return f"{text}.found()"
    return f"{text}.enabled()" if is_one and kind_of(value) == "feature" else None


def renamed_functions(project: Project) -> Iterator[Change]:
    for site in project.functions(*RENAMED):
        yield site.change(f"{site.call.name} becomes {RENAMED[site.call.name]}", renamed(site, RENAMED[site.call.name]))


def build_target(project: Project) -> Iterator[Change]:
    for site in project.functions("build_target"):
        word = site.call.keywords.get("target_type")
        kind = text_of(project, word.value) if word else None
        if word is not None and kind in ("executable", "static_library", "shared_library", "library"):
            start, end = without_item(site.file.text, site.call, word)
            yield site.change(f"build_target becomes {kind}", renamed(site, kind), (start, end, ""))


def both_libraries(project: Project) -> Iterator[Change]:
    """Replaces a shared and a static library of one name: the static one is reached by its own variable."""
    for site in project.functions("both_libraries"):
        name = assigned_name(site)
        if not can_hoist(site) or (name is None and not is_whole_statement(site)):
            continue
        edits = [renamed(site, "shared_library")]
        static = free_name(project, f"{name}_static") if name else ""
        lines = without_keywords(site.file.source(site.call), "both_libraries", ("version", "soversion")).split("\n")
        lines[0] = lines[0].replace("both_libraries", "static_library", 1)
        indent = indent_at(site.file.text, site.statement.start)
        first = f"{static} = " if name else ""
        edits.append(before_statement(site, [first + lines[0], *(it.removeprefix(indent) for it in lines[1:])]))
        for other in project.methods("get_static_lib", "get_shared_lib"):
            if other.file is site.file and isinstance(other.call.receiver, tree.Name) and other.call.receiver.text == name:
                edits.append(replaced(other, other.call, static if other.call.name == "get_static_lib" else str(name)))
        project.both |= {it.name for it in project.known.things[site.call] if it.name is not None}
        yield site.change("both_libraries becomes a shared and a static library", *edits)


def both_by_default(project: Project) -> Iterator[Change]:
    """Makes each `library` of a project whose default is both kinds one of both kinds."""
    libraries = list(project.functions("library"))
    if not all(can_hoist(it) and (assigned_name(it) or is_whole_statement(it)) for it in libraries):
        return
    for site in project.functions("project"):
        word = site.call.keywords.get("default_options")
        for node in tree.inside(word.value) if word else []:
            if isinstance(node, tree.Text) and node.value.replace(" ", "") == "default_library=both":
                change = site.change("project: default_library=both: each library becomes both_libraries",
                                     replaced(site, node, "'default_library=shared'"))
                change.edits += [edit for it in libraries for edit in it.change("", renamed(it, "both_libraries")).edits]
                change.notes = ["a library is always made of both kinds: -Ddefault_library chooses none any more"]
                yield change


def run_target(project: Project) -> Iterator[Change]:
    """Replaces a target that makes nothing by a custom target that is built only by name."""
    for site in project.functions("run_target", "alias_target"):
        name = text_of(project, site.call.arguments[0]) if site.call.arguments else None
        if name is None or "/" in name:
            continue
        first = site.call.arguments[0]
        added = f", output: {escaped(name)}, build_by_default: false"
        if site.call.name == "run_target":
            yield site.change("run_target becomes a custom_target that isn't built by default", renamed(site, "custom_target"),
                              (first.end, first.end, added))
        elif len(site.call.arguments) > 1:
            rest = site.file.text[site.call.arguments[1].start:site.call.arguments[-1].end]
            yield site.change("alias_target becomes a custom_target that isn't built by default", renamed(site, "custom_target"),
                              (first.end, site.call.arguments[-1].end, f"{added}, command: ['true'], depends: [{rest}]"))


def lists_in_calls(project: Project) -> Iterator[Change]:
    """A list of texts where a call takes texts one by one."""
    for site in project.functions("join_paths", "dependency", "find_program"):
        nodes = [tree.plain(it) for it in site.call.arguments]
        shown = [one_by_one(project, site, node, number) for number, node in enumerate(nodes)]
        if site.call.name == "join_paths" and len(nodes) == 1 and shown[0] and not isinstance(nodes[0], tree.List):
            yield site.change("join_paths: of a list is its texts with slashes between", replaced(site, site.call, shown[0]))
        elif any(shown):
            edits = [replaced(site, node, text) for node, text in zip(nodes, shown) if text]
            yield site.change(f"{site.call.name}: takes its texts one by one", *edits)


def one_by_one(project: Project, site: Site, node: tree.Node, number: int) -> str | None:
    """Returns a list among the arguments of a call as its texts; none for another argument, or if the list can't be followed."""
    if isinstance(node, tree.List) and node.items:
        return site.file.text[node.items[0].start:node.items[-1].end]
    value, source = project.known.value(node), site.file.source(node)
    if kind_of(value) != "list" or not isinstance(node, (tree.Name, tree.Index)):
        return None
    if site.call.name == "join_paths":
        is_plain = all(is_joined_plainly(it.arguments[number]) for it in project.known.things[site.call])
        return f"'/'.join({source})" if is_plain else None
    texts = texts_of(value) or []
    return ", ".join(f"{source}[{it}]" for it in range(len(texts))) if isinstance(value, Many) and len(value.items) == len(texts) else None


def is_joined_plainly(value: object) -> bool:
    """Returns whether a list is a path's parts, of which none after the first begins at the root of the disk; the first may be any text."""
    first, *rest = flat(value) or [Item(UNKNOWN)]
    texts = [it.value for it in [first, *rest]]
    return (all(it.is_sure for it in [first, *rest]) and kind_of(first.value) == "text"
            and all(isinstance(it, str) and not it.startswith(("/", ROOT)) for it in texts[1:])
            and not any(isinstance(it, str) and it.endswith("/") for it in texts[:-1]))


def files_of_files(project: Project) -> Iterator[Change]:
    """`files` takes texts alone; what is a file is one already."""
    for site in project.functions("files"):
        if len(site.call.arguments) == 1:
            items = flat(project.known.value(site.call.arguments[0]))
            if items and all(isinstance(it.value, Thing) and it.value.kind == "file" for it in items):
                yield site.change("files: of files is dropped", replaced(site, site.call, site.file.source(site.call.arguments[0])))


def methods_of_meson(project: Project) -> Iterator[Change]:
    """Questions to `meson` that have another name or one answer here."""
    for site in project.methods("can_run_host_binaries", "has_exe_wrapper", "global_source_root", "global_build_root"):
        if site.call.receiver and kind_of(project.known.value(site.call.receiver)) == "meson":
            name = site.call.name
            text = f"meson.project_{name.removeprefix('global_')}()" if name.startswith("global") else "(not meson.is_cross_build())"
            yield site.change(f"{name} becomes {text}", replaced(site, site.call, text))


def truth_values(project: Project) -> Iterator[Change]:
    """`set10` takes a truth value; a number is true where it isn't 0."""
    for site in project.methods("set10"):
        node = site.call.arguments[1] if site.call.receiver and len(site.call.arguments) == 2 else None
        kind = kind_of(project.known.value(site.call.receiver)) if site.call.receiver else ""
        value = project.known.value(node) if node else None
        if node is None or kind != "configuration" or kind_of(value) != "integer":
            continue
        source = site.file.source(node)
        text = str(node.value != 0).lower() if isinstance(node, tree.Number) else f"({source}) != 0"
        yield site.change(f"set10: the number {source} becomes {text}", replaced(site, node, text))


def files_in_texts(project: Project) -> Iterator[Change]:
    """A file that `format` puts into a text is its path."""
    for site in project.methods("format"):
        for node in site.call.arguments:
            value = project.known.value(node)
            path = path_of(site, value) if isinstance(value, Thing) and value.kind == "file" else None
            if path is not None:
                yield site.change("format: a file is its path", replaced(site, node, path))


def path_of(site: Site, value: Thing) -> str | None:
    """Returns the path of a file that a call gives, as an expression in the same folder."""
    output = value.keywords.get("output")
    if os.path.dirname(value.path) != site.folder:
        return None
    if value.function == "configure_file":
        return f"(meson.current_build_dir() / {escaped(output)})" if isinstance(output, str) and "@" not in output else None
    name = os.path.basename(value.path)
    return f"(meson.current_source_dir() / {escaped(name)})" if value.function == "files" else None
