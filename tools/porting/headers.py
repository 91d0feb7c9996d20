"""Adds the folders of headers that custom targets make to the targets that name these headers."""
from __future__ import annotations

import os
from collections.abc import Iterator

from tools.porting.edits import Change
from tools.porting.lexer import escaped
from tools.porting.project import Project, Site
from tools.porting.rule import TARGETS, added_behind
from tools.porting.values import Item, Many, Thing, flat


def made_headers(project: Project) -> Iterator[Change]:
    """A custom target among the sources makes a header in another folder: the real Meson looks for headers there too."""
    for site in project.functions(*TARGETS, "declare_dependency"):
        is_target = site.call.name != "declare_dependency"
        wanted, known = folders_of(project, site, is_target)
        missing = [it for it in wanted if it not in known and not (is_target and it == site.folder)]
        if missing:
            shown = (f"include_directories({escaped(os.path.relpath(it or '.', site.folder or '.'))})" for it in missing)
            yield site.change(f"{site.call.name}: headers that it makes are looked for where they are made",
                              added_behind(site, "include_directories", ", ".join(shown)))


def folders_of(project: Project, site: Site, is_target: bool) -> tuple[list[str], set[str]]:
    """Returns the folders in which headers among the sources of a call are made, and those that it looks through."""
    wanted: dict[str, None] = {}
    known = set()
    for thing in project.known.things[site.call]:
        for item in source_items(thing, is_target):
            if isinstance(item.value, Thing) and item.value.kind == "custom" and makes_header(item.value):
                wanted[os.path.dirname(item.value.path)] = None
        known |= {it for item in flat(thing.keywords.get("include_directories", Many([]))) for it in included(item.value, site.folder)}
    return list(wanted), {"" if it == "." else it for it in known}


def included(value: object, folder: str) -> set[str]:
    """Returns the folders that an item of `include_directories:` names, of a call in a folder."""
    if isinstance(value, str):
        return {os.path.normpath(os.path.join(folder, value))}
    if not isinstance(value, Thing) or value.kind != "include":
        return set()
    texts = (it.value for argument in value.arguments for it in flat(argument))
    return {os.path.normpath(os.path.join(os.path.dirname(value.path), it)) for it in texts if isinstance(it, str)}


def source_items(thing: Thing, is_target: bool) -> list[Item]:
    """Returns the sources of a target, whose first argument is its name, or of a dependency."""
    values = [*thing.arguments[is_target:], thing.keywords.get("sources", Many([]))]
    return [item for it in values for item in flat(it)]


def makes_header(target: Thing) -> bool:
    outputs = (it.value for it in flat(target.keywords.get("output", Many([]))))
    return any(isinstance(it, str) and it.endswith(".h") for it in outputs)
