"""Replaces libraries that are linked whole by their sources, in each target that has all of them."""
from __future__ import annotations

import os
from collections.abc import Iterator

from tools.porting import tree
from tools.porting.edits import Change, without_item
from tools.porting.headers import source_items
from tools.porting.lexer import escaped
from tools.porting.project import Project, Site
from tools.porting.rule import TARGETS, add_argument, added_behind
from tools.porting.values import Thing, flat

# Keywords of a library that say nothing of how its sources are compiled, and those that the target takes over.
OF_LIBRARY = {"sources", "install", "install_dir", "build_by_default", "pic", "native", "install_tag"}
TAKEN = ("include_directories", "dependencies", "link_with")


class NotFollowed(Exception):
    """Says why the library can't be written as its sources."""


def whole_libraries(project: Project) -> Iterator[Change]:
    """`link_whole:` of static libraries whose sources are compiled as those of the target: these sources."""
    for site in project.functions(*TARGETS, "declare_dependency"):
        word = site.call.keywords.get("link_whole")
        if word is None:
            continue
        try:
            yield with_sources(project, site, word)
        except NotFollowed as why:
            project.doubt(site, f"{site.call.name}: `link_whole:`: {why}: the sources of that library, in each target that has it")


def with_sources(project: Project, site: Site, word: tree.Keyword) -> Change:
    items = flat(project.known.value(word.value))
    if not items or not all(it.is_sure and isinstance(it.value, Thing) for it in items):
        raise NotFollowed("it is not known here")
    sources: list[str] = []
    taken: dict[str, list[str]] = {it: [] for it in TAKEN}
    names = project.known.things[site.call][-1].names
    for library in (it.value for it in items):
        owner = next((it for it in project.functions("static_library") if it.call is library.call), None)
        if owner is None:
            raise NotFollowed("it names what is no static library of the project")
        if owner.call in tree.inside(word.value) and "install" in owner.call.keywords:
            raise NotFollowed("that library is installed, and has no name")
        strange = sorted(set(owner.call.keywords) - OF_LIBRARY - set(TAKEN))
        if strange:
            raise NotFollowed(f"that library has `{strange[0]}:`")
        sources += sources_of(library, site, names)
        for it in TAKEN:
            taken[it] += [taken_over(owner, site, library, names, it)] if it in owner.call.keywords else []
        if owner.folder != site.folder:
            path = os.path.relpath(owner.folder or ".", site.folder or ".")
            taken["include_directories"].append(f"include_directories({escaped(path)})")
    shown = ", ".join(dict.fromkeys(sources))
    edits = added_keywords(site, {it: ", ".join(dict.fromkeys(parts)) for it, parts in taken.items() if parts})
    if "sources" in site.call.keywords:
        edits += [(*without_item(site.file.text, site.call, word), ""), added_behind(site, "sources", shown)]
    else:
        edits.append((word.start, word.end, f"sources: [{shown}]"))
    return site.change(f"{site.call.name}: `link_whole:` becomes the sources of these libraries", *edits)


def added_keywords(site: Site, items: dict[str, str]) -> list[tuple[int, int, str]]:
    """Returns the edits that add items to the lists of keywords, of which some may be missing."""
    missing = [f"{it}: [{text}]" for it, text in items.items() if it not in site.call.keywords]
    edits = [added_behind(site, it, text) for it, text in items.items() if it in site.call.keywords]
    return edits + ([add_argument(site, ", ".join(missing))] if missing else [])


def sources_of(library: Thing, site: Site, names: dict[str, object]) -> list[str]:
    """Returns the sources of a library, as they are named at another call."""
    folder, found = os.path.dirname(library.path), []
    for item in source_items(library, True):
        value = item.value
        if isinstance(value, str):
            value = Thing("file", None, os.path.join(folder, value))
        is_path = isinstance(value, Thing) and value.kind == "file" and value.function in ("", "files")
        name = next((name for name, held in names.items() if held is value), None)
        if not item.is_sure or (not is_path and name is None):
            raise NotFollowed("a source of that library is not known here")
        found.append(escaped(os.path.relpath(value.path, site.folder or ".")) if is_path else str(name))
    if not found:
        raise NotFollowed("that library has no sources")
    return found


def taken_over(owner: Site, site: Site, library: Thing, names: dict[str, object], keyword: str) -> str:
    """Returns what a library is made with, as it is named at another call."""
    shown = named_alike(owner, site, library, names, owner.call.keywords[keyword].value)
    if shown is None:
        raise NotFollowed(f"`{keyword}:` of that library can't be named here")
    return shown


def named_alike(owner: Site, site: Site, library: Thing, names: dict[str, object], node: tree.Node) -> str | None:
    """Returns the text of an expression of a library's call, if it means the same at another call."""
    is_same = all(it in names and names[it] is library.names.get(it) for it in tree.names_in(node))
    has_paths = any(isinstance(it, tree.Text) for it in tree.inside(node))
    return owner.file.source(node) if is_same and not (has_paths and owner.folder != site.folder) else None
