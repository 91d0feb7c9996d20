"""Replaces the objects of another target by a new static library of the same sources, which is linked in their place.

A target that has no other sources gets these sources."""
from __future__ import annotations

from collections.abc import Iterator

from tools.porting import tree
from tools.porting.edits import Change, indent_at, without_item
from tools.porting.link_whole import NotFollowed, added_keywords, named_alike, sources_of, taken_over
from tools.porting.project import Project, Site
from tools.porting.rule import TARGETS, added_to_list, assigned_name, can_hoist, free_name
from tools.porting.values import Item, Thing, flat

# What a library of the same objects keeps of a target.
KEPT = ("sources", "include_directories", "c_args", "dependencies", "link_with")


def extracted(project: Project) -> Iterator[Change]:
    """`objects:` of whole targets: these sources are compiled once more, into a library that is linked."""
    for site in project.functions(*TARGETS):
        word = site.call.keywords.get("objects")
        value = tree.plain(word.value) if word else None
        if isinstance(value, tree.List) and len(value.items) == 1:
            value = tree.plain(value.items[0])
        if word is None or not isinstance(value, tree.Call) or value.name != "extract_all_objects":
            continue
        owner = owner_of(project, value)
        is_empty = len(site.call.arguments) == 1 and "sources" not in site.call.keywords
        change = (with_sources if is_empty else with_library)(project, site, word, owner) if owner else None
        if change is not None:
            yield change


def owner_of(project: Project, call: tree.Call) -> Site | None:
    """Returns the call of the one target whose objects are taken."""
    things = [it.value for it in flat(project.known.value(call.receiver))] if call.receiver else []
    made = next((it.call for it in things if isinstance(it, Thing) and it.kind == "target"), None)
    if made is None or len(things) != 1:
        return None
    return next((it for it in project.functions(*TARGETS) if it.call is made), None)


def with_sources(project: Project, site: Site, word: tree.Keyword, owner: Site) -> Change | None:
    """Returns a target that has no sources of its own, with those whose objects it took."""
    names, target = project.known.things[site.call][-1].names, project.known.things[owner.call][-1]
    try:
        sources = own_sources(owner, site, target, names) or sources_of(target, site, names)
        kept = {it: taken_over(owner, site, target, names, it) for it in KEPT if it != "sources" and it in owner.call.keywords}
    except NotFollowed as why:
        project.doubt(site, f"{site.call.name}: `objects:`: {why}: a static library that both targets link")
        return None
    return site.change(f"{site.call.name}: `objects:` becomes the sources of that target",
                       (word.start, word.end, f"sources: [{', '.join(sources)}]"), *added_keywords(site, kept))


def own_sources(owner: Site, site: Site, target: Thing, names: dict[str, object]) -> list[str]:
    """Returns the sources of a target as its call names them, or none if these names mean something else at the other call."""
    words = owner.call.keywords
    nodes = owner.call.arguments[1:] + ([words["sources"].value] if "sources" in words else [])
    shown = [named_alike(owner, site, target, names, it) for it in nodes]
    return [it for it in shown if it is not None] if None not in shown else []


def library_of(project: Project, owner: Site) -> Site | None:
    """Returns the library of a target's objects, if there is one already."""
    libraries = (it for it in project.functions("static_library") if it.file is owner.file and it.call is not owner.call)
    return next((it for it in libraries if assigned_name(it) == library_name(owner)), None)


def library_name(owner: Site) -> str:
    return f"{assigned_name(owner)}_objects"


def with_library(project: Project, site: Site, word: tree.Keyword, owner: Site) -> Change | None:
    if assigned_name(owner) is None or not can_hoist(owner) or "objects" in owner.call.keywords or not owner.call.arguments:
        return None
    before, name = site.call.keywords.get("link_with"), library_name(owner)
    is_there = library_of(project, owner) is not None
    is_linked = before is not None and any(is_made_by(it, owner) for it in flat(project.known.value(before.value)))
    if is_linked or (not is_there and free_name(project, name) != name):
        return None
    what = f"{site.call.name}: `objects:` becomes the library {name} of the same sources"
    change = site.change(what, *linked(site, word, name, before is None))
    if not is_there:
        change.edits += owner.change("", behind(owner, library_lines(owner, name))).edits
    return change


def is_made_by(item: Item, owner: Site) -> bool:
    return isinstance(item.value, Thing) and item.value.call is owner.call


def linked(site: Site, word: tree.Keyword, name: str, is_new: bool) -> list[tuple[int, int, str]]:
    """Returns the edits that link a library in place of `objects:`."""
    if is_new:
        return [(word.start, word.end, f"link_with: {name}")]
    start, end = without_item(site.file.text, site.call, word)
    return [(start, end, ""), added_to_list(site, "link_with", name)]


def library_lines(owner: Site, name: str) -> list[str]:
    """Returns the call of a library of a target's sources."""
    arguments, source = owner.call.arguments, owner.file.source
    first = source(arguments[0])
    words = [first[:-1] + "-objects'" if isinstance(arguments[0], tree.Text) else f"{first} + '-objects'", *map(source, arguments[1:])]
    words += [source(owner.call.keywords[it]) for it in KEPT if it in owner.call.keywords]
    indent = indent_at(owner.file.text, owner.statement.start)
    lines = f"{name} = static_library({', '.join(words)})".split("\n")
    return [lines[0], *(it.removeprefix(indent) for it in lines[1:])]


def behind(owner: Site, lines: list[str]) -> tuple[int, int, str]:
    end = owner.statement.end
    indent = indent_at(owner.file.text, owner.statement.start)
    return end, end, "".join("\n" + indent + it for it in lines)
