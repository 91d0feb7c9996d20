"""Rewrites parts of dependencies, and what dependencies say of themselves."""
from __future__ import annotations

from collections.abc import Iterator

from tools.porting import tree
from tools.porting.edits import Change
from tools.porting.lexer import escaped
from tools.porting.project import Project, Site
from tools.porting.rule import added_behind, comparison_of, replaced
from tools.porting.values import Item, Many, Thing, flat, kind_of, texts_of


def partial_dependency(project: Project) -> Iterator[Change]:
    """A part of a dependency is all of it here."""
    for site in project.methods("partial_dependency", "as_system"):
        if site.call.receiver and kind_of(project.known.value(site.call.receiver)) in ("dependency", "library", "internal"):
            yield site.change(f"{site.call.name}: the dependency itself", replaced(site, site.call, site.file.source(site.call.receiver)))


def names_of_types(project: Project) -> Iterator[Change]:
    """`type_name` of a dependency of which is known how it is looked for."""
    for site in project.methods("type_name"):
        receiver = site.call.receiver
        things = [it.value for it in flat(project.known.value(receiver))] if receiver else []
        kinds = {type_name(it) for it in things}
        if receiver is None or len(kinds) != 1 or None in kinds:
            continue
        found = f"{site.file.source(receiver)}.found()"
        name = kinds.pop() or ""
        outer = comparison_of(site)
        is_asked = isinstance(outer, tree.Binary) and isinstance(outer.right, tree.Text) and outer.right.value == name != "internal"
        if outer is not None and is_asked and outer.operator in ("==", "!="):
            yield site.change(f"type_name: is {name}, if it is found",
                              replaced(site, outer, found if outer.operator == "==" else f"(not {found})"))
            continue
        yield site.change(f"type_name: is {name}, if it is found",
                          replaced(site, site.call, f"({found} ? {escaped(name)} : 'not-found')" if name != "internal" else escaped(name)))


def type_name(value: object) -> str | None:
    kind = kind_of(value)
    if kind == "library":
        return "library"
    if kind == "internal":
        return "internal"
    names = texts_of(Many([Item(it) for it in value.arguments])) if isinstance(value, Thing) and kind == "dependency" else None
    return "pkgconfig" if names and names[0] not in ("threads", "openmp", "dl", "") else None


def static_libraries(project: Project, site: Site) -> list[str]:
    """Returns how the static libraries are named at a call that are linked there, by `link_with:` or by dependencies that the project
    declares."""
    rounds = project.known.things[site.call]
    found = [[name for it in linked_in(thing) if (name := named_at(project, site, thing, it))] for thing in rounds]
    return list(dict.fromkeys(found[0])) if found and all(it == found[0] for it in found) else []


def linked_in(thing: Thing, depth: int = 8) -> list[Thing]:
    """Returns the static libraries below a target or a dependency, each before those below it."""
    found: list[Thing] = []
    for keyword in ("link_with", "dependencies"):
        for item in flat(thing.keywords.get(keyword, Many([]))):
            value = item.value
            if not isinstance(value, Thing) or not item.is_sure:
                continue
            if value.function == "static_library":
                found.append(value)
            if depth and (value.function == "static_library" or value.kind == "internal"):
                found += linked_in(value, depth - 1)
    return found


def named_at(project: Project, site: Site, thing: Thing, library: Thing) -> str | None:
    """Returns a variable that has a library, or the item of `link_with:` that is it."""
    word = site.call.keywords.get("link_with")
    value = tree.plain(word.value) if word else None
    items = value.items if isinstance(value, tree.List) else []
    written = [site.file.source(it) for it in items if isinstance(it, tree.Index) and project.known.value(it) is library]
    return next((name for name, held in thing.names.items() if held is library), written[0] if written else None)


def link_order(project: Project) -> Iterator[Change]:
    """Names static libraries that may use one another in both ways once more, after all of them."""
    for site in project.functions("executable", "shared_library", "library"):
        paths = [f"{it}.full_path()" for it in static_libraries(project, site)]
        before = site.file.source(site.call.keywords["link_args"]) if "link_args" in site.call.keywords else ""
        if len(paths) > 1 and not all(it in before for it in paths):
            edit = added_behind(site, "link_args", ", ".join(paths))
            yield site.change(f"{site.call.name}: its static libraries are named once more", edit)
