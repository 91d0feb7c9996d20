"""Rewrites truth values of the names of templates: for `@NAME@` the real Meson writes `True`, and this program `true`."""
from __future__ import annotations

import re
from collections.abc import Iterator

from tools import records as dataclasses
from tools.files import DEFINITION, read_text
from tools.porting import tree
from tools.porting.edits import Change
from tools.porting.project import Project, Site
from tools.porting.rule import replaced
from tools.porting.scripts import source_paths
from tools.porting.values import Thing, choices_of, flat, kind_of

REPLACED = re.compile(r"@([-A-Za-z0-9_]+)@")
DEFINED = re.compile(r"^\s*#mesondefine[ \t]+([-A-Za-z0-9_]+)", re.MULTILINE)


@dataclasses.dataclass(eq=False)
class Entry:
    """Holds a truth value of a configuration: the call that it is in, and its names, one in each round of a loop. Also holds what templates
    do with the names of that configuration."""
    owner: Site
    names: set[str]
    node: tree.Node
    shown: set[str] = dataclasses.field(default_factory=set)
    defined: set[str] = dataclasses.field(default_factory=set)
    is_followed: bool = True


def truth_names(project: Project) -> Iterator[Change]:
    """A truth value whose name templates replace, and do nothing else with, becomes the text that the real Meson writes for it."""
    asked = names_asked(project)
    for it in used_entries(project):
        if not it.names & it.shown:
            continue
        shown = ", ".join(sorted(it.names))
        if it.names <= it.shown - it.defined - asked and it.is_followed:
            yield it.owner.change(f"{shown}: a truth value that a template shows becomes a text",
                                  replaced(it.owner, it.node, shown_truth(it.owner, it.node)))
        else:
            project.note(it.owner, "shown-truth", f"{it.owner.call.name}: {shown}: a template has @NAME@ of a truth value, and is not all "
                         "that names it: `true` here, `True` in the real Meson; two names, of which the one has a text")


def used_entries(project: Project) -> list[Entry]:
    """Returns the truth values of configurations that templates are given, with what all of these templates do with their names."""
    found: dict[tree.Node, Entry] = {}
    for site in project.functions("configure_file"):
        words = site.call.keywords
        if "configuration" not in words:
            continue
        texts = texts_of_templates(project, site, words["input"].value) if "input" in words else []
        for owner, names, node in entries(project, site, words["configuration"].value):
            entry = found.setdefault(node, Entry(owner, names, node))
            entry.shown |= {name for text in texts for name in REPLACED.findall(text)}
            entry.defined |= {name for text in texts for name in DEFINED.findall(text)}
            entry.is_followed = entry.is_followed and texts != []
    return list(found.values())


def names_asked(project: Project) -> set[str]:
    """Returns the names of configurations whose values the definitions ask for."""
    names: set[str] = set()
    for site in project.methods("get", "get_unquoted"):
        if site.call.receiver and kind_of(project.known.value(site.call.receiver)) == "configuration" and site.call.arguments:
            names |= {it for it in choices_of(project.known.value(site.call.arguments[0])) if isinstance(it, str)}
    return names


def shown_truth(owner: Site, node: tree.Node) -> str:
    """Returns the text that the real Meson writes for a truth value."""
    if isinstance(node, tree.Truth):
        return f"'{node.value}'"
    source = owner.file.source(node)
    is_one = isinstance(node, (tree.Name, tree.Call, tree.Index, tree.Group))
    return f"{source if is_one else f'({source})'} ? 'True' : 'False'"


def texts_of_templates(project: Project, site: Site, node: tree.Node) -> list[str]:
    """Returns the texts of the templates that a call may be given; none if one can't be read."""
    texts = []
    for path in source_paths(project, site, node):
        try:
            texts.append(read_text(path, DEFINITION))
        except OSError:
            return []
    return texts


def entries(project: Project, site: Site, node: tree.Node) -> Iterator[tuple[Site, set[str], tree.Node]]:
    """Yields the values of a configuration that surely are truth values: the call that each is in, its names, and the value."""
    found: list[tuple[Site, tree.Node, tree.Node]] = [(site, key, value) for key, value in pairs_of(node)]
    calls = [it.value.call for it in flat(project.known.value(node)) if isinstance(it.value, Thing) and it.value.kind == "configuration"]
    for owner in project.functions("configuration_data"):
        if owner.call in calls and owner.call.arguments:
            found += [(owner, key, value) for key, value in pairs_of(owner.call.arguments[0])]
    for owner in project.methods("set"):
        receivers = [it.value for it in flat(project.known.value(owner.call.receiver))] if owner.call.receiver else []
        if any(isinstance(it, Thing) and it.call in calls for it in receivers) and len(owner.call.arguments) == 2:
            found.append((owner, *owner.call.arguments))
    for owner, key, value in found:
        names = choices_of(project.known.value(key))
        if all(isinstance(it, str) for it in names) and kind_of(project.known.value(value)) == "truth":
            yield owner, set(names), tree.plain(value)


def pairs_of(node: tree.Node) -> list[tuple[tree.Node, tree.Node]]:
    node = tree.plain(node)
    return list(node.pairs) if isinstance(node, tree.Dictionary) else []
