"""Gives checks in a loop names: one name for each question, so that each has its own answer."""
from __future__ import annotations

import itertools
import re
from collections.abc import Iterator

from tools.porting import tree
from tools.porting.project import Project, Site
from tools.porting.values import Many, Thing, is_same, texts_of

IDENTIFIER = re.compile(r"[A-Za-z0-9_]+")
# More texts than these of one list are not tried, and of all texts no more than these.
MOST_ITEMS, MOST_PARTS = 8, 16


def ending_of(project: Project, site: Site) -> str | None:
    """Returns the ending of a check's name, as an expression that differs for each question.

    Empty if the call asks only one question, None if no such expression is found.
    """
    rounds = project.known.things[site.call]
    if len(rounds) < 2 or all(is_same_question(rounds[0], it) for it in rounds):
        return ""
    parts = list(itertools.islice(known_parts(site, rounds), MOST_PARTS))
    for several in [*((it,) for it in parts), *itertools.combinations(parts, 2)]:
        names = ["_".join(re.sub(r"[^A-Za-z0-9]", "_", it) for it in texts) for texts in zip(*(values for _, values in several))]
        first: dict[str, Thing] = {}
        if all(is_same_question(first.setdefault(name, it), it) for name, it in zip(names, rounds)):
            return " + '_' + ".join(source if all(map(IDENTIFIER.fullmatch, values)) else f"{source}.underscorify()"
                                    for source, values in several)
    return None


def is_same_question(one: Thing, other: Thing) -> bool:
    """Returns whether two rounds surely ask the same: the same source with the same words."""
    if one.keywords.keys() != other.keywords.keys():
        return False
    pairs = [*zip(one.arguments, other.arguments), *((value, other.keywords[key]) for key, value in one.keywords.items() if key != "name")]
    return all(is_same(a, b) and isinstance(a, (str, bool, Thing)) or is_same_list(a, b) for a, b in pairs)


def is_same_list(one: object, other: object) -> bool:
    texts = texts_of(one) if isinstance(one, Many) else None
    return texts is not None and isinstance(other, Many) and texts == texts_of(other)


def known_parts(site: Site, rounds: list[Thing]) -> Iterator[tuple[str, list[str]]]:
    """Yields the variables at a call whose text is known in each round, with these texts. Those of the loops round it are first."""
    used = {name for it in site.call.items for name in tree.names_in(it)}
    names = list(dict.fromkeys([*loop_names(site.file.body, site.call), *sorted(used)]))
    for name in names:
        values = [it.names.get(name) for it in rounds]
        if all(isinstance(it, str) and it for it in values):
            yield name, [str(it) for it in values]
        lists = [texts_of(Many(it.items[:1])) and it for it in values if isinstance(it, Many) and it.is_exact]
        shortest = min((len(it.items) for it in lists if it), default=0) if len(lists) == len(values) else 0
        for number in range(min(shortest, MOST_ITEMS)):
            items = [it.items[number].value for it in lists if it]
            if len(items) == len(values) and all(isinstance(it, str) and it for it in items):
                yield f"{name}[{number}]", items


def loop_names(body: list[tree.Statement], node: tree.Node) -> list[str]:
    """Returns the variables of the loops that a node is in, the innermost first."""
    for statement in body:
        if statement.start <= node.start < statement.end:
            inner = [name for it in statement.bodies() for name in loop_names(it, node)]
            return inner + (statement.names if isinstance(statement, tree.Foreach) else [])
    return []
