"""Gives each of several checks with one name and other arguments a name of its own, and so an answer of its own."""
from __future__ import annotations

import re
from collections.abc import Iterator

from tools.porting.compiler import after_prefix
from tools.porting.edits import Change
from tools.porting.lexer import escaped
from tools.porting.project import Project, Site
from tools.porting.rule import identifier, of_compiler, replaced, text_of
from tools.porting.sources import Names
from tools.porting.values import choices_of

# Keywords of a check that may change its answer.
BESIDE = ("prefix", "args", "dependencies", "include_directories")
# Functions that a compiler has itself, under this name alone.
OF_COMPILER = ("alloca",)
# What a function is named, and a type that can get another name.
NAMED = {"has_function": re.compile(r"[A-Za-z_]\w*"), "has_type": re.compile(r"[A-Za-z_][\w ]*[ *]*")}


def asked_twice(project: Project) -> Iterator[Change]:
    names = Names(project)
    first: dict[tuple[str, str], tuple[str, ...]] = {}
    given: dict[tuple[object, ...], str] = {}
    for site in of_compiler(project, "has_function", "has_type"):
        name = text_of(project, site.call.arguments[0]) if len(site.call.arguments) == 1 else None
        if name is None or not NAMED[site.call.name].fullmatch(name) or name in OF_COMPILER or name.startswith("__"):
            continue
        key, words = (site.call.name, name), words_of(site)
        if first.setdefault(key, words) == words:
            continue
        text = before_check(project, site, name)
        if text is None:
            continue
        alias = given.get((*key, *words)) or names.free("check_" + identifier(name))
        given[(*key, *words)] = alias
        yield site.change(f"{site.call.name} {name}, which is asked before with other arguments, becomes {alias}",
                          replaced(site, site.call.arguments[0], escaped(alias)), *after_prefix(site, escaped(text.replace("\0", alias))))


def words_of(site: Site) -> tuple[str, ...]:
    """Returns these keywords of a check, as they are written."""
    found = [site.call.keywords.get(it) for it in BESIDE]
    return tuple(" ".join(site.file.source(it.value).split()) if it else "" for it in found)


def before_check(project: Project, site: Site, name: str) -> str | None:
    """Returns the text before a check that gives what it asks for another name, shown by a mark; none if that isn't known."""
    if site.call.name == "has_type":
        return f"\ntypedef {name} \0;\n"
    word = site.call.keywords.get("prefix")
    texts = [it if isinstance(it, str) else "" for it in choices_of(project.known.value(word.value))] if word else []
    has_include = ["#include" in it for it in texts]
    if all(has_include) and texts:
        return f"\n#define \0 {name}\n"
    if any(has_include) or "" in texts:
        return None
    return f"\n#include <stddef.h>\nchar {name}(void);\n#define \0 {name}\n"
