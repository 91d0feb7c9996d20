"""Finds what a library needs when it is linked: the packages and libraries below it, and when they are there."""
from __future__ import annotations

import re

from tools import records as dataclasses
from tools.porting import tree
from tools.porting.lexer import escaped
from tools.porting.project import Project
from tools.porting.values import Either, Item, Many, Table, Thing, UNKNOWN, flat, kind_of, texts_of

# Dependencies that have no .pc file: what compiles and links with them.
WITHOUT_FILE = {"threads": ("-pthread", "-pthread"), "openmp": ("-fopenmp", "-fopenmp"), "dl": ("", "-ldl"), "m": ("", "-lm"),
                "intl": ("", ""), "iconv": ("", ""), "valgrind": ("", "")}


class NotSure(Exception):
    """Says why the call can't be written here."""


@dataclasses.dataclass(frozen=True)
class Need:
    """Holds a need of a library: `where` it belongs (requires, libs, cflags), and when, by an expression; without one, always."""
    where: str
    text: str
    condition: str = ""


class Needs:
    """Finds the needs of the libraries that one call names, by the variables at that call."""

    def __init__(self, project: Project, names: dict[str, object]) -> None:
        self.project, self.names = project, names
        self.notes: list[str] = []
        self.seen: set[int] = set()

    @staticmethod
    def names_at(rounds: list[Thing]) -> dict[str, object]:
        """Returns the variables at a call, of those in a loop the ones that are the same in each round."""
        first, *others = rounds
        return {name: held for name, held in first.names.items() if all(name in it.names and it.names[name] is held for it in others)}

    def expression_of(self, value: object) -> str | None:
        """Returns an expression that gives this very value at the place of the call."""
        for name, held in self.names.items():
            if held is value:
                return name
        for name, held in self.names.items():
            if isinstance(held, Many) and held.is_exact:
                for number, item in enumerate(held.items):
                    if item.value is value:
                        return f"{name}[{number}]"
            if isinstance(held, Table) and (key := next((key for key, it in held.pairs.items() if it is value), None)) is not None:
                return f"{name}[{escaped(key)}]"
        call = value.call if isinstance(value, Thing) else None
        if call is not None and all(kind_of(self.names.get(it, UNKNOWN)) in ("compiler", "meson") for it in tree.names_in(call)):
            return self.project.files[value.path].source(call)
        return None

    def list_with(self, value: object) -> str | None:
        """Returns a variable whose list may have a value."""
        for name, held in self.names.items():
            if isinstance(held, Many) and any(it.value is value for it in held.items):
                return name
        return None

    def condition_of(self, thing: Thing, is_sure: bool) -> str | None:
        """Returns when a dependency is there, as an expression, or None if that can't be said."""
        is_found = thing.keywords.get("required", True) is True
        one = None if is_sure else self.condition_of_one(thing)
        if one is not None:
            return one
        found = self.expression_of(thing)
        if is_sure:
            return "" if is_found else f"{found}.found()" if found else None
        holder = self.list_with(thing)
        if holder is not None and (found is None or found.endswith(")")):
            return self.condition_in_list(thing, holder, is_found, found)
        if found is None or holder is None:
            return None
        return " and ".join([*([] if is_found else [f"{found}.found()"]), f"{found} in {holder}"])

    def condition_in_list(self, thing: Thing, holder: str, is_found: bool, call: str | None) -> str | None:
        """Returns when a list has a dependency that no variable has: by the list's length if only that one may be missing. Else the
        project calls `dependency` once more, which gives the same one; it is not required if its branch may not be taken."""
        held = self.names[holder]
        if isinstance(held, Many) and held.is_whole and len(held.items) == 1:
            return f"{holder}.length() > 0" + ("" if is_found else f" and {holder}[0].found()")
        if call is None or thing.kind != "dependency" or thing.call is None:
            return None
        if is_found and "required" not in thing.call.keywords:
            return f"{call[:-1].rstrip().removesuffix(',')}, required: false) in {holder}"
        return None if is_found else f"{call}.found() and {call} in {holder}"

    def condition_of_one(self, thing: Thing) -> str | None:
        """Returns when a dependency is the one that a variable has, of several that it may have."""
        for name, held in self.names.items():
            if not isinstance(held, Either) or not any(it is thing for it in held.choices):
                continue
            others = [it for it in held.choices if it is not thing and not is_nothing(it)]
            lists = [it for it in held.choices if isinstance(it, Many)]
            if not others and not lists:
                return f"{name}.found()"
            if not others:
                is_found = thing.keywords.get("required", True) is True
                return f"([] + {name}).length() > 0" + ("" if is_found else f" and {name}.found()")
            if not lists and all(isinstance(it, Thing) and it.kind == "dependency" for it in [thing, *others]):
                return f"{name}.found() and {name}.name() == {escaped(thing.name or '')}"
            return None if lists else self.condition_of_two(name, thing, others)
        return None

    @staticmethod
    def condition_of_two(name: str, thing: Thing, others: list) -> str | None:
        """Returns when a package, or a library where there is no such package, is there. Asks for the package once more, which changes
        nothing."""
        both = [thing, *others]
        packages = [it for it in both if isinstance(it, Thing) and it.kind == "dependency" and it.name]
        if len(both) != 2 or len(packages) != 1 or "version" in packages[0].keywords:
            return None
        found = f"dependency({escaped(packages[0].name or '')}, required: false).found()"
        return f"{name}.found() and {'' if packages[0] is thing else 'not '}{found}"

    def needs_of_item(self, value: object, is_sure: bool, is_public: bool = False) -> list[Need]:
        """Returns what one item of a list of libraries and dependencies needs."""
        if isinstance(value, str):
            return [Need("libs", value)] if value else []
        if not isinstance(value, Thing):
            raise NotSure("what it links is not known")
        if value.kind == "target":
            return self.needs_of_library(value)
        if value.kind == "internal":
            return self.needs_of_internal(value)
        if value.kind not in ("dependency", "library"):
            if is_nothing(value):
                return []
            raise NotSure(f"it names {value.kind or 'an object'}, which is no library")
        return self.needs_of_dependency(value, is_sure, is_public)

    def needs_of_dependency(self, thing: Thing, is_sure: bool, is_public: bool) -> list[Need]:
        names = texts_of(Many([*flat(Many(thing_items(thing)))])) if thing.arguments else None
        if not names:
            raise NotSure("a dependency's name is not known")
        if names[0] == "":
            return []
        condition = self.condition_of(thing, is_sure)
        if condition is None:
            self.notes.append(f"it is not known whether {names[0]} is linked: it is left out of Requires.private and Libs.private")
            return []
        if thing.kind == "library":
            return [Need("libs", "-l" + names[0], condition)]
        if names[0] in WITHOUT_FILE:
            cflags, libs = WITHOUT_FILE[names[0]]
            return [Need("libs", libs, condition), *([Need("cflags", cflags, condition)] if is_public else [])] if libs else []
        versions = texts_of(thing.keywords["version"]) if "version" in thing.keywords else []
        return [Need("requires", with_blanks(names[0] + it), condition) for it in sorted(versions or [])] or [
            Need("requires", names[0], condition)]

    def needs_of_internal(self, thing: Thing) -> list[Need]:
        return [Need("libs", it) for it in link_args_of(thing)] + self.needs_below(thing)

    def needs_of_library(self, thing: Thing) -> list[Need]:
        """Returns a library that is linked: its .pc file where it has one, itself, and what it needs."""
        if id(thing) in self.seen:
            return []
        self.seen.add(id(thing))
        base = self.generated_name(thing)
        if base is not None:
            return [Need("requires", base)]
        is_installed = thing.keywords.get("install", False) is not False
        own = [Need("libs", f"-l{thing.name}")] if is_installed or thing.function == "shared_library" else []
        return own if self.is_shared_alone(thing) else own + self.needs_below(thing)

    def is_shared_alone(self, thing: Thing) -> bool:
        """Returns whether a library is never static: the real Meson names nothing that it needs."""
        return thing.function == "shared_library" and thing.name not in self.project.both

    def needs_below(self, thing: Thing) -> list[Need]:
        """Returns what the libraries and dependencies need that a library or a dependency is made with.

        The real Meson looks at each library that is linked, then at what is none of the project: packages are named in this order, and
        libraries of each group before those of the groups that came first.
        """
        linked, whole, others = parts_below(thing)
        groups = [self.known_needs([it]) for it in linked + whole] + [self.known_needs(others)]
        return [*(need for group in groups for need in group if need.where == "requires"),
                *(need for group in reversed(groups) for need in group if need.where != "requires")]

    def known_needs(self, items: list[Item]) -> list[Need]:
        """Returns what items are known to need."""
        needs: list[Need] = []
        for item in items:
            try:
                needs += self.needs_of_item(item.value, item.is_sure)
            except NotSure as why:
                self.notes.append(f"{why}: look at Requires.private and Libs.private")
        return needs

    def generated_name(self, thing: Thing) -> str | None:
        """Returns the name of the .pc file that was made for a library before."""
        return self.project.pc_files.get(thing.name or "")


def link_args_of(thing: Thing) -> list[str]:
    return texts_of(thing.keywords.get("link_args", Many([]))) or []


def parts_below(thing: Thing) -> tuple[list[Item], list[Item], list[Item]]:
    """Returns what a target or a dependency links, what it links whole, and what else it is made with; of dependencies that the project
    declares what these are made with."""
    linked, whole = (flat(thing.keywords.get(it, Many([]))) for it in ("link_with", "link_whole"))
    others: list[Item] = []
    for item in flat(thing.keywords.get("dependencies", Many([]))):
        if isinstance(item.value, Thing) and item.value.kind == "internal":
            below = parts_below(item.value)
            linked, whole = linked + below[0], whole + below[1]
            others += [*map(Item, link_args_of(item.value)), *below[2]]
        else:
            others.append(item)
    return linked, whole, others


def is_nothing(value: object) -> bool:
    """Returns whether a value is an empty list, or a dependency that is never found."""
    return (isinstance(value, Many) and value.is_whole and not value.items) or (
        isinstance(value, Thing) and value.kind == "dependency" and value.name == "")


def thing_items(thing: Thing) -> list:
    return [item for it in thing.arguments for item in flat(it)]


def with_blanks(text: str | None) -> str:
    """Returns a requirement with blanks round its operator, as pkg-config wants it."""
    return re.sub(r"\s*([<>=!]+)\s*", r" \1 ", text or "").strip()
