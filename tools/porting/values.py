"""Defines what is known of a value without the machine, the options and the files of the sources.

Texts, integers and truth values are Python's. The other classes are below; of an `Unknown` value at most the kind is known.
"""
from __future__ import annotations

import functools
from collections.abc import Iterable

from tools import records as dataclasses
from tools.porting import tree

# More possible values than these are one unknown value.
MOST_CHOICES = 24
# Greater texts, lists and numbers than these are values that aren't known: they grow with each round of a loop, and cost the more.
MOST_CHARACTERS, MOST_ITEMS, MOST_LEVELS, MOST_NUMBER = 1 << 24, 1 << 16, 64, 1 << 127
# A text of fewer characters costs no step.
LIGHT = 1 << 10


@dataclasses.dataclass(frozen=True)
class Unknown:
    kind: str = ""


@dataclasses.dataclass(frozen=True)
class Either:
    """Holds the possible values; the value is one of them."""
    choices: tuple


class Item:
    """Holds an item of a list, which `is_sure` or may be there. It doesn't change."""
    __slots__ = ("value", "is_sure")

    def __init__(self, value: object, is_sure: bool = True) -> None:
        self.value, self.is_sure = value, is_sure


@dataclasses.dataclass(eq=False)
class Many:
    """Holds a list; if it isn't `is_whole` it may have other items too."""
    items: list[Item]
    is_whole: bool = True

    @property
    def is_exact(self) -> bool:
        return self.is_whole and all(it.is_sure for it in self.items)

    @functools.cached_property
    def size(self) -> tuple[int, int]:
        """Returns how many items it has at every depth, and how deep these are nested."""
        count, levels = len(self.items), 0
        for item in self.items:
            if type(item.value) in HOLDERS:
                below = size_of(item.value)
                count, levels = count + below[0], max(levels, below[1])
        return count, 1 + levels


@dataclasses.dataclass(eq=False)
class Table:
    """Holds a dictionary by its keys; if it isn't `is_whole` it may have other keys too, and not all of these."""
    pairs: dict[str, object]
    is_whole: bool = True


@dataclasses.dataclass(eq=False)
class Thing:
    """Holds an object that a call gives: what kind, which call, and with which arguments."""
    kind: str
    call: tree.Call | None = None
    path: str = ""
    arguments: list = dataclasses.field(default_factory=list)
    keywords: dict = dataclasses.field(default_factory=dict)
    names: dict = dataclasses.field(default_factory=dict)  # the variables at that call

    @property
    def function(self) -> str:
        return self.call.name if self.call else ""

    @property
    def name(self) -> str | None:
        """Returns the first argument, where it is a known text."""
        first = self.arguments[0] if self.arguments else None
        return first if isinstance(first, str) else None


UNKNOWN = Unknown()
# The types of values whose size counts, of those that cost nothing, and of those that are equal if they are written alike.
HOLDERS, COSTLESS, PLAIN = {Many, Either}, {Thing, Unknown, bool}, {str, int, bool}
KINDS = {str: "text", bool: "truth", int: "integer", Many: "list", Table: "dictionary"}
# Replaces the project's folder in a known text: that folder is another one on each machine.
ROOT = "\0root"


def size_of(value: object) -> tuple[int, int]:
    """Returns how many items a value has at every depth of lists, in all that it may be, and how deep they are nested."""
    if isinstance(value, Many):
        return value.size
    sizes = [size_of(it) for it in value.choices if type(it) in HOLDERS] if isinstance(value, Either) else []
    return (sum(it[0] for it in sizes), max(it[1] for it in sizes)) if sizes else (0, 0)


def is_light(value: object) -> bool:
    """Returns whether a value is surely within its bounds, and costs nothing."""
    return type(value) in COSTLESS or isinstance(value, str) and len(value) < LIGHT


def bounded(value: object) -> object:
    """Returns a value, or of one that is too great its kind."""
    if isinstance(value, int) and not isinstance(value, bool):
        return value if -MOST_NUMBER <= value < MOST_NUMBER else Unknown("integer")
    if isinstance(value, str):
        return value if len(value) <= MOST_CHARACTERS else Unknown("text")
    if isinstance(value, Table):
        return value if len(value.pairs) <= MOST_ITEMS else Unknown("dictionary")
    items, levels = size_of(value)
    return value if items <= MOST_ITEMS and levels <= MOST_LEVELS else Unknown(kind_of(value))


def cost_of(value: object) -> int:
    """Returns what it costs to make a value or to look at it, in steps."""
    if isinstance(value, str):
        return len(value) // LIGHT
    return len(value.pairs) >> 3 if isinstance(value, Table) else size_of(value)[0] >> 4


def without_root(value: object) -> object:
    """Returns a value of which a definition file may be given the text."""
    if isinstance(value, str):
        return Unknown("text") if ROOT in value else value
    if isinstance(value, Either) and any(isinstance(it, str) and ROOT in it for it in value.choices):
        return Unknown(kind_of(value))
    if isinstance(value, Many) and any(isinstance(it.value, str) and ROOT in it.value for it in value.items):
        return Many([Item(without_root(it.value), it.is_sure) for it in value.items], value.is_whole)
    return value


def kind_of(value: object) -> str:
    """Returns the kind that a value surely has, or none."""
    if isinstance(value, Unknown):
        return value.kind
    if isinstance(value, Either):
        kinds = {kind_of(it) for it in value.choices}
        return kinds.pop() if len(kinds) == 1 else ""
    if isinstance(value, Thing):
        return value.kind
    return KINDS.get(type(value), "")


def choices_of(value: object) -> tuple:
    return value.choices if isinstance(value, Either) else (value,)


def is_same(a: object, b: object) -> bool:
    """Returns whether two values count as one; targets of one name, that are made in two branches, do."""
    if a is b:
        return True
    if isinstance(a, Thing) and isinstance(b, Thing) and a.kind == b.kind == "target" and a.name is not None:
        return a.name == b.name and a.function == b.function and a.path == b.path
    return type(a) is type(b) and isinstance(a, (str, int, bool, Unknown)) and a == b


def key_of(value: object) -> object:
    """Returns what two values have in common that count as one, as `is_same` says."""
    kind = type(value)
    if kind in PLAIN:
        return kind, value
    if isinstance(value, Unknown):
        return kind, value.kind
    if isinstance(value, Thing) and value.kind == "target" and value.name is not None:
        return "target", value.name, value.function, value.path
    return id(value)


def distinct(values: Iterable[object]) -> list[object]:
    """Returns each value once, in the order of the first."""
    found: dict[object, object] = {}
    for value in values:
        found.setdefault(key_of(value), value)
    return list(found.values())


def either(values: Iterable[object]) -> object:
    """Returns what is known of one of several values."""
    values = list(values)
    if len(values) == 1 and type(values[0]) is not Either:
        return values[0]
    found = distinct([choice for value in values for choice in choices_of(value)])
    if len(found) == 1:
        return found[0]
    if found and all([isinstance(it, Many) for it in found]):
        result = found[0]
        for it in found[1:]:
            result = joined_lists(result, it)
        return result
    if found and len(found) <= MOST_CHOICES and not any([isinstance(it, Unknown) for it in found]):
        return Either(tuple(found))
    kinds = {kind_of(it) for it in found}
    kind = kinds.pop() if len(kinds) == 1 else ""
    return Unknown(kind) if len(found) > MOST_CHOICES or not found or Unknown(kind) in found else Either(tuple(found))


def joined_lists(a: Many, b: Many) -> Many:
    """Returns a list that is one of two: what both begin with stays, the rest may be there."""
    items: list[Item] = []
    for x, y in zip(a.items, b.items):
        if not is_same(x.value, y.value):
            break
        items.append(x if y.is_sure or not x.is_sure else Item(x.value, False))
    same = len(items)
    items += [Item(it, False) for it in distinct([it.value for it in [*a.items[same:], *b.items[same:]]])]
    return Many(items, a.is_whole and b.is_whole)


def flat(value: object, is_sure: bool = True) -> list[Item]:
    """Returns the items of a value at every depth of lists, of what it may be too; an Unknown item where there may be others."""
    if isinstance(value, Many):
        found = [inner for it in value.items for inner in flat(it.value, is_sure and it.is_sure)]
        return found if value.is_whole else [*found, Item(UNKNOWN, False)]
    if isinstance(value, Either):
        return [inner for it in value.choices for inner in flat(it, False)]
    return [Item(value, is_sure)]


def texts_of(value: object) -> list[str] | None:
    """Returns the texts of a value that is surely these, at every depth of lists, or None if it isn't."""
    items = flat(value)
    if all(it.is_sure and isinstance(it.value, str) for it in items):
        return [str(it.value) for it in items]
    return None
