"""Computes the results of methods of texts, lists, dictionaries, integers and truth values that may be unknown."""
from __future__ import annotations

import re
from collections.abc import Callable

from tools.porting.operators import is_in
from tools.porting.values import MOST_CHARACTERS, MOST_ITEMS, UNKNOWN, Item, Many, Table, Unknown, bounded, either, kind_of, texts_of

KINDS = {
    "format": "text", "join": "text", "replace": "text", "strip": "text", "substring": "text", "to_lower": "text", "to_upper": "text",
    "underscorify": "text", "to_string": "text", "contains": "truth", "startswith": "truth", "endswith": "truth", "found": "truth",
    "version_compare": "truth", "to_int": "integer", "length": "integer", "has_key": "truth", "enabled": "truth", "disabled": "truth",
    "auto": "truth", "allowed": "truth", "is_even": "truth", "is_odd": "truth", "compiles": "truth", "links": "truth",
}


LONGEST_VERSION = 1000  # characters


def printed(value: object) -> str | None:
    """Returns a value as text, or None if it isn't known."""
    if isinstance(value, bool):
        return str(value).lower()
    return str(value) if isinstance(value, (str, int)) else None


def formatted(text: str, arguments: list) -> object:
    shown = [printed(it) for it in arguments]
    places = [int(it) for it in re.findall(r"@([0-9]{1,9})@", text)]
    if any(it >= len(shown) or shown[it] is None for it in places):
        return Unknown("text")
    if len(text) + sum(len(shown[it] or "") for it in places) > MOST_CHARACTERS:
        return Unknown("text")
    return re.sub(r"@([0-9]{1,9})@", lambda match: shown[int(match[1])] or "", text)


def joined(text: str, texts: list[str]) -> object:
    is_short = len(text) * len(texts) + sum(map(len, texts)) <= MOST_CHARACTERS
    return text.join(texts) if is_short else Unknown("text")


def replaced(text: str, before: str, after: str) -> object:
    is_short = before != "" and len(text) + text.count(before) * (len(after) - len(before)) <= MOST_CHARACTERS
    return text.replace(before, after) if is_short else Unknown("text")


def split(text: str, arguments: list) -> object:
    """Returns the parts of a text; of what has too many of them no more than that these are texts."""
    parts = text.split(arguments[0], MOST_ITEMS) if arguments and arguments[0] else text.split(None, MOST_ITEMS)
    return in_parts(parts)


def in_parts(parts: list[str]) -> object:
    return Many([Item(it) for it in parts]) if len(parts) <= MOST_ITEMS else Many([Item(Unknown("text"), False)], False)


TEXT: dict[str, Callable[..., object]] = {
    "split": lambda text, *it: split(text, list(it)),
    "splitlines": lambda text: in_parts(text.splitlines()),
    "strip": lambda text, *it: text.strip(*it), "underscorify": lambda text: re.sub(r"[^a-zA-Z0-9]", "_", text),
    "to_lower": lambda text: text.lower(), "to_upper": lambda text: text.upper(), "to_int": lambda text: int(text),
    "startswith": lambda text, it: text.startswith(it), "endswith": lambda text, it: text.endswith(it),
    "contains": lambda text, it: it in text, "replace": replaced,
    "substring": lambda text, a=0, b=None: text[a:b],
}


def version_compare(version: str, wanted: str) -> bool | None:
    """Returns whether a version is as wanted, by an operator and another version, or None if that is written in another way."""
    found = re.fullmatch(r"\s*(>=|<=|!=|==|=|>|<)?\s*([0-9.]+)\s*", wanted)
    if found is None or max(len(version), len(wanted)) > LONGEST_VERSION:
        return None
    one, other = ([int(it) for it in re.findall(r"[0-9]+", text)] for text in (version, found[2]))
    return {">=": one >= other, "<=": one <= other, "!=": one != other, ">": one > other, "<": one < other}.get(found[1], one == other)


def method_of_text(text: str, name: str, arguments: list) -> object:
    if name == "format":
        return formatted(text, arguments)
    if name == "join":
        texts = texts_of(Many([Item(it) for it in arguments]))
        return Unknown("text") if texts is None else joined(text, texts)
    if name in TEXT and all(isinstance(it, (str, int)) for it in arguments):
        try:
            return bounded(TEXT[name](text, *arguments))
        except (ValueError, TypeError):
            pass
    return Unknown(KINDS.get(name, "list" if name.startswith("split") else ""))


def method_of_list(items: Many, name: str, arguments: list) -> object:
    if name == "length" and items.is_exact:
        return len(items.items)
    if name == "contains" and arguments:
        found = is_in(arguments[0], items)
        return Unknown("truth") if found is None else found
    if name == "get" and arguments and isinstance(arguments[0], int) and items.is_exact and 0 <= arguments[0] < len(items.items):
        return items.items[arguments[0]].value
    return Unknown(KINDS.get(name, ""))


def method_of_table(table: Table, name: str, arguments: list) -> object:
    if name == "keys":
        return Many([Item(it, table.is_whole) for it in sorted(table.pairs)], table.is_whole)
    if name == "has_key" and arguments and isinstance(arguments[0], str) and table.is_whole:
        return arguments[0] in table.pairs
    if name == "get" and arguments:
        if isinstance(arguments[0], str) and table.is_whole:
            return table.pairs.get(arguments[0], arguments[1] if len(arguments) > 1 else UNKNOWN)
        return either([*table.pairs.values(), *arguments[1:2], *([] if table.is_whole else [UNKNOWN])] or [UNKNOWN])
    return Unknown(KINDS.get(name, ""))


def method_of_value(receiver: object, name: str, arguments: list) -> object:
    if isinstance(receiver, str):
        return method_of_text(receiver, name, arguments)
    if isinstance(receiver, Many):
        return method_of_list(receiver, name, arguments)
    if isinstance(receiver, Table):
        return method_of_table(receiver, name, arguments)
    if name == "to_string" and isinstance(receiver, (bool, int)) and not arguments:
        return printed(receiver)
    if kind_of(receiver) == "text" and name.startswith("split"):
        return Many([Item(Unknown("text"), False)], False)
    return Unknown(KINDS.get(name, ""))
