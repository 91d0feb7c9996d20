"""Computes what operators and indexes give of values that may be unknown."""
from __future__ import annotations

from tools.porting.values import (MOST_ITEMS, UNKNOWN, Either, Item, Many, Table, Thing, Unknown, bounded, choices_of, either, is_same,
                                  kind_of)

OPERATORS = {
    "==": lambda a, b: a == b, "!=": lambda a, b: a != b, "<": lambda a, b: a < b, "<=": lambda a, b: a <= b,
    ">": lambda a, b: a > b, ">=": lambda a, b: a >= b, "-": lambda a, b: a - b, "*": lambda a, b: a * b,
    "%": lambda a, b: a % b if b else UNKNOWN,
}
TRUTHS = ("==", "!=", "<", "<=", ">", ">=", "in", "not in")


def truth_of(value: object) -> bool | None:
    """Returns a truth value, or None if it isn't known."""
    if isinstance(value, Either):
        truths = {truth_of(it) for it in value.choices}
        return truths.pop() if len(truths) == 1 else None
    return value if isinstance(value, bool) else None


def binary(operator: str, left: object, right: object) -> object:
    if operator == "+" and isinstance(left, Many):
        return added(left, right)
    if isinstance(left, Either) or (isinstance(right, Either) and operator not in ("in", "not in")):
        return either(one(operator, a, b) for a in choices_of(left) for b in choices_of(right))
    return one(operator, left, right)


def added(left: Many, right: object) -> object:
    if len(left.items) + (len(right.items) if isinstance(right, Many) else 1) > MOST_ITEMS:
        return Unknown("list")
    if isinstance(right, Many):
        return Many([*left.items, *right.items], left.is_whole and right.is_whole)
    if isinstance(right, Either) and any(isinstance(it, Many) for it in right.choices):
        return either(added(left, it) for it in right.choices)
    if isinstance(right, Unknown) and right.kind in ("", "list"):
        return Many(left.items, False)
    return Many([*left.items, Item(right)], left.is_whole)


def one(operator: str, a: object, b: object) -> object:
    if operator in ("in", "not in"):
        found = is_in(a, b)
        return Unknown("truth") if found is None else found is (operator == "in")
    is_plain = isinstance(a, (str, int, bool)) and type(a) is type(b)
    if operator == "/":
        return slash(a, b)
    if operator == "+":
        if isinstance(a, Table) and isinstance(b, Table):
            return bounded(Table({**a.pairs, **b.pairs}, a.is_whole and b.is_whole))
        return bounded(a + b) if is_plain and not isinstance(a, bool) else Unknown(kind_of(a) or kind_of(b))
    if not is_plain or (operator not in TRUTHS and isinstance(a, str)):
        if operator in ("==", "!=") and isinstance(a, Thing) and a is b:
            return operator == "=="
        return Unknown("truth" if operator in TRUTHS else "integer")
    return bounded(OPERATORS[operator](a, b))


def slash(a: object, b: object) -> object:
    if isinstance(a, str) and isinstance(b, str):
        return b if not a or b.startswith("/") else bounded(a + ("" if a.endswith("/") else "/") + b)
    if isinstance(a, int) and isinstance(b, int) and b:
        return a // b
    return Unknown("text" if "text" in (kind_of(a), kind_of(b)) else "")


def is_in(value: object, holder: object) -> bool | None:
    if isinstance(value, Either):
        found = {is_in(it, holder) for it in value.choices}
        return found.pop() if len(found) == 1 else None
    if isinstance(holder, Many) and isinstance(value, (str, int, bool)):
        if any(is_same(value, it.value) and it.is_sure for it in holder.items):
            return True
        may_be = not holder.is_whole or any(isinstance(it.value, (Unknown, Either)) or is_same(value, it.value) for it in holder.items)
        return None if may_be else False
    if isinstance(holder, Table) and isinstance(value, str):
        return value in holder.pairs if holder.is_whole else None
    if isinstance(holder, str) and isinstance(value, str):
        return value in holder
    return None


def indexed(holder: object, index: object) -> object:
    if isinstance(holder, Either):
        return either(indexed(it, index) for it in holder.choices)
    if isinstance(holder, Many) and isinstance(index, int):
        if holder.is_exact and -len(holder.items) <= index < len(holder.items):
            return holder.items[index].value
        first = [it for it in holder.items[:index + 1] if it.is_sure] if index >= 0 else []
        return holder.items[index].value if len(first) == index + 1 else UNKNOWN
    if isinstance(holder, Table) and isinstance(index, str):
        return holder.pairs.get(index, UNKNOWN)
    if isinstance(holder, str) and isinstance(index, int):
        return holder[index] if -len(holder) <= index < len(holder) else Unknown("text")
    if isinstance(holder, Thing) and holder.kind == "custom":
        return holder
    return UNKNOWN
