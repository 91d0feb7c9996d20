"""Explains E6, E7 and E10: operators, conditions, numbers and indexes, with the values of their operands."""
from __future__ import annotations

import re

from tools.explaining.context import Context
from tools.explaining.detail import Detail, detail, near, quoted
from tools.explaining.values import TEXT, Value, flat
from tools.porting import tree

GIVE_NOTHING = ("message", "warning", "error", "assert", "set_variable", "unset_variable", "subdir", "subdir_done", "test",
                "add_project_arguments", "add_project_link_arguments", "install_headers", "install_data", "install_man", "project", "set",
                "set10", "set_quoted", "merge_from")


def shown(value: Value | None, source: str) -> str:
    return f"{value.shown()}" if value is not None else f"{quoted(source)}"


def said(context: Context, node: tree.Node) -> str:
    return shown(context.value(node), context.place.source(node))


def refused(context: Context) -> Detail:
    """Explains E6, E7 and E10 at a node of the statement, or at the statement itself."""
    node = context.probe.culprit if context.probe.can_ask else None
    if node is None:
        return of_statement(context)
    return of_node(context, node)


def of_node(context: Context, node: tree.Node) -> Detail:
    match node:
        case tree.Binary():
            left, right = said(context, node.left), said(context, node.right)
            return detail(f"'{node.operator}' is between {left} and {right}", advice(context, node), at=node.start)
        case tree.Unary():
            return detail(f"'{node.operator}' is before {said(context, node.operand)}", at=node.start)
        case tree.Ternary():
            return detail(f"the condition of '?' is {said(context, node.condition)}, and not a truth value", at=node.condition.start)
        case tree.Index():
            return of_index(context, node)
        case tree.Dictionary():
            keys = [key for key, _ in node.pairs if (value := context.value(key)) is not None and value.kind != "text"]
            what = f"a key is {said(context, keys[0])}, and no text" if keys else "its keys are not all texts"
            return detail(f"a dictionary: {what}", at=keys[0].start if keys else node.start)
        case tree.Text():
            why = f"in the text {quoted(node.value)} a name between '@' is no text, integer or truth value"
            return detail(f"{why}: {names_in(node)}", at=node.start)
        case tree.Number():
            return detail(f"the number {quoted(context.place.source(node))} needs more than 128 bits", at=node.start)
        case tree.Call():
            return of_call(context, node)
    return detail(f"{quoted(context.place.source(node))} can't be used here", at=node.start)


def advice(context: Context, node: tree.Binary) -> str:
    """Returns how two types are brought together."""
    left, right = context.value(node.left), context.value(node.right)
    if left is None or right is None:
        return ""
    kinds = {left.kind, right.kind}
    if node.operator in ("/", "%") and right.kind == "integer" and right.text == "0":
        return "the divisor is zero"
    if node.operator in ("and", "or"):
        wrong = left if left.kind != "truth value" else right
        return f"both sides have to be truth values: {wrong.shown()} is not; for a text write != '', for a list .length() > 0"
    if kinds == {"text", "integer"} and node.operator == "+":
        return "write .to_string() after the integer, or .to_int() after the text"
    if context.fault.number == 7:
        return "the result needs more than 128 bits"
    return f"'{node.operator}' doesn't take these two types" if left.kind != right.kind else f"'{node.operator}' doesn't take this type"


def names_in(node: tree.Text) -> str:
    """Says what is in an f-string."""
    return ", ".join(re.findall(r"@([A-Za-z_]\w*)@", node.value))


def of_index(context: Context, node: tree.Index) -> Detail:
    receiver, index = context.value(node.receiver), context.value(node.index)
    if receiver is None or index is None:
        return detail(f"{quoted(context.place.source(node))} is not there", at=node.start)
    if context.fault.number == 10:
        return detail(no_item(context, receiver, node.receiver, index), at=node.index.start)
    why = f"{receiver.shown()} doesn't take {index.shown()} as an index"
    return detail(f"{why}: a list and a text take an integer, a dictionary a text", at=node.index.start)


# What says how many items an object has, and of which names it has values, as a list.
LENGTHS = {"list": "length()", "list of files": "length()", "custom target": "to_list().length()"}
NAMES = {"configuration data object": "keys()", "dictionary": "keys()"}


def no_item(context: Context, receiver: Value, node: tree.Node, index: Value) -> str:
    """Explains E10: an index or a key that does not exist, with the length or the nearest key."""
    if receiver.kind in NAMES:
        known = [it.text for it in flat(context.probe.asked_of(node, NAMES[receiver.kind]) or Value("list"))]
        what = receiver.kind.removesuffix(" object")
        return f"the {what} has no key {quoted(index.text)}{near(index.text, known)}"
    return f"the index {index.text} is out of range of {receiver.shown()}{length_of(context, receiver, node)}"


def length_of(context: Context, value: Value, node: tree.Node) -> str:
    """Returns how long a value is, as the end of a sentence."""
    length = str(len(value.text if value.kind == TEXT else value.items))
    if value.kind in LENGTHS and not value.text:
        found = context.probe.asked_of(node, LENGTHS[value.kind])
        if found is None:
            return ""
        length = found.text
    return f", whose length is {length}"


def of_call(context: Context, call: tree.Call) -> Detail:
    if context.fault.number == 6:
        return detail(f"{call.name}: it returns nothing, and a value is needed here", at=call.start)
    receiver = context.value(call.receiver) if call.receiver is not None else None
    first = context.value(call.arguments[0]) if call.arguments else None
    if receiver is None or call.receiver is None:
        values = ", ".join(said(context, it) for it in call.arguments)
        return detail(f"{call.name}: a number is out of range: {values}", at=call.start)
    if context.fault.number == 7:
        return detail(f"{call.name}: the number of {receiver.shown()} is out of range", at=call.name_start)
    if first is None or call.name == "format":
        asked = next((it for it in re.findall(r"@(\d+)@", receiver.text) if int(it) >= len(call.arguments)), "")
        why = f"'@{asked}@' in {receiver.shown()}, and the number of values, counted from 0, is {len(call.arguments)}"
        return detail(f"{call.name}: {why}", at=call.name_start)
    return detail(f"{call.name}: {no_item(context, receiver, call.receiver, first)}", at=call.name_start)


def of_statement(context: Context) -> Detail:
    statement = context.place.statement
    match statement:
        case tree.If():
            on_line = [it for it in statement.branches if it.condition and context.place.line_of(it.start) == context.place.line]
            for branch in on_line or [it for it in statement.branches if it.condition]:
                if branch.condition:
                    what = said(context, branch.condition)
                    way = "say .enabled()" if what.startswith("a feature option") else "for a text write != '', for a list .length() > 0"
                    return detail(f"the condition is {what}, and not a truth value: {way}", at=branch.condition.start)
        case tree.Foreach():
            names = "with two names it takes a dictionary" if len(statement.names) == 2 else "with one name it takes a list"
            return detail(f"foreach: {names}, and this is {said(context, statement.items)}", at=statement.items.start)
        case tree.Assignment() if statement.operator == "+=":
            name = tree.Name(statement.start, statement.start + len(statement.name), statement.name)
            before = context.probe.variable(statement.name) if context.probe.can_ask else None
            return detail(f"'+=' is between {shown(before, statement.name)} and {said(context, statement.value)}", at=name.start)
        case tree.Assignment() | tree.Expression() if isinstance(tree.plain(statement.value), tree.Call):
            call = tree.plain(statement.value)
            assert isinstance(call, tree.Call)
            if call.name in GIVE_NOTHING:
                return detail(f"{call.name}: it returns nothing, and a value is needed here", at=call.start)
    first = statement.expressions()
    return detail(f"the refused part is in {quoted(context.place.source(statement))}", at=first[0].start if first else statement.start)
