"""Explains E12, E13, E18, E20 and E24: calls that are refused where they are: folders, `project`, `assert`, changes that come too late."""
from __future__ import annotations

import os

from tools.explaining.context import Context
from tools.explaining.detail import Detail, detail, quoted
from tools.explaining.duplicates import TARGETS, outputs_of
from tools.files import DEFINITION, read_text
from tools.porting import tree
from tools.porting.lexer import line_at


def open_text(context: Context, path: str) -> str:
    return read_text(os.path.join(context.asked.root, path), DEFINITION)


def folder(context: Context) -> Detail:
    """Explains E12."""
    call = next((it for it in context.place.calls() if it.name == "subdir"), None)
    name = context.text_of(call.arguments[0]) if call and call.arguments else None
    if call is None or name is None:
        return detail("subdir: this folder can't be entered", at=context.place.statement.start)
    if not name:
        why = "the name is empty"
    elif name.startswith("/"):
        why = "the name is absolute: a folder is named relative to the present one"
    elif ".." in name.split("/"):
        why = "the name has a part '..': call subdir from the folder above"
    else:
        why = "the folder was entered before, and each is entered once (the root is from the beginning)"
    return detail(f"subdir: {quoted(name)}: {why}", at=call.arguments[0].start)


def project_call(context: Context) -> Detail:
    """Explains E13."""
    first = context.place.body[0] if context.fault.file == "meson.build" else None
    if context.place.statement is not first:
        return detail("project: it is called only once, as the first statement of the root's meson.build", at=context.place.statement.start)
    value = first.value if isinstance(first, tree.Expression) else None
    if not isinstance(value, tree.Call) or value.name != "project" or value.receiver is not None:
        source = context.place.source(first).splitlines()[0]
        return detail(f"the first statement has to be project(NAME, 'c'), and is {quoted(source)}", at=first.start)
    for node in tree.inside(value):
        if isinstance(node, tree.Call) and node is not value:
            return detail(f"project: its arguments may call no function and ask nothing, and {quoted(node.name)} is called", at=node.start)
    return detail("project: no language is named: write project(NAME, 'c')", at=value.start)


def own_words(context: Context) -> Detail:
    """Explains E18."""
    call = next((it for it in context.place.calls() if it.name in ("assert", "error")), None)
    if call is None or not call.arguments:
        return detail("the project itself ends the run", at=context.place.statement.start)
    if call.name == "error":
        return detail("error: the project itself ends the run, with this message", at=call.start)
    condition = call.arguments[0]
    return detail(f"assert: the project itself ends the run: {quoted(context.place.source(condition))} is not true", at=condition.start)


def frozen(context: Context) -> Detail:
    """Explains E20."""
    call = context.call()
    name = context.place.source(call.receiver) if call and call.receiver else "the data"
    uses = [(path, node) for path, statement in context.statements() for root in statement.expressions()
            for node in tree.inside(root)
            if isinstance(node, tree.Call) and node.name == "configure_file" and "configuration" in node.keywords
            and name in tree.names_in(node.keywords["configuration"].value)]
    where = f", at {uses[0][0]}:{line_at(open_text(context, uses[0][0]), uses[0][1].start)}" if uses else ""
    what = call.name if call else "a change"
    return detail(f"{what}: a file was made from {quoted(name)} before{where}, so it can't be changed any more",
                  "set all values before configure_file, or change a copy: 'more = data' makes one", at=call.start if call else None)


def too_late(context: Context) -> Detail:
    """Explains E24: the reported target, which was declared before, and where."""
    call = next((it for it in context.place.calls() if it.name.startswith("add_project")), None)
    what, name, move = call.name if call else "add_project_arguments", context.told.target or "", "move it before the first target"
    at = call.start if call else None
    for path, statement in context.statements():
        for root in statement.expressions():
            for node in tree.inside(root):
                if isinstance(node, tree.Call) and node.receiver is None and node.name in TARGETS and name in outputs_of(node):
                    where = f"{path}:{line_at(open_text(context, path), node.start)}"
                    return detail(f"{what}: it comes after {node.name} {quoted(name)} of {where}", move, at=at)
    return detail(f"{what}: the target {quoted(name)} was declared before", move, at=at)
