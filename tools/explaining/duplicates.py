"""Explains E11: a keyword, a key, an output or a source twice."""
from __future__ import annotations

import os

from tools.explaining.context import Context
from tools.explaining.detail import Detail, detail, listed, quoted
from tools.explaining.values import TEXT, flat
from tools.porting import tree

TARGETS = ("executable", "static_library", "shared_library", "library")
MAKERS = (*TARGETS, "custom_target", "configure_file")
# The files of a library of a name.
FILES = {"static_library": ("lib{}.a",), "shared_library": ("lib{}.so",), "library": ("lib{}.a", "lib{}.so")}
RESERVED = ("all", "build.ninja", "meson-info/introspect.json")


def duplicate(context: Context) -> Detail:
    """Explains E11: a keyword, a key or an output twice."""
    nodes = [node for root in context.place.statement.expressions() for node in tree.inside(root)]
    calls = [it for it in nodes if isinstance(it, tree.Call) and context.told.may_be_of(it)] if context.told.keyword is not None else []
    if calls:
        first, second = context.told.words_of(calls[0])[:2]
        why = f"in line {context.place.line_of(first.start)} before"
        return detail(f"{calls[0].name}: {context.told.shown}: {why}", at=second.start)
    if context.told.entry is not None:
        return key_twice(context, [it for it in nodes if isinstance(it, tree.Dictionary)])
    call = context.call()
    return made_twice(context, call) if call else detail("this line has something twice", at=context.place.statement.start)


def key_twice(context: Context, dictionaries: list[tree.Dictionary]) -> Detail:
    """Says at which second place a dictionary has the reported key."""
    for node in dictionaries:
        found = [key for key, _ in node.pairs if context.text_of(key) == context.told.entry]
        if len(found) > 1:
            first = context.place.line_of(found[0].start)
            return detail(f"a dictionary: {context.told.shown}: in line {first} before", at=found[1].start)
    return detail(f"a dictionary: {context.told.shown}", at=(dictionaries or [context.place.statement])[0].start)


def named_by(call: tree.Call) -> tree.Node | None:
    """Returns what says the names of the outputs of a call."""
    return call.keywords["output"].value if "output" in call.keywords else call.arguments[0] if call.arguments else None


def outputs_of(call: tree.Call) -> list[str]:
    """Returns the names that a call makes and that are written in it."""
    node = named_by(call)
    return [it.value for it in tree.inside(node) if isinstance(it, tree.Text)] if node is not None else []


def are_one(left: set[str], right: set[str]) -> bool:
    """Returns whether a file is made twice. The links of a shared library have numbers after its name."""
    return any(a == b or a.startswith(b + ".") and b.endswith(".so") or b.startswith(a + ".") and a.endswith(".so")
               for a in left for b in right)


def files_of(maker: str, name: str) -> set[str]:
    """Returns the files that a target of a name is, or an output of this name."""
    return {it.format(name) for it in FILES.get(maker, ("{}",))}


def made_twice(context: Context, call: tree.Call) -> Detail:
    """Explains a target or a file that makes what another one makes, or the same twice: the path that the program reports."""
    path = context.told.output or ""
    if path in RESERVED:
        return detail(f"{call.name}: {quoted(path)} is a name of build.ninja's own", at=call.start)
    node = named_by(call)
    value = context.value(node) if node is not None else None
    names = [it.text for it in flat(value) if it.kind == TEXT] if value else outputs_of(call)
    own = [it for it in names if os.path.normpath(os.path.join(context.folder, it)) == path]
    if len(own) > 1:
        return detail(f"{call.name}: {quoted(own[0])} is twice among its outputs", at=call.start)
    where = made_before(context, call, node, names) if names else ""
    if where:
        made = ", ".join(map(quoted, own or names))
        told = "give it another name, or declare it in another folder"
        return detail(f"{call.name}: {made} is already made, {where}", told, at=call.start)
    sources = [it.text for argument in call.arguments[1:] if (found := context.value(argument)) for it in flat(found) if it.kind == TEXT]
    alike = [it for it in sources if sum(other.replace("/", "_") == it.replace("/", "_") for other in sources) > 1]
    if call.name in TARGETS and alike:
        why = f"the sources {listed(map(quoted, alike))} have one object file, since '/' becomes '_' in its name"
        return detail(f"{call.name}: {why}", at=call.start)
    return detail(f"{call.name}: {context.told.shown}",
                  "two sources whose paths differ only in '/' and '_' have one object; a library has its links, too", at=call.start)


def made_before(context: Context, call: tree.Call, node: tree.Node | None, names: list[str]) -> str:
    """Says which other call makes the names; nothing if that isn't known. All calls that make files of a folder are in one file."""
    makers = [(statement, other, output) for statement in tree.statements_in(context.place.body) for root in statement.expressions()
              for other in tree.inside(root) if isinstance(other, tree.Call) and other.receiver is None and other.name in MAKERS
              and (output := named_by(other)) is not None]
    told = context.probe.told([(statement, output) for statement, _, output in makers]) if context.probe.can_ask else []
    own = [number for number, (it, _) in enumerate(told) if it is node][-len(names):]
    before = [it for number, it in enumerate(told) if number not in own] or [
        (output, text) for statement, other, output in makers if statement.start < context.place.statement.start
        for text in outputs_of(other)]
    maker_of = {id(output): other for _, other, output in makers}
    files = {file for it in names for file in files_of(call.name, it)}
    other = next((maker_of[id(it)] for it, text in before if are_one(files_of(maker_of[id(it)].name, text), files)), None)
    rounds = [text for it, text in before if it is node]
    if other is call:
        return f"in round {rounds.index(names[0]) + 1} of this loop" if names[0] in rounds else "in an earlier round of this loop"
    return f"by {other.name} at {context.fault.file}:{context.place.line_of(other.start)}" if other is not None else ""
