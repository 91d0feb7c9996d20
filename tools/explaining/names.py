"""Explains E5, E8, E14, E17 and E23: names that are not there, or that are left out."""
from __future__ import annotations

import difflib
import os

from tools.explaining.context import Context
from tools.explaining.detail import Detail, detail, listed, near, quoted
from tools.explaining.replacements import in_its_place
from tools.explaining.rows import FUNCTIONS, METHODS, METHODS_OF, methods_of
from tools.explaining.settings import declared
from tools.explaining.values import flat
from tools.porting import tree, unsupported


def named_call(context: Context, name: str) -> tree.Call | None:
    found = [it for it in context.place.calls() if it.name == name]
    return found[0] if found else None


def undefined(context: Context) -> Detail:
    """Explains E5."""
    name, present = context.fault.name, context.place.statement
    at = next((it.start for root in present.expressions() for it in tree.inside(root) if is_named(it, name)), None)
    if isinstance(present, tree.Assignment) and present.operator == "+=" and present.name == name:
        at = present.start
    elsewhere = {it for path, statement in context.statements() for it in tree.names_set_by(statement)
                 if (path, statement.start) != (context.fault.file, present.start)}
    where = (" at this point, though a file of the project sets it: in a branch that was not taken, later, or before unset_variable"
             if name in elsewhere else "")
    return detail(f"the name {quoted(name)} has no value{where}{near(name, [*context.names(), 'true', 'false'])}",
                  meant_by(context, name), at=at)


def meant_by(context: Context, name: str) -> str:
    """Says what else has a name that no variable has."""
    if name.lower() in ("none", "null", "nil"):
        return "there is no such value: '', [] or {} is an empty one"
    if name in FUNCTIONS:
        return f"it is a function, which is called: '{name}(..)'"
    if name in methods_of("meson object"):
        return f"it is a method: 'meson.{name}()'"
    return f"it is an option, whose value is get_option('{name}')" if name in declared(context.asked.root) else ""


def is_named(node: tree.Node, name: str) -> bool:
    """Returns whether a node asks for a variable: by its name, or in a text."""
    if isinstance(node, tree.Text):
        return node.has_names and f"@{name}@" in node.value
    if isinstance(node, tree.Call) and node.name in ("get_variable", "unset_variable") and node.arguments:
        first = node.arguments[0]
        return isinstance(first, tree.Text) and first.value == name
    return isinstance(node, tree.Name) and node.text == name


def unknown(context: Context) -> Detail:
    """Explains E8."""
    name = context.fault.name
    call = named_call(context, name)
    if call is not None and call.receiver is not None:
        value = context.value(call.receiver)
        known = methods_of(value.kind) if value else []
        of_what = f"{value.shown()} has no method" if value else "there is no method"
        takes = f"; it has {', '.join(known)}" if known and len(known) < 12 else ""
        others = [kind for kind, text in METHODS_OF.items() if name in text.split()]
        told = f"it is a method of: {', '.join(others)}" if others else in_its_place("Methods", name)
        return detail(f"{of_what} {quoted(name)}{near(name, known or METHODS)}{takes}", told, at=call.name_start)
    told = in_its_place("Functions", name, unsupported.FUNCTIONS.get(name, ""))
    return detail(f"there is no function {quoted(name)}{near(name, FUNCTIONS)}", told, at=call.start if call else None)


def missing_file(context: Context) -> Detail:
    """Explains E14."""
    path = context.fault.name
    folder, name = os.path.split(path)
    place = os.path.join(context.asked.root, folder)
    if not os.path.isdir(place):
        return detail(f"there is no file {quoted(path)}: there is no folder {quoted(folder)}", at=text_at(context, path))
    found = difflib.get_close_matches(name, os.listdir(place), 1, 0.6)
    told = f"; near: {quoted(os.path.join(folder, found[0]))}" if found else ""
    what = "is a folder, not a file" if os.path.isdir(os.path.join(place, name)) else "is not there"
    return detail(f"the file {quoted(path)} {what}{told}", at=text_at(context, path))


def text_at(context: Context, path: str) -> int | None:
    """Returns the text of the statement that names a path."""
    for root in context.place.statement.expressions():
        for node in tree.inside(root):
            if isinstance(node, tree.Text) and node.value:
                named = os.path.normpath(os.path.join(context.folder, node.value))
                if path in (named, os.path.join(named, "meson.build")):
                    return node.start
    return None


def not_found(context: Context) -> Detail:
    """Explains E17."""
    call = context.call()
    if call is None:
        return detail(f"{quoted(context.fault.name)} is required and not found", at=context.place.statement.start)
    values = [context.value(it) for it in call.arguments]
    names = [it.text for value in values if value for it in flat(value)] or [context.fault.name]
    if call.name == "dependency":
        why, line = no_dependency(context, call, names), f"a section [dependency {names[0]}]"
    elif call.name == "find_program":
        these = "this name" if len(names) == 1 else "these names"
        why = f"the machine file has no key of {these} in [binaries], and there is no file of {these} in the folder"
        line = f"'{names[0]} = PATH' in [binaries]"
    else:
        key = " ".join([call.name, *names])
        why = f"the machine file doesn't answer true to {quoted(key)} in [checks]"
        line = f"'{key} = true' in [checks]"
        names = [" ".join(names)]
    what = f"{quoted(names[0])} is" if len(names) == 1 else f"one of {listed(map(quoted, names))} is"
    given = "" if context.asked.machine is not None else "; no machine file is given (--native-file)"
    told = f"if this machine has it, the machine file has to have {line}: `meson machine-file` writes what it finds"
    return detail(f"{call.name}: {what} required and not found: {why}{given}", told, at=call.start)


def no_dependency(context: Context, call: tree.Call, names: list[str]) -> str:
    """Returns what the machine file says of each name; if it has one, its version doesn't fit."""
    wanted = context.value(call.keywords["version"].value) if "version" in call.keywords else None
    wants = f", and 'version' asks for {listed(quoted(it.text) for it in flat(wanted))}" if wanted else ""
    found = {it: context.answer(f"dependency {it}") for it in names}
    has = [f"[dependency {name}] of version {quoted(str(it.get('version', '')))}" for name, it in found.items() if it is not None]
    lacks = [f"no section [dependency {name}]" for name, it in found.items() if it is None]
    return f"the machine file has {' and '.join([*has, *lacks])}{wants if has else ''}"


def left_out(context: Context) -> Detail:
    """Explains E23: a function, a method, a keyword, a language or a value, as the program reports it."""
    told, calls = context.told, context.place.calls()
    if told.keyword is not None:
        return left_keyword(context, told.keyword)
    if told.name is None:
        return of_project(context, next((it for it in calls if it.name == "project"), None))
    name = told.name
    call = next((it for it in calls[::-1] if it.name == name), None)
    if call is not None and call.receiver is not None:
        instead = in_its_place("Methods", name, next((it[name] for it in unsupported.METHODS.values() if name in it), ""))
        return detail(f"the method {quoted(name)} is left out", instead, at=call.name_start)
    first = call.arguments[0] if call is not None and call.arguments else None
    module = first.value if name == "import" and isinstance(first, tree.Text) else None
    instead = in_its_place("Functions", f"import('{module}')" if module else name) or in_its_place(
        "Functions", "import('fs')" if name == "import" else name, unsupported.FUNCTIONS.get(name, ""))
    what = f", and so is the module {quoted(module)}" if module else ""
    return detail(f"the function {quoted(name)} is left out{what}", instead, at=call.start if call else None)


def left_keyword(context: Context, name: str) -> Detail:
    """Explains a keyword that is left out, of the call that has it."""
    calls = [it for it in context.place.calls() if context.told.may_be_of(it)]
    culprit = context.probe.culprit if len(calls) > 1 and context.probe.can_ask else None
    call = culprit if isinstance(culprit, tree.Call) and culprit in calls else calls[-1] if calls else None
    if call is None:
        return detail(context.told.shown, in_its_place("Keywords", name))
    instead = in_its_place("Keywords", name, unsupported.KEYWORDS.get(call.name, {}).get(name, ""))
    return detail(f"{call.name}: {context.told.shown}", instead, at=context.told.words_of(call)[0].start)


def of_project(context: Context, call: tree.Call | None) -> Detail:
    """Explains a language other than C, or a value of an option."""
    told = context.told
    given = call.keywords.get("default_options") if call else None
    if told.option is not None:
        instead = in_its_place("Functions", "default_library=both")
        return detail(f"project: default_options: {told.shown}", instead, at=given.start if given else None)
    for argument in call.arguments[1:] if call else []:
        for node in tree.inside(argument):
            if isinstance(node, tree.Text) and node.value == told.language:
                why = f"project: the language {quoted(node.value)} is left out: only C is built"
                return detail(why, in_its_place("Functions", "add_languages"), at=node.start)
    at = call.start if call else None
    return detail("project: a language other than C is left out", in_its_place("Functions", "add_languages"), at=at)
