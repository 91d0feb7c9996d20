"""Explains E15, and E23 of options: what the program reports of them, at each place that gives an option a value or declares it."""
from __future__ import annotations

import os
import re

from tools.explaining.context import Context, read
from tools.explaining.detail import Detail, detail, listed, near, quoted
from tools.explaining.fault_report import LEFT, MISSING, NONE, TWICE, FaultReport
from tools.explaining.machine import section_at
from tools.explaining.replacements import in_its_place
from tools.explaining.run import Asked, Fault
from tools.files import OPTION_FILES
from tools.porting import tree
from tools.porting.lexer import SyntaxFault
from tools.porting.options import declarations
from tools.porting.parser import parse

BUILT_IN = ("prefix", "bindir", "libdir", "includedir", "datadir", "mandir", "sysconfdir", "buildtype", "debug", "optimization",
            "warning_level", "werror", "c_std", "default_library", "c_args", "c_link_args", "auto_features")
TYPES = ("string", "boolean", "combo", "integer", "array", "feature")
WORDS = ("type", "value", "description", "choices", "min", "max", "yield")
# What the name of a declaration has to be, by the words of the program's report.
WHYS = {
    "is no name of an option": "it has letters, digits, '_' and '-'",
    "is the name of a built-in option": "give yours another one",
    "needs the name of an option": "it is one plain text without a name",
}
# What is said of the option that `get_option` does not find.
ABSENT = "there is no option "


def declared(root: str) -> dict[str, tree.Call]:
    """Returns the options that the project declares."""
    for name in OPTION_FILES:
        text = read(os.path.join(root, name))
        if text is None:
            continue
        try:
            return declarations(parse(text))
        except (SyntaxFault, RecursionError):
            return {}
    return {}


def of_value(asked: Asked, told: FaultReport, before: str = "", at: int | None = None) -> Detail:
    """Says what is reported of an option or its value, after the place that gives it; for a name that no option has, the nearest one."""
    if told.option is not None and told.so == NONE:
        return absent(asked, told.option, before + told.shown, at)
    instead = in_its_place("Functions", "default_library=both") if told.so.endswith(LEFT) else ""
    why = "it is NAME=VALUE" if told.text is not None else ""
    return detail(before + told.shown, instead or why, at=at)


def absent(asked: Asked, name: str, text: str, at: int | None) -> Detail:
    """Explains an option that does not exist: by the nearest name, or by what to write in its place."""
    options = declared(asked.root)
    instead = in_its_place("Options", name) or (in_its_place("Options", "b_") if name.startswith("b_") else "")
    known = f"the options of this project: {listed(options)}" if options and not instead else ""
    return detail(text + (near(name, [*BUILT_IN, *options]) if not instead else ""), instead, known, at=at)


def of_machine(asked: Asked, fault: Fault, told: FaultReport) -> Detail:
    """Returns a line of the machine file."""
    lines = (asked.machine or b"").decode(errors="replace").split("\n")
    section = section_at(lines, fault.line)
    others = {"project options": ("built-in options", BUILT_IN), "built-in options": ("project options", declared(asked.root))}
    other, names = others.get(section or "", ("", ()))
    if told.so == NONE and told.option in names:
        return detail(f"[{section}], {told.shown}: it belongs in the other section, [{other}]")
    return of_value(asked, told, f"[{section}], ")


def of_option_file(asked: Asked, fault: Fault, told: FaultReport, text: str) -> Detail:
    """Returns a statement of the option file."""
    try:
        body = parse(text)
    except (SyntaxFault, RecursionError):
        return detail(told.shown)
    at_line = [it for it in body if text.count("\n", 0, it.start) + 1 == fault.line]
    statement = at_line[0] if at_line else None
    call = statement.value if isinstance(statement, tree.Expression) else None
    if not isinstance(call, tree.Call) or call.name != "option" or call.receiver is not None:
        why = "the option file holds calls of option(NAME, type: ..) and nothing else"
        return detail(told.shown, why, at=statement.start if statement else None)
    return of_option(told, call)


def of_option(told: FaultReport, call: tree.Call) -> Detail:
    """Says what is reported of a call of `option`, which itself gives a default."""
    name = call.arguments[0].value if call.arguments and isinstance(call.arguments[0], tree.Text) else ""
    named = f"option {quoted(name)}: " if name and told.option is None and told.text is None else ""
    words = told.words_of(call)
    if told.keyword is not None and words:
        is_of_value = told.so not in (NONE, LEFT, TWICE)
        hints = hints_of(told, plain_text(words[-1].value))
        return detail(named + told.shown + hints[0], *hints[1:], at=words[-1].value.start if is_of_value else words[-1].start)
    if told.option is not None and told.so != TWICE and "value" in call.keywords:
        return detail(told.shown, at=call.keywords["value"].value.start)
    why = WHYS.get(told.so, "")
    is_of_call = told.so == MISSING or not call.arguments
    return detail(named + told.shown, why, at=call.start if is_of_call else call.arguments[0].start)


def hints_of(told: FaultReport, value: str) -> tuple[str, ...]:
    """Returns the nearest word, which follows what is reported of a keyword of `option`; then lines of what there is."""
    if told.so == NONE:
        return near(told.keyword or "", WORDS), f"option takes {listed(WORDS)}"
    if told.so == LEFT:
        return "", in_its_place("Keywords", told.keyword or "")
    if told.kind == "the name of a type":
        return near(value, TYPES), f"types: {listed(TYPES)}"
    return ("",)


def plain_text(node: tree.Node) -> str:
    return node.value if isinstance(node, tree.Text) else ""


def of_statement(context: Context) -> Detail:
    """Explains a fault of `default_options` of project, or of `get_option`."""
    told = context.told
    calls = [it for it in context.place.calls() if it.receiver is None]
    given = next((it.keywords["default_options"].value for it in calls if "default_options" in it.keywords), None)
    asking = [it for it in calls if it.name == "get_option" and it.arguments]
    if given is not None and not (asking and told.so == NONE):
        return of_value(context.asked, told, "project: default_options: ", place_of(given, told))
    name = told.option or ""
    call = next((it for it in asking if context.text_of(it.arguments[0]) == name), None)
    at = call.arguments[0].start if call else context.place.statement.start
    return absent(context.asked, name, f"get_option: {ABSENT}{quoted(name)}", at)


def place_of(given: tree.Node, told: FaultReport) -> int:
    """Returns where the reported option gets a value: the last place that has its name, and the value that it got."""
    if isinstance(given, tree.Dictionary):
        texts = [(plain_text(key), key) for key, _ in given.pairs]
    else:
        texts = [(it.value.partition("=")[0], it) for it in tree.inside(given) if isinstance(it, tree.Text)]
    fitting = [node for name, node in texts if name == (told.option if told.option is not None else told.text)]
    got = re.search(r", and got '(.*)'$", told.so, re.S)
    exact = [it for it in fitting if got and plain_text(it).partition("=")[2] == got[1]]
    return (exact or fitting or [given])[0].start
