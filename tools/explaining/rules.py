"""Explains why calls refuse values of the right kinds: why a reported text doesn't fit, and rules that the program doesn't report."""
from __future__ import annotations

import os
import re

from tools.explaining.context import Context
from tools.explaining.detail import Detail, detail, quoted
from tools.explaining.fault_report import UNSETTABLE
from tools.explaining.values import DICTIONARY, OWN, TEXT, Value, flat
from tools.porting import tree

# What a text has to be, by the words of the program's report.
WHYS = {
    "is no name of a target": "it isn't empty, '.' or '..', has no '/' and begins with no '-'",
    "is no name of a file": "it isn't empty, '.' or '..', and has no '/'",
    "is no source of C": "it ends in neither '.c' nor '.h'",
    "has no source of C": "one of its sources ends in '.c'",
    "is no version of a library": "it is one to three numbers with dots",
    "is no name of a variable": "it has letters, digits and '_', begins with no digit, and is no reserved word",
    "is no name of a value": "it has letters, digits, '_' and '-'",
    "is no name of a man page": "the last digit of its name says the section, as in 'name.1'",
    "is no language that has a compiler": "that is 'c' alone",
    "needs a program that was found": "ask 'found()' first",
    "needs a target with one output": "an output has a path of its own: 't[0].full_path()'",
}


def hint_of(context: Context, call: tree.Call) -> str:
    """Says why a text does not fit the reported form."""
    told = context.told
    if told.so.startswith("names no "):
        return why_no_path(context, told.text or "")
    if told.so == UNSETTABLE:
        return "it is a variable of the program's own" if told.text in OWN else WHYS["is no name of a variable"]
    return WHYS.get(told.so, "")


def why_no_path(context: Context, text: str) -> str:
    if text.startswith("/"):
        return "the path is absolute and outside of the project"
    if os.path.normpath(os.path.join(context.folder, text)).startswith(".."):
        return "the path leaves the project"
    return "the path is that of a folder" if text else "the path is empty"


def place_of_text(context: Context, call: tree.Call, text: str) -> int:
    """Returns the place of the reported text, or of the argument that has it; else that of the call."""
    items = [it.value if isinstance(it, tree.Keyword) else it for it in call.items]
    nodes = [it for item in items for it in tree.inside(item) if isinstance(it, tree.Text)]
    forms = str, lambda it: os.path.normpath(os.path.join(context.folder, it)), os.path.basename
    for form in forms:
        found = next((it for it in nodes if form(it.value) == text), None)
        if found is not None:
            return found.start
    for item in items:
        value = context.value(item)
        if value is not None and any(form(it) == text for it in texts(value) for form in forms):
            return item.start
    return call.start


def value_of_key(context: Context, call: tree.Call, key: str) -> Value | None:
    """Returns the value that a key has in a dictionary among the arguments."""
    for item in call.items:
        value = context.value(item.value if isinstance(item, tree.Keyword) else item)
        found = dict(pairs(value)).get(key) if value else None
        if found is not None:
            return found
    return None


def pairs(value: Value) -> list[tuple[str, Value]]:
    """Returns the keys and values of a dictionary."""
    return [(key.text, it) for key, it in zip(value.items[::2], value.items[1::2])] if value.kind == DICTIONARY else []


def broken_rule(context: Context, call: tree.Call, values: dict[str, Value]) -> Detail | None:
    """Returns the rule of a function or a method that its values break, if the program reports nothing."""
    if call.receiver is not None:
        return of_method(context, call, values)
    for rule in (of_placeholders, of_environment, of_programs):
        why = rule(call, values)
        if why:
            name, text = why
            return detail(f"{call.name}: {text}", at=place_of(call, name))
    return None


def place_of(call: tree.Call, name: str) -> int:
    """Returns where an argument begins."""
    if name in call.keywords:
        return call.keywords[name].value.start
    return call.arguments[int(name) - 1].start if name.isdigit() and int(name) <= len(call.arguments) else call.start


Why = tuple[str, str] | None


def texts(value: Value) -> list[str]:
    return [it.text for it in flat(value) if it.kind == TEXT]


def of_placeholders(call: tree.Call, values: dict[str, Value]) -> Why:
    if call.name != "custom_target" or "command" not in values:
        return None
    counts = {name.upper(): len(flat(values[name])) if name in values else 0 for name in ("input", "output")}
    for text in texts(values["command"]):
        for word, number in re.findall(r"@(INPUT|OUTPUT)(\d*)@", text):
            if number and int(number) >= counts[word]:
                return "command", f"'@{word}{number}@' in {quoted(text)}: there are {counts[word]} (counted from 0)"
            if not number and (counts[word] == 0 or counts[word] > 1 and text != f"@{word}@"):
                needed = "and one is needed inside of an argument"
                why = f"there are {counts[word]}, {needed}" if counts[word] else f"the call has no {word.lower()}"
                return "command", f"'@{word}@' in {quoted(text)}: {why}"
        if "@DEPFILE@" in text and "depfile" not in values:
            return "command", "'@DEPFILE@' needs the keyword 'depfile'"
    for key in ("command", "output", "depfile"):
        for text in texts(values[key]) if key in values else []:
            found = re.search(r"@(PLAINNAME|BASENAME)@", text)
            if found and counts["INPUT"] != 1:
                return key, f"'{found[0]}' in {quoted(text)} is of one input, and there are {counts['INPUT']}"
    return None


def of_programs(call: tree.Call, values: dict[str, Value]) -> Why:
    named = {"command": values.get("command"), "2": values.get("2")} if call.name in ("custom_target", "test") else {}
    for key, value in named.items():
        if value is not None and any(it.kind == "program" for it in flat(value)):
            return key, "a program that it names was not found: the machine file has none of its name"
    if call.name == "test" and "2" in values and values["2"].kind == "library":
        return "2", "argument 2: takes a program, an executable, a custom target or a file, and got a library"
    return None


def of_environment(call: tree.Call, values: dict[str, Value]) -> Why:
    for text in texts(values["env"]) if "env" in values else []:
        if "=" not in text:
            return "env", f"{quoted(text)} is no NAME=VALUE"
    for key, value in pairs(values["env"]) if "env" in values else []:
        if value.kind != TEXT:
            return "env", f"the value of {quoted(key)} is {value.shown()}, and no text"
    return None


def of_method(context: Context, call: tree.Call, values: dict[str, Value]) -> Detail | None:
    receiver = context.value(call.receiver) if call.receiver is not None else None
    if receiver is None:
        return None
    if call.name == "to_int" and receiver.kind == TEXT and not call.arguments:
        return detail(f"to_int: {receiver.shown()} is no number: an optional sign and digits", at=call.start)
    if call.name in ("replace", "split") and "1" in values and values["1"] == Value(TEXT):
        return detail(f"{call.name}: the text that is looked for is empty", at=place_of(call, "1"))
    return None
