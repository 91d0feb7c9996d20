"""Explains E9: a call with its arguments, by what the program reports of them, or else by what the call does with them."""
from __future__ import annotations

import re

from tools.explaining.context import Context
from tools.explaining.detail import Detail, detail, listed, near, quoted
from tools.explaining.fault_report import GOT, NONE, UNSETTABLE
from tools.explaining.replacements import in_its_place
from tools.explaining.rows import FUNCTIONS, KINDS, METHODS, PRINTED, TEXTS, Kind
from tools.explaining.rules import broken_rule, hint_of, place_of_text, value_of_key
from tools.explaining.values import OBJECT, OWN, Value
from tools.porting import tree, unsupported

# What is taken and is no kind of values, where what was given says more.
OTHERS = ("'c'", "one file")
# What is reported of more than one argument, and of arguments of commands.
UNPRINTED, FOR_NOTHING = "one can't be printed", " without a value"
# Methods that open the lists that they get, each with what the lists may have.
OPENED = {"format": PRINTED, "join": TEXTS}


def refused(context: Context) -> Detail:
    """Explains E9 at a call, or at an assignment to a name that can't be set."""
    statement = context.place.statement
    if context.told.so == UNSETTABLE and own_name(statement) is not None:
        return detail(f"{context.told.shown}: it is a variable of the program's own", at=statement.start)
    call = call_of(context)
    if call is not None:
        return of_told(context, call) if context.told.whole else of_call(context, call)
    return detail(f"{quoted(context.place.source(statement))}: a value can't be used like this", at=statement.start)


def call_of(context: Context) -> tree.Call | None:
    """Returns the call that is refused: the only one that the report may be about, or else the node at fault."""
    told, calls = context.told, context.place.calls()
    fitting = [it for it in calls if told.may_be_of(it)] if told.whole else []
    if len(fitting) == 1:
        return fitting[0]
    node = context.probe.culprit if context.probe.can_ask else None
    if isinstance(node, tree.Call) and (node in fitting or not fitting):
        return node
    return (fitting or calls or [None])[0]


def own_name(statement: tree.Statement) -> str | None:
    """Returns the variable of the program's own that a statement would set."""
    return next((it for it in tree.names_set_by(statement) if it in OWN), None)


def of_told(context: Context, call: tree.Call) -> Detail:
    """Says what the program reports, at its place in the call, with what the text and the values say of it."""
    told = context.told
    node = told.value_in(call) if told.may_be_of(call) else None
    if told.so == NONE and told.keyword is not None:
        return unknown_keyword(context, call, told.keyword)
    if told.method is not None:
        return of_value(context, call)
    if told.function is not None:
        return detail(f"{call.name}: {told.so}{of_all(context, call)}", hint_of(context, call), at=call.name_start)
    if told.text is not None:
        given = value_of_key(context, call, told.text) if told.kind else None
        text = f"{call.name}: {told.shown}" + (f"{GOT}{given.shown()}" if given else "")
        return detail(text, hint_of(context, call), at=place_of_text(context, call, told.text))
    if told.so == UNPRINTED:
        return unprinted(context, call)
    if node is None:
        return detail(f"{call.name}: {told.shown}", at=place_of_count(call, told.so))
    if told.kind in KINDS or told.kind in OTHERS:
        return detail(f"{call.name}: {told.shown.partition(GOT)[0]}{got(context, context.value(node))}", at=node.start)
    rule = broken_rule(context, call, values_of(context, call)) if told.so.endswith(FOR_NOTHING) else None
    return detail(f"{call.name}: {told.shown}", *(rule.lines if rule else ()), at=rule.at if rule else node.start)


def of_value(context: Context, call: tree.Call) -> Detail:
    """Explains the refusal of a method: the rule that the value breaks or the text that it got, or else what it takes, and what it got."""
    rule = broken_rule(context, call, values_of(context, call))
    if rule is not None:
        return rule
    kind = OPENED.get(call.name)
    for node in call.arguments if kind else ():
        value = context.value(node)
        misfit = misfit_of(kind, value) if kind and value is not None else ""
        if misfit:
            return detail(f"{context.told.shown.partition(GOT)[0]}{GOT}{misfit}", at=node.start)
    given = of_all(context, call) or "".join(context.told.shown.partition(GOT)[1:])
    return detail(f"{context.told.shown.partition(GOT)[0]}{given}", at=call.name_start)


def of_all(context: Context, call: tree.Call) -> str:
    """Returns what a call got, if all of it is known."""
    values = [context.value(it) for it in call.arguments]
    return GOT + listed(it.shown() for it in values if it) if values and None not in values else ""


def unprinted(context: Context, call: tree.Call) -> Detail:
    """Returns the first argument that has no printed text."""
    for number, node in enumerate(call.arguments, 1):
        value = context.value(node)
        misfit = misfit_of(PRINTED, value) if value is not None else ""
        if misfit:
            return detail(f"{call.name}: {context.told.shown}: argument {number} is {misfit}", f"it prints {PRINTED.words}", at=node.start)
    return detail(f"{call.name}: {context.told.shown}", f"it prints {PRINTED.words}", at=call.start)


def values_of(context: Context, call: tree.Call) -> dict[str, Value]:
    """Returns the values of the arguments that are known, by their names and numbers."""
    found = {name: context.value(item) for name, _, item in items_of(call)}
    return {name: it for name, it in found.items() if it is not None}


def got(context: Context, value: Value | None) -> str:
    """Says what was given instead of the required kind: the value itself if it is known, or what the program reports of it."""
    told = context.told
    kind = KINDS.get(told.kind or "")
    found = (misfit_of(kind, value) if kind else value.shown()) if value is not None and value.kind != OBJECT else ""
    return GOT + found if found else "".join(told.shown.partition(GOT)[1:])


def unknown_keyword(context: Context, call: tree.Call, name: str) -> Detail:
    known = (FUNCTIONS if call.receiver is None else METHODS).get(call.name, ())
    takes = f"{call.name} takes {listed(known)}" if known else f"{call.name} takes no keywords"
    instead = in_its_place("Keywords", name, unsupported.KEYWORDS.get(call.name, {}).get(name, ""))
    return detail(f"{call.name}: {context.told.shown}{near(name, known)}", instead or takes, at=context.told.words_of(call)[0].start)


def place_of_count(call: tree.Call, so: str) -> int:
    """Returns where the superfluous arguments begin; for other counts, and for a missing keyword, the place of the call."""
    most = re.fullmatch(r"takes (\d+), and got more", so)
    return call.arguments[int(most[1])].start if most and int(most[1]) < len(call.arguments) else call.start


def of_call(context: Context, call: tree.Call) -> Detail:
    """Explains a call of which the program reports nothing: by the rules of the call, else by what each argument is."""
    values = {name: context.value(item) for name, _, item in items_of(call)}
    rule = broken_rule(context, call, values_of(context, call))
    if rule is not None:
        return rule
    dropped = context.probe.without(call) if context.probe.can_ask else None
    if dropped is not None:
        value = values.get(dropped.name)
        given = value.shown() if value else quoted(context.place.source(dropped.value))
        return detail(f"{call.name}: keyword {quoted(dropped.name)}: can't be {given}", at=dropped.start)
    return all_values(context, call, values)


def misfit_of(kind: Kind, value: Value) -> str:
    found = kind.misfit(value)
    if found is None:
        return ""
    return found.shown() if found is value else f"{found.shown()} inside of {value.shown()}"


def items_of(call: tree.Call) -> list[tuple[str, int | None, tree.Node]]:
    """Returns the arguments, each with a name of its own, its number, and its value."""
    plain = [(str(number + 1), number, it) for number, it in enumerate(call.arguments)]
    return [*plain, *((name, None, word.value) for name, word in call.keywords.items())]


def name_of(name: str, number: int | None) -> str:
    return f"keyword {quoted(name)}" if number is None else f"argument {name}"


def all_values(context: Context, call: tree.Call, values: dict[str, Value | None]) -> Detail:
    """Says what the call was given, if no rule is known that says more."""
    on = f" of {value.shown()}" if call.receiver is not None and (value := context.value(call.receiver)) else ""
    given = [f"{name_of(name, number)} is {value.shown()}" for name, number, _ in items_of(call) if (value := values.get(name))]
    return detail(f"{call.name}{on}: it can't use what it got: {listed(given) or 'nothing'}", at=call.start)
