"""Rewrites methods that turn a feature option on or off as statements before the one that has them."""
from __future__ import annotations

import re
from collections.abc import Iterator

from tools.porting import tree
from tools.porting.edits import Change
from tools.porting.lexer import escaped
from tools.porting.options import declared, option_name, with_option
from tools.porting.project import Project, Site
from tools.porting.rule import assigned_name, before_statement, can_hoist, free_name, identifier, in_place_of_statement
from tools.porting.values import kind_of

# Of each method: whether it acts where its condition holds, what the option must not be then, which it acts on, and what that becomes.
METHODS = {"require": (False, "enabled", "", "disabled"), "disable_if": (True, "enabled", "", "disabled"),
           "enable_if": (True, "disabled", "", "enabled"), "disable_auto_if": (True, "", "auto", "disabled"),
           "enable_auto_if": (True, "", "auto", "enabled")}
# The options of a project that are always one of these: the name of each.
FIXED = {"disabled": "feature_off", "enabled": "feature_on"}


def features(project: Project) -> Iterator[Change]:
    for site in project.methods(*METHODS):
        chain = chain_of(site.call)
        base = tree.plain(chain[0].receiver) if chain[0].receiver else None
        if base is None or kind_of(project.known.value(base)) != "feature" or is_inner(site):
            continue
        if not can_hoist(site) or is_in_doubt(site.statement, site.call) or any(not is_plain(it) for it in chain):
            project.doubt(site, f"{site.call.name}: no statement can be put before it")
            continue
        yield spelled_out(project, site, chain, base)
        return  # the names that the next one finds are those with this one


def chain_of(call: tree.Call) -> list[tree.Call]:
    """Returns the calls of these methods upon one another that end with this one, the first first."""
    receiver = tree.plain(call.receiver) if call.receiver else None
    is_more = isinstance(receiver, tree.Call) and receiver.receiver is not None and receiver.name in METHODS
    return [*(chain_of(receiver) if isinstance(receiver, tree.Call) and is_more else []), call]


def is_inner(site: Site) -> bool:
    """Returns whether another of these methods is called upon a call."""
    return any(isinstance(it, tree.Call) and it.name in METHODS and it.receiver is not None and tree.plain(it.receiver) is site.call
               for expression in site.statement.expressions() for it in tree.inside(expression))


def is_plain(call: tree.Call) -> bool:
    return len(call.arguments) == 1 and set(call.keywords) <= {"error_message"}


def is_in_doubt(statement: tree.Statement, call: tree.Call) -> bool:
    """Returns whether a call may be skipped though its statement runs: after `and`, `or` or `?`."""
    for expression in statement.expressions():
        for node in tree.inside(expression):
            behind = [node.right] if isinstance(node, tree.Binary) and node.operator in ("and", "or") else []
            behind += [node.yes, node.no] if isinstance(node, tree.Ternary) else []
            if any(call in set(tree.inside(it)) for it in behind):
                return True
    return False


def spelled_out(project: Project, site: Site, chain: list[tree.Call], base: tree.Node) -> Change:
    source, own = site.file.source(base), assigned_name(site)
    known = [it.value for it in tree.inside(base) if isinstance(it, tree.Text)]
    conditions = {name for it in chain for part in it.items for name in tree.names_in(part)}
    is_own = own is not None and own not in conditions
    name = own if is_own and own else free_name(project, f"{identifier(known[0])}_feature" if known else "feature")
    lines, edits = [f"{name} = {source}"], []
    for call in chain:
        lines += lines_of(project, site, call, name, identifier(known[0]) if known else name)
    for value in dict.fromkeys(METHODS[it.name][3] for it in chain):
        option, description = fixed_option(project, value)
        if declared(project, option) is None:
            edits.append(f"option('{option}', type: 'feature', value: '{value}', description: {escaped(description)})\n")
    made = [in_place_of_statement(site.file, site.statement, lines)] if is_own else [
        before_statement(site, lines), (site.call.start, site.call.end + rest_of_line(site), name)]
    change = site.change(f"{' and '.join(dict.fromkeys(it.name for it in chain))} of a feature option becomes statements", *made)
    if edits:
        change.edits.append(with_option(project, "".join(edits)))
    return change


def rest_of_line(site: Site) -> int:
    """Returns how much of the text after a chain goes on with it in a further line."""
    found = re.match(r"[ \t]*\\?\n[ \t]*(?=\.)", site.file.text[site.call.end:])
    return found.end() if found else 0


def fixed_option(project: Project, value: str) -> tuple[str, str]:
    description = f"A feature that is always {value}"
    return option_name(project, FIXED[value], description), description


def lines_of(project: Project, site: Site, call: tree.Call, name: str, shown: str) -> list[str]:
    is_where, refused, acted_on, becomes = METHODS[call.name]
    node = call.arguments[0]
    text = site.file.source(node)
    is_short = isinstance(tree.plain(node), (tree.Call, tree.Name)) and "\n" not in text
    bracketed = text if is_short or text.startswith("(") and isinstance(node, tree.Group) else f"({text})"
    condition = bracketed if is_where else f"not {bracketed}"
    if acted_on:
        condition = f"{name}.{acted_on}() and {condition}"
    option, _ = fixed_option(project, becomes)
    message = call.keywords.get("error_message")
    said = site.file.source(message.value) if message else escaped(f"{shown} cannot be {refused}")
    check = [f"  if {name}.{refused}()", f"    error({said})", "  endif"] if refused else []
    return [f"if {condition}", *check, f"  {name} = get_option('{option}')", "endif"]
