"""Replaces generators: each input gets a custom target."""
from __future__ import annotations

import os
import re
from collections.abc import Iterator

from tools.porting import tree
from tools.porting.edits import Change
from tools.porting.lexer import escaped
from tools.porting.project import Project, Site
from tools.porting.rule import (assigned_name, before_statement, can_hoist, free_name, identifier, in_place_of_statement, replaced,
                                texts_at)
from tools.porting.values import Many, Thing, choices_of, flat, kind_of

PLACEHOLDER = re.compile("@[A-Z_]+@")
# Those that mean the same in a custom target of one input.
OF_TARGETS = {"@INPUT@", "@OUTPUT@", "@BASENAME@", "@PLAINNAME@", "@DEPFILE@"}


def generators(project: Project) -> Iterator[Change]:
    """`gen.process(files)`: a custom target for each file."""
    for site in project.methods("process"):
        receiver = tree.plain(site.call.receiver) if site.call.receiver else None
        makers = choices_of(project.known.value(receiver)) if receiver else ()
        if not makers or not all(isinstance(it, Thing) and it.kind == "generator" and it.call for it in makers) or not can_hoist(site):
            continue
        change = processed(project, site, makers[0]) if len(makers) == 1 else of_several(project, receiver, makers)
        if change is not None:
            yield change
    for site in project.functions("generator"):
        name = assigned_name(site)
        if name and not any(name in tree.names_in(it) for file in project.entered
                            for statement in file.statements for it in statement.expressions()):
            yield site.change("a generator of no use is dropped", in_place_of_statement(site.file, site.statement, []))


def of_several(project: Project, receiver: tree.Node | None, makers: tuple[Thing, ...]) -> Change | None:
    """Turns each of several generators that one variable may have into the words of its command."""
    sites = [it for it in project.functions("generator") if any(it.call is maker.call for maker in makers)]
    outputs = [texts_at(project, it.call.keywords["output"].value) if "output" in it.call.keywords else None for it in sites]
    words = [texts_at(project, it.call.keywords["arguments"].value) if "arguments" in it.call.keywords else None for it in sites]
    is_alike = all(it == outputs[0] for it in outputs) and all(set(it.call.keywords) == {"output", "arguments"} for it in sites)
    if not isinstance(receiver, tree.Name) or outputs[0] is None or not is_alike or any(it is None or "@EXTRA_ARGS@" in it for it in words):
        return None
    if len(sites) != len(makers) or any(assigned_name(it) != receiver.text for it in sites):
        return None
    uses = [it for it in project.methods("process") if isinstance(it.call.receiver, tree.Name) and it.call.receiver.text == receiver.text]
    edits = []
    for use in uses:
        change = processed(project, use, makers[0], receiver.text) if can_hoist(use) else None
        if change is None or set(choices_of(project.known.value(use.call.receiver))) != set(makers):
            return None
        edits += change.edits
    for site, texts in zip(sites, words):
        command = command_of(site, site.file.source(site.call.arguments[0]), texts or [], None)
        edits += site.change("", replaced(site, site.call, command)).edits
    change = sites[0].change("generator: one of several becomes the arguments of its command, and a custom_target for each input")
    change.edits += edits
    return change


def processed(project: Project, site: Site, maker: Thing, command: str = "") -> Change | None:
    """Returns a `process` as a loop over its inputs; the arguments of its command are in a variable, or in the targets."""
    if maker.call is None or not maker.call.arguments or set(site.call.keywords) - {"extra_args"}:
        return None
    made = maker.call.keywords
    outputs, texts = (texts_at(project, made[it].value) if it in made else None for it in ("output", "arguments"))
    inputs = inputs_of(project, site)
    if texts is None and not command:
        command = kept_command(project, site, maker)
    if outputs is None or (texts is None and not command) or not inputs:
        return None
    statement = site.statement
    is_all = isinstance(statement, tree.Assignment) and tree.plain(statement.value) is site.call
    name = statement.name if is_all else free_name(project, "generated")
    lines = [*([] if is_all and statement.operator == "+=" else [f"{name} = []"]),
             f"foreach input : [{', '.join(inputs)}]",
             f"  {name} += {one_target(project, site, maker, name, outputs, command or texts or [])}", "endforeach"]
    what = "generator: a custom_target for each input"
    if is_all:
        return site.change(what, in_place_of_statement(site.file, statement, lines))
    return site.change(what, before_statement(site, lines), replaced(site, site.call, name))


def kept_command(project: Project, site: Site, maker: Thing) -> str:
    """Returns the command of a generator with its arguments as they are written; empty if they mean something else in a custom target."""
    word = maker.call.keywords.get("arguments") if maker.call else None
    if maker.call is None or word is None or maker.path != site.file.path:
        return ""
    names = project.known.things[site.call][-1].names
    texts = [it.value for it in flat(project.known.placed(word.value))]
    is_alike = all(isinstance(it, str) and OF_TARGETS.issuperset(PLACEHOLDER.findall(it)) for it in texts)
    is_same = all(it in names and names[it] is maker.names.get(it) for it in tree.names_in(maker.call))
    return f"[{site.file.source(maker.call.arguments[0])}, {site.file.source(word.value)}]" if is_alike and is_same else ""


def one_target(project: Project, site: Site, maker: Thing, name: str, outputs: list[str], texts: list[str] | str) -> str:
    """Returns the target of one input, which the variable `input` names."""
    file, made = project.files[maker.path], maker.call.keywords
    shown = [escaped(re.sub("@BUILD_DIR@/?", "", it)) for it in outputs]
    output = shown[0] if len(shown) == 1 else f"[{', '.join(shown)}]"
    extra = site.call.keywords.get("extra_args")
    command = texts if isinstance(texts, str) else command_of(site, file.source(maker.call.arguments[0]), texts, extra)
    kept = "".join(f", {file.source(made[it])}" for it in ("depfile", "capture", "depends") if it in made)
    title = f"{escaped(identifier(name) + '-')} + input.underscorify()"
    return f"custom_target({title}, input: input, output: {output}, command: {command}{kept})"


def inputs_of(project: Project, site: Site) -> list[str] | None:
    """Returns the inputs that a generator is given, as expressions in the folder of the call; None if one is not known.

    A path of which only the kind is known stays as it is written.
    """
    found: list[str] = []
    for node in site.call.arguments:
        plain = tree.plain(node)
        for it in plain.items if isinstance(plain, tree.List) else [node]:
            shown = paths_at(project, site, it)
            if shown is None:
                return None
            found += shown
    return found


def paths_at(project: Project, site: Site, node: tree.Node) -> list[str] | None:
    """Returns the paths that one argument names, as expressions; of a variable's list an item each."""
    value, source = project.known.value(node), site.file.source(node)
    names = [input_name(site, it.value) if it.is_sure else None for it in flat(value)]
    if None not in names:
        return [escaped(os.path.relpath(str(it), site.folder or ".")) for it in names]
    if kind_of(value) == "text":
        return [source]
    is_list = isinstance(value, Many) and value.is_exact and all(kind_of(it.value) == "text" for it in value.items)
    if is_list and isinstance(node, tree.Name):
        return [f"{source}[{number}]" for number in range(len(value.items))]
    return None


def input_name(site: Site, value: object) -> str | None:
    """Returns the path of an input from the project's folder."""
    if isinstance(value, str):
        return os.path.join(site.folder, value)
    return value.path if isinstance(value, Thing) and value.kind == "file" and value.function == "files" else None


def command_of(site: Site, program: str, texts: list[str], extra: tree.Keyword | None) -> str:
    parts = [program]
    for text in texts:
        if text == "@EXTRA_ARGS@":
            parts += [site.file.source(extra.value)] if extra else []
        else:
            text = text.replace("@BUILD_DIR@", "@OUTDIR@")
            parts.append(escaped(text.replace("@SOURCE_DIR@", "@SOURCE_ROOT@")))
    return f"[{', '.join(parts)}]"
