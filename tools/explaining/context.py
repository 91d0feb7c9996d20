"""Holds the input of an explanation."""
from __future__ import annotations

import json
import os
import re
from collections.abc import Iterator

from tools import records as dataclasses
from tools.explaining.fault_report import FaultReport
from tools.explaining.place import Place
from tools.explaining.probe import Probe
from tools.explaining.run import Asked, Fault
from tools.explaining.values import DICTIONARY, OWN, Value
from tools.files import DEFINITION, read_text
from tools.porting import tree
from tools.porting.lexer import SyntaxFault
from tools.porting.parser import parse


@dataclasses.dataclass
class Context:
    """Holds a fault of a definition file, the program's report on it, its place, and a probe that finds the values there."""
    asked: Asked
    fault: Fault
    told: FaultReport
    place: Place
    probe: Probe

    def value(self, node: tree.Node) -> Value | None:
        """Returns what a node is in the round of the fault, or None if that isn't known."""
        node = tree.plain(node)
        if isinstance(node, tree.Text) and not node.has_names:
            return Value("text", node.value)
        if isinstance(node, tree.Number):
            return Value("integer", str(node.value))
        if isinstance(node, tree.Truth):
            return Value("truth value", str(node.value).lower())
        if isinstance(node, tree.List) and not self.probe.can_ask:
            items = [self.value(it) for it in node.items]
            return Value("list", "[]", tuple(it for it in items if it is not None))
        if self.probe.can_ask:
            return self.probe.value(node)
        if isinstance(node, tree.Dictionary):
            return Value(DICTIONARY, "{}")
        made = self.probe.made(node)
        return Value(made) if made is not None else None

    def text_of(self, node: tree.Node | None) -> str | None:
        """Returns a node that is a text."""
        value = self.value(node) if node is not None else None
        return value.text if value is not None and value.kind == "text" else None

    @property
    def folder(self) -> str:
        return os.path.dirname(self.fault.file)

    def call(self) -> tree.Call | None:
        """Returns the call at fault; if that isn't known, the outermost of the line."""
        calls = self.place.calls()
        node = self.probe.culprit if calls and self.probe.can_ask else None
        return node if isinstance(node, tree.Call) else calls[0] if calls else None

    def answer(self, section: str) -> dict[str, object] | None:
        """Returns what the machine file answered if a run queried a whole section."""
        told = (json.loads(it) for it in self.fault.asked.split("\n") if it)
        return next((it["answer"] for it in told if (it["section"], it["key"]) == (section, None)), None)

    def names(self) -> set[str]:
        """Returns the names that have a value somewhere in the definition files."""
        return {*OWN, *set_in(self.asked.root)}

    def statements(self) -> Iterator[tuple[str, tree.Statement]]:
        return statements_below(self.asked.root)


def set_in(root: str) -> dict[str, list[tree.Node]]:
    """Returns what the definition files set each name to; an empty name if that is an item of something."""
    found: dict[str, list[tree.Node]] = {}
    for _, statement in statements_below(root):
        value = statement.value if isinstance(statement, tree.Assignment) else tree.Name(statement.start, statement.start, "")
        for name in tree.names_set_by(statement):
            found.setdefault(name, []).append(value)
    return found


def statements_below(root: str) -> Iterator[tuple[str, tree.Statement]]:
    """Yields the statements of all definition files that are found by their names, each with its file."""
    waiting, seen = ["meson.build"], set()
    while waiting:
        path = waiting.pop(0)
        text = read(os.path.join(root, path))
        if path in seen or text is None:
            continue
        seen.add(path)
        try:
            body = parse(text)
        except (SyntaxFault, RecursionError):
            continue
        for statement in tree.statements_in(body):
            yield path, statement
        waiting += [os.path.normpath(os.path.join(os.path.dirname(path), it, "meson.build"))
                    for it in re.findall(r"\bsubdir\(\s*'([^']*)'", text)]


def read(path: str) -> str | None:
    """Returns the text of a file of the sources, if it can be had."""
    try:
        return read_text(path, DEFINITION)
    except (OSError, ValueError):
        return None
