"""Finds what happens at a place: runs the program on a changed file, so that the run ends there and prints a value.

The probe counts the statement of the fault, which may run often, and stops only in the round in which the fault comes. In
`[number == round and error(MARK, [x]), x][1]` the value is that of `x` in each other round; in that one the run ends with the mark and
what `x` is.
"""
from __future__ import annotations

import functools
import json
import re
import time
from collections.abc import Iterator

from tools.explaining.place import Place
from tools.explaining.run import Fault, Outcome, Room
from tools.explaining.values import DICTIONARY, LIST, OBJECT, OWN, Value, value_in
from tools.porting import tree

MARK, COUNT = "the explanation is asked here", "explain_rounds_of_the_fault"
# Of which kind an object is that has a method.
METHODS = {
    "has_key": DICTIONARY, "length": LIST, "enabled": "feature option", "get_id": "compiler", "set10": "configuration data object",
    "system": "machine", "project_name": "meson object", "version": "dependency", "path": "program", "to_list": "custom target",
    "full_path": "target",
}
# Of which kind an object is that a call makes.
OF_METHODS = {"get_compiler": "compiler", "find_library": "dependency"}
MAKES = {
    **OF_METHODS, "executable": "executable", **dict.fromkeys(("static_library", "shared_library", "library"), "library"),
    "custom_target": "custom target",
    **dict.fromkeys(("dependency", "declare_dependency"), "dependency"), "find_program": "program", "files": "list of files",
    "include_directories": "include_directories object", "configuration_data": "configuration data object", "disabler": "disabler",
}
# How often the program runs at most for one fault, and up to how many seconds after the beginning.
MOST, MOST_SECONDS = 400, 120
LINES_BEFORE = 2  # that a probe adds before the statement


class Probe:
    def __init__(self, room: Room, place: Place, number: int, set_to: dict[str, list[tree.Node]]) -> None:
        """Takes the number of the fault as `number`, and in `set_to` what the project sets each variable to."""
        self.room, self.place, self.number, self.set_to, self.asked = room, place, number, set_to, 0
        self.known: dict[tree.Node, Value] = {}
        first = place.body[0]
        is_root = place.file == "meson.build"
        self.begin = place.text.find("\n", first.end) + 1 if is_root else 0
        # The first statement, `project`, may have no calls.
        self.rounds = 0 if is_root and place.statement is first else 1
        if place.is_in_loop:
            # A question is reported once, so each round asks another one.
            self.rounds = self.outcome([], f"meson.get_compiler('c').sizeof('{MARK} @0@'.format({COUNT}))\n").asked.count(MARK)

    @property
    def can_ask(self) -> bool:
        """Returns whether the statement may have calls, and there is time to ask."""
        return self.rounds > 0 and self.asked < MOST and time.monotonic() - self.room.asked.begun < MOST_SECONDS

    def outcome(self, edits: list[tuple[int, int, str]], before: str = "") -> Outcome:
        """Returns what comes of the file with other texts at some places, and with lines before the statement."""
        self.asked += 1
        start, text = self.place.statement.start, self.place.text
        counted = (start, start, f"{COUNT} += 1\n{before}")
        for begin, end, new in sorted([counted, *edits], key=lambda it: (it[0], it[1]), reverse=True):
            text = text[:begin] + new + text[end:]
        text = text[:self.begin] + f"{COUNT} = 0\n" + text[self.begin:]
        return self.room.run(text)

    def said(self, node: tree.Node, form: str) -> str | None:
        """Returns what the run prints after the mark if the node is changed; None if the run doesn't come there, or none may start any
        more."""
        if not self.can_ask:
            return None
        source = self.place.source(node)
        condition = f"{COUNT} == {self.rounds}"
        new = form.replace("ROUND", condition).replace("MARK", f"'{MARK}'").replace("NODE", source)
        fault = self.outcome([(node.start, node.end, new)]).fault
        if fault is None or fault.number != 18 or not fault.text.startswith(MARK):
            return None
        return self.printed(fault)

    def printed(self, fault: Fault) -> str:
        """Returns what follows the mark, with the source directory where the run had that of the links."""
        return fault.text[len(MARK):].strip().replace(self.room.folder, self.room.asked.root)

    def completes(self, node: tree.Node) -> bool:
        return self.said(node, "[NODE, ROUND and error(MARK)][0]") is not None

    def reaches(self, node: tree.Node) -> bool:
        return self.said(node, "[ROUND and error(MARK), NODE][1]") is not None

    def value(self, node: tree.Node) -> Value:
        """Returns what a node that completes is, in the round of the fault. The run is made once."""
        if node not in self.known:
            self.known[node] = self.asked_value(node)
        return self.known[node]

    def asked_value(self, node: tree.Node) -> Value:
        printed = self.said(node, "[ROUND and error(MARK, [NODE]), NODE][1]")
        if printed is not None:
            return value_in(printed)
        if isinstance(node, tree.List):
            return Value("list", "", tuple(self.value(it) for it in node.items[:MOST]))
        made = self.made(tree.plain(node))
        return Value(made if made is not None else self.kind(node))

    def asked_of(self, node: tree.Node, method: str) -> Value | None:
        """Returns what a method gives of a node that completes, or None if that isn't known."""
        printed = self.said(node, f"[ROUND and error(MARK, [(NODE).{method}]), NODE][1]") if self.can_ask else None
        return value_in(printed) if printed is not None else None

    def told(self, nodes: list[tuple[tree.Statement, tree.Node]]) -> list[tuple[tree.Node, str]]:
        """Returns the texts that nodes of statements of this file were, each time before the statement; none if that isn't known."""
        asks = ("foreach {0}_it : [] + ({1})\n{0}_all += 1\n"
                "meson.get_compiler('c').sizeof('{2} @0@ {3} @1@'.format({0}_all, {0}_it))\nendforeach\n")
        edits = [(statement.start, statement.start, asks.format(COUNT, self.place.source(node), MARK, number))
                 for number, (statement, node) in enumerate(nodes)]
        came = self.outcome([*edits, (self.begin, self.begin, f"{COUNT}_all = 0\n")])
        if came.fault is None or came.fault.number != self.number:
            return []
        keys = [json.loads(it)["key"] or "" for it in came.asked.split("\n") if it]
        found = [it.removeprefix(f"sizeof {MARK} ").split(" ", 2) for it in keys if it.startswith(f"sizeof {MARK} ")]
        return [(nodes[int(number)][1], text) for _, number, text in found]

    def variable(self, name: str) -> Value | None:
        """Returns what a variable is before the statement, in the round of the fault."""
        fault = self.outcome([], f"{COUNT} == {self.rounds} and error('{MARK}', [{name}])\n").fault
        if fault is None or not fault.text.startswith(MARK):
            return None
        return value_in(self.printed(fault))

    def made(self, node: tree.Node) -> str | None:
        """Returns the kind of an object by the call that makes it; of a variable, by all calls that set it."""
        if isinstance(node, tree.Call):
            return MAKES.get(node.name) if node.receiver is None or node.name in OF_METHODS else None
        if isinstance(node, tree.Name) and node.text in OWN:
            return OWN[node.text]
        set_to = self.set_to.get(node.text, []) if isinstance(node, tree.Name) else []
        kinds = {self.made(it) if isinstance(it, tree.Call) else None for it in set_to}
        return kinds.pop() if len(kinds) == 1 else None

    def kind(self, node: tree.Node) -> str:
        """Returns the kind of an object by the methods that it has."""
        for method, name in METHODS.items():
            source = self.place.source(node)
            new = f"[{COUNT} == {self.rounds} and ({source}).{method}(), {source}][1]"
            fault = self.outcome([(node.start, node.end, new)]).fault
            if fault is None or fault.number != 8 or fault.name != method:
                return name
        return OBJECT

    def without(self, call: tree.Call) -> tree.Keyword | None:
        """Returns the keyword without which the call is not refused so."""
        for item in call.items:
            if isinstance(item, tree.Keyword):
                end = self.place.text.find(",", item.end, call.end)
                is_last = self.place.text[item.end:call.end].lstrip()[:1] != ","
                fault = self.outcome([(item.start, item.end if is_last else end + 1, "")]).fault
                if fault is None or fault.number != 9:
                    return item
        return None

    @functools.cached_property
    def culprit(self) -> tree.Node | None:
        """Returns the innermost node that is begun and doesn't complete, or None if all expressions of the statement do."""
        root = next((it for it in self.place.statement.expressions() if self.is_at_fault(it)), None)
        return self.innermost(root) if root is not None else None

    def is_at_fault(self, root: tree.Node) -> bool:
        """Returns whether the fault comes in an expression of the statement; where that is the statement itself, it does."""
        if isinstance(self.place.statement, tree.Expression):
            return True
        opened = self.opened(root)
        return opened[:1] == [root] if opened is not None else not self.completes(root) and self.reaches(root)

    def innermost(self, root: tree.Node) -> tree.Node:
        opened = self.opened(root)
        if opened is not None:
            return opened[-1] if opened else root
        for part in parts(root):
            if not self.completes(part) and self.reaches(part):
                return self.innermost(part)
        return root

    def opened(self, root: tree.Node) -> list[tree.Node] | None:
        """Returns the nodes of an expression that begin in the round of the fault and don't complete, outer ones first. One run finds
        them: each node asks one question before it and one after it. None if that run has another fault."""
        nodes: list[tree.Node] = []
        is_alone = isinstance(self.place.statement, tree.Expression)
        text = self.asking_parts(root, nodes) if is_alone else self.asking(root, nodes)
        came = self.outcome([(root.start, root.end, text)])
        if came.fault is None or (came.fault.number, came.fault.line - LINES_BEFORE) != (self.number, self.place.line):
            return None
        told = [(word, int(number)) for word, number in re.findall(MARK + r" (begin|end) (\d+)\"", came.asked)]
        ended = {number for word, number in told if word == "end"}
        return [nodes[number] for word, number in told if word == "begin" and number not in ended]

    def asking(self, node: tree.Node, nodes: list[tree.Node]) -> str:
        """Returns the text of a node that asks a question before and after it. Adds the node to `nodes`, whose numbers the questions
        name."""
        number = len(nodes)
        nodes.append(node)
        before, behind = (f"{COUNT} == {self.rounds} and meson.get_compiler('c').sizeof('{MARK} {it} {number}') == 0"
                          for it in ("begin", "end"))
        return f"[{before}, {self.asking_parts(node, nodes)}, {behind}][1]"

    def asking_parts(self, node: tree.Node, nodes: list[tree.Node]) -> str:
        text, at = "", node.start
        for part in parts(node):
            text += self.place.text[at:part.start] + self.asking(part, nodes)
            at = part.end
        return text + self.place.text[at:node.end]


def parts(node: tree.Node) -> Iterator[tree.Node]:
    """Yields the values that a node is made of, in the order in which they are evaluated."""
    for part in node.parts():
        yield part.value if isinstance(part, tree.Keyword) else part
