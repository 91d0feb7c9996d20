"""Defines the tree of a definition file. Each node knows where it begins and ends in the text."""
from __future__ import annotations

import functools
from collections.abc import Iterator

from tools import records as dataclasses


@dataclasses.dataclass(eq=False)
class Node:
    start: int
    end: int

    def parts(self) -> list[Node]:
        """Returns the nodes right below it, in an expression."""
        return []


@dataclasses.dataclass(eq=False)
class Name(Node):
    text: str


@dataclasses.dataclass(eq=False)
class Text(Node):
    value: str
    has_names: bool  # an f-string
    is_raw: bool  # between three quotes


@dataclasses.dataclass(eq=False)
class Number(Node):
    value: int


@dataclasses.dataclass(eq=False)
class Truth(Node):
    value: bool


@dataclasses.dataclass(eq=False)
class List(Node):
    items: list[Node]

    def parts(self) -> list[Node]:
        return self.items


@dataclasses.dataclass(eq=False)
class Dictionary(Node):
    pairs: list[tuple[Node, Node]]

    def parts(self) -> list[Node]:
        return [part for pair in self.pairs for part in pair]


@dataclasses.dataclass(eq=False)
class Keyword(Node):
    """Holds `name: value` among arguments."""
    name: str
    value: Node

    def parts(self) -> list[Node]:
        return [self.value]


@dataclasses.dataclass(eq=False)
class Call(Node):
    """Holds a call of a function, or of a method if there is a receiver; `opened` is the place of its bracket."""
    name: str
    receiver: Node | None
    items: list[Node]
    opened: int
    name_start: int

    @functools.cached_property
    def arguments(self) -> list[Node]:
        return [it for it in self.items if not isinstance(it, Keyword)]

    @functools.cached_property
    def keywords(self) -> dict[str, Keyword]:
        return {it.name: it for it in self.items if isinstance(it, Keyword)}

    def parts(self) -> list[Node]:
        return [self.receiver, *self.items] if self.receiver else self.items


@dataclasses.dataclass(eq=False)
class Index(Node):
    receiver: Node
    index: Node

    def parts(self) -> list[Node]:
        return [self.receiver, self.index]


@dataclasses.dataclass(eq=False)
class Unary(Node):
    operator: str
    operand: Node

    def parts(self) -> list[Node]:
        return [self.operand]


@dataclasses.dataclass(eq=False)
class Binary(Node):
    operator: str
    left: Node
    right: Node

    def parts(self) -> list[Node]:
        return [self.left, self.right]


@dataclasses.dataclass(eq=False)
class Ternary(Node):
    condition: Node
    yes: Node
    no: Node

    def parts(self) -> list[Node]:
        return [self.condition, self.yes, self.no]


@dataclasses.dataclass(eq=False)
class Group(Node):
    inner: Node

    def parts(self) -> list[Node]:
        return [self.inner]


@dataclasses.dataclass(eq=False)
class Statement(Node):
    def expressions(self) -> list[Node]:
        """Returns the expressions that it has itself, not those of its body."""
        return []

    def bodies(self) -> list[list[Statement]]:
        return []


@dataclasses.dataclass(eq=False)
class Assignment(Statement):
    name: str
    operator: str
    value: Node

    def expressions(self) -> list[Node]:
        return [self.value]


@dataclasses.dataclass(eq=False)
class Expression(Statement):
    value: Node

    def expressions(self) -> list[Node]:
        return [self.value]


@dataclasses.dataclass(eq=False)
class Jump(Statement):
    word: str  # break, continue


@dataclasses.dataclass(eq=False)
class Branch(Node):
    """Holds a condition, None for `else`, and the statements below it."""
    condition: Node | None
    body: list[Statement]


@dataclasses.dataclass(eq=False)
class If(Statement):
    branches: list[Branch]

    def expressions(self) -> list[Node]:
        return [it.condition for it in self.branches if it.condition]

    def bodies(self) -> list[list[Statement]]:
        return [it.body for it in self.branches]


@dataclasses.dataclass(eq=False)
class Foreach(Statement):
    names: list[str]
    items: Node
    body: list[Statement]

    def expressions(self) -> list[Node]:
        return [self.items]

    def bodies(self) -> list[list[Statement]]:
        return [self.body]


def plain(node: Node) -> Node:
    """Returns a node without the brackets round it."""
    while isinstance(node, Group):
        node = node.inner
    return node


def inside(node: Node) -> Iterator[Node]:
    """Yields a node and all nodes in it, receivers first."""
    return reversed(parts_first(node))


def parts_first(node: Node) -> list[Node]:
    """Returns a node and all nodes in it, each before its parts, and the last part first."""
    found, waiting = [], [node]
    while waiting:
        it = waiting.pop()
        found.append(it)
        waiting += it.parts()
    return found


def depth_of(node: Node) -> int:
    """Returns how deep nodes are nested at most."""
    deepest, waiting = 0, [(node, 1)]
    while waiting:
        it, depth = waiting.pop()
        deepest = max(deepest, depth)
        waiting += [(part, depth + 1) for part in it.parts()]
    return deepest


def names_in(node: Node) -> set[str]:
    return {it.text for it in inside(node) if isinstance(it, Name)}


def names_set_by(statement: Statement) -> list[str]:
    """Returns the variables that a statement sets itself, not by its body."""
    match statement:
        case Assignment():
            return [statement.name]
        case Foreach():
            return statement.names
    return []


def statements_in(body: list[Statement]) -> list[Statement]:
    """Returns all statements of a body and of the bodies in it."""
    found: list[Statement] = []
    for statement in body:
        found.append(statement)
        for inner in statement.bodies():
            found += statements_in(inner)
    return found
