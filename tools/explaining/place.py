"""Finds the statement of a file that a fault's line belongs to, and its nodes."""
from __future__ import annotations

from collections.abc import Iterator

from tools import records as dataclasses
from tools.porting import tree
from tools.porting.lexer import Lines, SyntaxFault, line_at
from tools.porting.parser import parse


@dataclasses.dataclass(frozen=True)
class Place:
    """Holds a definition file, the line of the fault, the statement that the line belongs to, and the first statement of the file."""
    file: str
    text: str
    line: int
    body: list[tree.Statement]
    statement: tree.Statement

    def source(self, node: tree.Node) -> str:
        return self.text[node.start:node.end]

    def line_of(self, at: int) -> int:
        return line_at(self.text, at)

    @property
    def is_in_loop(self) -> bool:
        return any(is_in_loop for it, is_in_loop in with_loops(self.body, False) if it is self.statement)

    def calls(self) -> list[tree.Call]:
        """Returns the calls that begin on the line, outer ones first."""
        nodes = [node for it in self.statement.expressions() for node in tree.inside(it)]
        found = [it for it in nodes if isinstance(it, tree.Call)]
        on_line = [it for it in found if self.line in (self.line_of(it.start), self.line_of(it.name_start))]
        return (on_line or found)[::-1]


def with_loops(body: list[tree.Statement], is_in_loop: bool) -> Iterator[tuple[tree.Statement, bool]]:
    """Yields the statements, each with whether it is in a loop."""
    for statement in body:
        yield statement, is_in_loop
        for inner in statement.bodies():
            yield from with_loops(inner, is_in_loop or isinstance(statement, tree.Foreach))


def head_end(statement: tree.Statement) -> int:
    """Returns where a statement ends without its body."""
    ends = [it.end for it in statement.expressions()]
    return max(max(ends, default=statement.end), statement.start)


def place_of(file: str, text: str, line: int) -> Place | None:
    """Returns the place of a line; none if the file can't be parsed, or no statement has this line."""
    try:
        body = parse(text)
    except (SyntaxFault, RecursionError):
        return None
    lines = Lines(text)
    fitting = [it for it in tree.statements_in(body) if lines.at(it.start) <= line <= lines.at(head_end(it))]
    if not fitting:
        return None
    return Place(file, text, line, body, fitting[-1])
