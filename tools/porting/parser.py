"""Reads the tokens of a definition file as the tree that they spell."""
from __future__ import annotations

import sys
from collections.abc import Callable

from tools.porting import tree
from tools.porting.lexer import SyntaxFault, Token, line_at, tokens_of, value_of_number, value_of_text

TYPE_CHECKING = False
if TYPE_CHECKING:
    from typing import TypeVar

    T = TypeVar("T")
# How strongly each operator binds its operands. `not` is the first word of `not in`.
COMPARING, STRONGEST = 3, 5
STRENGTHS = {"or": 1, "and": 2, **dict.fromkeys(("==", "!=", "<", "<=", ">", ">=", "in", "not"), COMPARING),
             "+": 4, "-": 4, **dict.fromkeys("*/%", STRONGEST)}
# How deep brackets and blocks may be nested.
DEEPEST = 64
# How deep the nodes of an expression may be nested: `1 + 2 + 3` is three deep. What walks them takes some calls for each.
DEEPEST_NODE = 1000
sys.setrecursionlimit(max(sys.getrecursionlimit(), 12 * DEEPEST_NODE))


class Parser:
    def __init__(self, text: str) -> None:
        self.text, self.tokens, self.at, self.depth = text, tokens_of(text), 0, 0
        self.words = [it.text if it.kind in ("mark", "keyword") else "" for it in self.tokens]  # of the language, in the place of its token

    @property
    def token(self) -> Token:
        return self.tokens[self.at]

    def fault(self, why: str) -> SyntaxFault:
        return SyntaxFault(line_at(self.text, self.token.start), why)

    def is_word(self, *words: str) -> bool:
        return self.words[self.at] in words

    def take(self) -> Token:
        token = self.token
        self.at += 1
        return token

    def expect(self, word: str) -> Token:
        if not self.is_word(word):
            shown = self.token.text.strip() or "the end of the line"
            raise self.fault(f"{word!r} is missing before {shown!r}")
        return self.take()

    def end_of_line(self) -> None:
        if self.token.kind != "newline":
            raise self.fault(f"the statement should end before {self.token.text!r}")
        self.take()

    @property
    def last_end(self) -> int:
        return self.tokens[self.at - 1].end

    def file(self) -> list[tree.Statement]:
        body = self.body()
        if self.token.kind != "end":
            raise self.fault(f"{self.token.text!r} has no beginning")
        return body

    def body(self) -> list[tree.Statement]:
        self.depth += 1
        if self.depth > DEEPEST:
            raise self.fault("blocks are nested too deeply")
        statements = []
        while self.token.kind != "end" and not self.is_word("elif", "else", "endif", "endforeach"):
            if self.token.kind == "newline":
                self.take()
            else:
                statements.append(self.statement())
        self.depth -= 1
        return statements

    def statement(self) -> tree.Statement:
        start = self.token.start
        if self.is_word("if"):
            return self.if_statement(start)
        if self.is_word("foreach"):
            return self.foreach_statement(start)
        if self.is_word("break", "continue"):
            word = self.take().text
            statement: tree.Statement = tree.Jump(start, self.last_end, word)
        elif self.token.kind == "name" and self.tokens[self.at + 1].text in ("=", "+="):
            name, operator = self.take().text, self.take().text
            value = self.whole_expression()
            statement = tree.Assignment(start, self.last_end, name, operator, value)
        else:
            value = self.whole_expression()
            statement = tree.Expression(start, self.last_end, value)
        self.end_of_line()
        return statement

    def if_statement(self, start: int) -> tree.If:
        branches = []
        while True:
            begun, word = self.token.start, self.take().text
            condition = None if word == "else" else self.whole_expression()
            self.end_of_line()
            body = self.body()
            branches.append(tree.Branch(begun, self.token.start, condition, body))
            if word == "else" or not self.is_word("elif", "else"):
                break
        self.expect("endif")
        end = self.last_end
        self.end_of_line()
        return tree.If(start, end, branches)

    def foreach_statement(self, start: int) -> tree.Foreach:
        self.take()
        names = [self.name().text]
        if self.is_word(","):
            self.take()
            names.append(self.name().text)
        self.expect(":")
        items = self.whole_expression()
        self.end_of_line()
        body = self.body()
        self.expect("endforeach")
        end = self.last_end
        self.end_of_line()
        return tree.Foreach(start, end, names, items, body)

    def name(self) -> Token:
        if self.token.kind != "name":
            raise self.fault(f"a name is missing before {self.token.text!r}")
        return self.take()

    def whole_expression(self) -> tree.Node:
        """Reads an expression that is in no other."""
        begun = self.at
        node = self.expression()
        if self.at - begun > DEEPEST_NODE and tree.depth_of(node) > DEEPEST_NODE:
            raise SyntaxFault(line_at(self.text, node.start), "expressions are nested too deeply")
        return node

    def expression(self) -> tree.Node:
        self.depth += 1
        if self.depth > 4 * DEEPEST:
            raise self.fault("expressions are nested too deeply")
        condition = self.operation()
        if self.is_word("?"):
            self.take()
            yes = self.operation()
            self.expect(":")
            no = self.operation()
            condition = tree.Ternary(condition.start, no.end, condition, yes, no)
        self.depth -= 1
        return condition

    def operation(self, weakest: int = 1) -> tree.Node:
        """Reads operands and the operators between them that bind at least as strongly as `weakest`. A comparison is not compared."""
        left, strongest = self.unary(), STRONGEST
        while weakest <= (strength := STRENGTHS.get(self.words[self.at], 0)) <= strongest:
            operator = self.take().text
            if operator == "not":
                if self.token.text != "in":
                    self.at -= 1
                    break
                operator = f"not {self.take().text}"
            right = self.operation(strength + 1)
            left = tree.Binary(left.start, right.end, operator, left, right)
            strongest = strength - (strength == COMPARING)
        return left

    def unary(self) -> tree.Node:
        before = []
        while self.is_word("not", "-"):
            before.append(self.take())
        node = self.suffixed()
        for token in reversed(before):
            node = tree.Unary(token.start, node.end, token.text, node)
        return node

    def suffixed(self) -> tree.Node:
        node = self.atom()
        while self.is_word(".", "["):
            if self.take().text == "[":
                index = self.expression()
                self.expect("]")
                node = tree.Index(node.start, self.last_end, node, index)
            else:
                node = self.call(node.start, self.name(), node)
        return node

    def call(self, start: int, name: Token, receiver: tree.Node | None) -> tree.Call:
        opened = self.expect("(").start
        items: list[tree.Node] = []
        while not self.is_word(")"):
            if self.token.kind == "name" and self.tokens[self.at + 1].text == ":":
                key = self.take()
                self.take()
                value = self.expression()
                items.append(tree.Keyword(key.start, value.end, key.text, value))
            else:
                items.append(self.expression())
            if not self.is_word(")"):
                self.expect(",")
        self.take()
        return tree.Call(start, self.last_end, name.text, receiver, items, opened, name.start)

    def atom(self) -> tree.Node:
        token = self.token
        if token.kind == "name":
            self.take()
            return self.call(token.start, token, None) if self.is_word("(") else tree.Name(token.start, token.end, token.text)
        if token.kind == "text":
            self.take()
            has_names = token.text.startswith("f")
            is_raw = token.text.removeprefix("f").startswith("'''")
            return tree.Text(token.start, token.end, value_of_text(token.text), has_names, is_raw)
        if token.kind == "number":
            self.take()
            return tree.Number(token.start, token.end, value_of_number(token.text))
        if self.is_word("true", "false"):
            self.take()
            return tree.Truth(token.start, token.end, token.text == "true")
        return self.bracketed(token)

    def bracketed(self, token: Token) -> tree.Node:
        if self.is_word("("):
            self.take()
            inner = self.expression()
            self.expect(")")
            return tree.Group(token.start, self.last_end, inner)
        if self.is_word("["):
            items = self.items("]", self.expression)
            return tree.List(token.start, self.last_end, items)
        if self.is_word("{"):
            pairs = self.items("}", self.pair)
            return tree.Dictionary(token.start, self.last_end, pairs)
        raise self.fault(f"no expression begins with {token.text.strip() or 'the end of the line'!r}")

    def items(self, closing: str, one: Callable[[], T]) -> list[T]:
        self.take()
        found: list[T] = []
        while not self.is_word(closing):
            found.append(one())
            if not self.is_word(closing):
                self.expect(",")
        self.take()
        return found

    def pair(self) -> tuple[tree.Node, tree.Node]:
        key = self.expression()
        self.expect(":")
        return key, self.expression()


def parse(text: str) -> list[tree.Statement]:
    """Returns the statements of a definition file; SyntaxFault where it is none."""
    return Parser(text).file()
