"""Reads the tokens of a definition file, each with its place, so that a change can keep all other bytes."""
from __future__ import annotations

import bisect
import re
from collections.abc import Iterator

TOKEN = re.compile(r"""
    (?P<skip> [ \t\r]+ | \#[^\n]* | \\[ \t\r]*(?:\#[^\n]*)?\n )
  | (?P<newline> \n )
  | (?P<text> f?'''(?:.*?)''' | f?'(?:[^'\\]|\\.)*' )
  | (?P<name> [A-Za-z_][A-Za-z0-9_]* )
  | (?P<number> 0[xX][0-9a-fA-F]+ | 0[oO][0-7]+ | 0[bB][01]+ | [0-9]+ )
  | (?P<mark> \+= | [=!<>]= | [][(){},:.?=<>+*/%-] )
""", re.VERBOSE | re.DOTALL)
# Patterns of texts that are compiled when they are used first.
ESCAPE = r"\\(?:([\\'abfnrtv])|([0-7]{1,3})|x([0-9a-fA-F]{2})|u([0-9a-fA-F]{4})|U([0-9a-fA-F]{8}))"
PLAIN_ESCAPES = dict(zip("\\'abfnrtv", "\\'\a\b\f\n\r\t\v"))
# Characters that steer a terminal, and halves of a pair, which are no characters: a literal names them by their numbers.
UNSHOWN = "[\\x00-\\x1f\\x7f-\\x9f\ud800-\udfff]"
KEYWORDS = {"true", "false", "if", "elif", "else", "endif", "and", "or", "not", "in", "foreach", "endforeach", "break", "continue"}


MOST_DIGITS = 140  # of a number, which has 128 bits at most
MOST_TOKENS = 1 << 18  # of a file: it takes hundreds of bytes to hold one


class SyntaxFault(Exception):
    """Reports a text that is no definition file; `line` is where it stops to be one."""

    def __init__(self, line: int, why: str) -> None:
        super().__init__(f"line {line}: {why}")
        self.line, self.why = line, why


class Token:
    """Holds a token and its place. Its `kind` is newline, text, name, keyword, number, mark or end."""
    __slots__ = ("kind", "text", "start", "end")

    def __init__(self, kind: str, text: str, start: int, end: int) -> None:
        self.kind, self.text, self.start, self.end = kind, text, start, end


def line_at(text: str, at: int) -> int:
    """Returns the line of a place of a text."""
    return text.count("\n", 0, at) + 1


class Lines:
    """Finds the line of each place of a text, for those who ask often."""

    def __init__(self, text: str) -> None:
        self.starts = [0, *(match.end() for match in re.finditer("\n", text))]

    def at(self, place: int) -> int:
        return bisect.bisect_right(self.starts, place)


def unescaped(text: str) -> str:
    """Returns what each escape between quotes of the plain kind means."""
    def character(match: re.Match[str]) -> str:
        plain, octal, *codes = match.groups()
        if plain:
            return PLAIN_ESCAPES[plain]
        number = int(octal, 8) if octal else int(next(filter(None, codes)), 16)
        return chr(number) if number < 0x110000 else match.group()
    return re.sub(ESCAPE, character, text)


def escaped(text: str) -> str:
    """Returns a text as a literal between plain quotes."""
    plain = text.replace("\\", "\\\\").replace("'", "\\'").replace("\n", "\\n").replace("\t", "\\t")
    by_number = lambda match: f"\\x{ord(match[0]):02x}" if match[0] < "\u0100" else f"\\u{ord(match[0]):04x}"
    return "'" + re.sub(UNSHOWN, by_number, plain) + "'"


def value_of_text(literal: str) -> str:
    """Returns the value of a literal text, without what an f-string puts in."""
    body = literal.removeprefix("f")
    return body[3:-3] if body.startswith("'''") else unescaped(body[1:-1])


def value_of_number(literal: str) -> int:
    """Returns the value of a number; one of many digits is greater than any that the program takes, and no more is known of it."""
    if len(literal) > MOST_DIGITS:
        return 1 << 128
    return int(literal, 0) if literal[:1] == "0" and len(literal) > 1 and literal[1].isalpha() else int(literal)


def tokens_of(text: str) -> list[Token]:
    """Returns all tokens but blanks and comments; newlines only where they end a statement."""
    return list(tokens_in(text))


def tokens_in(text: str) -> Iterator[Token]:
    """Yields the tokens one by one."""
    at = depth = count = 0
    while (match := TOKEN.match(text, at)) is not None:
        kind, word, start, at = match.lastgroup or "", match.group(), match.start(), match.end()
        if count > MOST_TOKENS:
            raise SyntaxFault(line_at(text, start), f"a file of more than {MOST_TOKENS:,} tokens is not read here")
        if kind == "skip":
            continue
        if kind == "mark":
            depth = depth + 1 if word in "([{" else max(depth - 1, 0) if word in ")]}" else depth
        elif kind == "name" and word in KEYWORDS:
            kind = "keyword"
        if kind != "newline" or depth == 0:
            count += 1
            yield Token(kind, word, start, at)
    if at < len(text):
        raise SyntaxFault(line_at(text, at), f"no token begins here: {text[at:at + 20].splitlines()[0]!r}")
    yield from (Token("newline", "\n", at, at), Token("end", "", at, at))
