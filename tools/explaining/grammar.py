"""Explains E1 to E4: bytes, tokens and grammar, by the text of the file alone."""
from __future__ import annotations

import re
from collections.abc import Iterator

from tools.explaining.detail import Detail, detail, named, quoted
from tools.explaining.place import with_loops
from tools.porting import tree
from tools.porting.lexer import TOKEN, SyntaxFault, Token, line_at, tokens_of
from tools.porting.parser import Parser

WORD = re.compile(r"[A-Za-z_0-9]+|'''|f?'[^'\n]*'?|\S")
CLOSING = {"(": ")", "[": "]", "{": "}"}
OPERATORS = ("+", "-", "*", "/", "%", "==", "!=", "<", ">", "<=", ">=", "and", "or", "not", "=", "+=")
LIKE_ENDS = re.compile(r"(?m)^[ \t]*(end\w*|done|fi)[ \t]*$")
# What is often meant by a character that begins no token.
SIGNS = {
    '"': "a text is written between single quotes, as 'text'", "&": "write 'a and b'",
    "|": "write 'a or b'",
    "!": "write 'not a'", ";": "a statement ends with its line", "$": "a variable is its name alone, and in a text f'@name@'",
    "@": "only a text has names between '@', as f'@name@'", "`": "a text is written between single quotes, as 'text'",
    "\\": "it belongs in a text, or at the end of a line that goes on",
}
# What is often meant by a word that begins a statement.
BEGINNINGS = {
    **dict.fromkeys(("for", "while"), "a loop is 'foreach NAME : LIST', up to 'endforeach'"),
    **dict.fromkeys(("def", "function", "func"), "these files can't define functions"),
    **dict.fromkeys(("elsif", "elseif"), "write 'elif' for a further condition"),
    **dict.fromkeys(("let", "var", "const", "set"), "a variable is set by 'NAME = value'"),
}
# What is often meant by what follows a part of a statement: the word before, the word itself.
FOLLOWING = {
    ("else", "if"): "write 'elif' for a further condition", ("end", "if"): "the end of a block is one word, 'endif'",
    **{(sign, "="): f"write 'NAME = NAME {sign} value': only '+=' exists" for sign in "-*/"},
    ("+", "+"): "write 'NAME += 1'", ("+", "="): "'+=' is one sign",
    ("=", "="): "'==' is one sign, and compares", ("-", "-"): "write 'NAME = NAME - 1'",
}


def bytes_detail(data: bytes) -> Detail:
    """Explains E1: the first byte that is no UTF-8."""
    try:
        data.decode()
    except UnicodeDecodeError as error:
        return detail(f"the byte 0x{data[error.start]:02x} is no UTF-8 ({error.reason}): save the file as UTF-8")
    return detail("a byte is no UTF-8")


def start_of(text: str, line: int) -> int:
    """Returns where a line begins."""
    at = 0
    for _ in range(line - 1):
        at = text.find("\n", at) + 1
    return at


def line_text(text: str, line: int) -> str:
    lines = text.split("\n")
    return lines[line - 1] if line <= len(lines) else ""


def tokens_before(text: str, end: int) -> list[Token]:
    """Returns the tokens up to a place, or up to the first text that is no token."""
    while True:
        try:
            return tokens_of(text[:end])
        except SyntaxFault as fault:
            end = min(end - 1, start_of(text, fault.line))
            if end <= 0:
                return []


def open_at(text: str, end: int) -> list[tuple[str, int]]:
    """Returns the brackets and blocks that are open at a place, each with where it begins."""
    found: list[tuple[str, int]] = []
    for token in tokens_before(text, end):
        if token.text in CLOSING and token.kind == "mark" or token.kind == "keyword" and token.text in ("if", "foreach"):
            found.append((token.text, token.start))
        elif (token.kind == "mark" and token.text in ")]}" or token.text in ("endif", "endforeach")) and found:
            found.pop()
    return found


def open_detail(text: str, end: int, line: int) -> str:
    """Returns what is open, and since which line; nothing of a block that begins on this line."""
    found = open_at(text, end)
    word, at = found[-1] if found else ("", 0)
    if not found or word not in CLOSING and line_at(text, at) == line:
        return ""
    closing = CLOSING.get(word, "end" + word)
    return f"'{word}' of line {line_at(text, at)} is still open: its '{closing}' is missing, or is in another place"


def token_detail(text: str, line: int) -> Detail:
    """Explains E2: the text that is no token."""
    start = start_of(text, line)
    for match in re.finditer(r"(?<![\w'])0\d\w*|(?<![\w'])\d+[A-Za-z_]\w*", text[start:start + len(line_text(text, line))]):
        if not re.fullmatch(r"0[xX][0-9a-fA-F]+|0[oO][0-7]+|0[bB][01]+", match[0]):
            is_octal = re.fullmatch(r"0[0-7]+", match[0])
            told = f"; an octal number is 0o{match[0].lstrip('0') or '0'}, and {quoted(match[0])} is a text" if is_octal else ""
            return detail(f"{quoted(match[0])} is no number{told}", at=start + match.start())
    for match in re.finditer(r"\\(?:u([0-9a-fA-F]{4})|U([0-9a-fA-F]{8}))", line_text(text, line)):
        code = int(match[1] or match[2], 16)
        if 0xD800 <= code < 0xE000 or code > 0x10FFFF:
            return detail(f"the escape {quoted(match[0])} names no character", at=start + match.start())
    at = unread_at(text)
    if at is None or line_at(text, at) != line:
        return detail(f"there is no token in {quoted(line_text(text, line).strip())}")
    sign = text[at]
    if text[max(at - 2, 0):at + 1] == "'''":
        return detail("the text that begins with ''' has no end: write ''' after it", at=at - 2)
    if sign == "'" or text[at:at + 2] == "f'":
        return detail(f"the text {named(text[at:].splitlines()[0])} has no end: write a single quote after it, on the same line", at=at)
    return detail(f"the character {quoted(sign)} begins no token{': ' * (sign in SIGNS)}{SIGNS.get(sign, '')}", at=at)


def unread_at(text: str) -> int | None:
    """Returns where the tokens end before the file does."""
    at = 0
    while at < len(text):
        match = TOKEN.match(text, at)
        if not match:
            return at
        at = match.end()
    return None


def grammar_detail(text: str, line: int) -> Detail:
    """Explains E3: the token at fault, what could be there, and what is open."""
    try:
        parser = Parser(text)
    except SyntaxFault:
        return on_line(text, line)
    try:
        body = parser.file()
    except (SyntaxFault, RecursionError) as fault:
        token = parser.token
        at = token.start
        if isinstance(fault, SyntaxFault) and (fault.line == line or token.kind in ("newline", "end")):
            is_end = at >= len(text.rstrip())
            why = fault.why.replace("wanted before", "missing before")
            why = why.replace("'the end of the line'", "the end of the file" if is_end else "the end of the line")
            return detail(why, hint_of(parser), open_detail(text, at, line),
                          at=at if line_at(text, at) == line and not is_end else None)
        return on_line(text, line)
    for at, why in refused_in(body):
        if line_at(text, at) == line:
            return detail(why, at=at)
    return on_line(text, line)


def hint_of(parser: Parser) -> str:
    """Returns what is often meant by what can't be read."""
    token, before = parser.token, parser.tokens[parser.at - 1] if parser.at else None
    if before is None:
        return ""
    opened = [word for word, _ in open_at(parser.text, token.start)[-1:]]
    if (before.text, token.text) in FOLLOWING:
        return FOLLOWING[before.text, token.text]
    is_first = parser.at == 1 or parser.tokens[parser.at - 2].kind == "newline"
    if is_first and before.text in BEGINNINGS:
        return BEGINNINGS[before.text]
    if before.text == "." and token.kind == "number":
        return "a number has no '.': a version is a text"
    if parser.text[token.start:token.start + 2] in ("//", "/*"):
        return "a comment begins with '#'"
    if token.text == "." and before.kind == "newline" or token.kind == "newline" and before.text in OPERATORS:
        return "a statement goes on in the next line inside of brackets, or after a '\\' at the end of its line"
    if token.text == "?":
        return "'?' is in a branch of another '?': use a variable for one of them"
    if opened and opened[0] in CLOSING:
        return in_brackets(opened[0], before, token)
    if token.kind == "end" and opened and (wrong := [it for it in LIKE_ENDS.findall(parser.text) if it not in ("endif", "endforeach")]):
        return f"{quoted(wrong[0])} ends no block"
    if opened == ["foreach"] and token.text in ("in", "="):
        return "a loop is 'foreach NAME : LIST'"
    if opened == ["if"] and token.text == "=":
        return "'==' compares, and '=' sets a variable"
    if opened == ["if"] and token.text in ("{", ":", "then"):
        return "a condition ends with its line"
    if token.text == "if":
        return "a choice inside of a statement is 'condition ? this : that'"
    return "texts are joined by '+'" if before.kind == token.kind == "text" else ""


def in_brackets(opened: str, before: Token, token: Token) -> str:
    """Returns the same inside of brackets."""
    if token.text == "=" and opened == "{":
        return "in a dictionary ':' follows a key"
    if before.kind == "name" and token.kind == "mark" and token.text == "=":
        return f"a keyword is given as '{before.text}: value'"
    if opened == "(" and token.text == "," and before.text not in (",", "("):
        return "a list is written in brackets, as [1, 2]"
    ends = before.kind in ("text", "number", "name") or before.text in (")", "]", "}", "true", "false")
    begins = token.kind in ("text", "number", "name") or token.text in ("[", "{", "true", "false")
    if ends and begins:
        return f"a comma or a bracket is missing between {named(before.text)} and {named(token.text)}"
    return ""


def on_line(text: str, line: int) -> Detail:
    """Returns the line at fault, if no place in it is known."""
    words = WORD.findall(line_text(text, line))
    end = start_of(text, line)
    what = f"at {quoted(words[0])}" if words else "at the end of the line"
    if line > text.count("\n"):
        what = "at the end of the file"
    at = end if words and line_text(text, line)[:1].strip() else None
    return detail(f"{what}: the file can't continue like this", open_detail(text, end, line), at=at)


def refused_in(body: list[tree.Statement]) -> Iterator[tuple[int, str]]:
    """Yields what the grammar refuses apart from what can't be read."""
    for statement, is_in_loop in with_loops(body, False):
        if isinstance(statement, tree.Jump) and not is_in_loop:
            yield statement.start, f"'{statement.word}' is outside of a foreach"
        for root in statement.expressions():
            for node in tree.inside(root):
                if isinstance(node, tree.Call):
                    yield from late_arguments(node)
                if isinstance(node, tree.Ternary):
                    yield from ((it.start, "'?' is inside of a branch of another '?'") for branch in (node.yes, node.no)
                                for it in tree.inside(branch) if isinstance(it, tree.Ternary))


def late_arguments(call: tree.Call) -> Iterator[tuple[int, str]]:
    named = ""
    for item in call.items:
        if isinstance(item, tree.Keyword):
            named = item.name
        elif named:
            yield item.start, f"{call.name}: an argument without a name follows '{named}:'; arguments without names come first"


def nesting_detail(text: str, line: int) -> Detail:
    """Explains E4: where level 65 is opened."""
    start = start_of(text, line)
    found = open_at(text, start + len(line_text(text, line)))
    since = f": the outermost begins in line {line_at(text, found[0][1])}" if found else ""
    return detail(f"brackets, blocks and the prefixes 'not' and '-' are nested more than 64 deep here{since}")
