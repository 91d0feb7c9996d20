"""Reads machine files strictly, by the rules of their lines alone: a text that it accepts is a machine file.

Each line, without blanks at its ends, is empty, a comment, `[section]`, or `key = value`, cut at the first `=`
(in `[checks]` the last). A value is a string '..', a number, a truth value or a list of such strings, then at most a
comment. No section and no key occurs twice, and each has the type that its place asks for.
"""
import re

BLANKS = " \t\r"
ESCAPE = r"\\(?:[\\'abfnrtv]|[0-7]{1,3}|x[0-9a-fA-F]{2}|u[0-9a-fA-F]{4}|U[0-9a-fA-F]{8})"
STRING = rf"'(?:[^'\\]|\\.)*'"
NUMBER = r"-?[ \t\r]*(?:0[xX][0-9a-fA-F]+|0[oO][0-7]+|0[bB][01]+|0|[1-9][0-9]*)(?![A-Za-z0-9_])"
B = r"[ \t\r]*"
LIST = rf"\[{B}(?:{STRING}{B}(?:,{B}{STRING}{B})*(?:,{B})?)?\]"
VALUE = re.compile(rf"(?P<string>{STRING})|(?P<truth>true|false)(?![A-Za-z0-9_])|(?P<number>{NUMBER})|(?P<list>{LIST})")
PLAIN = dict(zip("\\'abfnrtv", "\\'\a\b\f\n\r\t\v"))
CHECKS = {**dict.fromkeys(("has_header", "check_header", "has_function", "has_type", "has_argument", "has_link_argument",
                           "has_member", "has_header_symbol", "find_library"), bool), "sizeof": int, "alignment": int}
KEYS = {"host_machine": dict.fromkeys(("system", "cpu_family", "cpu", "endian"), str),
        "compiler": dict.fromkeys(("id", "version"), str),
        "dependency": {"version": str, "compile_args": list, "link_args": list}}


class NoMachineFile(Exception):
    """Says the line, counted from 1, up to which the lines begin no machine file."""


def text_of(spelled):
    def character(match):
        word = match.group()[1:]
        if word[0] in PLAIN:
            return PLAIN[word[0]]
        code = int(word, 8) if word[0] in "01234567" else int(word[1:], 16)
        if 0xD800 <= code < 0xE000 or code > 0x10FFFF:
            raise ValueError(f"{match.group()} names no character")
        return chr(code)
    return re.sub(ESCAPE, character, spelled[1:-1])


def value_of(written):
    match = VALUE.match(written)
    if not match:
        raise ValueError(f"no value: {written!r}")
    rest = written[match.end():].strip(BLANKS)
    if rest and rest[0] != "#":
        raise ValueError(f"more than a value: {written!r}")
    text = match.group()
    if match["string"]:
        return text_of(text)
    if match["truth"]:
        return text == "true"
    if match["number"]:
        sign = -1 if text[0] == "-" else 1
        number = sign * int(text.lstrip("-" + BLANKS), 0)
        if not -2**63 <= number < 2**63:
            raise ValueError(f"over 64 bits: {text}")
        return number
    return [text_of(it) for it in re.findall(STRING, text)]


def check_place(section, key, value):
    kind = section.split(" ", 1)[0]
    if kind in KEYS and KEYS[kind].get(key) is not type(value):
        raise ValueError(f"[{section}] has no key {key!r} of this type")
    if kind == "binaries" and (type(value) not in (str, list) or value == []):
        raise ValueError(f"{key!r} names no words")
    if kind == "checks":
        method, space, _ = key.partition(" ")
        if CHECKS.get(method) is not type(value) or not space:
            raise ValueError(f"no check has the key {key!r} and this type")


def machine_lines(data):
    """Maps each section to its keys, and each key to its value."""
    sections, section = {}, None
    for number, line in enumerate(data.decode("utf-8").split("\n"), 1):
        line = line.strip(BLANKS)
        try:
            if not line or line[0] == "#":
                continue
            if line[0] == "[" and line[-1] == "]":
                section = line[1:-1]
                plain = section in ("binaries", "built-in options", "project options", "host_machine", "compiler", "checks", "properties")
                if section in sections or not plain and not re.fullmatch(r"dependency .+", section):
                    raise ValueError(f"no section, or one that occurs twice: {line}")
                sections[section] = {}
                continue
            cut = line.rfind("=") if section == "checks" else line.find("=")
            if section is None or cut < 0:
                raise ValueError(f"no such line: {line}")
            key, value = line[:cut].strip(BLANKS), value_of(line[cut + 1:].strip(BLANKS))
            if key in sections[section]:
                raise ValueError(f"a key that occurs twice: {key}")
            check_place(section, key, value)
            sections[section][key] = value
        except ValueError as error:
            raise NoMachineFile(f"line {number}: {error}") from error
    return sections
