"""Reads the files of tests/cases. Their README.md describes the form."""
import dataclasses
import itertools
import os
import re

# What a hole of a table looks like: '…', or '…1' and '…2' where a row has two columns.
HOLE = re.compile(r"…(\d?)")

# Parts of a row of which each makes a row of its own: '‹a¦b¦c›'; in a result the part at the same place, or '‹1›' for the chosen one.
CHOICE = re.compile(r"‹([^›]*)›")

# The separators between a row and its result, and between the columns of a row.
ARROW, COLUMN = " -> ", re.compile(r"(?:^| )\|(?: |$)")

# The most bytes that one text of a case may have once it is written out.
MOST_BYTES = 1 << 26

DIRECTIVES = {
    "L2": "content", "file": "content", "files": "line", "folder": "line", "in": "line", "machine": "content", "word": "line",
    "build": "line", "link": "line", "hardlink": "line", "fifo": "line", "socket": "line", "locked": "line", "closed": "line",
    "full": "line", "command": "either", "log": "either", "fault": "line", "status": "line", "complaint": "either", "out": "content",
    "no": "line", "edge": "content", "json": "line", "ok": "none", "cut": "line", "fail": "line", "pieces": "line", "looks": "line",
    "stays": "line", "takes": "line", "order": "content", "questions": "none", "asks": "either", "about": "line", "rows": "rows",
}

EXPECTS = {"log", "fault", "status", "complaint", "out", "no", "edge", "json", "ok", "looks", "stays", "asks", "about", "order"}


class FormError(Exception):
    """Says what is wrong with a file of cases, and where."""


@dataclasses.dataclass
class Item:
    """Holds one directive: its word, the rest of its line, and the lines that are indented below it."""

    word: str
    text: str
    content: str
    place: str


@dataclasses.dataclass
class Case:
    """Holds what one run is given, and the results that it must have."""

    group: str
    title: str
    place: str
    items: list
    # In a table the source of its row, its columns, and what the row must come to.
    row: str = ""
    columns: tuple = ()
    result: str = ""
    # Whether a result that is no directive is what a message prints.
    prints: bool = False

    def name(self):
        return f"{self.group}: {self.title}" + (f": {self.row}" if self.row else "")


def written_out(text, names):
    """Returns the bytes that a text spells: `special` reads what is between « and », and the rest is itself."""
    made, at = bytearray(), 0
    while True:
        start = text.find("«", at)
        if start < 0:
            return bytes(made + text[at:].encode())
        made += text[at:start].encode()
        depth, end = 1, start + 1
        while depth and end < len(text):
            depth += (text[end] == "«") - (text[end] == "»")
            end += 1
        if depth:
            raise FormError("a « has no »")
        made += special(text[start + 1 : end - 1], names)
        if len(made) > MOST_BYTES:
            raise FormError(f"a text of more than {MOST_BYTES} bytes")
        at = end


def special(inner, names):
    """Returns what the text between « and » spells: a name, bytes, or a text that is repeated."""
    if inner in names:
        return str(names[inner]).encode()
    if inner.startswith("x "):
        try:
            return bytes.fromhex(inner[2:])
        except ValueError:
            raise FormError(f"«{inner}» has no bytes") from None
    number = lambda text: names["i"] if text == "i" and "i" in names else int(text)
    times = re.match(r"(\d+|i) (.*)\Z", inner, re.S)
    span = re.match(r"(\d+|i)\.\.(\d+|i) (.*)\Z", inner, re.S)
    if not times and not span:
        raise FormError(f"«{inner}» says nothing")
    try:
        if times:
            part = written_out(times[2], names)
            if len(part) * number(times[1]) > MOST_BYTES:
                raise FormError(f"«{inner[:40]}» has more than {MOST_BYTES} bytes")
            return part * number(times[1])
        first, last = number(span[1]), number(span[2])
    except ValueError:
        raise FormError(f"«{inner[:40]}» has no number") from None
    through = range(first, last + 1) if first <= last else range(first, last - 1, -1)
    if len(through) > 1 << 20:
        raise FormError(f"«{inner[:40]}» goes through more than {1 << 20} numbers")
    return b"".join(written_out(span[3], {**names, "i": it}) for it in through)


def block(lines):
    """Returns the text of lines that were indented by two blanks, each with its newline, without empty lines at the end."""
    while lines and not lines[-1].strip():
        lines.pop()
    return "".join(line[2:] + "\n" for line in lines)


def items_of(path, shown):
    """Returns the titles of a file of cases, each with its directives."""
    found = []
    with open(path, encoding="utf-8", newline="\n") as file:
        lines = file.read().split("\n")
    content = None
    for number, line in enumerate(lines, 1):
        place = f"{shown}:{number}"
        if line.startswith("#"):
            continue
        if line.startswith("== "):
            found.append((line[3:].strip(), place, []))
            content = None
        elif not line.strip() or line.startswith("  "):
            if content is None and line.strip():
                raise FormError(f"{place}: an indented line below no directive")
            if content is not None:
                content.append((line, number))
        else:
            if not found:
                raise FormError(f"{place}: a directive before the first '== TITLE'")
            word, _, text = line.partition(" ")
            if not fault_of(line) and word not in DIRECTIVES:
                raise FormError(f"{place}: there is no directive '{word}'")
            content = []
            found[-1][2].append((word, text.strip(), content, place))
    return found


def cases_of(path, group, shown):
    """Returns the cases of a file."""
    cases = []
    for title, place, raw in items_of(path, shown):
        items, rows = [], None
        for word, text, content, at in raw:
            if rows is not None:
                raise FormError(f"{at}: rows stand last")
            if word == "rows":
                rows = (text, content, at)
                continue
            kind = "none" if fault_of(f"{word} {text}") else DIRECTIVES[word]
            if kind in ("line", "none") and any(line.strip() for line, _ in content):
                raise FormError(f"{at}: '{word}' has no indented lines")
            items.append(Item(word, text, block([line for line, _ in content]), at))
        if rows:
            cases += rows_of(group, title, items, rows, shown)
        else:
            cases.append(Case(group, title, place, items))
    return cases


def rows_of(group, title, items, rows, shown):
    """Returns the cases of a table."""
    text, content, place = rows
    if text not in ("", "printed"):
        raise FormError(f"{place}: rows are 'rows' or 'rows printed'")
    for it in items:
        if it.word in EXPECTS - {"out", "edge", "no", "json", "looks", "stays"} or fault_of(f"{it.word} {it.text}"):
            raise FormError(f"{it.place}: what a table must come to stands in its rows")
    holes = {number for it in items for number in HOLE.findall(it.text + "\n" + it.content)}
    if not holes:
        items = with_hole(items, text == "printed", place)
        holes = {""}
    if len(holes) > 1 and holes != {str(number + 1) for number in range(len(holes))}:
        raise FormError(f"{place}: holes are '…', or '…1', '…2' and so on")
    cases = []
    for line, number in content:
        if not line.strip():
            continue
        at = f"{shown}:{number}"
        line = line[2:].rstrip()
        line = line + " " if line.endswith(" ->") or line == "->" else line
        source, arrow, result = (" " + line).rpartition(ARROW)
        if not arrow:
            raise FormError(f"{at}: a row has '{ARROW}' before what it must come to")
        for one, result_of_one in choices_of(source[1:].rstrip(), result.strip(), at):
            columns = columns_of(one, len(holes), at)
            cases.append(Case(group, title, at, items, one or "(nothing)", columns, result_of_one, text == "printed"))
    return cases


def choices_of(source, result, place):
    """Returns the rows that a row abbreviates, each with its result: one for each of the parts between '‹' and '›', if it has any."""
    choices = [it.split("¦") for it in CHOICE.findall(source)]
    between = CHOICE.split(source)[::2]
    for numbers in itertools.product(*(range(len(parts)) for parts in choices)):
        chosen = [parts[number] for parts, number in zip(choices, numbers)]
        of_result = CHOICE.sub(lambda it: part_of_result(it[1], choices, numbers, place), result)
        yield between[0] + "".join(part + rest for part, rest in zip(chosen, between[1:])), of_result


def part_of_result(inner, choices, numbers, place):
    """Returns the replacement of '‹inner›' in a result. It is the chosen part of the choice with this number, or the part at the same
    place as the chosen one of the first choice of the row that has as many."""
    parts = inner.split("¦")
    if len(parts) == 1 and inner.isdigit() and 0 < int(inner) <= len(choices):
        return choices[int(inner) - 1][numbers[int(inner) - 1]]
    for of_row, number in zip(choices, numbers):
        if len(of_row) == len(parts) > 1:
            return parts[number]
    raise FormError(f"{place}: no choice of the row has as many parts as '‹{inner}›'")


def columns_of(source, count, place):
    parts = [source] if count == 1 else [it.strip() for it in COLUMN.split(source, count - 1)]
    if len(parts) != count:
        raise FormError(f"{place}: a row of this table has {count} columns")
    return tuple(it.replace("¶", "\n") for it in parts)


def with_hole(items, prints, place):
    """Returns the directives of a table that shows no hole: the hole is a line of its own, the last of meson.build."""
    line = "message(…)\n" if prints else "…\n"
    made = [dataclasses.replace(it, content=it.content + line) if it.word == "L2" else it for it in items]
    if any(it.word == "file" and it.text == "meson.build" for it in items):
        raise FormError(f"{place}: the file meson.build has no '…'")
    return made if any(it.word == "L2" for it in items) else [*items, Item("L2", "", line, place)]


def fault_of(text):
    """Returns the parts of a fault in short form, 'E6', 'E6 at 3', 'E5 at a/meson.build:3: name': number, place and the text after them,
    or none."""
    return re.fullmatch(r"E(\d+)(?: at ((?:[^:]+:)?\d+))?(?:: (.*))?", text.strip(), re.S)


def groups_of(top):
    """Returns the groups below a folder, the name of each with its file: its path there, without '.txt'."""
    found = {}
    for folder, folders, files in os.walk(top):
        folders.sort()
        for name in sorted(files):
            if name.endswith(".txt"):
                path = os.path.join(folder, name)
                found[os.path.relpath(path, top).removesuffix(".txt")] = path
    return found
