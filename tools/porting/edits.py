"""Changes a text, keeps all bytes outside of the changes, and finds the line of the first text that each line came from."""
from __future__ import annotations


from tools import records as dataclasses
from tools.porting import tree

BLANKS = " \t\r"


@dataclasses.dataclass(frozen=True)
class Edit:
    path: str
    start: int
    end: int
    text: str


@dataclasses.dataclass
class Change:
    """Holds edits that are made together or not at all, and files that are written with them."""
    path: str
    place: int
    what: str
    edits: list[Edit]
    files: dict[str, str] = dataclasses.field(default_factory=dict)
    notes: list[str] = dataclasses.field(default_factory=list)  # what to look at after it


def line_start(text: str, place: int) -> int:
    return text.rfind("\n", 0, place) + 1


def line_end(text: str, place: int) -> int:
    """Returns the place after the newline of a line."""
    found = text.find("\n", place)
    return len(text) if found < 0 else found + 1


def indent_at(text: str, place: int) -> str:
    """Returns the blanks that the line of a place begins with."""
    start = line_start(text, place)
    rest = text[start:place]
    return rest[:len(rest) - len(rest.lstrip(BLANKS))]


def is_blank_or_comment(text: str) -> bool:
    return text.strip() == "" or text.lstrip().startswith("#")


def without_item(text: str, call: tree.Call, item: tree.Node) -> tuple[int, int]:
    """Returns the places that go where an argument goes: its line where it has one, else it and one comma."""
    items = call.items
    number = next(i for i, it in enumerate(items) if it is item)
    comma = text.find(",", item.end, items[number + 1].start) + 1 if number + 1 < len(items) else comma_after(text, item.end)
    begun = line_start(text, item.start)
    ended = max(comma, item.end)
    if text[begun:item.start].strip() == "" and begun > call.opened and is_blank_or_comment(text[ended:line_end(text, ended)]):
        return begun, line_end(text, ended)
    if number + 1 < len(items):
        if "\n" not in text[ended:items[number + 1].start]:
            return item.start, items[number + 1].start
        return len(text[:item.start].rstrip(BLANKS)), ended
    return (items[number - 1].end if number else item.start), item.end


def comma_after(text: str, place: int) -> int:
    """Returns the place after the comma that follows, or 0 if none does."""
    rest = text[place:]
    stripped = rest.lstrip(BLANKS + "\n")
    return place + len(rest) - len(stripped) + 1 if stripped.startswith(",") else 0


def with_item(text: str, call: tree.Call, added: str) -> Edit:
    """Returns the edit, without its path, that gives a call one argument more, written as the last one is."""
    if not call.items:
        return Edit("", call.opened + 1, call.opened + 1, added)
    last = call.items[-1]
    begun = line_start(text, last.start)
    own_line = text[begun:last.start].strip() == "" and begun > call.opened
    comma = comma_after(text, last.end)
    between = "\n" + text[begun:last.start] if own_line else " "
    if comma:
        return Edit("", comma, comma, between + added + ("," if own_line else ""))
    return Edit("", last.end, last.end, "," + between + added)


def whole_lines(text: str, statement: tree.Statement) -> tuple[int, int] | None:
    """Returns the lines of a statement, if they have nothing else but a comment."""
    begun = line_start(text, statement.start)
    ended = line_end(text, statement.end)
    alone = text[begun:statement.start].strip() == "" and is_blank_or_comment(text[statement.end:ended])
    return (begun, ended) if alone else None


def do_overlap(edits: list[Edit], others: list[Edit]) -> bool:
    return any(a.path == b.path and a.start < max(b.end, b.start + 1) and b.start < max(a.end, a.start + 1)
               for a in edits for b in others)


def do_clash(edits: list[Edit]) -> bool:
    """Returns whether the first edit of a change and another of it change one place. Lines may be added before what another one
    replaces."""
    others = [it for it in edits[1:] if not edits[0].start == edits[0].end == it.start < it.end]
    return do_overlap(edits[:1], others)


class Taken:
    """Holds edits by the parts of the files in which they are, so that those near an edit are found without a look at all others."""
    PART = 10  # a part has 1,024 characters

    def __init__(self) -> None:
        self.parts: dict[tuple[str, int], list[Edit]] = {}

    def parts_of(self, edit: Edit) -> list[tuple[str, int]]:
        return [(edit.path, it) for it in range(edit.start >> self.PART, (max(edit.end, edit.start + 1) >> self.PART) + 1)]

    def overlaps(self, edits: list[Edit]) -> bool:
        return any(do_overlap([edit], self.parts.get(part, [])) for edit in edits for part in self.parts_of(edit))

    def add(self, edits: list[Edit]) -> None:
        for edit in edits:
            for part in self.parts_of(edit):
                self.parts.setdefault(part, []).append(edit)


def changed(text: str, origins: list[int], edits: list[Edit]) -> tuple[str, list[int]]:
    """Returns the text after its edits, and for each of its lines the line of the first text that it came from."""
    parts: list[str] = []
    lines = [origins[0]]
    at = line = 0
    if "\r\n" in text:
        edits = [dataclasses.replace(it, text=it.text.replace("\r\n", "\n").replace("\n", "\r\n")) for it in edits]
    for edit in sorted(edits, key=lambda it: (it.start, it.end)):
        for newline in range(text.count("\n", at, edit.start)):
            lines.append(origins[line + newline + 1])
        line += text.count("\n", at, edit.start)
        lines.extend([origins[line]] * edit.text.count("\n"))
        parts += [text[at:edit.start], edit.text]
        line += text.count("\n", edit.start, edit.end)
        at = edit.end
    lines.extend(origins[line + 1:])
    return "".join([*parts, text[at:]]), lines


def indented(lines: list[str], indent: str) -> str:
    return "".join(indent + line + "\n" if line else "\n" for line in lines)
