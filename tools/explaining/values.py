"""Reads values from the text that they are printed as inside of a list."""
from __future__ import annotations


from tools import records as dataclasses
from tools.explaining.detail import quoted

TEXT, INTEGER, TRUTH, LIST, DICTIONARY, OBJECT = "text", "integer", "truth value", "list", "dictionary", "object"
# The variables that each project has, and of which kind they are.
OWN = {"meson": "meson object", "host_machine": "machine", "build_machine": "machine", "target_machine": "machine"}


@dataclasses.dataclass(frozen=True)
class Value:
    """Holds a value: its type, and its text if it is a text, else its printed form. `items` are those of a list, or keys and values, if
    they are known."""
    kind: str
    text: str = ""
    items: tuple["Value", ...] = ()

    def shown(self) -> str:
        if self.kind == TEXT:
            return f"the text {quoted(self.text)}"
        if self.kind in (INTEGER, TRUTH):
            return f"the {self.kind} {self.text}"
        if self.kind == LIST and not self.items and self.text == "[]":
            return "an empty list"
        if self.kind == LIST and self.items:
            return f"a list with {self.items[0].shown()}" + (f" and {len(self.items) - 1} more" if len(self.items) > 1 else "")
        if self.kind == DICTIONARY:
            return "a dictionary" if self.text else "a dictionary with an object in it"
        return f"{'an' if self.kind[0] in 'aeiou' else 'a'} {self.kind}"


def flat(value: Value) -> list[Value]:
    """Returns a value, or those in it if it is a list, at each depth."""
    if value.kind != LIST:
        return [value]
    return [inner for item in value.items for inner in flat(item)]


def end_of_text(printed: str, at: int) -> int:
    """Returns where a text ends that begins at a quote: at the next quote that a sign of a list or a dictionary follows."""
    end = printed.find("'", at + 1)
    while end >= 0 and not printed[end + 1:].startswith((", ", "]", " : ", "}")) and end + 1 < len(printed):
        end = printed.find("'", end + 1)
    return end if end >= 0 else len(printed)


def value_at(printed: str, at: int) -> tuple[Value, int]:
    """Returns the value that is printed at a place, and where it ends."""
    sign = printed[at:at + 1]
    if sign == "'":
        end = end_of_text(printed, at)
        return Value(TEXT, printed[at + 1:end]), end + 1
    if sign == "[":
        items, end = [], at + 1
        while end < len(printed) and printed[end] != "]":
            item, end = value_at(printed, end)
            items.append(item)
            end += 2 * printed.startswith(", ", end)
        return Value(LIST, printed[at:end + 1], tuple(items)), end + 1
    if sign == "{":
        items, end = [], at + 1
        while end < len(printed) and printed[end] != "}":
            item, end = value_at(printed, end)
            items.append(item)
            end += 3 * printed.startswith(" : ", end) or 2 * printed.startswith(", ", end)
        return Value(DICTIONARY, printed[at:end + 1], tuple(items)), end + 1
    end = at + 1
    while end < len(printed) and printed[end] not in ",]} ":
        end += 1
    word = printed[at:end]
    return Value(TRUTH if word in ("true", "false") else INTEGER, word), end


def value_in(printed: str) -> Value:
    """Returns the value that is alone in a printed list."""
    return value_at(printed, 1)[0]
