"""Explains E19, E21 and E22: what a line of a template, a text of build.ninja and a value can hold."""
from __future__ import annotations

import re

from tools.explaining.context import Context
from tools.explaining.detail import Detail, detail, quoted
from tools.porting import tree


def template(line: str) -> Detail:
    """Explains E19."""
    words = line.split()
    if len(words) == 1:
        return detail(f"{quoted(words[0])} has no name after it: write '#mesondefine NAME'")
    if words and words[0] != "#mesondefine":
        return detail(f"{quoted(words[0])} is not '#mesondefine', with which it begins")
    if len(words) > 2:
        more = quoted(" ".join(words[2:]))
        return detail(f"after the name {quoted(words[1])} is {more}: write '#mesondefine NAME', and nothing else")
    return detail(f"{quoted(words[1] if len(words) > 1 else line)} is no name: it has letters, digits, '_' and '-'")


def not_held(context: Context) -> Detail:
    """Explains E21: the reported text, with what Ninja can't hold of it."""
    call, text = context.call(), context.told.text or ""
    sign = re.search(r"[\0\n\r]", text) or re.search(r"[#|\x00-\x1f\x7f]", text)
    what = f"the text {quoted(text)} has {sign_name(sign[0])}" if sign else f"{quoted(text)} has an argument with an end of line"
    places = [it.start for it in tree.inside(call) if isinstance(it, tree.Text) and it.value == text] if call else []
    return detail(f"{call.name if call else 'the call'}: {what}", at=places[0] if places else call.start if call else None)


def sign_name(sign: str) -> str:
    return repr(sign) if sign.isprintable() else f"the control character {sign.encode('unicode_escape').decode()}"


LIMITS = {"range": "a list may have 65,536 items", "subdir": "4,096 folders may be entered, 64 of them inside one another"}
VALUES = ("a list or a dictionary may have 65,536 items, hold others 64 deep and weigh a bounded amount in all; a text may have "
          "16,777,216 bytes")


def limit(context: Context) -> Detail:
    """Explains E22: which limit."""
    call = context.call()
    if call is None:
        return detail(VALUES, at=context.place.statement.start)
    if context.told.whole:
        return detail(f"{call.name}: {context.told.shown}; those of its dependencies are counted", at=call.start)
    values = [it for node in call.arguments if (it := context.value(node)) and it.kind == "integer"]
    got = f"; it got {', '.join(it.text for it in values)}" if values else ""
    return detail(f"{call.name}: {LIMITS.get(call.name, VALUES)}{got}", at=call.start)
