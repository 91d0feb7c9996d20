"""Shows the options of a configured folder as a table: value, default, choices, what set them, and what they are for."""
from __future__ import annotations

import os

from tools.asking.compare import read_sections
from tools.document import read_content
from tools.ending import CALLED, one_line, show
from tools.files import DEFINITION, OPTION_FILES, read_text
from tools.porting import tree
from tools.porting.lexer import SyntaxFault
from tools.porting.options import declarations
from tools.porting.parser import parse
from tools.setup_arguments import Setup, machine_path, read_setup, settings_of

TYPE_CHECKING = False
if TYPE_CHECKING:
    from typing import Any

# The default, the choices and the description of each option that every project has.
BUILT_IN = {
    "prefix": ("/usr/local", "", "where files are installed"), "bindir": ("bin", "", "programs"), "libdir": ("lib", "", "libraries"),
    "includedir": ("include", "", "headers"), "datadir": ("share", "", "data"), "mandir": ("share/man", "", "manual pages"),
    "sysconfdir": ("etc", "", "configuration"),
    "buildtype": ("debug", "plain debug debugoptimized release minsize", "the default of `debug` and `optimization`"),
    "debug": ("by buildtype", "true false", "debug information"),
    "optimization": ("by buildtype", "plain 0 g 1 2 3 s", "how much is optimized"),
    "warning_level": ("1", "0 1 2 3", "how many warnings"), "werror": ("false", "true false", "warnings are errors"),
    "c_std": ("none", "none c89 c99 c11 c17 gnu89 gnu99 gnu11 gnu17", "the standard of C"),
    "default_library": ("shared", "shared static", "what `library` builds"), "c_args": ("[]", "", "further arguments of the compiler"),
    "c_link_args": ("[]", "", "further arguments of the linker"),
    "auto_features": ("auto", "enabled disabled auto", "what `auto` means for all other feature options")}
OF_TYPES = {"boolean": "true false", "feature": "enabled disabled auto"}
TITLES = ("option", "value", "default", "choices", "set by", "description")
WIDEST = 40


def spelled(value: object) -> str:
    if isinstance(value, bool):
        return str(value).lower()
    return "[" + ", ".join(map(str, value)) + "]" if isinstance(value, list) else str(value)


def source_of(call: tree.Call, name: str, text: str) -> str:
    """Returns the text of a keyword's value."""
    word = call.keywords.get(name)
    if word is None:
        return ""
    value = tree.plain(word.value)
    return value.value if isinstance(value, tree.Text) else text[value.start:value.end].replace("'", "")


def declared(sources: str) -> dict[str, tuple[str, str, str]] | None:
    """Returns the default, the choices and the description of each option of the project; none if its option file can't be read."""
    for name in OPTION_FILES:
        path = os.path.join(sources, name)
        if os.path.isfile(path):
            text = read_text(path, DEFINITION)
            try:
                calls = declarations(parse(text))
            except (SyntaxFault, RecursionError):
                return None
            of_call = lambda it: (source_of(it, "value", text), choices_of(it, text), source_of(it, "description", text))
            return {name: of_call(it) for name, it in calls.items()}
    return {}


def choices_of(call: tree.Call, text: str) -> str:
    kind = source_of(call, "type", text)
    limits = [f"{name} {it}" for name in ("min", "max") if (it := source_of(call, name, text))]
    return source_of(call, "choices", text).strip("[]").replace(",", "") or OF_TYPES.get(kind, " ".join(limits))


def setters(setup: Setup, content: dict[str, Any]) -> dict[str, str]:
    """Returns what set an option, if something did: the last place counts."""
    found: dict[str, str] = {}
    root = os.path.join(setup.sources, "meson.build")
    try:
        first = parse(read_text(root))[0]
        nodes = [it for whole in first.expressions() for it in tree.inside(whole)]
        calls = [it for it in nodes if isinstance(it, tree.Call) and it.name == "project"]
        given = calls[0].keywords.get("default_options") if calls else None
        for it in tree.inside(given.value) if given else []:
            if isinstance(it, tree.Text) and "=" in it.value:
                found[it.value.partition("=")[0].strip()] = "meson.build"
    except (SyntaxFault, RecursionError, OSError, IndexError):
        pass
    path = os.path.join(setup.sources, machine_path(setup.words) or "")
    sections = read_sections(path) if os.path.isfile(path) else {}
    for title in ("built-in options", "project options"):
        found |= dict.fromkeys(sections.get(title, {}), "machine file")
    found |= {it.partition("=")[0]: "command line" for it in settings_of(setup.words)}
    return found


def show_options(folder: str) -> None:
    setup, content = read_setup(folder), read_content(folder)
    known, found = {**BUILT_IN, **(declared(setup.sources) or {})}, setters(setup, content)
    rows = []
    for option in content["buildoptions"]:
        default, choices, text = known.get(option["name"], ("", OF_TYPES.get(option["type"], ""), ""))
        rows.append((option["name"], spelled(option["value"]), default, choices, found.get(option["name"], "default"), text))
    shown = [tuple(one_line(it) for it in row) for row in (TITLES, *rows)]
    widths = [min(WIDEST, max(len(row[at]) for row in shown)) for at in range(len(TITLES))]
    for row in shown:
        show("  ".join(it.ljust(width) for it, width in zip(row, widths)).rstrip())
    show(f"\nTo change one: {CALLED} configure {folder} -Dname=value")
