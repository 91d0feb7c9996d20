"""Writes checks of a source that has to compile or to link as checks of a type or a function that the source has."""
from __future__ import annotations

import os
import re
from collections.abc import Iterator

from tools import records as dataclasses
from tools.files import DEFINITION, read_bytes
from tools.porting import tree
from tools.porting.checks_in_loops import ending_of
from tools.porting.edits import Change, without_item
from tools.porting.lexer import escaped
from tools.porting.project import Project, Site
from tools.porting.rule import added_behind, identifier, of_compiler, path_from, renamed, replaced, text_of
from tools.porting.values import Thing, choices_of, flat

# Keywords that a check keeps.
KEPT = {"args", "dependencies", "include_directories", "required"}
# What a check of a type names itself, so that a source before it gets another name for it.
OF_CHECK = re.compile(r"\b(bar|check)\b")
OF_PROGRAM = re.compile(r"\bmain\b")
# The place of a check's name in a text.
MARK = "\0"


class Names:
    """Makes names of checks that differ from one another and from what a project's checks name."""

    def __init__(self, project: Project) -> None:
        self.taken = {it.value for file in project.entered for statement in file.statements
                      for expression in statement.expressions() for it in tree.inside(expression) if isinstance(it, tree.Text)}

    def free(self, wanted: str) -> str:
        number, name = 1, wanted
        while name in self.taken:
            number += 1
            name = f"{wanted}_{number}"
        self.taken.add(name)
        return name


def wanted_name(project: Project, site: Site) -> str:
    """Returns a name for a check: what the project calls it, else the variable or the key that it decides."""
    word = site.call.keywords.get("name")
    said = text_of(project, word.value) if word else None
    if said is None and isinstance(site.statement, tree.Assignment):
        said = site.statement.name
    if said is None and isinstance(site.statement, tree.If):
        said = first_key(site.statement, site.call)
    if said is None and isinstance(site.statement, tree.Expression) and isinstance(site.statement.value, tree.Call):
        first = site.statement.value.arguments[:1]
        said = first[0].value if first and isinstance(first[0], tree.Text) else None
    return "check_" + identifier(said or "source").removeprefix("check_")


def first_key(statement: tree.If, call: tree.Call) -> str | None:
    """Returns the first name that the branch of a condition sets."""
    for branch in statement.branches:
        if branch.condition is not None and call in set(tree.inside(branch.condition)):
            for it in branch.body:
                if isinstance(it, tree.Assignment):
                    return it.name
                if isinstance(it, tree.Expression) and isinstance(it.value, tree.Call) and it.value.arguments:
                    first = it.value.arguments[0]
                    return first.value if isinstance(first, tree.Text) else None
    return None


def sources(project: Project) -> Iterator[Change]:
    """Replaces a source that has to compile or to link by a check of a type or a function that the same source defines."""
    names = Names(project)
    for site in of_compiler(project, "compiles", "links"):
        is_link = site.call.name == "links"
        code, ending = source_of(project, site), ending_of(project, site)
        if code is None or ending is None:
            why = "its source is not one plain text" if code is None else "it asks for more than one thing with the same arguments"
            project.doubt(site, f"{site.call.name}: {why}")
            continue
        if is_link and not is_linked_whole(site, code):
            project.doubt(site, "links: its source has no `main`, and its arguments no '-shared'")
            continue
        if not is_link and (change := without_compiling(site)) is not None:
            yield change
            continue
        plain = names.free(wanted_name(project, site))
        name = Named(plain, f"{escaped(plain + '_')} + {ending}" if ending else escaped(plain))
        prefix = linked(site, code, name) if is_link else compiled(site, code, name)
        method = "has_function" if is_link else "has_type"
        edits = [renamed(site, method), replaced(site, site.call.arguments[0], f"{name.source}, prefix: {prefix}")]
        if "name" in site.call.keywords:
            start, end = without_item(site.file.text, site.call, site.call.keywords["name"])
            edits.append((start, end, ""))
        change = site.change(f"{site.call.name} becomes {method} {plain}, with the source before it", *edits, *warnings(site))
        if ending:
            change.notes = ["the name of the check is made in a loop: check that the machine file has all of them"]
        yield change


@dataclasses.dataclass(frozen=True)
class Source:
    """Holds the source that a check compiles: its expression, its known texts, and its node if that can be kept."""
    source: str
    texts: list[str]
    node: tree.Node | None = None


@dataclasses.dataclass(frozen=True)
class Named:
    """Holds a check's name: its known beginning, and its expression."""
    text: str
    source: str

    @property
    def is_plain(self) -> bool:
        return self.source == escaped(self.text)


def source_of(project: Project, site: Site) -> Source | None:
    """Returns the source of a check: known texts, or one file of C, which is included by its path."""
    word = site.call.keywords.get("werror")
    is_known = word is None or isinstance(word.value, tree.Truth)
    if len(site.call.arguments) != 1 or set(site.call.keywords) - KEPT - {"name", "werror"} or not is_known:
        return None
    node = site.call.arguments[0]
    texts = choices_of(project.known.value(node))
    if all(isinstance(it, str) for it in texts):
        text = site.file.source(node)
        return Source(f"({text})" if isinstance(node, tree.Ternary) else text, [str(it) for it in texts], node)
    items = flat(project.known.value(node))
    file = items[0].value if len(items) == 1 and items[0].is_sure else None
    path = os.path.join(project.root, file.path) if isinstance(file, Thing) and file.kind == "file" and file.function == "files" else ""
    if not path.endswith(".c"):
        return None
    try:
        text = read_bytes(path, DEFINITION).decode(errors="replace")
    except OSError:
        return None
    place = f"(meson.current_source_dir() / {escaped(path_from(site.folder, file.path))})"
    return Source(f"'#include \"' + {place} + '\"'", [text])


def without_compiling(site: Site) -> Change | None:
    """Drops the argument `-c` of a check that only compiles, as it does without."""
    word = site.call.keywords.get("args")
    value = tree.plain(word.value) if word else None
    nodes = value.items if isinstance(value, tree.List) else [value]
    kept = [it for it in nodes if not (isinstance(it, tree.Text) and it.value == "-c")]
    if word is None or value is None or len(kept) == len(nodes):
        return None
    shown = f"args: [{', '.join(map(site.file.source, kept))}]"
    return site.change(f"{site.call.name}: the argument -c is dropped", (word.start, word.end, shown))


def warnings(site: Site) -> list[tuple[int, int, str]]:
    """Returns the edits that put `werror:` into the words of a check."""
    word, args = site.call.keywords.get("werror"), site.call.keywords.get("args")
    if word is None:
        return []
    is_on = isinstance(word.value, tree.Truth) and word.value.value
    if args is None:
        return [(word.start, word.end, "args: '-Werror'" if is_on else "args: []")]
    return [(*without_item(site.file.text, site.call, word), ""), *([added_behind(site, "args", "'-Werror'")] if is_on else [])]


def compiled(site: Site, code: Source, name: Named) -> str:
    words = sorted({it for text in code.texts for it in OF_CHECK.findall(text)})
    first, last = ("".join(f"#{what}\n" for what in (f.format(it) for it in words)) for f in ("define {0} {0}_of_source", "undef {0}"))
    return around(site, code, "", f"\n{last}typedef int ", name, ";\n", first)


def linked(site: Site, code: Source, name: Named) -> str:
    """Gives its `main` the name of the check, so that the check's own `main` can name it. A source of a shared library gets a function."""
    if not any(OF_PROGRAM.search(it) for it in code.texts):
        return around(site, code, "", "\nstatic int ", name, "(void) { return 0; }\n", "#include <stddef.h>\n")
    return around(site, code, "#include <stddef.h>\n#define main ", "\n#undef main\n", name, "\n")


def is_linked_whole(site: Site, code: Source) -> bool:
    """Returns whether a source has a `main` where it needs one."""
    args = site.call.keywords.get("args")
    is_library = args is not None and "-shared" in site.file.source(args.value)
    return all(OF_PROGRAM.search(it) for it in code.texts) or (is_library and not any(OF_PROGRAM.search(it) for it in code.texts))


def around(site: Site, code: Source, before: str, after: str, name: Named, behind: str, first: str = "") -> str:
    """Returns a source with text put round it, of which the first that is there ends with the name: a literal where it is one, else a
    sum."""
    before, after = (before and f"{before}{MARK}{behind}", after) if before else (first, f"{after}{MARK}{behind}")
    node = code.node
    if name.is_plain and isinstance(node, tree.Text) and not node.has_names:
        before, after, source = before.replace(MARK, name.text), after.replace(MARK, name.text), site.file.source(node)
        if node.is_raw:
            after = after.removeprefix("\n") if node.value.rpartition("\n")[2].strip() == "" and "\n" in node.value else after
            return f"'''{before}{source[3:-3]}{after}'''"
        return f"{escaped(before)[:-1]}{source[1:-1]}{escaped(after)[1:]}"
    return " + ".join([*with_name(before, name), code.source, *with_name(after, name)])


def with_name(text: str, name: Named) -> list[str]:
    """Returns a text in which the name has its place, as items of a sum."""
    if name.is_plain or MARK not in text:
        return [escaped(text.replace(MARK, name.text))] if text else []
    first, _, rest = text.partition(MARK)
    return [escaped(first + name.text + "_"), name.source.partition(" + ")[2], escaped(rest)]
