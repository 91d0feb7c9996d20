"""Finds what no check of this program says of the compiler, once and only with --run, and keeps it as an option.

The source is compiled and linked as `meson machine-file` does it, and nothing of it is run. The real Meson asks the compiler as before.
"""
from __future__ import annotations

import os
from collections.abc import Iterator

from tools.ending import Stop
from tools.files import DEFINITION, read_text
from tools.porting import tree
from tools.porting.checks_in_loops import ending_of
from tools.porting.edits import Change
from tools.porting.lexer import escaped
from tools.porting.options import option_name, with_option
from tools.porting.project import Project, Site
from tools.porting.rule import REAL, identifier, of_compiler, replaced, text_of, texts_at
from tools.porting.sources import wanted_name
from tools.porting.unsupported import METHODS
from tools.porting.values import Thing, flat

TYPE_CHECKING = False
if TYPE_CHECKING:
    from tools.asking.compiler import Compiler, Flags

# Of each method, what its option is.
TYPES = {"compiles": "boolean", "links": "boolean", "get_define": "string", "compute_int": "integer"}
WITH_RUN = "--run asks for it once, and writes an option"
TAKEN = {"args", "dependencies", "include_directories", "name", "prefix", "low", "high", "guess"}


class NotFollowed(Exception):
    """Reports that a part of the question isn't known here."""


def answers(project: Project) -> Iterator[Change]:
    """Replaces the first question that is left by an option with the present value. A later pass finds the next one."""
    for site in of_compiler(project, *TYPES):
        try:
            source = question_of(project, site)
            if not project.is_asked_to_run:
                left_for_later(project, site)
                continue
            value = answer_of(project, site, source)
        except (NotFollowed, Stop) as why:
            project.doubts.setdefault(site.call, f"{site.call.name}: {why}")
            continue
        yield as_option(project, site, value)
        return


def left_for_later(project: Project, site: Site) -> None:
    """Says that --run would find the value, after what another rule has said of it."""
    why = project.doubts.get(site.call, f"{site.call.name}: {METHODS['compiler'][site.call.name]}")
    if WITH_RUN not in why:
        project.doubt(site, f"{why}; {WITH_RUN}")


def as_option(project: Project, site: Site, value: bool | int | str) -> Change:
    """Returns the call for the real Meson alone, and next to it an option that has this value."""
    method = site.call.name
    first = text_of(project, site.call.arguments[0])
    wanted = f"value_of_{identifier(first or method)}" if method == "get_define" else wanted_name(project, site)
    # Each call has an option of its own: no description is that of none.
    option = option_name(project, wanted, "")
    shown = escaped(value) if isinstance(value, str) else str(value).lower()
    description = f"What {method} says here of {first}" if method == "get_define" else f"What {method} says here"
    project.said.append(f"asked: {method}: {option}: {shown}")
    change = site.change(f"{method} becomes the option {option}, which is {shown} here",
                         replaced(site, site.call, f"({REAL} ? {site.file.source(site.call)} : get_option({escaped(option)}))"))
    text = f"option({escaped(option)}, type: '{TYPES[method]}', value: {shown}, description: {escaped(description)})\n"
    change.edits.append(with_option(project, text))
    change.notes = [f"the option {option} is the answer of this machine's compiler: on another machine its machine file may need another"]
    return change


def question_of(project: Project, site: Site) -> str:
    """Returns the source, the macro or the number of a question, if it is known and the same in each round of a loop."""
    if set(site.call.keywords) - TAKEN or len(site.call.arguments) != 1:
        raise NotFollowed("its arguments can't be followed")
    if ending_of(project, site) != "":
        raise NotFollowed("it asks for more than one thing with the same arguments")
    text = text_of(project, site.call.arguments[0])
    if text is None and site.call.name in ("compiles", "links", "run"):
        text = read(file_of(project, site))
    if text is None:
        raise NotFollowed("its source is not one plain text")
    return text


def answer_of(project: Project, site: Site, text: str) -> bool | int | str:
    """Returns what the compiler says of a question."""
    import tempfile

    from tools.asking.checks import number
    from tools.asking.compiler import Compiler, Flags
    with tempfile.TemporaryDirectory() as scratch:
        compiler = Compiler(scratch, project.root)
        prefix = prefix_of(project, site)
        flags = flags_of(project, site, compiler)
        if site.call.name == "get_define":
            return compiler.expansion(text, prefix, flags)
        if site.call.name == "compute_int":
            value = number(compiler, f"(long)({text})", f"{prefix}\n#include <stddef.h>\n#include <stdio.h>", flags)
            if value < 0:
                raise NotFollowed("the compiler knows no such number, or it is negative")
            return value
        file = file_of(project, site)
        beside = Flags(flags.args, (*flags.compile_args, *(["-iquote", os.path.dirname(file)] if file else [])), flags.link_args)
        mode = "compile" if site.call.name == "compiles" else "link"
        return compiler.attempt(mode, text, beside, ending=os.path.splitext(file)[1] or ".c").is_good


def file_of(project: Project, site: Site) -> str:
    """Returns the path of the file that is a check's source; empty if none surely is."""
    items = flat(project.known.value(site.call.arguments[0]))
    thing = items[0].value if len(items) == 1 and items[0].is_sure else None
    is_file = isinstance(thing, Thing) and thing.kind == "file" and thing.function == "files"
    return os.path.abspath(os.path.join(project.root, thing.path)) if isinstance(thing, Thing) and is_file else ""


def read(path: str) -> str | None:
    try:
        return read_text(path, DEFINITION)
    except OSError:
        return None


def prefix_of(project: Project, site: Site) -> str:
    word = site.call.keywords.get("prefix")
    texts = texts_at(project, word.value) if word else []
    if texts is None:
        raise NotFollowed("its prefix is not known here")
    return "\n".join(texts)


def flags_of(project: Project, site: Site, compiler: Compiler) -> Flags:
    """Returns the words of a check: its arguments, its folders, and what its dependencies give."""
    from tools.asking.compiler import Flags
    from tools.asking.dependencies import dependency
    words = site.call.keywords
    args = texts_at(project, words["args"].value) if "args" in words else []
    if args is None or compiler.allowed.refused(args) is not None:
        raise NotFollowed("its arguments are not known here, or with them the compiler could do more than read code")
    compile_args: list[str] = []
    link_args: list[str] = []
    for thing in things_at(project, words.get("dependencies")):
        found = dependency(compiler, thing.name or "") if thing.kind == "dependency" else None
        if found is None:
            raise NotFollowed("one of its dependencies is not found here")
        compile_args += [str(it) for it in found["compile_args"]]
        link_args += [str(it) for it in found["link_args"]]
    return Flags(tuple(args), (*folders_of(project, site), *compile_args), tuple(link_args))


def folders_of(project: Project, site: Site) -> list[str]:
    found = []
    for thing in things_at(project, site.call.keywords.get("include_directories")):
        for it in [item for argument in thing.arguments for item in flat(argument)]:
            if thing.kind != "include" or not it.is_sure or not isinstance(it.value, str):
                raise NotFollowed("one of its folders is not known here")
            found.append("-I" + os.path.abspath(os.path.join(project.root, os.path.dirname(thing.path), it.value)))
    return found


def things_at(project: Project, word: tree.Keyword | None) -> list[Thing]:
    """Returns the objects that a keyword surely is."""
    items = flat(project.known.value(word.value)) if word else []
    if not all(it.is_sure and isinstance(it.value, Thing) for it in items):
        raise NotFollowed("its other arguments are not known here")
    return [it.value for it in items if isinstance(it.value, Thing)]
