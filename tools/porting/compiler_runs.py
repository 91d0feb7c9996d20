"""Compiles and runs the programs that a project runs while configuring, once and only with --run. The real Meson runs them as before."""
from __future__ import annotations

import os
import subprocess
from collections.abc import Iterator

from tools.ending import Stop
from tools.porting import tree
from tools.porting.commands import LARGEST, NOT_ASKED, run
from tools.porting.compiler_options import NotFollowed, file_of, flags_of, question_of
from tools.porting.edits import Change
from tools.porting.lexer import escaped
from tools.porting.options import declared, with_option
from tools.porting.project import Project, Site
from tools.porting.rule import REAL, assigned_name, of_compiler, replaced
from tools.porting.sources import wanted_name
from tools.porting.values import flat

METHODS = ("compiled", "returncode", "stdout", "stderr")
# What the real Meson has of a source that doesn't compile.
UNDEFINED = subprocess.CompletedProcess([], 999, "UNDEFINED", "UNDEFINED")


def runs(project: Project) -> Iterator[Change]:
    """The first program that is left: its status and whether it compiles are options, what it printed is a text."""
    for site in of_compiler(project, "run"):
        if not project.is_asked_to_run:
            project.doubt(site, f"run of a compiler {NOT_ASKED}")
            continue
        try:
            yield answered(project, site, outcome(project, site))
            return
        except (NotFollowed, Stop) as why:
            project.doubt(site, f"run: {why}: an option")


def answered(project: Project, site: Site, done: subprocess.CompletedProcess[str]) -> Change:
    """Keeps the methods of a result for the real Meson alone, and puts what it came to next to them."""
    uses = [it for it in project.methods(*METHODS) if it.call.receiver and tree.plain(it.call.receiver) is site.call]
    edits: list[tuple[int, int, str]] = []
    if not uses:
        name = assigned_name(site)
        uses = [it for it in project.methods(*METHODS) if is_result(project, it, name, site)]
        edits = [replaced(site, site.call, f"{REAL} ? {site.file.source(site.call)} : ''")]
        if name is None or any(it.file is not site.file for it in uses):
            raise NotFollowed("its result is used in a way that can't be followed")
    values = {"compiled": done is not UNDEFINED, "returncode": done.returncode, "stdout": done.stdout, "stderr": done.stderr}
    options = {method: free_option(project, f"{wanted_name(project, site)}_{method}") for method in METHODS[:2]}
    shown = {method: f"get_option('{options[method]}')" if method in options else escaped(str(values[method])) for method in METHODS}
    edits += [replaced(it, it.call, f"({REAL} ? {it.file.source(it.call)} : {shown[it.call.name]})") for it in uses]
    change = site.change("run of a compiler: what its program came to", *edits)
    used = [it for it in options if any(use.call.name == it for use in uses)]
    if used:
        change.edits.append(with_option(project, "".join(declaration(options[it], values[it]) for it in used)))
    return change


def is_result(project: Project, site: Site, name: str | None, run_site: Site) -> bool:
    """Returns whether a method is one of the result of a run, by the variable that has it."""
    receiver = tree.plain(site.call.receiver) if site.call.receiver else None
    things = [it.value for it in flat(project.known.value(receiver))] if receiver else []
    return isinstance(receiver, tree.Name) and receiver.text == name and any(getattr(it, "call", None) is run_site.call for it in things)


def free_option(project: Project, wanted: str) -> str:
    number, name = 1, wanted
    while declared(project, name) is not None:
        number += 1
        name = f"{wanted}_{number}"
    return name


def declaration(name: str, value: object) -> str:
    kind, text = ("boolean", str(value).lower()) if isinstance(value, bool) else ("integer", str(value))
    return f"option('{name}', type: '{kind}', value: {text}, description: 'What a program that was run came to')\n"


def outcome(project: Project, site: Site) -> subprocess.CompletedProcess[str]:
    """Returns how the program of a check ended here, UNDEFINED where there is none."""
    import tempfile

    from tools.asking.compiler import Compiler
    text, path = question_of(project, site), file_of(project, site)
    with tempfile.TemporaryDirectory(prefix="meson-port-") as folder:
        compiler = Compiler(folder, project.root)
        flags = flags_of(project, site, compiler)
        file, made = os.path.join(folder, "source" + (os.path.splitext(path)[1] or ".c")), os.path.join(folder, "made")
        beside = ["-iquote", os.path.dirname(path)] if path else []
        with open(file, "w", encoding="utf-8") as it:
            it.write(text + "\n")
        words = [*compiler.c, file, *flags.compile_args, *compiler.c_args, "-O0", *beside, *flags.args, *flags.link_args]
        built = run(project, [*words, *compiler.c_link_args, "-o", made], folder)
        done = UNDEFINED if built is not None and built.returncode != 0 else run(project, [made], folder)
    if done is None or len(done.stdout) + len(done.stderr) > LARGEST:
        raise NotFollowed("its program can't be run here")
    return done
