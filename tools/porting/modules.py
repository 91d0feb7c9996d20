"""Rewrites uses of modules, other languages and subprojects, which the real Meson alone has."""
from __future__ import annotations

from collections.abc import Iterator

from tools.porting import tree
from tools.porting.edits import Change
from tools.porting.lexer import escaped
from tools.porting.project import Project, Site
from tools.porting.rule import (REAL, REAL_ALONE, assigned_name, guarded, in_place_of_statement, is_whole_statement, languages_of_real,
                                replaced, text_of, uses_of)
from tools.porting.values import Thing, flat

# How the names of sources end, by their language.
SOURCES = {"cpp": (".cpp", ".cc", ".cxx", ".c++", ".cp"), "objc": (".m",), "objcpp": (".mm",), "rust": (".rs",), "vala": (".vala",),
           "cuda": (".cu",), "d": (".d",), "fortran": (".f", ".for", ".f90", ".f95"), "cython": (".pyx",)}


# What a program answers as an installation of Python does.
OF_PROGRAM = {"found", "path", "full_path"}


def calls_upon(project: Project, call: tree.Call) -> Iterator[Site]:
    """Yields the methods of what a call gives."""
    for site in project.methods():
        things = [it.value for it in flat(project.known.value(site.call.receiver))] if site.call.receiver else []
        if any(isinstance(it, Thing) and it.call is call for it in things):
            yield site


def python(project: Project) -> Iterator[Change]:
    """`import('python').find_installation()` is a program here."""
    for site in project.methods("find_installation", "find_python"):
        receiver = tree.plain(site.call.receiver) if site.call.receiver else None
        module = project.known.value(receiver) if receiver else None
        if not isinstance(module, Thing) or module.name not in ("python", "python3") or set(site.call.keywords) - {"required", "disabler"}:
            continue
        name = text_of(project, site.call.arguments[0]) if site.call.arguments else "python3"
        if name is None or name.startswith("/"):
            continue
        asked = sorted({it.call.name for it in calls_upon(project, site.call)} - OF_PROGRAM)
        if asked:
            project.doubt(site, f"{site.call.name}: {', '.join(asked)} of an installation of Python: an option, and find_program")
            continue
        inner = "".join(f", {site.file.source(it)}" for it in site.call.items if isinstance(it, tree.Keyword))
        yield site.change("the Python of a module becomes find_program",
                          replaced(site, site.call, f"find_program({escaped(name or 'python3')}{inner})"))


def unused_imports(project: Project) -> Iterator[Change]:
    """A module that nothing uses goes; one that is used in branches alone which an option decides is left to the real Meson."""
    for site in project.functions("import"):
        name = site.statement.name if isinstance(site.statement, tree.Assignment) else None
        uses = [it for _, it in uses_of(project, name)] if name else []
        if not is_whole_statement(site) and (name is None or not all(is_never_sure(project, name, it) for it in uses)):
            continue
        what = f"import({escaped(project.known.things[site.call][0].name or '')})"
        if uses and is_usual(project, name or "", uses):
            continue
        if uses:
            yield guarded(site, REAL_ALONE, f"{what} is left to the real Meson: what uses it is never reached here, or only by an option")
        else:
            yield site.change(f"{what} of no use is dropped", in_place_of_statement(site.file, site.statement, []))


def is_never_sure(project: Project, name: str, statement: tree.Statement) -> bool:
    """Returns whether a statement that uses a module's name is reached by an option or the machine alone, if at all."""
    calls = [it for expression in statement.expressions() for it in tree.inside(expression)
             if isinstance(it, tree.Call) and name in tree.names_in(it)]
    return statement not in project.known.reached or (bool(calls) and all(it in project.known.called_maybe for it in calls))


def is_usual(project: Project, name: str, statements: list[tree.Statement]) -> bool:
    """Returns whether a module's name is used where each option has its default: what is left out is then reported there, and not
    hidden."""
    usual = project.usual()
    return any(it in usual.reached and it not in usual.called_maybe for statement in statements
               for expression in statement.expressions() for it in tree.inside(expression)
               if isinstance(it, tree.Call) and name in tree.names_in(it))


def languages(project: Project) -> Iterator[Change]:
    """A question for another language than C has the answer no here; what depends on it is left to the real Meson."""
    for site in project.functions("add_languages"):
        texts = [text_of(project, it) for it in site.call.arguments]
        is_asked = not is_whole_statement(site)
        if None in texts or not texts:
            continue
        if set(texts) == {"c"}:
            edit = replaced(site, site.call, "true") if is_asked else in_place_of_statement(site.file, site.statement, [])
            yield site.change("add_languages: C is there", edit)
        elif is_asked:
            yield site.change(f"add_languages: {', '.join(map(str, texts))} is asked for only in the real Meson",
                              replaced(site, site.call, f"({REAL} and {site.file.source(site.call)})"))
        elif is_optional(project, site):
            yield guarded(site, REAL_ALONE, f"add_languages: {', '.join(map(str, texts))} is left to the real Meson")


def languages_of_project(project: Project) -> Iterator[Change]:
    """Leaves to the real Meson a language other than C that `project` names and in which no source is written."""
    for site in project.functions("project"):
        texts = [it.value for node in site.call.arguments[1:] for it in flat(project.known.value(node))]
        others = [str(it) for it in texts if it != "c"]
        if "c" not in texts or not others or not is_whole_statement(site) or not all(is_unused(project, it) for it in others):
            continue
        end, named = site.statement.end, site.call.arguments[1:]
        added = f"\n{REAL_ALONE}\n  add_languages({', '.join(map(escaped, others))}, native: false)\nendif"
        yield site.change(f"project: {', '.join(others)}, which no source is written in, is left to the real Meson",
                          (named[0].start, named[-1].end, "'c'"), (end, end, added))


def is_unused(project: Project, language: str) -> bool:
    """Returns whether no call that is surely carried out names a source of a language."""
    texts = (it.value for site in project.sites() if site.call not in project.known.called_maybe
             for it in tree.inside(site.call) if isinstance(it, tree.Text))
    return language in SOURCES and not any(it.lower().endswith(SOURCES[language]) for it in texts)


def other_compilers(project: Project) -> Iterator[Change]:
    """The compiler of a language that the real Meson alone adds is here that of C."""
    added = languages_of_real(project)
    for site in project.methods("get_compiler"):
        language = text_of(project, site.call.arguments[0]) if site.call.arguments else None
        if language in added:
            source = site.file.source(site.call.arguments[0])
            yield site.change(f"get_compiler: that of {language} is asked for only in the real Meson; here it is that of C",
                              replaced(site, site.call.arguments[0], f"{REAL} ? {source} : 'c'"))


def is_optional(project: Project, site: Site) -> bool:
    required = site.call.keywords.get("required")
    return required is not None and project.known.value(required.value) is False


def subprojects(project: Project) -> Iterator[Change]:
    """A subproject that may be missing is missing here."""
    for site in project.functions("subproject"):
        if not is_optional(project, site):
            continue
        if is_whole_statement(site):
            yield guarded(site, REAL_ALONE, "subproject: one that may be missing is left to the real Meson")
        elif assigned_name(site):
            text = f"{REAL} ? {site.file.source(site.call)} : dependency('', required: false)"
            yield site.change("subproject: one that may be missing is missing here", replaced(site, site.call, text))
