"""Rewrites checks of the compiler that are left out here as checks that are not."""
from __future__ import annotations

from collections.abc import Iterator

from tools.porting import tree
from tools.porting.edits import Change, without_item
from tools.porting.lexer import escaped
from tools.porting.project import Project, Site
from tools.porting.rule import (assigned_name, before_statement, can_hoist, comparison_of, free_name, identifier, in_place_of_statement,
                                of_compiler, renamed, replaced, text_of, texts_at)
from tools.porting.sources import Names
from tools.porting.values import kind_of

# Attributes whose declaration is more than `int check_attribute(void) __attribute__((NAME));`.
ATTRIBUTES = {
    "alias": "int aliased(void) { return 0; } int check_attribute(void) __attribute__((alias(\"aliased\")));",
    "aligned": "int check_attribute(void) __attribute__((aligned(32)));",
    "alloc_size": "void *check_attribute(int a) __attribute__((alloc_size(1)));",
    "const": "int check_attribute(void) __attribute__((const));",
    "error": "int check_attribute(void) __attribute__((error(\"\")));",
    "warning": "int check_attribute(void) __attribute__((warning(\"\")));",
    "fallthrough": "int check_attribute(int a) { switch (a) { case 1: a = 2; __attribute__((fallthrough)); case 2: a = 3; } return a; }",
    "format": "int check_attribute(const char *a, ...) __attribute__((format(printf, 1, 2)));",
    "format_arg": "char *check_attribute(const char *a) __attribute__((format_arg(1)));",
    "ifunc": "int one(void) { return 0; } static int (*resolve(void))(void) { return one; } "
             "int check_attribute(void) __attribute__((ifunc(\"resolve\")));",
    "malloc": "int *check_attribute(void) __attribute__((malloc));", "nonnull": "int check_attribute(char *a) __attribute__((nonnull(1)));",
    "packed": "struct check_attribute { char a; int b; } __attribute__((packed));",
    "returns_nonnull": "int *check_attribute(void) __attribute__((returns_nonnull));",
    "section": "int check_attribute(void) __attribute__((section(\".check\")));",
    "sentinel": "int check_attribute(const char *a, ...) __attribute__((sentinel));",
    "vector_size": "__attribute__((vector_size(32))); int check_attribute(void) { return 0; }",
    "weakref": "static int other(void) { return 0; } static int check_attribute(void) __attribute__((weakref(\"other\")));",
    **{f"visibility:{it}": f"int check_attribute(void) __attribute__((visibility(\"{it}\")));"
       for it in ("default", "hidden", "internal", "protected")},
}
ATTRIBUTES["visibility"] = " ".join(
    f"int check_{it}(void) __attribute__((visibility(\"{it}\")));" for it in ("default", "hidden", "internal", "protected"))
OF_WINDOWS = ("dllexport", "dllimport")


def attributes(project: Project) -> Iterator[Change]:
    names = Names(project)
    for site in of_compiler(project, "has_function_attribute"):
        attribute = text_of(project, site.call.arguments[0]) if site.call.arguments else None
        if attribute is None:
            project.doubt(site, "has_function_attribute: its name is not one plain text")
            continue
        if attribute in OF_WINDOWS:
            yield site.change(f"has_function_attribute: {attribute} exists only on Windows",
                              replaced(site, site.call, "(host_machine.system() in ['windows', 'cygwin'])"))
            continue
        name = names.free("has_attribute_" + identifier(attribute))
        declared = ATTRIBUTES.get(attribute, f"int check_attribute(void) __attribute__(({attribute}));")
        required = site.call.keywords.get("required")
        kept = f", {site.file.source(required)}" if required else ""
        text = (f"{site.file.source(site.call.receiver)}.has_type('{name}', prefix: {escaped(declared + f' typedef int {name};')}, "
                f"args: '-Werror=attributes'{kept})")
        yield site.change(f"has_function_attribute becomes has_type {name}", replaced(site, site.call, text))


def defines(project: Project) -> Iterator[Change]:
    """`has_define` is a source that compiles if the name is defined, `get_define` compared with '' one if it expands to something."""
    names = Names(project)
    for site in of_compiler(project, "has_define", "get_define"):
        macro = text_of(project, site.call.arguments[0]) if site.call.arguments else None
        outer = comparison_of(stripped(site)) if site.call.name == "get_define" else None
        if macro is None or (site.call.name == "get_define" and not is_beside_nothing(outer)):
            continue
        name = names.free(f"{site.call.name}_{identifier(macro)}")
        edits = [renamed(site, "has_type"), replaced(site, site.call.arguments[0], escaped(name))]
        edits += after_prefix(site, defined(name, macro, outer))
        if outer is not None:
            edits.append((site.call.end, outer.end, "" if outer.operator == "!=" else " == false"))
        yield site.change(f"{site.call.name} becomes has_type {name}", *edits)


def stripped(site: Site) -> Site:
    """Returns the call of `strip` upon a call, or that call where there is none."""
    for expression in site.statement.expressions():
        for node in tree.inside(expression):
            if isinstance(node, tree.Call) and node.receiver is site.call and node.name == "strip" and not node.items:
                return Site(site.file, site.statement, node)
    return site


def is_beside_nothing(outer: tree.Binary | None) -> bool:
    """Returns whether a comparison is one with the empty text."""
    return outer is not None and outer.operator in ("==", "!=") and isinstance(outer.right, tree.Text) and outer.right.value == ""


def defined(name: str, macro: str, outer: tree.Binary | None) -> str:
    """Returns a source that has a type of this name if a macro is defined, or if it expands to something."""
    first = f"\n#ifndef {macro}\n#error it is not defined\n#endif\n"
    if outer is None:
        return escaped(f"{first}typedef int {name};\n")
    return escaped(f"{first}#define check_text(x) #x\n#define check_text_of(x) check_text(x)\n"
                   f"typedef char {name}[sizeof(check_text_of({macro})) > 1 ? 1 : -1];\n")


def numbers(project: Project) -> Iterator[Change]:
    """A number that isn't negative is the size of an array of so many bytes."""
    for site in of_compiler(project, "compute_int"):
        words = site.call.keywords
        expression = text_of(project, site.call.arguments[0]) if len(site.call.arguments) == 1 else None
        if expression is None or "\n" in expression:
            project.doubt(site, "compute_int: its expression is not one plain text of one line")
            continue
        kept = [site.file.source(it) for name, it in words.items() if name not in ("low", "high", "guess")]
        text = f"{site.file.source(site.call.receiver)}.sizeof({', '.join([escaped(f'char [{expression}]'), *kept])})"
        yield site.change("compute_int becomes the size of an array", replaced(site, site.call, text))


def after_prefix(site: Site, text: str) -> list[tuple[int, int, str]]:
    """Returns the edits that add a literal text after the prefix of a check."""
    prefix = site.call.keywords.get("prefix")
    if prefix is not None:
        return [replaced(site, prefix.value, prefix_text(site, prefix.value, text))]
    end = site.call.arguments[0].end
    return [(end, end, f", prefix: {text}")]


def prefix_text(site: Site, node: tree.Node, text: str) -> str:
    if isinstance(tree.plain(node), tree.List):
        return f"'\\n'.join({site.file.source(node)}) + {text}"
    return f"{site.file.source(node)} + {text}"


def link_arguments(project: Project) -> Iterator[Change]:
    """Those of a list of arguments that the linker takes, one question for each."""
    for site in of_compiler(project, "get_supported_link_arguments"):
        if len(site.call.arguments) != 1 or set(site.call.keywords) - {"checked"} or not can_hoist(site):
            continue
        compiler, arguments = site.file.source(site.call.receiver), site.file.source(site.call.arguments[0])
        loop = "link_argument"
        statement = site.statement
        is_own = isinstance(statement, tree.Assignment) and tree.plain(statement.value) is site.call
        name = statement.name if is_own else free_name(project, "supported_link_arguments")
        lines = [*([] if is_own and statement.operator == "+=" else [f"{name} = []"]), f"foreach {loop} : {arguments}",
                 f"  if {compiler}.has_link_argument({loop})", f"    {name} += {loop}", "  endif", "endforeach"]
        if kind_of(project.known.value(site.call.arguments[0])) != "list":
            continue
        what = "get_supported_link_arguments becomes has_link_argument in a loop"
        if is_own and name not in tree.names_in(site.call.arguments[0]):
            yield site.change(what, in_place_of_statement(site.file, statement, lines))
        elif not is_own:
            yield site.change(what, before_statement(site, lines), replaced(site, site.call, name))


def first_argument(project: Project) -> Iterator[Change]:
    """The first of a list that the compiler takes, as a list of one or none."""
    for site in of_compiler(project, "first_supported_argument", "first_supported_link_argument"):
        if not can_hoist(site) or site.call.keywords:
            continue
        is_link = "link" in site.call.name
        compiler = site.file.source(site.call.receiver)
        arguments = [site.file.source(it) for it in site.call.arguments]
        is_list = len(arguments) == 1 and kind_of(project.known.value(site.call.arguments[0])) == "list"
        items = arguments[0] if is_list else f"[{', '.join(arguments)}]"
        name = assigned_name(site) or free_name(project, "first_supported")
        test = "has_link_argument" if is_link else "has_argument"
        lines = [f"{name} = []", f"foreach argument : {items}", f"  if {name}.length() == 0 and {compiler}.{test}(argument)",
                 f"    {name} += argument", "  endif", "endforeach"]
        what = f"{site.call.name} becomes {test} in a loop"
        if assigned_name(site):
            yield site.change(what, in_place_of_statement(site.file, site.statement, lines))
        else:
            yield site.change(what, before_statement(site, lines), replaced(site, site.call, name))


def several(project: Project) -> Iterator[Change]:
    """Questions of several arguments as several questions."""
    single = {"has_multi_arguments": "has_argument", "has_multi_link_arguments": "has_link_argument", "has_members": "has_member"}
    for site in of_compiler(project, *single):
        name, arguments = site.call.name, site.call.arguments
        first = [site.file.source(arguments[0])] if name == "has_members" else []
        rest = arguments[len(first):]
        if len(rest) == 1 and isinstance(tree.plain(rest[0]), tree.List):
            rest = tree.plain(rest[0]).items
        if not rest or texts_at(project, arguments[0]) is None or any(text_of(project, it) is None for it in rest):
            continue
        kept = [site.file.source(it) for it in site.call.items if isinstance(it, tree.Keyword)]
        receiver = site.file.source(site.call.receiver)
        calls = [f"{receiver}.{single[name]}({', '.join([*first, site.file.source(it), *kept])})" for it in rest]
        text = f"({' and '.join(calls)})" if len(calls) > 1 else calls[0]
        yield site.change(f"{name} becomes {single[name]}", replaced(site, site.call, text))


def plain_answers(project: Project) -> Iterator[Change]:
    for site in of_compiler(project, "get_argument_syntax", "symbols_have_underscore_prefix", "get_linker_id"):
        compiler = site.file.source(site.call.receiver)
        outer = comparison_of(site) if site.call.name == "get_argument_syntax" else None
        if outer is not None and outer.operator == "==" and isinstance(outer.right, tree.Text) and outer.right.value in ("gcc", "msvc"):
            is_in = "in" if outer.right.value == "msvc" else "not in"
            text = f"{compiler}.get_id() {is_in} ['msvc', 'clang-cl', 'intel-cl']"
            yield site.change(f"{site.call.name} becomes {text}", replaced(site, outer, text))
            continue
        text = {"get_argument_syntax": f"({compiler}.get_id() in ['msvc', 'clang-cl', 'intel-cl'] ? 'msvc' : 'gcc')",
                "symbols_have_underscore_prefix": "(host_machine.system() in ['darwin', 'windows'])",
                "get_linker_id": "'ld.bfd'"}[site.call.name]
        yield site.change(f"{site.call.name} becomes {text}", replaced(site, site.call, text))


def libraries_with_headers(project: Project) -> Iterator[Change]:
    """`has_headers:` of find_library: a question of its own, and no library where the answer is no."""
    for site in of_compiler(project, "find_library"):
        word, name = site.call.keywords.get("has_headers"), assigned_name(site)
        headers = texts_at(project, word.value) if word else None
        required = site.call.keywords.get("required")
        if word is None or headers is None or name is None or required is None:
            continue
        compiler = site.file.source(site.call.receiver)
        start, end = without_item(site.file.text, site.call, word)
        call = site.file.text[site.call.start:start] + site.file.text[end:site.call.end]
        asked = " and ".join(f"{compiler}.has_header({escaped(it)})" for it in headers)
        yield site.change("find_library: `has_headers:` becomes has_header",
                          replaced(site, site.call, f"{asked} ? {call} : dependency('', required: false)"))
