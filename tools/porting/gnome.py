"""Replaces calls of `gnome`: custom targets call its tools for headers and resources as the real Meson does."""
from __future__ import annotations

import os
from collections.abc import Iterator

from tools.porting import tree
from tools.porting.commands import module_sites
from tools.porting.edits import Change
from tools.porting.lexer import escaped
from tools.porting.project import Project, Site
from tools.porting.rule import before_statement, can_hoist, free_name, identifier, replaced, text_of, texts_at
from tools.porting.values import Thing, flat, kind_of

# The sections of a template of glib-mkenums, by the words that give their texts.
SECTIONS = {"fhead": "file-header", "fprod": "file-production", "eprod": "enumeration-production", "vhead": "value-header",
            "vprod": "value-production", "vtail": "value-tail", "ftail": "file-tail", "comments": "comment"}
PREFIXES = ("identifier_prefix", "symbol_prefix")
OF_ENUMS = {"sources", "install_header", "install_dir", *PREFIXES}
OF_SIMPLE = OF_ENUMS | {"header_prefix", "function_prefix", "body_prefix", "decorator"}
OF_TEMPLATES = OF_ENUMS | {"c_template", "h_template", "depends", *SECTIONS}
FLAGS = ("internal", "nostdinc", "skip_source", "stdinc", "valist_marshallers")
OF_MARSHAL = {"sources", "prefix", "extra_args", "install_header", "install_dir", "depend_files", *FLAGS}
OF_RESOURCES = {"source_dir", "c_name", "dependencies", "export", "gresource_bundle", "extra_args", "install", "install_dir",
                "install_header", "build_by_default"}
# What the simple form writes into a source and into a header.
SOURCE = {
    "fhead": "{body}#include \"{name}.h\"\n{includes}\n#define C_ENUM(v) ((gint) v)\n#define C_FLAGS(v) ((guint) v)\n",
    "fprod": "\n/* enumerations from \"@basename@\" */\n",
    "vhead": "\nGType\n{function}@enum_name@_get_type (void)\n{{\n    static gsize gtype_id = 0;\n"
             "    static const G@Type@Value values[] = {{\n",
    "vprod": "        {{ C_@TYPE@ (@VALUENAME@), \"@VALUENAME@\", \"@valuenick@\" }},\n",
    "vtail": "        {{ 0, NULL, NULL }}\n    }};\n    if (g_once_init_enter (&gtype_id)) {{\n"
             "        GType new_type = g_@type@_register_static (g_intern_static_string (\"@EnumName@\"), values);\n"
             "        g_once_init_leave (&gtype_id, new_type);\n    }}\n    return (GType) gtype_id;\n}}\n"}
HEADER = {
    "fhead": "#pragma once\n\n#include <glib-object.h>\n{header}\nG_BEGIN_DECLS\n",
    "fprod": "\n/* enumerations from \"@basename@\" */\n",
    "vhead": "{decorator}\nGType {function}@enum_name@_get_type (void);\n"
             "#define @ENUMPREFIX@_TYPE_@ENUMSHORT@ ({function}@enum_name@_get_type())\n",
    "ftail": "\nG_END_DECLS\n"}


class NotFollowed(Exception):
    """Says why the call can't be written as custom targets."""


def tools(project: Project) -> Iterator[Change]:
    """Each call of the module that only calls a tool becomes custom targets."""
    writers = {"mkenums_simple": simple_enums, "mkenums": enums, "genmarshal": marshallers, "compile_resources": resources}
    for name, writer in writers.items():
        for site in module_sites(project, "gnome", name):
            try:
                yield writer(project, site)
            except NotFollowed as why:
                project.doubt(site, f"gnome.{name}: {why}: a custom_target with its tool")


def checked_name(project: Project, site: Site, known: set[str], count: int = 1) -> str:
    """Returns the first argument of a call that has these keywords and no others."""
    name = text_of(project, site.call.arguments[0]) if len(site.call.arguments) == count else None
    if name is None or "@" in name or "/" in name:
        raise NotFollowed("its name is not one plain text")
    strange = sorted(set(site.call.keywords) - known)
    if strange:
        raise NotFollowed(f"`{strange[0]}:` is not followed")
    return name


def truth(project: Project, site: Site, keyword: str) -> bool:
    """Returns a truth value that a keyword surely is; false where it isn't given."""
    word = site.call.keywords.get(keyword)
    known = project.known.value(word.value) if word else False
    if not isinstance(known, bool):
        raise NotFollowed(f"`{keyword}:` is not known here")
    return known


def text(project: Project, site: Site, keyword: str) -> str:
    word = site.call.keywords.get(keyword)
    known = text_of(project, word.value) if word else ""
    if known is None:
        raise NotFollowed(f"`{keyword}:` is not one plain text")
    return known


def source_of(site: Site, keyword: str) -> str:
    """Returns the expression of a keyword, as it can be an item or an operand."""
    node = site.call.keywords[keyword].value
    shown = site.file.source(node)
    return f"({shown})" if isinstance(node, (tree.Ternary, tree.Binary, tree.Unary)) else shown


def given(site: Site, *keywords: str) -> list[str]:
    """Returns the keywords as they are given."""
    return [site.file.source(site.call.keywords[it]) for it in keywords if it in site.call.keywords]


def prefixes(site: Site) -> list[str]:
    return [word for it in PREFIXES if it in site.call.keywords for word in (escaped("--" + it.replace("_", "-")), source_of(site, it))]


def of_header(site: Site) -> list[str]:
    """Returns how a header is installed: into the folder of headers where no other one is said."""
    if "install_header" not in site.call.keywords:
        return []
    folder = source_of(site, "install_dir") if "install_dir" in site.call.keywords else "get_option('includedir')"
    return [f"install: {source_of(site, 'install_header')}", f"install_dir: {folder}"]


def target(name: str, source: str, output: str, command: list[str], rest: list[str]) -> str:
    parts = [escaped(name), f"input: {source}", f"output: {escaped(output)}", f"command: [{', '.join(command)}]", *rest]
    return f"custom_target({', '.join(parts)})"


def with_targets(project: Project, site: Site, header: str, source: str, files: dict[str, str] | None = None) -> Change:
    """Writes a call that gives a source and a header, which has a name before it; `@header@` means this name in the text of the source."""
    if not can_hoist(site):
        raise NotFollowed("its statement has no place before it")
    name = free_name(project, identifier(text_of(project, site.call.arguments[0]) or "") + "_header")
    return site.change(f"gnome.{site.call.name} becomes custom targets", before_statement(site, [f"{name} = {header}"]),
                       replaced(site, site.call, f"[{source.replace('@header@', name)}, {name}]"), files=files)


def new_file(project: Project, site: Site, name: str) -> str:
    """Returns the name of a file that isn't there, in the folder of a call."""
    if project.exists(os.path.join(site.folder, name)):
        raise NotFollowed(f"there is a file {name}")
    return name


def template(sections: dict[str, str]) -> str:
    """Returns a template of glib-mkenums."""
    parts = []
    for key, value in sections.items():
        body = value if value.endswith("\n") else value + "\n"
        parts.append(f"/*** BEGIN {SECTIONS[key]} ***/\n{body}/*** END {SECTIONS[key]} ***/\n")
    return "\n".join(parts)


def headers_of(project: Project, site: Site) -> list[str]:
    """Returns the paths of the sources of a call, from its folder."""
    word = site.call.keywords.get("sources")
    items = flat(project.known.value(word.value)) if word else []
    found = []
    for item in items:
        value = item.value
        if isinstance(value, Thing) and value.kind == "file" and value.function == "files":
            value = os.path.relpath(value.path, site.folder or ".")
        if not item.is_sure or not isinstance(value, str):
            raise NotFollowed("its sources are not known here")
        found.append(value)
    if not found:
        raise NotFollowed("it has no sources")
    return found


def simple_enums(project: Project, site: Site) -> Change:
    name = checked_name(project, site, OF_SIMPLE)
    line_of = lambda keyword: text(project, site, keyword) and text(project, site, keyword).removesuffix("\n") + "\n"
    decorator = text(project, site, "decorator")
    body = text(project, site, "body_prefix")
    includes = "".join(f'#include "{it}"\n' for it in headers_of(project, site))
    words = {"name": name, "includes": includes, "header": line_of("header_prefix"),
             "body": body + "\n" if body else "", "function": text(project, site, "function_prefix"),
             "decorator": "\n" + decorator if decorator else ""}
    both = []
    files: dict[str, str] = {}
    for ending, sections, rest in (("h", HEADER, of_header(site)), ("c", SOURCE, [])):
        file = new_file(project, site, f"{name}.{ending}.template")
        files[os.path.join(site.folder, file)] = template({key: it.format(**words) for key, it in sections.items()})
        command = ["find_program('glib-mkenums')", *prefixes(site), "'--template'", "'@INPUT@'"]
        source = f"[{escaped(file)}, {source_of(site, 'sources')}]"
        both.append(target(f"{name}.{ending}", source, f"{name}.{ending}", command, ["capture: true", *rest]))
    return with_targets(project, site, both[0], both[1], files)


def enums(project: Project, site: Site) -> Change:
    name = checked_name(project, site, OF_TEMPLATES)
    words = prefixes(site)
    for key in SECTIONS:
        word = site.call.keywords.get(key)
        if word is not None and "\n" in (text_of(project, word.value) or ""):
            raise NotFollowed(f"`{key}:` has more than one line: a template")
        words += [escaped("--" + key), source_of(site, key)] if word is not None else []
    templates = [it for it in ("h_template", "c_template") if it in site.call.keywords]
    shown = "".join(template_text(project, site, it) for it in templates) + "".join(given(site, *SECTIONS))
    if "@filename@" in shown:
        raise NotFollowed("it names its sources by their whole paths")
    command = ["find_program('glib-mkenums')", *words]
    if not templates:
        rest = ["capture: true", *of_header(site)]
        made = target(name, source_of(site, "sources"), name, [*command, "'@INPUT@'"], rest)
        return site.change("gnome.mkenums becomes a custom target", replaced(site, site.call, made))
    made = {it: of_template(project, site, it, command, len(templates) == 2) for it in templates}
    if len(templates) == 2:
        return with_targets(project, site, made["h_template"], made["c_template"])
    return site.change("gnome.mkenums becomes a custom target", replaced(site, site.call, f"[{made[templates[0]]}]"))


def of_template(project: Project, site: Site, keyword: str, command: list[str], has_header: bool) -> str:
    """Returns the target of one template; a source is made after its header."""
    output = os.path.splitext(os.path.basename(template_path(project, site, keyword)))[0]
    source = f"[{source_of(site, keyword)}, {source_of(site, 'sources')}]"
    if keyword == "h_template":
        rest = of_header(site)
    else:
        before = [source_of(site, "depends")] if "depends" in site.call.keywords else []
        after = [*before, *(["@header@"] if has_header else [])]
        rest = [f"depends: [{', '.join(after)}]"] if after else []
    return target(output, source, output, [*command, "'--template'", "'@INPUT@'"], ["capture: true", *rest])


def template_path(project: Project, site: Site, keyword: str) -> str:
    items = flat(project.known.value(site.call.keywords[keyword].value))
    value = items[0].value if len(items) == 1 and items[0].is_sure else None
    if isinstance(value, str):
        return os.path.join(site.folder, value)
    if isinstance(value, Thing) and value.kind == "file" and value.function == "files":
        return value.path
    raise NotFollowed(f"`{keyword}:` is not one file of the sources")


def template_text(project: Project, site: Site, keyword: str) -> str:
    from tools.files import DEFINITION, read_text
    try:
        return read_text(os.path.join(project.root, template_path(project, site, keyword)), DEFINITION)
    except OSError as error:
        raise NotFollowed(f"`{keyword}:` can't be read: {error.strerror}") from error


def marshallers(project: Project, site: Site) -> Change:
    name = checked_name(project, site, OF_MARSHAL)
    if "sources" not in site.call.keywords:
        raise NotFollowed("it has no sources")
    command = ["find_program('glib-genmarshal')", "'--quiet'"]
    command += ["'--prefix'", source_of(site, "prefix")] if "prefix" in site.call.keywords else []
    command += [source_of(site, "extra_args")] if "extra_args" in site.call.keywords else []
    command += [escaped("--" + it.replace("_", "-")) for it in FLAGS if truth(project, site, it)]
    command += ["'--output'", "'@OUTPUT@'"]
    source, kept = source_of(site, "sources"), given(site, "depend_files")
    header = target(f"{name}_h", source, f"{name}.h", [*command, "'--header'", "'@INPUT@'", "'--pragma-once'"], [*of_header(site), *kept])
    body = [*command, "'--body'", "'@INPUT@'", "'--include-header'", escaped(f"{name}.h")]
    return with_targets(project, site, header, target(f"{name}_c", source, f"{name}.c", body, [*kept, "depends: @header@"]))


def resources(project: Project, site: Site) -> Change:
    name = checked_name(project, site, OF_RESOURCES, 2)
    words = site.call.keywords
    is_bundle, is_exported = truth(project, site, "gresource_bundle"), truth(project, site, "export")
    command = ["find_program('glib-compile-resources')", "'@INPUT@'"]
    command += [word for it in resource_folders(project, site) for word in ("'--sourcedir'", it)]
    command += ["'--c-name'", source_of(site, "c_name")] if "c_name" in words else []
    command += ([] if is_exported else ["'--internal'"]) + ["'--generate'", "'--target'", "'@OUTPUT@'"]
    command += [source_of(site, "extra_args")] if "extra_args" in words else []
    made = made_before(project, site)
    rest = [*given(site, "build_by_default"), *([f"depends: [{', '.join(made)}]"] if made else [])]
    source = site.file.source(site.call.arguments[1])
    with_file = [*command, "'--dependency-file'", "'@DEPFILE@'"]
    if is_bundle:
        output = f"{name}.gresource"
        kept = [f"depfile: {escaped(output + '.d')}", *given(site, "install", "install_dir"), *rest]
        bundle = target(f"{name}_gresource", source, output, with_file, kept)
        return site.change("gnome.compile_resources becomes a custom target", replaced(site, site.call, bundle))
    code = target(f"{name}_c", source, f"{name}.c", with_file, [f"depfile: {escaped(name + '.c.d')}", *rest])
    return with_targets(project, site, target(f"{name}_h", source, f"{name}.h", command, [*of_header(site), *rest]), code)


def resource_folders(project: Project, site: Site) -> list[str]:
    """Returns the folders in which resources are looked for: those that are given, of what is made before, and that of the call."""
    word = site.call.keywords.get("source_dir")
    named = texts_at(project, word.value) if word else []
    if named is None:
        raise NotFollowed("`source_dir:` is not known here")
    folders = [f"meson.current_source_dir() / {escaped(it)}" for it in named if os.path.normpath(it) != "."]
    word = site.call.keywords.get("dependencies")
    for item in flat(project.known.value(word.value)) if word else []:
        value = item.value
        if not isinstance(value, Thing) or value.kind not in ("custom", "file"):
            raise NotFollowed("`dependencies:` is not known here")
        is_source = value.kind == "file" and value.function == "files"
        place = os.path.dirname(value.path)
        root = "meson.project_source_root()" if is_source else "meson.project_build_root()"
        folders.append(f"{root} / {escaped(place)}" if place else root)
    return list(dict.fromkeys([*folders, "meson.current_source_dir()"]))


def made_before(project: Project, site: Site) -> list[str]:
    """Returns what is made before resources are compiled, as it is named at the call."""
    word = site.call.keywords.get("dependencies")
    node = tree.plain(word.value) if word else None
    nodes = node.items if isinstance(node, tree.List) else [node] if node is not None else []
    kinds = [(it, {kind_of(item.value) for item in flat(project.known.value(it))}) for it in nodes]
    return [site.file.source(it) for it, kind in kinds if kind == {"custom"}]
