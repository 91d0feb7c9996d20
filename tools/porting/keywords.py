"""Drops keywords that have no place here if they change nothing on Linux, and writes the others another way."""
from __future__ import annotations

from collections.abc import Iterator

from tools.porting import tree
from tools.porting.edits import Change, indent_at, without_item
from tools.porting.lexer import escaped
from tools.porting.parser import parse
from tools.porting.project import Project, Site
from tools.porting.rule import (LIBRARIES, REAL, REAL_ALONE, TARGETS, added_to_list, compiler_text, drop_keyword, guarded,
                                in_place_of_statement, is_whole_statement, assigned_name, languages_of_real, replaced, text_of, texts_at)
from tools.porting.values import Either, Item, Many, Table, flat, kind_of, texts_of

OF_TARGETS = {"native", "link_depends", "link_language", "vs_module_defs", "darwin_versions", "extra_files", "pic", "pie", "install_tag",
              "implicit_include_directories", "win_subsystem", "gui_app", "cpp_args", "cpp_pch", "objc_args", "objcpp_args",
              "resources", "install_vala_header", "build_rpath", "rust_args", "d_import_dirs", "vala_args", "swift_args", "cs_args"}
DROPPED: dict[str, set[str]] = {
    **{name: OF_TARGETS for name in TARGETS},
    "custom_target": {"console", "install_tag", "native"},
    "configure_file": {"install_tag", "output_format", "macro_name"},
    "declare_dependency": {"variables", "extra_files", "d_module_versions", "d_import_dirs"},
    "dependency": {"default_options", "allow_fallback", "not_found_message", "language", "fallback"},
    "find_program": {"version", "default_options", "version_argument"},
    "test": {"priority", "verbose"}, "benchmark": {"priority", "verbose"},
    "project": {"subproject_dir", "license_files"},
    "add_project_arguments": {"native"}, "add_project_link_arguments": {"native"},
    "install_headers": {"install_tag", "follow_symlinks"}, "install_data": {"install_tag", "follow_symlinks"},
    "install_man": {"install_tag"},
}
# Keywords that are dropped with one value alone.
DROPPED_WITH = {("custom_target", "build_always_stale"): False, ("custom_target", "build_always"): False,
                ("test", "protocol"): "exitcode", ("configure_file", "copy"): False, ("configure_file", "capture"): False,
                ("install_headers", "preserve_path"): False, ("install_data", "preserve_path"): False,
                **{(name, "gnu_symbol_visibility"): "" for name in TARGETS}, **{(name, "install_rpath"): "" for name in TARGETS},
                **{(name, "export_dynamic"): False for name in TARGETS}, **{(name, "implib"): False for name in TARGETS}}
OF_CHECKS = {"no_builtin_args", "checked", "static", "header_args", "header_no_builtin_args"}
WHY = {"native": "; a cross build would need it", "fallback": "; what it depends on has to be installed",
       "version": "; the version is not looked at"}
# What `override_options` says, as words of the compiler.
OVERRIDDEN = {"werror=false": ["-Wno-error"], "werror=true": ["-Werror"], "warning_level=0": ["-w"], "warning_level=1": ["-Wall"],
              "warning_level=2": ["-Wall", "-Wextra"], "warning_level=3": ["-Wall", "-Wextra", "-Wpedantic"],
              "optimization=0": ["-O0"], "optimization=1": ["-O1"], "optimization=2": ["-O2"], "optimization=3": ["-O3"],
              "optimization=s": ["-Os"], "optimization=g": ["-Og"], "unity=off": [], "unity=on": [],
              "b_pch=false": [], "debug=true": ["-g"], "b_sanitize=none": ["-fno-sanitize=all"], "b_lto=false": ["-fno-lto"],
              "b_ndebug=true": ["-DNDEBUG"], "b_ndebug=false": ["-UNDEBUG"], "b_coverage=false": []}


def drop_keywords(project: Project) -> Iterator[Change]:
    for site in project.functions(*DROPPED):
        for name in site.call.keywords:
            with_value = (site.call.name, name) in DROPPED_WITH
            if name in DROPPED[site.call.name] or (with_value and is_value(project, site, name)):
                yield drop_keyword(site, name, f"{site.call.name}: `{name}:` is dropped{WHY.get(name, '')}")
    for site in project.methods():
        receiver = project.known.value(site.call.receiver) if site.call.receiver else None
        for name in site.call.keywords:
            if kind_of(receiver) == "compiler" and name in OF_CHECKS:
                yield drop_keyword(site, name, f"{site.call.name}: `{name}:` is dropped")


def is_value(project: Project, site: Site, name: str) -> bool:
    known = project.known.value(site.call.keywords[name].value)
    return known == DROPPED_WITH[site.call.name, name] and isinstance(known, (str, bool))


def visibility(project: Project) -> Iterator[Change]:
    for site in project.functions(*TARGETS):
        word = site.call.keywords.get("gnu_symbol_visibility")
        known = text_of(project, word.value) if word else None
        if not known:
            continue
        argument = escaped("-fvisibility=" + ("hidden" if known == "inlineshidden" else known))
        supported = f"{compiler_text(project, site)}.get_supported_arguments({argument})"
        yield moved(site, "gnu_symbol_visibility", "c_args", supported)


def moved(site: Site, dropped: str, keyword: str, item: str, is_several: bool = False) -> Change:
    """Moves the meaning of a keyword into an item of another keyword, in its own place if the other is missing."""
    word = site.call.keywords[dropped]
    what = f"{site.call.name}: `{dropped}:` becomes `{keyword}:`"
    if keyword not in site.call.keywords:
        value = f"[{item}]" if is_several else item
        return site.change(what, (word.start, word.end, f"{keyword}: {value}"))
    start, end = without_item(site.file.text, site.call, word)
    return site.change(what, added_to_list(site, keyword, item), (start, end, ""))


def given_keywords(project: Project) -> Iterator[Change]:
    """`kwargs:` of a dictionary whose keys are known: the keywords themselves."""
    for site in project.sites():
        word = site.call.keywords.get("kwargs")
        table = project.known.value(word.value) if word else None
        if word is not None and isinstance(table, Either):
            yield from one_of_several(site, word, list(table.choices))
        if word is None or not isinstance(table, Table) or not table.is_whole or set(table.pairs) & set(site.call.keywords):
            continue
        value = tree.plain(word.value)
        if isinstance(value, tree.Dictionary):
            shown = [f"{text_of(project, key)}: {site.file.source(held)}" for key, held in value.pairs]
        else:
            shown = [f"{key}: {grouped(site, value)}[{escaped(key)}]" for key in table.pairs]
        edit = (word.start, word.end, ", ".join(shown)) if shown else (*without_item(site.file.text, site.call, word), "")
        yield site.change(f"{site.call.name}: `kwargs:` becomes its keywords", edit)


# What a keyword is that isn't given.
DEFAULTS = {"timeout": "30", "install": "false", "should_fail": "false", "is_parallel": "true",
            **{it: "[]" for it in ("args", "c_args", "depends", "dependencies", "env", "include_directories", "link_args", "link_with",
                                   "link_whole", "objects", "sources", "suite")}}


def one_of_several(site: Site, word: tree.Keyword, tables: list) -> Iterator[Change]:
    """`kwargs:` of one of some dictionaries: each key that one may have, by what it is where it isn't given."""
    if not all(isinstance(it, Table) and it.is_whole for it in tables):
        return
    keys = list(dict.fromkeys(key for it in tables for key in it.pairs))
    sure = {key for key in keys if all(key in it.pairs for it in tables)}
    if any(key not in sure and key not in DEFAULTS for key in keys):
        yield from one_of_two(site, word, tables)
    elif keys and not set(keys) & set(site.call.keywords):
        name = grouped(site, word.value)
        shown = [f"{it}: {name}[{escaped(it)}]" if it in sure else f"{it}: {name}.get({escaped(it)}, {DEFAULTS[it]})" for it in keys]
        yield site.change(f"{site.call.name}: `kwargs:` becomes its keywords", (word.start, word.end, ", ".join(shown)))


def one_of_two(site: Site, word: tree.Keyword, tables: list) -> Iterator[Change]:
    """`kwargs:` of one of two dictionaries: a call for each, by a key that only one has."""
    is_alone = is_whole_statement(site) or assigned_name(site) is not None
    if len(tables) != 2 or not is_alone or set(site.call.keywords) & {key for it in tables for key in it.pairs}:
        return
    first, second = sorted((list(it.pairs) for it in tables), key=len, reverse=True)
    key = next((it for it in first if it not in second), None)
    name = grouped(site, word.value)
    if key is None:
        return
    statement, start = site.file.source(site.statement), site.statement.start
    indent = indent_at(site.file.text, start)
    both = []
    for keys in (first, second):
        cut = (word.start, word.end) if keys else without_item(site.file.text, site.call, word)
        shown = ", ".join(f"{it}: {name}[{escaped(it)}]" for it in keys)
        begun, *rest = (statement[:cut[0] - start] + shown + statement[cut[1] - start:]).split("\n")
        both.append(["  " + begun, *("  " + it.removeprefix(indent) if it.strip() else "" for it in rest)])
    lines = [f"if {name}.has_key({escaped(key)})", *both[0], "else", *both[1], "endif"]
    what = f"{site.call.name}: `kwargs:` becomes a call for each of two"
    yield site.change(what, in_place_of_statement(site.file, site.statement, lines))


USUAL_MODES = {"install_data": ("rw-r--r--",), "install_headers": ("rw-r--r--",), "install_man": ("rw-r--r--",),
               "configure_file": ("rw-r--r--",), "executable": ("rwxr-xr-x",), "shared_library": ("rwxr-xr-x", "rw-r--r--"),
               "static_library": ("rw-r--r--",), "custom_target": ("rw-r--r--",)}


def usual_modes(project: Project) -> Iterator[Change]:
    """`install_mode:` of a mode that is given anyway."""
    for site in project.functions(*USUAL_MODES):
        word = site.call.keywords.get("install_mode")
        value = project.known.value(word.value) if word else None
        first = flat(value)[0].value if word and flat(value) else None
        if word is not None and first in USUAL_MODES[site.call.name] and (texts_of(value) or [first])[:1] == [first]:
            owners = [it.value for it in flat(value)[1:]]
            if all(it in ("root", 0) for it in owners):
                yield drop_keyword(site, "install_mode", f"{site.call.name}: `install_mode:` is the usual one")


def other_modes(project: Project) -> Iterator[Change]:
    """A mode that only the package can give."""
    for site in project.functions(*USUAL_MODES, "install_subdir"):
        if "install_mode" in site.call.keywords:
            change = drop_keyword(site, "install_mode")
            change.notes = ["the mode of what is installed is a step of the package"]
            yield change


def export_dynamic(project: Project) -> Iterator[Change]:
    for site in project.functions("executable"):
        for name in ("export_dynamic", "implib"):
            word = site.call.keywords.get(name)
            if word is not None and (project.known.value(word.value) is True or (name == "implib" and text_of(project, word.value))):
                yield moved(site, name, "link_args", "'-rdynamic'")
                break


def install_rpath(project: Project) -> Iterator[Change]:
    for site in project.functions(*TARGETS):
        word = site.call.keywords.get("install_rpath")
        if word is not None and kind_of(project.known.value(word.value)) == "text" and project.known.value(word.value) != "":
            yield moved(site, "install_rpath", "link_args", f"'-Wl,-rpath,' + {grouped(site, word.value)}")


def grouped(site: Site, node: tree.Node) -> str:
    text = site.file.source(node)
    return f"({text})" if isinstance(node, (tree.Ternary, tree.Binary)) else text


def override_options(project: Project) -> Iterator[Change]:
    for site in project.functions(*TARGETS):
        word = site.call.keywords.get("override_options")
        texts = texts_at(project, word.value) if word else None
        if texts is None:
            continue
        flags: list[str] = []
        for text in (it.replace(" ", "") for it in texts):
            if text not in OVERRIDDEN and not text.startswith("c_std="):
                break
            flags += OVERRIDDEN.get(text, [] if text == "c_std=none" else ["-std=" + text.removeprefix("c_std=")])
        else:
            if flags:
                yield moved(site, "override_options", "c_args", ", ".join(map(escaped, flags)), len(flags) > 1)
            else:
                yield drop_keyword(site, "override_options")


def configure_install(project: Project) -> Iterator[Change]:
    """`install:` of configure_file says no more than `install_dir:` does here."""
    for site in project.functions("configure_file"):
        word = site.call.keywords.get("install")
        if word is None:
            continue
        known = project.known.value(word.value)
        folder = site.call.keywords.get("install_dir")
        if folder is None or known is True:
            yield drop_keyword(site, "install", "configure_file: `install:` is dropped; `install_dir:` says it")
        elif known is False:
            yield drop_keyword(site, "install_dir", "configure_file: `install_dir:` of a file that isn't installed is dropped")
        elif is_whole_statement(site) or assigned_name(site):
            yield in_two(site, word)


def in_two(site: Site, word: tree.Keyword) -> Change:
    """Returns one call for each side of a condition that is decided while configuring."""
    statement = site.file.source(site.statement)
    indent = indent_at(site.file.text, site.statement.start)
    sides = [without_keywords(statement, "configure_file", names).split("\n") for names in (("install",), ("install", "install_dir"))]
    both = [["  " + first, *("  " + it.removeprefix(indent) for it in rest)] for first, *rest in sides]
    lines = [f"if {site.file.source(word.value)}", *both[0], "else", *both[1], "endif"]
    return site.change("configure_file: `install:` becomes two calls", in_place_of_statement(site.file, site.statement, lines))


def without_keywords(text: str, function: str, names: tuple[str, ...]) -> str:
    """Returns the text of a statement that is a call of a function, without some of its keywords."""
    for name in names:
        call = next(it for it in tree.inside(parse(text)[0].expressions()[0]) if isinstance(it, tree.Call) and it.name == function)
        if name in call.keywords:
            start, end = without_item(text, call, call.keywords[name])
            text = text[:start] + text[end:]
    return text


def test_protocol(project: Project) -> Iterator[Change]:
    """What a test prints is not read here; a program that fails by its status too loses nothing."""
    for site in project.functions("test"):
        if text_of(project, getattr(site.call.keywords.get("protocol"), "value", None)) in ("tap", "gtest", "rust"):
            yield drop_keyword(site, "protocol", "test: `protocol:` is dropped; only the exit status decides")


def default_options(project: Project) -> Iterator[Change]:
    """Values of default_options that no option has here."""
    for site in project.functions("project"):
        word = site.call.keywords.get("default_options")
        for node in tree.inside(word.value) if word else []:
            if isinstance(node, tree.Text) and "=" in node.value and not node.has_names:
                better = better_default(node.value)
                if better != node.value:
                    yield site.change(f"project: the default {node.value} becomes {better}", replaced(site, node, escaped(better)))


STANDARDS = {f"{kind}{year}" for kind in ("c", "gnu") for year in ("89", "99", "11", "17")} | {"none"}
SAME_STANDARD = {"c90": "c89", "gnu90": "gnu89", "c18": "c17", "gnu18": "gnu17", "iso9899:1990": "c89", "iso9899:1999": "c99",
                 "iso9899:2011": "c11", "iso9899:2017": "c17", "c9x": "c99", "gnu9x": "gnu99", "c1x": "c11", "gnu1x": "gnu11"}


def better_default(text: str) -> str:
    name, value = (it.strip() for it in text.split("=", 1))
    if name == "c_std" and value not in STANDARDS:
        for it in value.split(","):
            if SAME_STANDARD.get(it, it) in STANDARDS:
                return f"c_std={SAME_STANDARD.get(it, it)}"
    if name == "warning_level" and value == "everything":
        return "warning_level=3"
    return text


def language_of_arguments(project: Project) -> Iterator[Change]:
    """`language: ['c', 'cpp']` of a project that has C alone."""
    if any(True for _ in project.functions("add_languages")) or not is_c_alone(project):
        return
    is_in_real = bool(languages_of_real(project))
    for site in project.functions("add_project_arguments", "add_project_link_arguments"):
        word = site.call.keywords.get("language")
        texts = texts_at(project, word.value) if word else None
        if word is None or texts is None:
            continue
        if "c" in texts and set(texts) != {"c"}:
            text = f"{REAL} ? {site.file.source(word.value)} : 'c'" if is_in_real else "'c'"
            yield site.change(f"{site.call.name}: only for C", replaced(site, word.value, text))
        elif "c" not in texts and is_whole_statement(site):
            what = f"{site.call.name}: of another language than C, is "
            yield (guarded(site, REAL_ALONE, what + "left to the real Meson") if is_in_real else
                   site.change(what + "dropped", in_place_of_statement(site.file, site.statement, [])))


def is_c_alone(project: Project) -> bool:
    return all(set(texts_of(Many([Item(it) for it in thing.arguments[1:]])) or []) == {"c"}
               for site in project.functions("project") for thing in project.known.things[site.call])


def names_of_targets(project: Project) -> Iterator[Change]:
    """A custom target without a name gets that of its first output, as it has it."""
    for site in project.functions("custom_target"):
        output = site.call.keywords.get("output")
        texts = texts_at(project, output.value) if output else None
        if not site.call.arguments and texts and "@" not in texts[0] and site.call.items:
            start = site.call.items[0].start
            yield site.change(f"custom_target: gets the name {texts[0]}", (start, start, escaped(texts[0]) + ", "))


def env_of_custom_target(project: Project) -> Iterator[Change]:
    """`env:` of a custom target becomes words of the command `env`."""
    for site in project.functions("custom_target"):
        word, command = site.call.keywords.get("env"), site.call.keywords.get("command")
        words = env_words(site, project, word.value) if word else None
        if word is None or command is None or words is None:
            continue
        start, end = without_item(site.file.text, site.call, word)
        if isinstance(command.value, tree.List) and command.value.items:
            first = command.value.items[0].start
            added = (first, first, "".join(f"{it}, " for it in ["'env'", *words]))
        elif kind_of(project.known.value(command.value)) == "list":
            added = (command.value.start, command.value.start, f"['env', {', '.join(words)}] + ")
        elif kind_of(project.known.value(command.value)) in ("program", "file", "text", "target"):
            added = replaced(site, command.value, f"['env', {', '.join(words)}, {site.file.source(command.value)}]")
        else:
            continue
        yield site.change("custom_target: `env:` becomes arguments of `env`", added, (start, end, ""))


def feed_of_custom_target(project: Project) -> Iterator[Change]:
    """`feed: true` of a custom target becomes a shell that gives the command its input."""
    for site in project.functions("custom_target"):
        word, command = site.call.keywords.get("feed"), site.call.keywords.get("command")
        if word is None or command is None or not isinstance(word.value, tree.Truth):
            continue
        start, end = without_item(site.file.text, site.call, word)
        if not word.value.value:
            yield site.change("custom_target: `feed: false` is dropped", (start, end, ""))
            continue
        words = "'sh', '-c', 'exec \"$@\" < \"$0\"', '@INPUT@'"
        value = tree.plain(command.value)
        items = value.items if isinstance(value, tree.List) else []
        if items:
            added = (items[0].start, items[0].start, words + ", ")
        elif kind_of(project.known.value(value)) == "list":
            added = (command.value.start, command.value.start, f"[{words}] + ")
        else:
            added = replaced(site, command.value, f"[{words}, {site.file.source(command.value)}]")
        yield site.change("custom_target: `feed:` becomes a shell that feeds the command", added, (start, end, ""))


def env_words(site: Site, project: Project, node: tree.Node) -> list[str] | None:
    node = tree.plain(node)
    if isinstance(node, tree.Dictionary):
        keys = [text_of(project, key) for key, _ in node.pairs]
        return None if None in keys else [f"{escaped(f'{key}=')} + {grouped(site, value)}" for key, (_, value) in zip(keys, node.pairs)]
    texts = texts_at(project, node)
    if texts is not None:
        return [escaped(it) for it in texts]
    value = project.known.value(node)
    is_list = isinstance(value, Many) and all(kind_of(it.value) == "text" for it in flat(value))
    return [site.file.source(node)] if is_list and isinstance(node, (tree.Name, tree.List, tree.Index, tree.Call)) else None


def name_prefix(project: Project) -> Iterator[Change]:
    """`name_prefix: 'lib'` and an empty list say what is done without them. So does `name_prefix: ''` of a name that has `lib` itself."""
    for site in project.functions(*LIBRARIES):
        for name, same in (("name_prefix", "lib"), ("name_suffix", "a" if site.call.name == "static_library" else "so")):
            word = site.call.keywords.get(name)
            if word is not None and (project.known.value(word.value) == same or isinstance(tree.plain(word.value), tree.List)):
                yield drop_keyword(site, name)
        word, first = site.call.keywords.get("name_prefix"), site.call.arguments[0] if site.call.arguments else None
        if word is not None and text_of(project, word.value) == "" and isinstance(first, tree.Text) and is_named_lib(first):
            start, end = without_item(site.file.text, site.call, word)
            yield site.change(f"{site.call.name}: `name_prefix: ''` of {first.value} is dropped, as the name begins with lib",
                              replaced(site, first, escaped(first.value.removeprefix("lib"))), (start, end, ""))


def names_of_programs(project: Project) -> Iterator[Change]:
    """`name_suffix:` of a program is the end of its name, and `name_prefix:` changes nothing."""
    for site in project.functions("executable"):
        word, first = site.call.keywords.get("name_suffix"), site.call.arguments[0] if site.call.arguments else None
        suffix, name = text_of(project, word.value) if word else None, text_of(project, first)
        if "name_prefix" in site.call.keywords:
            yield drop_keyword(site, "name_prefix")
        elif word is not None and isinstance(word.value, tree.List) and not word.value.items:
            yield drop_keyword(site, "name_suffix")
        elif word is not None and first is not None and suffix:
            start, end = without_item(site.file.text, site.call, word)
            is_text = isinstance(first, tree.Text) and name
            shown = escaped(f"{name}.{suffix}") if is_text else f"{grouped(site, first)} + {escaped('.' + suffix)}"
            yield site.change("executable: `name_suffix:` becomes the end of its name", replaced(site, first, shown), (start, end, ""))


def is_named_lib(node: tree.Text) -> bool:
    """Returns whether a library's name begins with `lib`, and has more."""
    return not node.has_names and node.value.startswith("lib") and node.value != "lib"


def install_lists(project: Project) -> Iterator[Change]:
    """`install: [true]` and `install_dir: [x]` of one item are that item."""
    for site in project.functions("custom_target", *TARGETS):
        for name in ("install", "install_dir"):
            word = site.call.keywords.get(name)
            value = tree.plain(word.value) if word else None
            if isinstance(value, tree.List) and len(value.items) == 1:
                yield site.change(f"{site.call.name}: `{name}:` takes no list", replaced(site, value, site.file.source(value.items[0])))


def data_sources(project: Project) -> Iterator[Change]:
    """`sources:` of install_data are its arguments here."""
    for site in project.functions("install_data"):
        word = site.call.keywords.get("sources")
        if word is not None and not site.call.arguments and site.call.items[0] is word:
            yield site.change("install_data: `sources:` are its arguments", (word.start, word.value.start, ""))
        elif word is not None:
            start, end = without_item(site.file.text, site.call, word)
            first = site.call.items[0].start
            added = (first, first, site.file.source(word.value) + ", ")
            yield site.change("install_data: `sources:` are its arguments", added, (start, end, ""))
