"""Rewrites options that every project of the real Meson has, and this program's projects have not."""
from __future__ import annotations

from collections.abc import Iterator

from tools.files import OPTION_FILES
from tools.porting import tree
from tools.porting.edits import Change, Edit
from tools.porting.lexer import escaped
from tools.porting.project import Project, Site
from tools.porting.rule import REAL, drop_keyword, replaced, text_of

# Folders: the option of the project that replaces each, and its value.
FOLDERS = {"libexecdir": ("libexec_dir", "libexec"), "localedir": ("locale_dir", "share/locale"), "sbindir": ("sbin_dir", "sbin"),
           "infodir": ("info_dir", "share/info"), "localstatedir": ("localstate_dir", "/var/local"),
           "sharedstatedir": ("sharedstate_dir", "/var/local/lib"), "licensedir": ("license_dir", "")}
# Others: what the real Meson has where nobody says otherwise.
VALUES = {"b_ndebug": "'false'", "b_lto": "false", "b_lto_mode": "'default'", "b_sanitize": "'none'", "b_coverage": "false",
          "b_lundef": "true", "b_asneeded": "true", "b_pie": "false", "b_staticpic": "true", "b_pch": "true", "b_pgo": "'off'",
          "b_colorout": "'always'", "unity": "'off'", "strip": "false", "layout": "'mirror'", "backend": "'ninja'",
          "wrap_mode": "'default'", "stdsplit": "true", "errorlogs": "true", "default_both_libraries": "'shared'",
          "prefer_static": "false", "c_winlibs": "[]", "cpp_std": "'none'", "pkg_config_path": "[]", "cmake_prefix_path": "[]"}


def option_file(project: Project) -> tuple[str, str]:
    """Returns the path and the text of the option file. A new one has the name that every version of the real Meson reads."""
    file = project.option_file()
    return (file.path, file.text) if file else (OPTION_FILES[-1], "")


def declarations(body: list[tree.Statement]) -> dict[str, tree.Call]:
    """Returns the options that the statements of an option file declare."""
    found: dict[str, tree.Call] = {}
    for statement in body:
        call = statement.value if isinstance(statement, tree.Expression) else None
        first = call.arguments[0] if isinstance(call, tree.Call) and call.name == "option" and call.arguments else None
        if isinstance(call, tree.Call) and isinstance(first, tree.Text):
            found.setdefault(first.value, call)
    return found


def declared(project: Project, name: str) -> tree.Call | None:
    """Returns the declaration of an option."""
    file = project.option_file()
    return declarations(file.body).get(name) if file else None


def option_name(project: Project, wanted: str, description: str) -> str:
    """Returns the option with this description, or a name that none has."""
    number, name = 1, wanted
    while (call := declared(project, name)) is not None:
        word = call.keywords.get("description")
        if word is not None and isinstance(word.value, tree.Text) and word.value.value == description:
            break
        number += 1
        name = f"{wanted}_{number}"
    return name


def with_option(project: Project, text: str) -> Edit:
    """Returns the edit that puts one declaration more at the end of the option file."""
    path, before = option_file(project)
    if before and not before.endswith("\n"):
        text = "\n" + text.removesuffix("\n")  # its last line has no end, and keeps none
    return Edit(path, len(before), len(before), text)


def folders(project: Project) -> Iterator[Change]:
    for site in project.functions("get_option"):
        name = text_of(project, site.call.arguments[0]) if site.call.arguments else None
        if name not in FOLDERS or not isinstance(tree.plain(site.call.arguments[0]), tree.Text) or name in project.known.options:
            continue
        wanted, value = FOLDERS[name]
        description = f"What {name} is elsewhere"
        option = option_name(project, wanted, description)
        change = site.change(f"get_option('{name}') becomes the option {option}", replaced(site, site.call.arguments[0], escaped(option)))
        if declared(project, option) is None:
            text = f"option('{option}', type: 'string', value: {escaped(value)}, description: {escaped(description)})\n"
            change.edits.append(with_option(project, text))
        yield change


def others(project: Project) -> Iterator[Change]:
    """Keeps for an option that this program has not the value with which the real Meson begins. The real Meson reads it as before."""
    for site in project.functions("get_option"):
        name = text_of(project, site.call.arguments[0]) if site.call.arguments else None
        if name in VALUES and name not in project.known.options:
            text = f"({REAL} ? {site.file.source(site.call)} : {VALUES[name]})"
            yield site.change(f"get_option('{name}') is {VALUES[name]} here", replaced(site, site.call, text))


def option_calls(project: Project) -> Iterator[Site]:
    """Yields the declarations of the option file."""
    file = project.option_file()
    for statement in file.body if file else []:
        call = statement.value if isinstance(statement, tree.Expression) else None
        if file and isinstance(call, tree.Call) and call.name == "option":
            yield Site(file, statement, call)


def summed_texts(project: Project) -> Iterator[Change]:
    """Texts with `+` between them, which a declaration takes as one text alone."""
    for site in option_calls(project):
        for node in [it.value if isinstance(it, tree.Keyword) else it for it in site.call.items]:
            text = sum_of(node)
            if text is not None and not isinstance(tree.plain(node), tree.Text):
                yield site.change("option: a sum of texts is one text", replaced(site, node, escaped(text)))


def sum_of(node: tree.Node) -> str | None:
    """Returns the text that a text, or a sum of texts, is."""
    node = tree.plain(node)
    if isinstance(node, tree.Binary) and node.operator == "+":
        left, right = sum_of(node.left), sum_of(node.right)
        return None if left is None or right is None else left + right
    return node.value if isinstance(node, tree.Text) and not node.has_names else None


def deprecated_options(project: Project) -> Iterator[Change]:
    """`deprecated:` of an option, which changes nothing for those who give the option its present values."""
    for site in option_calls(project):
        call, file = site.call, site.file
        if "deprecated" in call.keywords:
            yield drop_keyword(site, "deprecated")
        kind = call.keywords.get("type")
        if kind is not None and isinstance(kind.value, tree.Text) and kind.value.value == "integer" and "value" not in call.keywords:
            low = call.keywords.get("min")
            value = file.source(low.value) if low else "0"
            yield site.change("option: an integer has a value", (call.items[-1].end, call.items[-1].end, f", value: {value}"))
