"""Finds what this program doesn't support in places that may be carried out, and what to write in its place."""
from __future__ import annotations


from tools import records as dataclasses
from tools.porting import tree
from tools.porting.project import Project, Site
from tools.porting.values import Thing, choices_of, flat, kind_of

FUNCTIONS = {
    "subproject": "install what it depends on first, and ask for it by dependency",
    "import": "its module is left out: names as texts, an option for what has to be computed",
    "run_command": "an option, whose value the machine file gives",
    "vcs_tag": "an option, or a custom_target with `capture: true`",
    "generator": "a foreach with a custom_target for each input",
    "run_target": "a custom_target that isn't built by default", "alias_target": "a custom_target that isn't built by default",
    "benchmark": "a test in a suite of its own", "environment": "a dictionary in `env:`",
    "install_subdir": "install_data with the files by name", "install_emptydir": "a step of the package",
    "install_symlink": "a step of the package", "summary": "message", "debug": "message",
    "both_libraries": "shared_library and static_library of one name", "shared_module": "shared_library",
    "build_target": "the function of that kind of target", "add_languages": "only C is built here",
    "add_global_arguments": "add_project_arguments", "add_global_link_arguments": "add_project_link_arguments",
    "add_test_setup": "the arguments of `meson test`", "add_project_dependencies": "`dependencies:` of each target",
    "jar": "only C is built here",
    "structured_sources": "only C is built here",
}
METHODS = {
    "compiler": {
        "compiles": "has_type, has_function or has_member; or an option", "links": "has_function, or an option", "run": "an option",
        "get_define": "an option", "compute_int": "sizeof, alignment, or an option; `--also numbers` if it isn't negative",
        "preprocess": "a custom_target",
        "first_supported_argument": "get_supported_arguments", "get_supported_link_arguments": "has_link_argument in an `if`",
        "first_supported_link_argument": "has_link_argument in an `if`", "has_function_attribute": "has_type with the attribute before it",
        "get_supported_function_attributes": "has_type with the attribute before it", "has_multi_arguments": "has_argument for each",
        "has_multi_link_arguments": "has_link_argument for each", "has_members": "has_member for each", "has_define": "has_header_symbol",
        "cmd_array": "a program of [binaries]", "get_argument_syntax": "get_id", "get_linker_id": "an option",
        "symbols_have_underscore_prefix": "false, on Linux"},
    "dependency": {
        "get_variable": "an option", "get_pkgconfig_variable": "an option", "get_configtool_variable": "an option",
        "partial_dependency": "the dependency itself", "as_system": "the dependency itself", "type_name": "found, or an option",
        "as_link_whole": "the dependency itself", "as_static": "the dependency itself", "as_shared": "the dependency itself",
        "include_type": "nothing"},
    "target": {"extract_objects": "a static library that both targets link",
               "extract_all_objects": "a static library that both targets link, which --also objects writes",
               "private_dir_include": "include_directories", "outdir": "a text", "get_static_lib": "the static library itself",
               "get_shared_lib": "the shared library itself", "found": "nothing", "path": "full_path"},
    "meson": {
        "add_install_script": "a step of the package", "add_postconf_script": "a step of the package",
        "add_dist_script": "a step of the package", "override_dependency": "nothing: there are no subprojects",
        "override_find_program": "nothing: there are no subprojects", "get_cross_property": "an option",
        "get_external_property": "an option", "can_run_host_binaries": "not meson.is_cross_build()", "build_options": "nothing",
        "add_devenv": "nothing", "project_license": "a text", "project_license_files": "texts"},
    "feature": {it: "an `if` that sets a variable to another feature option" for it in ("require", "disable_if", "enable_if",
                                                                                       "disable_auto_if", "enable_auto_if")},
    "environment": {"append": "a script that sets it", "prepend": "a script that sets it", "unset": "a script that leaves it out"},
    "program": {"version": "an option", "cmd_array": "full_path",
                **{it: "an option: a program is no installation of Python" for it in (
                    "language_version", "dependency", "extension_module", "get_install_dir", "get_path", "get_variable", "has_path",
                    "has_variable", "install_sources")}},
}
METHODS["library"] = METHODS["internal"] = METHODS["dependency"]
OF_MODE = "a step of the package; or `--also install-modes`, which drops it"
OF_NAME = "or a custom_target with the link command, which `--also named-modules` writes"
KEYWORDS = {
    **{name: {"kwargs": "the keywords themselves"} for name in ("*",)},
    "library": {"link_whole": "the sources of that library, in each target that has it", "override_options": "`c_args:` and `link_args:`",
                "objects": "a static library that both targets link", "install_mode": OF_MODE,
                "name_prefix": "a name that begins with lib; " + OF_NAME, "name_suffix": "the usual ending; " + OF_NAME,
                "c_pch": "the header in each source",
                "install_rpath": "`link_args: '-Wl,-rpath,..'`", "gnu_symbol_visibility": "`c_args:` with -fvisibility=..",
                "export_dynamic": "`link_args: '-rdynamic'`", "c_static_args": "`c_args:`", "c_shared_args": "`c_args:`"},
    "custom_target": {"feed": "`sh -c` that feeds the command", "env": "a script that does it",
                      "build_always_stale": "a script that does it", "install_mode": OF_MODE},
    "configure_file": {"command": "a custom_target", "copy": "`configuration: {}`, or a custom_target with cp",
                       "capture": "a custom_target",
                       "depfile": "a custom_target", "install_mode": OF_MODE, "install": "only `install_dir:`"},
    "install_headers": {"install_mode": OF_MODE, "preserve_path": "a call for each folder"},
    "install_data": {"install_mode": OF_MODE, "rename": "configure_file with the other name",
                     "preserve_path": "a call for each folder"},
    "install_man": {"install_mode": OF_MODE, "locale": "`install_dir:`"},
    "test": {"protocol": "a program that ends with 0, 77 or another status; or `--also test-protocol`, so that only its status decides"},
    "dependency": {"fallback": "install what it depends on first", "modules": "the dependency of each part",
                   "components": "the dependency of each part"},
    "find_program": {"dirs": "the machine file"},
    "declare_dependency": {"link_whole": "the sources of that library, in each target that has it", "objects": "a static library"},
    "find_library": {"has_headers": "has_header", "header_include_directories": "has_header", "disabler": "an `if`"},
}
for _name in ("executable", "static_library", "shared_library"):
    KEYWORDS[_name] = KEYWORDS["library"]
KEYWORDS["static_library"] = {**KEYWORDS["library"], "name_prefix": "a name that begins with lib", "name_suffix": "the usual ending"}
# Formats of configure_file that are taken.
FORMATS = ("meson",)


@dataclasses.dataclass(frozen=True)
class Unsupported:
    """Holds a place that this program refuses. It `is_sure` if the place is reached on every machine and with all options."""
    path: str
    line: int
    text: str
    is_sure: bool


def unsupported_in(project: Project) -> list[Unsupported]:
    """Returns all places that this program refuses where it comes to them."""
    found: list[Unsupported] = []
    left = modules_left(project)
    for site in project.sites():
        doubt = project.doubts.get(site.call)
        for text in refused(project, site, left) or ([doubt] if doubt else []):
            is_sure = site.call not in project.known.called_maybe
            found.append(Unsupported(site.file.path, site.file.line(site.call.start), doubt or text, is_sure))
    return list(dict.fromkeys(found))


def refused(project: Project, site: Site, left: set[str]) -> list[str]:
    """Returns why this program refuses a call; `left` are the variables of modules that the real Meson alone imports."""
    call, texts = site.call, []
    if call.receiver is None and call.name in FUNCTIONS:
        texts.append(f"{shown_name(project, site)}: {FUNCTIONS[call.name]}")
    if call.receiver is None and call.name == "files" and any(isinstance(it, str) and it.startswith("/") for it in paths_of(project, call)):
        texts.append("files: a path outside of the project: an option, whose value is the path, in a command")
    if isinstance(call.receiver, tree.Name) and call.receiver.text in left:
        texts.append(f"{call.receiver.text}.{call.name}: the module is left to the real Meson")
    if call.receiver is not None:
        for choice in choices_of(project.known.value(call.receiver)):
            advice = METHODS.get(kind_of(choice), {}).get(call.name)
            if advice:
                texts.append(f"{call.name}: {advice}")
    if call.name == "get_compiler" and any(it != "c" for it in paths_of(project, call) if isinstance(it, str)):
        texts.append("get_compiler: only C is built here")
    for name, word in call.keywords.items():
        advice = KEYWORDS.get(call.name, {}).get(name) or KEYWORDS["*"].get(name)
        if advice and not (call.name == "test" and name == "protocol" and project.known.value(word.value) == "exitcode"):
            texts.append(f"{call.name}: `{name}:`: {advice}")
        if call.name == "configure_file" and name == "format" and project.known.value(word.value) not in FORMATS:
            texts.append("configure_file: `format:`: a template with @name@ and #mesondefine")
    return texts + refused_of_project(project, site)


def shown_name(project: Project, site: Site) -> str:
    if site.call.name != "import":
        return site.call.name
    thing = project.known.things[site.call][0]
    return f"import('{thing.name}')" if isinstance(thing, Thing) and thing.name else "import"


def refused_of_project(project: Project, site: Site) -> list[str]:
    if site.call.name != "project" or site.call.receiver is not None:
        return []
    texts = []
    for argument in site.call.arguments[1:]:
        for node in tree.inside(argument):
            if isinstance(node, tree.Text) and node.value != "c":
                texts.append(f"project: the language {node.value}: only C is built here")
    for node in tree.inside(site.call):
        if isinstance(node, tree.Call) and node is not site.call and is_asked_too_early(node):
            texts.append(project.doubts.get(node, f"project: {node.name} can't be called in its arguments"))
        if isinstance(node, tree.Text) and node.value.replace(" ", "") == "default_library=both":
            texts.append("project: default_library=both: shared_library and static_library of one name, which "
                         "`--also both-by-default` writes")
    return texts


def is_asked_too_early(call: tree.Call) -> bool:
    """Returns whether a call can't be in the arguments of `project`: a function, or a method of `meson`."""
    receiver = tree.plain(call.receiver) if call.receiver else None
    return receiver is None or (isinstance(receiver, tree.Name) and receiver.text == "meson")


def modules_left(project: Project) -> set[str]:
    """Returns the variables of modules that are imported by the real Meson alone."""
    return {it.name for file in project.entered for it in file.statements
            if isinstance(it, tree.Assignment) and isinstance(it.value, tree.Call) and it.value.name == "import"
            and it not in project.known.reached}


def paths_of(project: Project, call: tree.Call) -> list[object]:
    return [choice for it in call.arguments for item in flat(project.known.value(it)) for choice in choices_of(item.value)]
