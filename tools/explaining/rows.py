"""Describes what functions and methods have and take, for the texts of explanations: keywords and kinds of values."""
from __future__ import annotations


from tools import records as dataclasses
from tools.explaining.values import DICTIONARY, INTEGER, LIST, OBJECT, TEXT, TRUTH, Value, flat


@dataclasses.dataclass(frozen=True)
class Kind:
    """Describes what a function takes in one place; of a list each item, if lists are opened."""
    words: str
    types: tuple[str, ...]
    opens: bool = False
    # The names of the objects that it takes; none if it takes any.
    objects: tuple[str, ...] = ()

    def misfit(self, value: Value) -> Value | None:
        """Returns the value, or the item, that it doesn't take."""
        for it in flat(value) if self.opens else [value]:
            is_object = it.kind not in (TEXT, INTEGER, TRUTH, LIST, DICTIONARY)
            if it.kind == "disabler" or it.kind in self.types or (it.kind == LIST and LIST in self.types):
                continue
            if not is_object or OBJECT not in self.types or (self.objects and it.kind not in (*self.objects, OBJECT)):
                return it
        return None


TEXT_, TEXTS = Kind("a text", (TEXT,)), Kind("texts", (TEXT,), True)
NUMBER = Kind("an integer", (INTEGER,))
PRINTED = Kind("texts, integers, truth values, and lists and dictionaries of these", (TEXT, INTEGER, TRUTH, DICTIONARY), True)
TARGETS, LISTED = ("executable", "library", "target", "custom target"), ("list of files",)
# The kinds that the program reports, each by its words.
KINDS = {it.words: it for it in (
    TEXT_, TEXTS, NUMBER, Kind("a truth value", (TRUTH,)), Kind("a text or an integer", (TEXT, INTEGER)),
    Kind("a text, an integer or a truth value", (TEXT, INTEGER, TRUTH)), Kind("a dictionary", (DICTIONARY,)),
    Kind("texts, or a dictionary", (TEXT, DICTIONARY), True), Kind("texts and files", (TEXT, OBJECT), True, LISTED),
    Kind("texts, files and custom targets", (TEXT, OBJECT), True, (*LISTED, "custom target")),
    Kind("texts and include_directories", (TEXT, OBJECT), True, ("include_directories object",)),
    Kind("executables and libraries", (OBJECT,), True, ("executable", "library", "target")),
    Kind("libraries", (OBJECT,), True, ("library", "target")), Kind("targets", (OBJECT,), True, TARGETS),
    Kind("texts, files and targets", (TEXT, OBJECT), True, (*LISTED, *TARGETS)),
    Kind("texts, files, programs and targets", (TEXT, OBJECT), True, (*LISTED, "program", *TARGETS)),
    Kind("a program, a target or a file", (OBJECT,), False, ("program", *TARGETS)), Kind("dependencies", (OBJECT,), True, ("dependency",)),
    Kind("a truth value or a feature option", (TRUTH, OBJECT), False, ("feature option",)),
    Kind("configuration data", (OBJECT,), False, ("configuration data object",)),
    Kind("configuration data or a dictionary", (DICTIONARY, OBJECT), False, ("configuration data object",)))}

TARGET = ("sources", "include_directories", "c_args", "link_args", "link_with", "dependencies", "install", "install_dir",
          "build_by_default")
# The keywords of each function.
FUNCTIONS: dict[str, tuple[str, ...]] = {
    "project": ("version", "license", "default_options", "meson_version"),
    **dict.fromkeys(("executable", "static_library"), TARGET),
    **dict.fromkeys(("shared_library", "library"), (*TARGET, "version", "soversion")),
    "custom_target": ("input", "depend_files", "output", "command", "capture", "depfile", "depends", "build_by_default", "install_dir",
                      "install"),
    "dependency": ("required", "disabler", "version", "method", "static", "native", "include_type"),
    "declare_dependency": ("include_directories", "compile_args", "link_args", "link_with", "sources", "dependencies", "version"),
    "find_program": ("required", "disabler", "native"),
    "configure_file": ("input", "output", "configuration", "install_dir", "format", "encoding"),
    "test": ("args", "env", "should_fail", "suite", "timeout", "depends", "workdir", "is_parallel"),
    "install_headers": ("install_dir", "subdir"), **dict.fromkeys(("install_data", "install_man"), ("install_dir",)),
    **dict.fromkeys(("add_project_arguments", "add_project_link_arguments"), ("language",)),
    "subdir": ("if_found",), "include_directories": ("is_system",),
    **dict.fromkeys(("assert", "configuration_data", "disabler", "error", "files", "get_option", "get_variable", "is_disabler",
                     "is_variable", "join_paths", "message", "range", "set_variable", "subdir_done", "unset_variable", "warning"), ()),
}
# Of which kind an object is, or a value, that has these methods.
METHODS_OF = {
    TEXT: "contains startswith endswith format join replace split splitlines strip substring to_int to_lower to_upper underscorify "
          "version_compare",
    INTEGER: "is_even is_odd to_string", TRUTH: "to_int to_string", LIST: "contains get length", DICTIONARY: "get has_key keys",
    "feature option": "enabled disabled auto allowed", "dependency": "found name version", "program": "found full_path path",
    "target": "name full_path", "custom target": "name full_path to_list",
    "configuration data object": "set set10 set_quoted get get_unquoted has keys merge_from", "machine": "system cpu_family cpu endian",
    "meson object": "project_name project_version current_source_dir current_build_dir project_source_root project_build_root source_root "
                    "build_root is_subproject is_cross_build backend version get_compiler",
    "compiler": "get_id version has_header check_header has_function has_type has_member has_header_symbol has_argument has_link_argument "
                "get_supported_arguments sizeof alignment find_library",
}
ASKING = ("prefix", "dependencies", "args", "include_directories", "dirs")
# The keywords of each method.
METHODS: dict[str, tuple[str, ...]] = {
    **{name: () for text in METHODS_OF.values() for name in text.split()},
    **dict.fromkeys(("has_header", "check_header", "has_function", "has_type", "has_argument", "has_link_argument", "has_member",
                     "has_header_symbol", "find_library"), (*ASKING, "required")),
    **dict.fromkeys(("sizeof", "alignment", "get_supported_arguments"), ASKING),
    **dict.fromkeys(("set", "set10", "set_quoted"), ("description",)),
}


def methods_of(kind: str) -> list[str]:
    return METHODS_OF.get("target" if kind in ("executable", "library") else kind, "").split()
