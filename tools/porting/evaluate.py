"""Works out what may happen in a project's definition files, if that is the same on every machine.

Of a condition that an option or the machine decides, both sides are looked at. What is never reached, as a branch for another system,
may hold anything; so rules look only at what `reached` has.
"""
from __future__ import annotations

import os
from collections.abc import Callable

from tools.porting import tree
from tools.porting.operators import binary, indexed, truth_of
from tools.porting.text_methods import method_of_value, version_compare
from tools.porting.values import (ROOT, UNKNOWN, Either, Item, Many, Table, Thing, Unknown, bounded, choices_of, cost_of, either, flat,
                                  is_light, is_same, kind_of, size_of, texts_of, without_root)

PREDEFINED = ("meson", "host_machine", "build_machine", "target_machine")
# Beyond this many steps of one pass all is taken as reached, and nothing as known.
MOST_STEPS = 400_000
# What a call gives, by its function.
THINGS = {
    "dependency": "dependency", "declare_dependency": "internal", "find_program": "program", "executable": "target",
    "static_library": "target", "shared_library": "target", "library": "target", "both_libraries": "target",
    "shared_module": "target", "build_target": "target", "jar": "target", "custom_target": "custom", "vcs_tag": "custom",
    "configure_file": "file", "include_directories": "include", "configuration_data": "configuration",
    "environment": "environment", "generator": "generator", "run_command": "run", "subproject": "subproject",
    "import": "module", "run_target": "custom", "alias_target": "custom",
}
# What the methods of an object give that isn't known before: by its kind and name.
GIVES = {
    ("compiler", "find_library"): "library", ("compiler", "run"): "run", ("compiler", "get_supported_arguments"): "texts",
    ("compiler", "get_supported_link_arguments"): "texts", ("compiler", "first_supported_argument"): "texts",
    ("compiler", "version"): "text", ("compiler", "sizeof"): "integer", ("compiler", "alignment"): "integer",
    ("compiler", "compute_int"): "integer", ("compiler", "get_define"): "text", ("compiler", "get_argument_syntax"): "text",
    ("dependency", "version"): "text", ("dependency", "name"): "text", ("dependency", "get_variable"): "text",
    ("dependency", "get_pkgconfig_variable"): "text", ("dependency", "type_name"): "text", ("internal", "version"): "text",
    ("program", "full_path"): "text", ("program", "path"): "text", ("program", "version"): "text", ("target", "full_path"): "text",
    ("custom", "full_path"): "text", ("target", "name"): "text", ("run", "stdout"): "text", ("run", "stderr"): "text",
    ("run", "returncode"): "integer", ("meson", "version"): "text", ("meson", "current_source_dir"): "text",
    ("meson", "current_build_dir"): "text", ("meson", "project_source_root"): "text", ("meson", "project_build_root"): "text",
    ("meson", "source_root"): "text", ("meson", "build_root"): "text", ("meson", "project_version"): "text",
    ("meson", "project_name"): "text", ("machine", "cpu_family"): "text", ("machine", "cpu"): "text", ("machine", "endian"): "text",
    ("generator", "process"): "generated",
    **{("compiler", it): "truth" for it in ("has_function", "has_header", "check_header", "has_type", "has_member", "has_members",
                                            "compiles", "has_header_symbol", "has_argument", "has_multi_arguments", "has_link_argument",
                                            "links")},
    **{("feature", it): "truth" for it in ("enabled", "disabled", "auto", "allowed")},
    **{(it, "found"): "truth" for it in ("dependency", "library", "program")},
    **{("feature", it): "feature" for it in ("require", "disable_if", "enable_if", "disable_auto_if", "enable_auto_if")},
}
# Answers that are the same on every machine that this is for.
ANSWERS = {("meson", "is_subproject"): False, ("meson", "is_cross_build"): False, ("meson", "backend"): "ninja",
           ("machine", "system"): "linux", ("machine", "kernel"): "linux", ("machine", "subsystem"): "linux"}
# The version of Meson that this program reports. Its text is not known: the real Meson has another one.
VERSION = "1.3.0"
SOURCE_FOLDERS = ("current_source_dir", "project_source_root", "source_root", "global_source_root")
COMPILERS = Either(("gcc", "clang"))
CHOICES = {"default_library": ("shared", "static"), "buildtype": ("plain", "debug", "debugoptimized", "release", "minsize"),
           "warning_level": ("0", "1", "2", "3"), "optimization": ("plain", "0", "g", "1", "2", "3", "s")}


class Left(Exception):
    """Leaves a file at `subdir_done`, a round at `break` or `continue`, and all files at `error` and at what needs another language."""

    def __init__(self, word: str) -> None:
        super().__init__(word)
        self.word = word


class TooMuch(Exception):
    pass


class Evaluation:
    """Makes one pass over the files from meson.build on, of at most so many steps."""

    def __init__(self, root: str, body_of: Callable[[str], list[tree.Statement] | None], options: list[tree.Call],
                 most_steps: int = MOST_STEPS, is_usual: bool = False) -> None:
        """Gives each option its default if `is_usual`."""
        self.root, self.body_of, self.most_steps, self.is_usual = root, body_of, most_steps, is_usual
        self.entered: list[str] = []
        self.reached: set[tree.Node] = set()
        self.values: dict[tree.Node, object] = {}
        self.things: dict[tree.Call, list[Thing]] = {}
        self.folder, self.path, self.steps = "", "meson.build", 0
        self.doubt = 0  # how many branches and rounds round this may not be taken
        self.called_maybe: set[tree.Node] = set()
        self.names: dict[str, object] = {it: Thing("machine") for it in PREDEFINED} | {"meson": Thing("meson")}
        self.are_names_held = False  # the dictionary is kept elsewhere too, and doesn't change any more
        self.version: object = "undefined"
        self.options = {name: self.option_value(it) for it in options for name in choices_of(self.literal(it.arguments[:1]))}
        self.enter("meson.build")

    @staticmethod
    def literal(nodes: list[tree.Node]) -> object:
        return nodes[0].value if nodes and isinstance(nodes[0], tree.Text) else UNKNOWN

    def option_value(self, call: tree.Call) -> object:
        words = call.keywords
        kind = self.literal([words["type"].value]) if "type" in words else ""
        choices = words["choices"].value if "choices" in words else None
        default = words["value"].value if "value" in words else None
        if self.is_usual and kind == "boolean" and (default is None or isinstance(default, tree.Truth)):
            return default is None or default.value
        if self.is_usual and kind in ("string", "combo") and isinstance(default, tree.Text):
            return default.value
        if kind == "combo" and isinstance(choices, tree.List) and all(isinstance(it, tree.Text) for it in choices.items):
            return either(it.value for it in choices.items if isinstance(it, tree.Text))
        kinds = {"string": "text", "combo": "text", "boolean": "truth", "integer": "integer", "array": "texts", "feature": "feature"}
        return self.unknown(kinds.get(str(kind), ""))

    @staticmethod
    def unknown(kind: str) -> object:
        return Many([Item(Unknown("text"), False)]) if kind == "texts" else Unknown(kind)

    def value(self, node: tree.Node) -> object:
        """Returns what is known of a node's value, over all times that it is evaluated; nothing of a path from the root of a disk."""
        return without_root(self.placed(node))

    def placed(self, node: tree.Node) -> object:
        """Returns the same, with ROOT for the project's folder in texts."""
        return self.values.get(node, UNKNOWN)

    # Files and statements

    def enter(self, path: str) -> None:
        body = self.body_of(path)
        if body is None or path in self.entered:
            return
        self.entered.append(path)
        outer = self.folder, self.path
        self.folder, self.path = os.path.dirname(path), path
        try:
            self.run(body)
        except Left as left:
            if left.word == "error" and path != "meson.build":
                raise
        except (TooMuch, RecursionError):
            self.give_up(body)
        finally:
            self.folder, self.path = outer

    def give_up(self, body: list[tree.Statement]) -> None:
        """Takes all of a file, and of those that it names, as reached."""
        self.doubt += 1
        for statement in tree.statements_in(body):
            self.reached.add(statement)
            for expression in statement.expressions():
                self.reached.update(tree.inside(expression))
                for node in tree.inside(expression):
                    if isinstance(node, tree.Call) and node.name == "subdir" and isinstance(self.literal(node.arguments), str):
                        self.enter(os.path.normpath(os.path.join(self.folder, str(self.literal(node.arguments)), "meson.build")))

    def run(self, body: list[tree.Statement]) -> None:
        for statement in body:
            self.reached.add(statement)
            match statement:
                case tree.Assignment():
                    self.assign(statement)
                case tree.Expression():
                    self.evaluate(statement.value)
                case tree.If():
                    self.run_if(statement)
                case tree.Foreach():
                    self.run_foreach(statement)
                case tree.Jump():
                    if not self.doubt:
                        raise Left(statement.word)

    # Variables

    def held_names(self) -> dict[str, object]:
        """Returns the variables as they are now, for one who keeps them."""
        self.are_names_held = True
        return self.names

    def set_names(self, changed: dict[str, object]) -> None:
        if self.are_names_held:
            self.spend(len(self.names) >> 5)
            self.names, self.are_names_held = dict(self.names), False
        self.names.update(changed)

    def take_names(self, *ends: dict[str, object]) -> None:
        """Takes the variables that are left by one of several ways."""
        self.spend(len(ends[0]) * (len(ends) - 1) >> 5)
        self.names, self.are_names_held = self.merged(list(ends)), True

    def assign(self, statement: tree.Assignment) -> None:
        value = self.evaluate(statement.value)
        if statement.operator == "+=":
            value = bounded(binary("+", self.names.get(statement.name, UNKNOWN), value))
            self.spend(cost_of(value))
        self.set_names({statement.name: value})

    def run_if(self, statement: tree.If) -> None:
        ends: list[dict[str, object]] = []
        before = self.held_names()
        doubt = self.doubt
        is_open = True
        for branch in statement.branches:
            truth = True if branch.condition is None else truth_of(self.evaluate(branch.condition))
            if truth is False:
                continue
            self.doubt = doubt + 1 if truth is None or ends or self.doubt > doubt else doubt
            outer = self.held_names()
            if self.run_maybe(branch.body, truth is None or self.doubt > doubt):
                ends.append(self.held_names())
            self.take_names(outer)
            if truth:
                is_open = False
                break
        self.doubt = doubt
        if is_open:
            ends.append(before)
        self.take_names(*(ends or [before]))

    def run_maybe(self, body: list[tree.Statement], is_doubtful: bool) -> bool:
        """Returns whether what follows the branch may run after it."""
        try:
            self.run(body)
        except Left as left:
            if not is_doubtful:
                raise
            return left.word != "error"
        return True

    def merged(self, ends: list[dict[str, object]]) -> dict[str, object]:
        if len(ends) == 1:
            return ends[0]
        first, *others = ends
        # Most variables are those of before in each branch.
        changed = dict.fromkeys(key for it in others for key, value in it.items() if first.get(key, it) is not value)
        new = {key: either(it[key] for it in ends if key in it) for key in changed}
        self.spend(sum(size_of(it)[0] for it in new.values()) >> 2)
        return {**first, **new}

    def run_foreach(self, statement: tree.Foreach) -> None:
        items = self.evaluate(statement.items)
        rounds: list[tuple[tuple, bool]] = []
        if isinstance(items, Many):
            rounds = [((it.value,), it.is_sure) for it in items.items] + ([] if items.is_whole else [((UNKNOWN,), False)])
        elif isinstance(items, Table):
            rounds = [(pair, items.is_whole) for pair in items.pairs.items()] + ([] if items.is_whole else [((UNKNOWN,) * 2, False)])
        else:
            rounds = [((UNKNOWN, UNKNOWN), False)] * 2
        for values, is_sure in rounds:
            if not self.run_round(statement, values, is_sure):
                break

    def run_round(self, statement: tree.Foreach, values: tuple, is_sure: bool) -> bool:
        """Returns whether there may be a next round."""
        before = self.held_names()
        self.set_names(dict(zip(statement.names, values)))
        self.doubt += not is_sure
        goes_on = True
        try:
            self.run(statement.body)
        except Left as left:
            if left.word in ("subdir_done", "error") and is_sure:
                raise
            goes_on = left.word != "break" or not is_sure
        finally:
            self.doubt -= not is_sure
        if not is_sure:
            self.take_names(self.names, before)
        return goes_on

    # Expressions

    def spend(self, steps: int) -> None:
        self.steps += steps
        if self.steps > self.most_steps:
            raise TooMuch

    def evaluate(self, node: tree.Node) -> object:
        self.spend(1)
        evaluated = EVALUATED.get(type(node))
        value = evaluated(self, node) if evaluated else UNKNOWN
        if not is_light(value):
            value = bounded(value)
            self.spend(cost_of(value))
        known = self.values.setdefault(node, value)
        if not is_same(known, value):
            self.values[node] = either([known, value])
        return value

    def literal_text(self, node: tree.Text) -> object:
        return Unknown("text") if node.has_names else node.value

    def literal_value(self, node: tree.Number | tree.Truth) -> object:
        return node.value

    def variable(self, node: tree.Name) -> object:
        return self.names.get(node.text, UNKNOWN)

    def inner(self, node: tree.Group) -> object:
        return self.evaluate(node.inner)

    def list_of(self, node: tree.List) -> object:
        return Many([Item(self.evaluate(it), True) for it in node.items])

    def indexed_value(self, node: tree.Index) -> object:
        return indexed(self.evaluate(node.receiver), self.evaluate(node.index))

    def dictionary(self, node: tree.Dictionary) -> Table:
        pairs, is_whole = {}, True
        for key, value in node.pairs:
            name, held = self.evaluate(key), self.evaluate(value)
            if isinstance(name, str):
                pairs[name] = held
            else:
                is_whole = False
        return Table(pairs, is_whole)

    def unary(self, node: tree.Unary) -> object:
        value = self.evaluate(node.operand)
        if node.operator == "not":
            truth = truth_of(value)
            return Unknown("truth") if truth is None else not truth
        return -value if isinstance(value, int) and not isinstance(value, bool) else Unknown("integer")

    def binary(self, node: tree.Binary) -> object:
        if node.operator not in ("and", "or"):
            return binary(node.operator, self.evaluate(node.left), self.evaluate(node.right))
        left = truth_of(self.evaluate(node.left))
        if left is (node.operator == "or"):
            return left
        right = truth_of(self.in_doubt(node.right, left is None))
        if left is None:
            return right if right is (node.operator == "or") else Unknown("truth")
        return Unknown("truth") if right is None else right

    def in_doubt(self, node: tree.Node, is_doubtful: bool) -> object:
        self.doubt += is_doubtful
        try:
            return self.evaluate(node)
        finally:
            self.doubt -= is_doubtful

    def ternary(self, node: tree.Ternary) -> object:
        truth = truth_of(self.evaluate(node.condition))
        sides = [side for side, wanted in ((node.yes, True), (node.no, False)) if truth in (None, wanted)]
        return either(self.in_doubt(it, truth is None) for it in sides)

    def call(self, node: tree.Call) -> object:
        receiver = self.evaluate(node.receiver) if node.receiver else None
        arguments = [self.evaluate(it) for it in node.arguments]
        keywords = {it.name: self.evaluate(it.value) for it in node.keywords.values()}
        self.reached.add(node)
        if self.doubt:
            self.called_maybe.add(node)
        thing = Thing("", node, self.path, arguments, keywords, self.held_names())
        self.things.setdefault(node, []).append(thing)
        if node.receiver:
            return either([self.method(it, thing) for it in choices_of(receiver)])
        return self.function(thing)

    def function(self, thing: Thing) -> object:
        name, first = thing.function, thing.arguments[0] if thing.arguments else None
        if name in THINGS:
            thing.kind = THINGS[name]
            return thing
        if name == "subdir" and isinstance(first, str):
            self.enter(os.path.normpath(os.path.join(self.folder, first, "meson.build")))
        elif name == "subdir_done" and not self.doubt:
            raise Left("subdir_done")
        elif name == "error" or (name == "add_languages" and set(texts_of(first) or ["c"]) != {"c"}):
            raise Left("error")
        elif name == "project":
            self.version = thing.keywords.get("version", "undefined")
            self.set_names({"meson": Thing("meson", None, "", thing.arguments)})
        elif name == "files":
            return Many([Item(self.file(thing.call, it.value), it.is_sure) for it in flat(Many([Item(it) for it in thing.arguments]))])
        elif name == "get_option":
            return self.option(first)
        elif name == "join_paths":
            return self.joined(thing.arguments)
        elif name == "is_variable":
            return first in PREDEFINED or Unknown("truth")
        elif name in ("set_variable", "get_variable") and isinstance(first, str):
            if name == "get_variable":
                return self.names.get(first, UNKNOWN)
            self.set_names({first: thing.arguments[1] if len(thing.arguments) > 1 else UNKNOWN})
        return UNKNOWN

    def file(self, call: tree.Call | None, name: object) -> object:
        if not isinstance(name, str):
            return name if isinstance(name, Thing) else Thing("file")
        return Thing("file", call, os.path.normpath(os.path.join(self.folder, name.removeprefix(ROOT + "/"))
                                                    if not name.startswith(ROOT) else name.removeprefix(ROOT + "/")), [name])

    @staticmethod
    def joined(arguments: list) -> object:
        items = flat(Many([Item(it) for it in arguments]))
        result: object = items[0].value if items else UNKNOWN
        for it in items[1:]:
            result = binary("/", result, it.value)
        return result

    def option(self, name: object) -> object:
        if not isinstance(name, str):
            return UNKNOWN
        if name in self.options:
            return self.options[name]
        if name in CHOICES:
            return Either(CHOICES[name])
        return Unknown("truth") if name in ("debug", "werror") else Unknown("text" if name.endswith("dir") or name == "prefix" else "")

    def method(self, receiver: object, thing: Thing) -> object:
        name, kind = thing.function, kind_of(receiver)
        thing.kind = GIVES.get((kind, name), "")
        if (kind, name) in ANSWERS:
            return ANSWERS[kind, name]
        if name == "version_compare" and is_version_of_meson(thing.call) and len(thing.arguments) == 1:
            answer = version_compare(VERSION, thing.arguments[0]) if isinstance(thing.arguments[0], str) else None
            return Unknown("truth") if answer is None else answer
        if kind == "dependency" and name == "found" and isinstance(receiver, Thing) and receiver.name == "":
            return False
        if kind == "meson" and name == "get_compiler":
            return Thing("compiler", thing.call, self.path, thing.arguments)
        if kind == "meson" and name == "project_version" and isinstance(self.version, str):
            return self.version
        if kind == "meson" and name == "project_name" and isinstance(receiver, Thing) and receiver.name:
            return receiver.name
        if kind == "meson" and name in SOURCE_FOLDERS:
            return ROOT + (f"/{self.folder}" if self.folder and name == "current_source_dir" else "")
        if kind == "compiler" and name == "get_id":
            return COMPILERS
        if name == "partial_dependency":
            return receiver
        if name in ("library", "run", "generated") or thing.kind in ("library", "run", "generated"):
            return thing
        if kind == "module":
            return self.of_module(receiver, thing)
        if (kind, name) in GIVES:
            return self.unknown(GIVES[kind, name])
        return method_of_value(receiver, name, thing.arguments)

    def of_module(self, module: object, thing: Thing) -> object:
        name = module.name if isinstance(module, Thing) else None
        if name in ("python", "python3") and thing.function in ("find_installation", "find_python"):
            thing.kind = "program"
            return thing
        return UNKNOWN


# What evaluates a node, by its type.
EVALUATED: dict[type, Callable] = {
    tree.Text: Evaluation.literal_text, tree.Number: Evaluation.literal_value, tree.Truth: Evaluation.literal_value,
    tree.Name: Evaluation.variable, tree.Group: Evaluation.inner, tree.List: Evaluation.list_of, tree.Dictionary: Evaluation.dictionary,
    tree.Index: Evaluation.indexed_value,
    tree.Unary: Evaluation.unary, tree.Binary: Evaluation.binary, tree.Ternary: Evaluation.ternary, tree.Call: Evaluation.call}


def is_version_of_meson(call: tree.Call | None) -> bool:
    """Returns whether a method is called upon `meson.version()`."""
    receiver = tree.plain(call.receiver) if call and call.receiver else None
    return (isinstance(receiver, tree.Call) and receiver.name == "version" and isinstance(receiver.receiver, tree.Name)
            and receiver.receiver.text == "meson")
