"""Rewrites how tests are declared, what they run, where, and with which variables."""
from __future__ import annotations

from collections.abc import Iterator

from tools.porting import tree
from tools.porting.edits import Change, without_item
from tools.porting.lexer import escaped
from tools.porting.project import Project, Site
from tools.porting.rule import add_argument, added_to_list, assigned_name, is_whole_statement, renamed, replaced
from tools.porting.values import Many, Thing, flat, kind_of


def benchmark(project: Project) -> Iterator[Change]:
    for site in project.functions("benchmark"):
        suite = site.call.keywords.get("suite")
        if suite is None:
            edit = add_argument(site, "suite: 'benchmark'")
        else:
            edit = added_to_list(site, "suite", "'benchmark'")
        yield site.change("benchmark becomes a test of the suite 'benchmark'", renamed(site, "test"), edit)


def built_first(project: Project) -> Iterator[Change]:
    """What a test depends on is built by default, since that is built before tests."""
    for site in project.functions("test"):
        word = site.call.keywords.get("depends")
        for item in flat(project.known.value(word.value)) if word else []:
            thing = item.value
            owner = next((it for it in project.functions() if isinstance(thing, Thing) and it.call is thing.call), None)
            edit = edit_of_default(project, owner) if owner else None
            if owner and edit:
                yield owner.change(f"{owner.call.name}: what a test depends on is built by default", edit)
            if not owner:
                project.note(site, "depends", "test: what `depends:` names is not known here: it has to be built by default")


def edit_of_default(project: Project, site: Site) -> tuple[int, int, str] | None:
    """Returns the edit that has a target built by default, or None if it is."""
    words = site.call.keywords
    if "build_by_default" in words:
        value = words["build_by_default"].value
        return None if project.known.value(value) is not False else replaced(site, value, "true")
    is_left_out = site.call.name == "custom_target" and ("install" not in words or project.known.value(words["install"].value) is False)
    return add_argument(site, "build_by_default: true") if is_left_out else None


def environment(project: Project) -> Iterator[Change]:
    """An environment is a dictionary, and `set` a key of it."""
    for site in project.functions("environment"):
        name = assigned_name(site)
        if name is None:
            continue
        edits = environment_edits(project, name)
        arguments = site.call.arguments
        if edits is None or site.call.keywords or (arguments and kind_of(project.known.value(arguments[0])) != "dictionary"):
            continue
        start = site.file.source(arguments[0]) if arguments else "{}"
        change = site.change("environment becomes a dictionary", replaced(site, site.call, start))
        change.edits += edits
        yield change


def environment_edits(project: Project, name: str) -> list | None:
    """Returns the edits of all `NAME.set(..)`, or None if it is changed in another way."""
    edits = []
    for site in project.methods("set", "append", "prepend", "unset"):
        receiver = site.call.receiver
        if not isinstance(receiver, tree.Name) or receiver.text != name or kind_of(project.known.value(receiver)) != "environment":
            continue
        arguments = [site.file.source(it) for it in site.call.arguments]
        separator = site.call.keywords.get("separator")
        if site.call.name != "set" or not is_whole_statement(site) or len(arguments) < 2:
            return None
        value = arguments[1]
        if len(arguments) > 2 or separator:
            value = f"{site.file.source(separator.value) if separator else escaped(':')}.join([{', '.join(arguments[1:])}])"
        edits += site.change("", replaced(site, site.call, f"{name} += {{{arguments[0]}: {value}}}")).edits
    return edits


def test_programs(project: Project) -> Iterator[Change]:
    """`files('x')` as a test's program is a list of one; a script that can't be run itself is run by its interpreter."""
    for site in project.functions("test"):
        if len(site.call.arguments) < 2:
            continue
        node = tree.plain(site.call.arguments[1])
        items = flat(project.known.value(node))
        is_one = len(items) == 1 and items[0].is_sure and kind_of(items[0].value) in ("file", "target")
        if is_one and isinstance(project.known.value(node), Many):
            text = site.file.source(node.items[0]) if isinstance(node, tree.List) else site.file.source(node) + "[0]"
            yield site.change("test: takes one program", replaced(site, node, text))


def programs_as_arguments(project: Project) -> Iterator[Change]:
    """A program among a test's arguments is its path."""
    for site in project.functions("test"):
        word = site.call.keywords.get("args")
        if word is None:
            continue
        nodes = tree.plain(word.value).items if isinstance(tree.plain(word.value), tree.List) else [tree.plain(word.value)]
        for node in nodes:
            if kind_of(project.known.value(node)) == "program" and isinstance(node, (tree.Name, tree.Call, tree.Index)):
                yield site.change("test: a program among its arguments is its path",
                                  replaced(site, node, site.file.source(node) + ".full_path()"))


def workdir(project: Project) -> Iterator[Change]:
    """A test that runs in a folder is started there by `env -C`."""
    for site in project.functions("test"):
        word = site.call.keywords.get("workdir")
        if word is None or len(site.call.arguments) < 2:
            continue
        program = site.call.arguments[1]
        kind = kind_of(project.known.value(program))
        if kind not in ("target", "program", "file", "custom"):
            continue
        name = site.file.source(program) + (".full_path()" if kind == "program" else "")
        args = site.call.keywords.get("args")
        start, end = without_item(site.file.text, site.call, word)
        edits = [replaced(site, program, "find_program('env')"), (start, end, "")]
        first = f"'-C', {site.file.source(word.value)}, {name}"
        if args is None:
            edits[1] = (word.start, word.end, f"args: [{first}]")
        elif isinstance(args.value, tree.List):
            at = args.value.start + 1
            edits.append((at, at, first + (", " if args.value.items else "")))
        else:
            edits.append(replaced(site, args.value, f"[{first}, {site.file.source(args.value)}]"))
        yield site.change("test: `workdir:` becomes `env -C`", *edits)


def serial(project: Project) -> Iterator[Change]:
    """Puts a test that may not run in parallel with others into the suite `serial`, whose tests run alone."""
    for site in project.functions("test"):
        words = site.call.keywords
        if "is_parallel" not in words or project.known.value(words["is_parallel"].value) is not False:
            continue
        suite = tree.plain(words["suite"].value) if "suite" in words else None
        items = suite.items if isinstance(suite, tree.List) else [suite] if suite is not None else []
        if all(isinstance(it, tree.Text) and not it.has_names for it in items) and "serial" not in [it.value for it in items]:
            yield site.change("test: `is_parallel: false` is the suite 'serial'", added_to_list(site, "suite", "'serial'"))
