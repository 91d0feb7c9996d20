"""Rewrites modules whose files have names that no library here has: a static library holds the objects, and a custom target links them."""
from __future__ import annotations

from collections.abc import Iterator

from tools.asking.allowed import is_package
from tools.porting import tree
from tools.porting.edits import Change
from tools.porting.lexer import escaped
from tools.porting.library_needs import WITHOUT_FILE, Needs, is_nothing
from tools.porting.objects import KEPT, library_lines
from tools.porting.project import Project, Site
from tools.porting.rule import TARGETS, before_statement, can_hoist, free_name, identifier, replaced, text_of
from tools.porting.values import Item, Many, Thing, flat, texts_of

OF_NAME = ("name_prefix", "name_suffix")
OF_LINK = {*OF_NAME, *KEPT, "link_args", "install", "install_dir", "build_by_default"}
PROJECT_WORDS = "its link command has neither the project's link arguments nor those of the machine file"
# Keywords of a dependency that change what is linked.
CHANGING = {"static", "modules", "components", "method"}
# How a command is run with what pkg-config says of packages: `$0` is pkg-config, and the rest is the command.
ASKING = ("libs=$(for it in ", '; do "$0" --libs $it || exit; done) && exec "$@" $libs')


class NotFollowed(Exception):
    """Says why the module can't be written as a link command."""


def named_modules(project: Project) -> Iterator[Change]:
    """A shared library with another prefix or ending than the usual one."""
    for site in project.functions("shared_library", "shared_module"):
        if any(it in site.call.keywords for it in OF_NAME):
            try:
                yield linked(project, site)
            except NotFollowed as why:
                project.doubt(site, f"{site.call.name}: `name_prefix:`, `name_suffix:`: {why}: a custom_target with the link command")


def linked(project: Project, site: Site) -> Change:
    words, first = site.call.keywords, site.call.arguments[0] if site.call.arguments else None
    strange = sorted(set(words) - OF_LINK)
    if strange or first is None or not can_hoist(site):
        raise NotFollowed(f"it has `{strange[0]}:`" if strange else "nothing can be put before it")
    if is_linked(project, site):
        raise NotFollowed("another target links it")
    prefix, suffix = (part_of_name(project, site, *it) for it in (("name_prefix", "lib"), ("name_suffix", "so")))
    name = free_name(project, identifier(text_of(project, first) or "module") + "_objects")
    known = text_of(project, first)
    shown = site.file.source(first)
    output = escaped(f"{prefix}{known}.{suffix}") if known is not None else f"{escaped(prefix)} + {shown} + {escaped('.' + suffix)}"
    linking = Linking(project, site)
    command = ["find_program('cc')", "'-shared'", "'-o'", "'@OUTPUT@'", "'-Wl,--whole-archive'", name, "'-Wl,--no-whole-archive'"]
    command += [site.file.source(words["link_args"].value)] if "link_args" in words else []
    command = linking.with_packages(command + linking.words_once())
    text = f"custom_target({shown}, output: {output}, command: [{', '.join(command)}], {', '.join(installed(project, site))})"
    change = site.change(f"{site.call.name} of another name becomes a custom_target with the link command",
                         before_statement(site, library_lines(site, name)), replaced(site, site.call, text))
    change.notes = [f"{site.call.name}: {PROJECT_WORDS}"]
    return change


def is_linked(project: Project, site: Site) -> bool:
    """Returns whether what a call gives is linked by another target."""
    users = [thing for it in project.functions(*TARGETS, "declare_dependency") for thing in project.known.things[it.call]]
    items = (item.value for it in users for key in ("link_with", "link_whole") for item in flat(it.keywords.get(key, Many([]))))
    return any(isinstance(it, Thing) and it.call is site.call for it in items)


def part_of_name(project: Project, site: Site, keyword: str, usual: str) -> str:
    """Returns the prefix or the ending of a file's name; an empty list is the usual one."""
    word = site.call.keywords.get(keyword)
    known = project.known.value(word.value) if word else usual
    if isinstance(known, Many) and known.is_exact and not known.items:
        return usual
    if not isinstance(known, str) or "/" in known or "@" in known:
        raise NotFollowed(f"`{keyword}:` is not one plain text")
    return known


class Linking(Needs):
    """Holds what a module links after its objects: expressions of the arguments of its command, and packages."""

    def __init__(self, project: Project, site: Site) -> None:
        super().__init__(project, self.names_at(project.known.things[site.call]))
        self.words: list[str] = []
        self.packages: list[str] = []  # names of those that are there
        self.perhaps: list[str] = []  # expressions of the names of others
        for keyword in ("link_with", "dependencies"):
            word = site.call.keywords.get(keyword)
            node = tree.plain(word.value) if word else None
            for it in node.items if isinstance(node, tree.List) else [node] if node is not None else []:
                items = flat(project.known.value(it))
                for item in items:
                    self.add(item, site.file.source(it) if len(items) == 1 else None)

    def add(self, item: Item, written: str | None = None) -> None:
        """Takes one item. `written` is the expression that gives it at the call; none for a part of something else."""
        value = item.value
        if is_nothing(value):
            return
        if isinstance(value, Thing) and value.kind in ("dependency", "library"):
            self.add_found(value, item.is_sure, written)
        elif isinstance(value, Thing) and value.kind == "target" and item.is_sure:
            self.add_library(value, written)
        elif isinstance(value, Thing) and value.kind == "internal" and item.is_sure:
            self.add_declared(value)
        else:
            raise NotFollowed("what it links is not known here")

    def add_library(self, library: Thing, written: str | None) -> None:
        """Adds a library of the project, and what it needs if it may be static."""
        named = written or self.expression_of(library)
        needs = [it for keyword in ("link_with", "link_whole", "dependencies") for it in flat(library.keywords.get(keyword, Many([])))]
        if named is None or library.function not in ("static_library", "shared_library", "library"):
            raise NotFollowed("a library that it links can't be named here")
        if library.function == "library" and needs:
            raise NotFollowed("a library that it links may be static, and needs others")
        self.words.append(named)
        for it in needs if library.function == "static_library" and id(library) not in self.seen else []:
            self.seen.add(id(library))
            self.add(it)

    def add_declared(self, dependency: Thing) -> None:
        """Returns what a dependency that the project declares is made of."""
        link_args = texts_of(dependency.keywords.get("link_args", Many([])))
        if link_args is None or "link_whole" in dependency.keywords:
            raise NotFollowed("a dependency that the project declares can't be followed")
        self.words += map(escaped, link_args)
        for keyword in ("link_with", "dependencies"):
            for it in flat(dependency.keywords.get(keyword, Many([]))):
                self.add(it)

    def add_found(self, thing: Thing, is_sure: bool, written: str | None) -> None:
        """Adds a library of the compiler, a package, or a dependency that has no .pc file."""
        name = thing.name
        if name is None or len(thing.arguments) != 1 or CHANGING & set(thing.keywords):
            raise NotFollowed("a dependency that it links can't be followed")
        is_there = thing.keywords.get("required", True) is True
        condition = f"{written}.found()" if written and is_sure and not is_there else self.condition_of(thing, is_sure)
        if condition is None:
            raise NotFollowed(f"whether {name} is there can't be asked here")
        chosen = lambda word, other: f"({condition} ? {escaped(word)} : {other})" if condition else escaped(word)
        if thing.kind == "library":
            self.words.append(chosen("-l" + name, "[]"))
        elif name in WITHOUT_FILE:
            self.words += [chosen(WITHOUT_FILE[name][1], "[]")] if WITHOUT_FILE[name][1] else []
        elif is_package(name):
            (self.perhaps if condition else self.packages).append(chosen(name, "''") if condition else name)
        else:
            raise NotFollowed(f"{name} is no name of a package")

    def words_once(self) -> list[str]:
        """Returns each word at its last place, so that a library comes after all that need it."""
        return list(dict.fromkeys(reversed(self.words)))[::-1]

    def with_packages(self, command: list[str]) -> list[str]:
        """Returns a command, with the words of the packages at its end where there are any."""
        begins, ends = ASKING
        perhaps = list(dict.fromkeys(self.perhaps))
        begins += " ".join(dict.fromkeys(self.packages))
        script = " + ' ' + ".join([escaped(begins), *perhaps]) + f" + {escaped(ends)}" if perhaps else escaped(begins + ends)
        return ["'sh'", "'-c'", script, "find_program('pkg-config')", *command] if self.packages or perhaps else command


def installed(project: Project, site: Site) -> list[str]:
    """Returns how the module is built and installed: as the library was."""
    words = site.call.keywords
    kept = [site.file.source(words[it]) for it in ("build_by_default", "install", "install_dir") if it in words]
    if "build_by_default" not in words:
        kept.insert(0, "build_by_default: true")
    if "install" in words and "install_dir" not in words and project.known.value(words["install"].value) is not False:
        kept.append("install_dir: get_option('libdir')")
    return kept
