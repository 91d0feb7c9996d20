"""Replaces `pkg.generate` by one general template, and a `configure_file` with a dictionary for each call."""
from __future__ import annotations

import itertools
from collections.abc import Iterator

from tools import records as dataclasses
from tools.files import DEFINITION, read_text
from tools.porting import tree
from tools.porting.edits import Change
from tools.porting.lexer import escaped
from tools.porting.library_needs import Need, Needs, NotSure, with_blanks
from tools.porting.project import Project, Site
from tools.porting.rule import free_name, identifier, in_place_of_statement, is_whole_statement, path_from
from tools.porting.values import Table, Thing, flat, kind_of, texts_of

TEMPLATE_NAME = "pkgconfig.pc.in"
TEMPLATE = """prefix=@prefix@
includedir=@includedir@
libdir=@libdir@
@variables@

Name: @name@
Description: @description@
URL: @url@
Version: @version@
Requires: @requires@
Requires.private: @requires_private@
Conflicts: @conflicts@
Libs: @libs@
Libs.private: @libs_private@
Cflags: @cflags@
"""
FOLDERS = ("bindir", "datadir", "mandir", "sysconfdir")
STATIC = "get_option('default_library') == 'static'"


@dataclasses.dataclass(frozen=True)
class Part:
    """Holds a piece of a line: a known text, or an expression that is a text or, if it `is_list`, a list of texts."""
    text: str | None
    source: str = ""
    is_list: bool = False


def joined(separator: str, parts: list[Part]) -> str:
    """Returns the expression of all parts as one text."""
    parts = [it for it in parts if it.text != ""]
    if all(it.text is not None for it in parts):
        return escaped(separator.join(it.text or "" for it in parts))
    if len(parts) == 1 and parts[0].is_list:
        return f"{escaped(separator)}.join({parts[0].source.removeprefix('(').removesuffix(')')})"
    if len(parts) == 1:
        return parts[0].source
    pieces: list[str] = []
    for is_list, group in itertools.groupby(parts, lambda it: it.is_list):
        found = [it.source if it.text is None else escaped(it.text) for it in group]
        pieces += found if is_list else ["[" + ", ".join(found) + "]"]
    return f"{escaped(separator)}.join({' + '.join(pieces)})"


def name_of(requirement: str) -> str:
    """Returns the package that is required, without a version."""
    return requirement.split(" ", 1)[0]


def names_of(requirements: list[Part]) -> set[str]:
    return {name_of(it.text) for it in requirements if it.text is not None}


def merged(requirements: list[Part], others: list[Part]) -> list[Part]:
    """Returns each package once, where it was named first: with each version that it or another line wants, or its name alone."""
    versions: dict[str, set[str]] = {}
    for part in requirements + others:
        if part.text is not None:
            name, _, version = part.text.partition(" ")
            versions.setdefault(name, set()).update([version] if version else [])
    found: list[Part] = []
    for part in requirements:
        if part.text is None:
            found.append(part)
        elif name_of(part.text) in versions:
            name = name_of(part.text)
            found += [Part(f"{name} {it}") for it in sorted(versions.pop(name))] or [Part(name)]
    return found


class Writer(Needs):
    """Writes one call of `generate` as it is written here."""

    def __init__(self, project: Project, site: Site) -> None:
        self.site, self.call = site, site.call
        self.words = site.call.keywords
        super().__init__(project, self.names_at(project.known.things[site.call]))
        self.before: list[str] = []
        self.perhaps: dict[str, set[Need]] = {}  # by the name of a line: what is there on a condition
        self.is_both = False
        self.is_data = "dataonly" in self.words and self.value(self.words["dataonly"].value) is True

    def value(self, node: tree.Node) -> object:
        return self.project.known.value(node)

    def source(self, node: tree.Node) -> str:
        text = self.site.file.source(node)
        return f"({text})" if isinstance(node, (tree.Ternary, tree.Binary)) else text

    def word(self, name: str, default: str) -> str:
        """Returns the expression of a keyword that is a text."""
        if name not in self.words:
            return default
        node = self.words[name].value
        known = self.value(node)
        return escaped(known) if isinstance(known, str) and isinstance(tree.plain(node), tree.Text) else self.source(node)

    def main(self) -> Thing | None:
        if not self.call.arguments:
            return None
        value = self.value(self.call.arguments[0])
        items = flat(value)
        if len(items) != 1 or not isinstance(items[0].value, Thing) or items[0].value.kind != "target":
            raise NotSure("its library is not known")
        return items[0].value

    def parts(self, name: str) -> list[Part]:
        """Returns the texts of a keyword."""
        return self.parts_of(self.words[name].value) if name in self.words else []

    def parts_of(self, node: tree.Node) -> list[Part]:
        node = tree.plain(node)
        if isinstance(node, tree.List):
            return [part for it in node.items for part in self.parts_of(it)]
        value = self.value(node)
        texts = texts_of(value)
        if texts is not None:
            return [Part(it) for it in texts]
        if all(kind_of(it.value) == "text" for it in flat(value)) and kind_of(value) in ("text", "list"):
            return [Part(None, self.source(node), kind_of(value) == "list")]
        raise NotSure("it has a list whose items are not known")

    def requires(self, name: str) -> list[Part]:
        if name not in self.words:
            return []
        node = tree.plain(self.words[name].value)
        nodes = node.items if isinstance(node, tree.List) else [node]
        found: list[Part] = []
        for it in nodes:
            things = [item.value for item in flat(self.value(it))]
            if any(isinstance(thing, Thing) for thing in things):
                needs = [need for item in flat(self.value(it)) for need in self.needs_of_item(item.value, item.is_sure, True)]
                found += self.as_parts(name, [need for need in needs if need.where == "requires"])
            else:
                found += [Part(with_blanks(part.text)) if part.text is not None else part for part in self.parts_of(it)]
        return found

    def as_parts(self, name: str, needs: list[Need]) -> list[Part]:
        """Returns texts that are always there up to the first that may be missing; from that on one list, which statements before the
        call fill."""
        needs = list(dict.fromkeys(needs))
        always = {it.text for it in needs if not it.condition}
        needs = [it for it in needs if not (it.condition and it.text in always)]
        first = next((i for i, it in enumerate(needs) if it.condition), len(needs))
        parts = [Part(it.text) for it in needs[:first]]
        if needs[first:]:
            variable = self.free_variable(f"{identifier(self.base_text())}_{name}")
            self.before.append(f"{variable} = []")
            self.perhaps.setdefault(name, set()).update(needs[first:])
            for need in needs[first:]:
                added = f"{variable} += {escaped(need.text)}"
                self.before += [f"if {need.condition}", f"  {added}", "endif"] if need.condition else [added]
            parts.append(Part(None, variable, True))
        return parts

    def free_variable(self, wanted: str) -> str:
        name = free_name(self.project, wanted)
        while f"{name} = []" in self.before:
            name += "_2"
        return name

    def base_text(self) -> str:
        known = next((self.value(self.words[it].value) for it in ("filebase", "name") if it in self.words), None)
        main = self.main()
        return known if isinstance(known, str) else (main.name if main else None) or "library"

    def keep_names(self, libraries: list) -> None:
        """Notes that what links one of these libraries later names this .pc file."""
        for library in libraries:
            if isinstance(library, Thing) and library.kind == "target" and library.name:
                self.project.pc_files.setdefault(library.name, self.base_text())

    def dictionary(self) -> dict[str, str]:
        main = self.main()
        libraries = [main] if main else []
        public: list[Need] = []
        named: list[Need] = []
        private: list[Need] = []
        own: list[Part] = []
        if "libraries" in self.words:
            libraries += [it.value for it in flat(self.value(self.words["libraries"].value))]
        for library in libraries:
            is_target = isinstance(library, Thing) and library.kind == "target"
            if is_target and self.generated_name(library) is None:
                own += self.own_flags(library, own)
                self.seen.add(id(library))
                needs = [] if self.is_shared_alone(library) else self.needs_below(library)
                self.is_both = self.is_both or library.name in self.project.both
                (public if library.function == "static_library" else private).extend(needs)
            else:
                named += self.needs_of_item(library, True, True)
        self.keep_names(libraries)
        # What a static library needs comes before what the call names, as in the real Meson.
        return self.lines(main, own, public + named, private)

    def own_flags(self, library: Thing, before: list[Part]) -> list[Part]:
        if library.name is None:
            raise NotSure("a library's name is not known")
        folder = "-L${libdir}"
        if "install_dir" in library.keywords:
            known = library.keywords["install_dir"]
            if not isinstance(known, str):
                node = library.call.keywords["install_dir"].value if library.call else None
                text = self.project.files[library.path].source(node) if node else ""
                if not node or not all(self.names.get(it) is library.names.get(it) for it in tree.names_in(node)):
                    raise NotSure("the folder of its library is not known")
                return [Part(None, f"'-L' + ('${{prefix}}' / ({text}))"), Part(f"-l{library.name}")]
            folder = "-L${prefix}/" + known
        return [*([] if Part(folder) in before else [Part(folder)]), Part(f"-l{library.name}")]

    def lines(self, main: Thing | None, own: list[Part], public: list[Need], private: list[Need]) -> dict[str, str]:
        requires_private = self.requires("requires_private")
        requires = self.as_parts("requires", [it for it in public if it.where == "requires"]) + self.requires("requires")
        requires = merged(requires, requires_private)
        libs = own + self.as_parts("libs", [it for it in public if it.where == "libs"])
        said = {part.text for part in libs} | names_of(requires)
        perhaps = self.perhaps.get("requires", set()) | self.perhaps.get("libs", set())
        hidden = [it for it in private if name_of(it.text) not in said and it not in perhaps and it.where != "cflags"]
        requires_private = merged([it for it in requires_private if it.text is None or name_of(it.text) not in said], [])
        # A package that the call names too is wanted once, with the versions of both.
        below = merged(self.as_parts("requires_private", [it for it in hidden if it.where == "requires"]), requires_private)
        requires_private = [it for it in requires_private if it.text is None or name_of(it.text) not in names_of(below)]
        private_needs = self.private_needs()
        libs_private = self.as_parts("libs_private", private_needs)
        libs_static, libs_shared = self.libs_below([it for it in hidden if it.where == "libs"], private_needs)
        requires_private = self.below_shared(below) + requires_private
        libs_private += self.below_shared(libs_shared)
        cflags = [] if self.is_data else self.include_flags() + self.parts("extra_cflags")
        cflags += self.as_parts("cflags", [it for it in public if it.where == "cflags"])
        return {
            "prefix": "get_option('prefix')", "includedir": "'${prefix}' / get_option('includedir')",
            "libdir": "'${prefix}' / get_option('libdir')", "variables": self.variables(),
            "name": self.word("name", escaped(main.name or "") if main else "meson.project_name()"),
            "description": self.word("description", f"meson.project_name() + {escaped(': ' + (main.name or ''))}" if main else "''"),
            "url": self.word("url", "''"), "version": self.word("version", "meson.project_version()"),
            "requires": joined(", ", requires + self.below_static(below)),
            "requires_private": joined(", ", requires_private), "conflicts": joined(" ", self.parts("conflicts")),
            "libs": joined(" ", libs + self.below_static(libs_static)), "libs_private": joined(" ", libs_private),
            "cflags": joined(" ", cflags)}

    def below_static(self, parts: list[Part]) -> list[Part]:
        """Returns what a library needs below it, where it is static: that belongs to the public lines then."""
        return [Part(None, f"({STATIC} ? {list_of(parts)} : [])", True)] if parts and not self.is_both else []

    def below_shared(self, parts: list[Part]) -> list[Part]:
        """Returns what a library needs below it, where it is shared, as a library of both kinds always is."""
        return parts if self.is_both else [Part(None, f"({STATIC} ? [] : {list_of(parts)})", True)] if parts else []

    def libs_below(self, needs: list[Need], private: list[Need]) -> tuple[list[Part], list[Part]]:
        """Returns the libraries below a static library, and those below a shared one, which the private ones of the call don't name."""
        named = {(it.text, it.condition) for it in private}
        others = [it for it in needs if named.isdisjoint([(it.text, ""), (it.text, it.condition)])]
        found = self.as_parts("libs_private", others)
        return (found if len(others) == len(needs) else self.as_parts("libs", needs)), found

    def private_needs(self) -> list[Need]:
        """Returns what `libraries_private:` needs when it is linked."""
        items = flat(self.value(self.words["libraries_private"].value)) if "libraries_private" in self.words else []
        return [need for item in items for need in self.needs_of_item(item.value, item.is_sure) if need.where == "libs"]

    def include_flags(self) -> list[Part]:
        if "subdirs" not in self.words:
            return [Part("-I${includedir}")]
        found: list[Part] = []
        for part in self.parts("subdirs"):
            if part.text is not None:
                found.append(Part("-I${includedir}" + ("" if part.text == "." else "/" + part.text)))
            elif kind_of(self.value(self.words["subdirs"].value)) == "text":
                found.append(Part(None, f"'-I${{includedir}}' / {part.source}"))
            else:
                raise NotSure("its folders of headers are not known")
        return found

    def variables(self) -> str:
        parts: list[Part] = []
        for name in ("variables", "unescaped_variables"):
            if name not in self.words:
                continue
            node = tree.plain(self.words[name].value)
            if isinstance(self.value(node), Table):
                parts += self.table_parts(node)
            else:
                parts += self.parts_of(node)
        text = " ".join(part.text or part.source for part in parts)
        folders = [Part(None, f"'{it}=' + '${{prefix}}' / get_option('{it}')") for it in FOLDERS if f"${{{it}}}" in text]
        return joined("\n", folders + parts)

    def table_parts(self, node: tree.Node) -> list[Part]:
        if isinstance(node, tree.Dictionary):
            found = []
            for key, value in node.pairs:
                name, held = self.value(key), self.value(value)
                if not isinstance(name, str):
                    raise NotSure("a variable's name is not known")
                source = f"{escaped(name + '=')} + {self.source(value)}"
                found.append(Part(f"{name}={held}") if isinstance(held, str) else Part(None, source))
            return found
        table = self.value(node)
        if isinstance(table, Table) and table.is_whole and all(isinstance(it, str) for it in table.pairs.values()):
            return [Part(f"{key}={value}") for key, value in table.pairs.items()]
        raise NotSure("its variables are not known")


def list_of(parts: list[Part]) -> str:
    known = [escaped(it.text) for it in parts if it.text is not None]
    return " + ".join([*(["[" + ", ".join(known) + "]"] if known else []), *(it.source for it in parts if it.text is None)])


def folder_of(writer: Writer, main: Thing | None) -> str:
    if "install_dir" in writer.words:
        return writer.source(writer.words["install_dir"].value)
    if main is not None and main.call is not None and "install_dir" in main.keywords:
        return f"({writer.project.files[main.path].source(main.call.keywords['install_dir'].value)}) / 'pkgconfig'"
    return f"get_option('{'datadir' if writer.is_data else 'libdir'}') / 'pkgconfig'"


def left_out_folders(writer: Writer, dictionary: dict[str, str]) -> list[str]:
    """Returns the folders that the real Meson names in no such file: that of libraries if there are none, and of headers if there is
    only data."""
    has_libraries = dictionary["libs"] != "''" or dictionary["libs_private"] != "''"
    is_needed = {"includedir": not writer.is_data, "libdir": has_libraries}
    return [name for name, it in is_needed.items() if not it and f"${{{name}}}" not in dictionary["variables"]]


def template_of(project: Project, text: str) -> tuple[str, dict[str, str]]:
    """Returns the path of a template with this text, and the file where it is not there yet."""
    number, path = 1, TEMPLATE_NAME
    while project.exists(path):
        if project.new_files.get(path) == text or content(project, path) == text:
            return path, {}
        number += 1
        path = f"pkgconfig-{number}.pc.in"
    return path, {path: text}


def content(project: Project, path: str) -> str | None:
    try:
        return read_text(f"{project.root}/{path}", DEFINITION)
    except OSError:
        return None


def written(project: Project, site: Site) -> tuple[Change, bool]:
    """Returns the change of a call, and whether it takes names of variables."""
    writer = Writer(project, site)
    dictionary, text = writer.dictionary(), TEMPLATE
    for it in left_out_folders(writer, dictionary):
        text = text.replace(f"{it}=@{it}@\n", "")
        dictionary.pop(it)
    template, files = template_of(project, text)
    known = writer.value(writer.words["filebase"].value) if "filebase" in writer.words else None
    name = writer.word("filebase", dictionary["name"])
    output = escaped(known + ".pc") if isinstance(known, str) else f"{name[:-1]}.pc'" if name.endswith("'") else f"{name} + '.pc'"
    lines = [*writer.before, "configure_file(", f"  input: {escaped(path_from(site.folder, template))},", f"  output: {output},",
             "  configuration: {", *(f"    '{key}': {value}," for key, value in dictionary.items()), "  },",
             f"  install_dir: {folder_of(writer, writer.main())})"]
    change = site.change(f"pkg.generate becomes a configure_file of {template}",
                         in_place_of_statement(site.file, site.statement, lines), files=files)
    change.notes = list(dict.fromkeys(writer.notes))
    return change, bool(writer.before)


def generate(project: Project) -> Iterator[Change]:
    for site in project.methods("generate"):
        receiver = project.known.value(site.call.receiver) if site.call.receiver else None
        if not isinstance(receiver, Thing) or receiver.name != "pkgconfig" or not is_whole_statement(site):
            continue
        try:
            change, takes_names = written(project, site)
        except NotSure as why:
            project.doubt(site, f"pkg.generate: {why}")
            return  # what the next one may name is known once this one is written
        yield change
        if takes_names or change.files:
            return  # which names are free for the next one is known once this one is written
