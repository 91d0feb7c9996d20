"""Decides which arguments of a project, and of what pkg-config prints for it, the compiler gets: those in the tables of allowed.txt and few
others.

Each of these arguments only describes code, or names what the compiler and the linker read. None names a place to write to, a program or a
plugin, a folder in which the compiler looks for its own programs, or a file of words.
"""
import os
import re

from tools import records as dataclasses

TABLES = os.path.join(os.path.dirname(os.path.realpath(__file__)), "allowed.txt")
DANGER = "%r is not among the arguments that a compiler may get for a project"
# A package of pkg-config: it would read the file of any other name.
PACKAGE = re.compile(r"[A-Za-z0-9][A-Za-z0-9+._-]*")
VALUE = re.compile(r"[\w.,:+!-]*")  # has no slash, so it names nothing outside of the present folder
# A path as it may be in the makefile that lto-wrapper writes: between quotes, where `make` and the shell would still read `'` and `$`.
PATH, LINKED_PATH = r"[\w./+:=%~@, -]*", r"[\w./+:=%~ -]+"
LINKED = re.compile(r"[^-/,@][^/,@]*", re.DOTALL)  # is no option and no file
# Words of which their own form is enough. A macro has any text: it is handed on to the compiler alone.
FORMS = re.compile(r"-[DU]\w+(?:\(.*?\))?(?:=.*)?|-std=[a-z0-9+:]+|-W(?![lpa],)[\w+.,=:#-]*|-l:?[\w.+-]+|-z[a-z][\w=-]*|-u\w+"
                   r"|--param=[\w-]+=\d+|-f(?:debug|file|macro|profile|coverage)-prefix-map=" + PATH +
                   r"|-Wl,--?rpath[,=](?:[^-,@][^,@]*)?", re.DOTALL)
STARRED = frozenset("abcdefghijklmnopqrstuvwxyzABCDEFGHIJKLMNOPQRSTUVWXYZ0123456789.-")
OF_FOLDERS = ("-I", "-isystem", "-iquote", "-idirafter")
# Words that take the next one as their value: a macro, a keyword of the linker, a folder of headers.
TAKES_NEXT = {"-D": re.compile(r"\w.*", re.DOTALL), "-U": re.compile(r"\w+"), "-z": re.compile(r"[a-z][\w=-]*"), "-u": re.compile(r"\w+"),
              "--param": re.compile(r"[\w-]+=\d+"), "-Wl,-rpath": re.compile(r"-Wl,[^-,@][^,@]*"),
              "-Wl,-z": re.compile(r"-Wl,[a-z][\w=-]*"), **dict.fromkeys(OF_FOLDERS, re.compile(r"[^-@].*", re.DOTALL))}
# What the linker reads: folders and libraries, which may not be the project's, and lists of symbols, which may.
FOLDER = re.compile(f"-L(?P<plain>{PATH})|-Wl,(?:-L|--?rpath-link[,=]|--?library-path=)(?P<linked>{LINKED_PATH})")
LIBRARY = re.compile(f"/{PATH}" + r"\.(?:a|so(?:\.\d+)*)")
SYMBOLS = re.compile(f"-Wl,--?(?:version-script|dynamic-list)[,=]({LINKED_PATH})")


class Names:
    """Holds the names of a table. A `*` in a name matches letters, digits, dots and dashes."""

    def __init__(self, names: list[str]) -> None:
        self.plain = {it for it in names if "*" not in it}
        self.forms = [it.split("*") for it in names if "*" in it]

    def __contains__(self, word: str) -> bool:
        return word in self.plain or any(word.startswith(before) and is_between(word, before, after) for before, after in self.forms)


def is_between(word: str, before: str, after: str) -> bool:
    """Returns whether a `*` matches what is between the beginning of a word and this end."""
    rest = word[len(before):]
    return rest.endswith(after) and STARRED.issuperset(rest[:len(rest) - len(after)])


def read_tables() -> dict[str, Names]:
    """Returns the names of each table."""
    found: dict[str, list[str]] = {}
    title = ""
    with open(TABLES, encoding="utf-8") as it:
        for line in it:
            if line.startswith("["):
                title = line.strip()[1:-1]
            elif line.strip() and not line.startswith("#"):
                found.setdefault(title, []).extend(line.split())
    return {title: Names(names) for title, names in found.items()}


KNOWN = read_tables()


def is_package(name: str) -> bool:
    """Returns whether pkg-config looks up this name, and reads no file that it names."""
    return PACKAGE.fullmatch(name) is not None and not name.endswith(".pc")


@dataclasses.dataclass(frozen=True)
class Allowed:
    """Decides what is allowed for the project in these folders."""
    sources: tuple[str, ...]

    def refused(self, words: list[str] | tuple[str, ...]) -> str | None:
        """Returns the first word that a compiler is not given; none if all are."""
        waiting = iter(words)
        for word in waiting:
            form = TAKES_NEXT.get(word)
            following = next(waiting, None) if form else None
            if form and (following is None or not form.fullmatch(following)):
                return word
            if not form and not self.is_allowed(word):
                return word
        return None

    def is_allowed(self, word: str) -> bool:
        """Returns whether a word can be given alone."""
        if FORMS.fullmatch(word) or word in KNOWN["words"] or is_attached(word):
            return True
        if is_named(word, "-f", "f") or is_named(word, "-m", "m"):
            return True
        folder, symbols = FOLDER.fullmatch(word), SYMBOLS.fullmatch(word)
        if folder:
            return self.is_outside(folder["plain"] or folder["linked"])
        if symbols:
            return not self.is_outside(symbols[1]) and ".." not in symbols[1].split("/")
        return self.is_outside(word) if LIBRARY.fullmatch(word) else is_linker_word(word)

    def is_outside(self, path: str) -> bool:
        """Returns whether an absolute path is none of the project's files and folders."""
        if not os.path.isabs(path) or "\0" in path:
            return False
        roots = map(os.path.realpath, self.sources)
        return all(os.path.commonpath((os.path.realpath(path), root)) != root for root in roots)


def is_attached(word: str) -> bool:
    """Returns whether a word is a folder of headers with its option."""
    return any(word.startswith(it) and TAKES_NEXT[it].fullmatch(word, len(it)) for it in OF_FOLDERS)


def is_named(word: str, option: str, table: str) -> bool:
    """Returns whether a word is this option with a name of the table, perhaps denied, perhaps with a value."""
    if not word.startswith(option):
        return False
    name, _, value = word.removeprefix(option).partition("=")
    return VALUE.fullmatch(value) is not None and any(it in KNOWN[table] for it in (name, name.removeprefix("no-")))


def is_linker_word(word: str) -> bool:
    """Returns whether a word hands only known options on to the linker."""
    first, *parts = word.split(",")
    if first != "-Wl" or not parts:
        return False
    waiting = iter(parts)
    for part in waiting:
        name, _, value = re.sub("^--?", "", part).partition("=")
        if not part.startswith("-"):
            return False
        if "=" not in part and name in KNOWN["linker"] or re.fullmatch(r"-l:?[\w.+-]+|-z[a-z][\w=-]*", part):
            continue
        if name not in KNOWN["linker="] or not LINKED.fullmatch(value if "=" in part else next(waiting, "")):
            return False
    return True
