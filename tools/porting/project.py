"""Holds a project's definition files as they are and as they become."""
from __future__ import annotations

import functools
import os
from collections.abc import Iterable, Iterator

from tools import records as dataclasses
from tools.files import DEFINITION, DEFINITION_FILES, OPTION_FILES, read_text
from tools.porting import evaluate, tree
from tools.porting.edits import Change, Edit, Taken, changed, do_clash
from tools.porting.journal import place_of
from tools.porting.lexer import Lines, SyntaxFault
from tools.porting.parser import parse

TYPE_CHECKING = False
if TYPE_CHECKING:
    import subprocess

# What all passes over the files may cost: steps of evaluation, and characters that are read as statements.
BUDGET, STEP = 12_000_000, 6  # a step costs as much as six characters
MARK = "\ufeff"  # that a text of Unicode may begin with
OUTSIDE = "is outside of SOURCE-DIR, or a link leads there: it is not read"


class Unreadable(Exception):
    """Reports a definition file that can't be read; the text says which, where and why."""


@dataclasses.dataclass
class File:
    """Holds one definition file: `origins` has for each line the line of the file before the changes."""
    path: str
    before: str | None
    text: str
    origins: list[int]
    body: list[tree.Statement]

    @functools.cached_property
    def statements(self) -> list[tree.Statement]:
        """Returns all statements, those of bodies too."""
        return tree.statements_in(self.body)

    @functools.cached_property
    def calls(self) -> list[tuple[tree.Statement, tree.Call]]:
        """Returns all calls, each with the statement that it is in."""
        return [(statement, node) for statement in self.statements for expression in statement.expressions()
                for node in tree.inside(expression) if isinstance(node, tree.Call)]

    @functools.cached_property
    def names(self) -> set[str]:
        """Returns the names of all calls and of their keywords."""
        return {node.name for _, node in self.calls}.union(*(node.keywords for _, node in self.calls))

    @functools.cached_property
    def variables(self) -> set[str]:
        """Returns the names of variables that are used or assigned in it."""
        used = {name for statement in self.statements for it in statement.expressions() for name in tree.names_in(it)}
        return used | {it.name for it in self.statements if isinstance(it, tree.Assignment)}

    @functools.cached_property
    def lines(self) -> Lines:
        return Lines(self.text)

    def source(self, node: tree.Node) -> str:
        return self.text[node.start:node.end]

    def line(self, place: int) -> int:
        return self.lines.at(place)

    def line_before(self, place: int) -> int:
        return self.origins[self.line(place) - 1]


@dataclasses.dataclass(frozen=True)
class Site:
    """Holds a call that may be carried out, with the statement that it is in."""
    file: File
    statement: tree.Statement
    call: tree.Call

    @property
    def folder(self) -> str:
        return os.path.dirname(self.file.path)

    def change(self, what: str, *edits: tuple[int, int, str], files: dict[str, str] | None = None) -> Change:
        path = self.file.path
        return Change(path, self.call.start, what, [Edit(path, *edit) for edit in edits], files or {})


@dataclasses.dataclass(frozen=True)
class Done:
    path: str
    line: int
    rule: str
    what: str


class Project:
    """Holds the files of a project that `meson.build` leads to, and what is known of them."""

    def __init__(self, root: str) -> None:
        self.root = root
        self.files: dict[str, File] = {}
        self.new_files: dict[str, str] = {}
        self.done: list[Done] = []
        self.notes: list[Done] = []  # what to look at, by the lines of the file before
        self.refused: set[tuple[str, str, int, str]] = set()  # changes that would break a file
        self.doubts: dict[tree.Call, str] = {}  # why a rule left a call alone
        self.is_asked_to_run = False
        self.runs: dict[tuple[str, ...], subprocess.CompletedProcess[str] | None] = {}
        self.said: list[str] = []  # what was run and read, a line each
        self.spent = 0
        self.outside: dict[str, str] = {}  # definition files that are not read, and why
        self.marked: set[str] = set()  # files that begin with MARK, which is no part of their text here
        self.pc_files: dict[str, str] = {}  # by the name of a library: its .pc file, without its ending
        self.both: set[str] = set()  # the names of libraries that were written as a shared and a static one
        self.looks = self.doubted = 0  # how often the files were looked at, and a doubt was another one
        self.known_usual: evaluate.Evaluation | None = None
        self.entered: list[File] = []  # the definition files that are reached, in the order in which they are
        self.names: set[str] = set()  # of all calls and keywords of these files and of the option file
        self.known = self.look()

    def exists(self, path: str) -> bool:
        return path in self.files or path in self.new_files or os.path.exists(os.path.join(self.root, path))

    def read(self, path: str) -> File | None:
        """Returns a definition file of the project, or None if there is no such file."""
        if path not in self.files:
            full = os.path.join(self.root, path)
            if place_of(self.root, path) is None and os.path.lexists(full):
                self.outside[path] = OUTSIDE
                if path in DEFINITION_FILES:
                    raise Unreadable(f"{path}: {OUTSIDE}")
            if path in self.outside or not os.path.exists(full):
                return None
            try:
                text = read_text(full, DEFINITION)
            except OSError as error:
                raise Unreadable(f"{path}: {error.strerror}") from error
            if text.startswith(MARK):
                self.marked.add(path)
                text = text.removeprefix(MARK)
            self.files[path] = self.parsed(path, text, text, list(range(1, text.count("\n") + 2)))
        return self.files[path]

    @staticmethod
    def parsed(path: str, before: str | None, text: str, origins: list[int]) -> File:
        try:
            return File(path, before, text, origins, parse(text))
        except SyntaxFault as fault:
            raise Unreadable(f"{path}:{fault.line}: {fault.why}") from fault
        except RecursionError as error:
            raise Unreadable(f"{path}: expressions are nested too deeply") from error

    def option_file(self) -> File | None:
        return next(filter(None, map(self.read, OPTION_FILES)), None)

    def look(self) -> evaluate.Evaluation:
        """Reads the files that are reached, and works out what may happen in them."""
        if self.read("meson.build") is None:
            raise Unreadable(f"{os.path.join(self.root, 'meson.build')}: there is no such file")
        most = min(evaluate.MOST_STEPS, max(BUDGET - self.spent, 0) // STEP)
        self.known = evaluate.Evaluation(self.root, lambda path: self.body_of(path), self.options(), most)
        self.entered = [self.files[it] for it in self.known.entered]
        self.spent += STEP * self.known.steps + sum(len(it.text) for it in self.entered)
        options = self.option_file()
        self.names = set().union(*(it.names for it in self.entered), options.names if options else ())
        self.looks, self.known_usual = self.looks + 1, None
        return self.known

    def usual(self) -> evaluate.Evaluation:
        """Returns what happens where each option has its default."""
        if self.known_usual is None:
            most = min(evaluate.MOST_STEPS, max(BUDGET - self.spent, 0) // STEP)
            self.known_usual = evaluate.Evaluation(self.root, lambda path: self.body_of(path), self.options(), most, is_usual=True)
            self.spent += STEP * self.known_usual.steps
        return self.known_usual

    @property
    def state(self) -> tuple[int, ...]:
        """Returns numbers that are the same as before if a rule would find the same as before."""
        return self.looks, self.doubted, len(self.refused), len(self.pc_files)

    @property
    def has_spent_all(self) -> bool:
        """Returns whether no further pass over the files is made."""
        return self.spent >= BUDGET

    def body_of(self, path: str) -> list[tree.Statement] | None:
        file = self.read(path)
        return file.body if file else None

    def options(self) -> list[tree.Call]:
        file = self.option_file()
        return [] if file is None else [it.value for it in file.body if isinstance(it, tree.Expression)
                                        and isinstance(it.value, tree.Call) and it.value.name == "option"]

    def sites(self, *names: str, method: bool | None = None) -> Iterator[Site]:
        """Yields the calls of these functions or methods that may be carried out; of all where no name is given."""
        for file in self.entered:
            if names and file.names.isdisjoint(names):
                continue
            for statement, node in file.calls:
                if ((not names or node.name in names) and node in self.known.reached and method in (None, node.receiver is not None)):
                    yield Site(file, statement, node)

    def functions(self, *names: str) -> Iterator[Site]:
        return self.sites(*names, method=False)

    def methods(self, *names: str) -> Iterator[Site]:
        return self.sites(*names, method=True)

    def statements(self) -> Iterator[tuple[File, tree.Statement]]:
        """Yields the statements that may be carried out."""
        for file in self.entered:
            for statement in file.statements:
                if statement in self.known.reached:
                    yield file, statement

    def make(self, rule: str, changes: Iterable[Change]) -> bool:
        """Makes the changes that don't get in each other's way; whether there were any."""
        chosen: list[Change] = []
        taken = Taken()
        for change in changes:
            is_free = not taken.overlaps(change.edits) and not do_clash(change.edits)
            is_inside = all(place_of(self.root, it) for it in change.files)
            if is_free and is_inside and (rule, change.path, change.place, change.what) not in self.refused:
                chosen.append(change)
                taken.add(change.edits)
        made = self.made(chosen)
        if made is None and len(chosen) > 1:  # one of them makes no file of the language
            return any([self.make(rule, [it]) for it in chosen[:1]])
        if made is None:
            self.refused.update((rule, it.path, it.place, it.what) for it in chosen)
            self.notes += [self.told(it, rule, f"{it.what}: can't be done here") for it in chosen]
            return False
        for change in chosen:
            self.done.append(self.told(change, rule, change.what))
            self.notes += [self.told(change, rule, it) for it in change.notes]
            self.new_files.update(change.files)
            self.files.update((path, self.parsed(path, None, text, [1] * (text.count("\n") + 1)))
                              for path, text in change.files.items() if os.path.basename(path) == "meson.build")
        self.files.update(made)
        if chosen:
            self.look()
        return bool(chosen)

    def told(self, change: Change, rule: str, what: str) -> Done:
        return Done(change.path, self.files[change.path].line_before(change.place), rule, what)

    def made(self, changes: list[Change]) -> dict[str, File] | None:
        """Returns the files after some changes, or None if one is no file of the language any more."""
        by_path: dict[str, list[Edit]] = {}
        for change in changes:
            for edit in change.edits:
                by_path.setdefault(edit.path, []).append(edit)
        made: dict[str, File] = {}
        for path, edits in by_path.items():
            file = self.files.get(path) or File(path, None, "", [1], [])
            text, origins = changed(file.text, file.origins, edits)
            try:
                made[path] = self.parsed(path, file.before, text, origins)
            except Unreadable:
                return None
        return made

    def doubt(self, site: Site, why: str) -> None:
        self.doubted += self.doubts.get(site.call) != why
        self.doubts[site.call] = why

    def note(self, site: Site, rule: str, text: str) -> None:
        """Says what to look at where a rule changes nothing."""
        found = self.told(site.change(""), rule, text)
        if found not in self.notes:
            self.notes.append(found)

    def results(self) -> dict[str, tuple[str | None, str]]:
        """Returns the files that change: what each was, or None if it wasn't, and what it becomes."""
        written: dict[str, tuple[str | None, str]] = {path: (None, text) for path, text in self.new_files.items()}
        written.update((path, (self.marking(path, it.before), self.marking(path, it.text) or "")) for path, it in self.files.items()
                       if it.text != it.before)
        return dict(sorted(written.items()))

    def marking(self, path: str, text: str | None) -> str | None:
        """Returns a file's text with the mark that it begins with."""
        return MARK + text if text is not None and path in self.marked else text
