"""Answers questions for this machine, and makes the messages about these answers."""
from __future__ import annotations

import os
from collections.abc import Iterator

from tools import records as dataclasses
from tools.asking.allowed import DANGER, is_package
from tools.asking.bundles import Check, ask_together, bundles_of, is_linked
from tools.asking.cache import label_of
from tools.asking.checks import METHODS, NUMBERS, OF_WORDS, answer, arguments_of
from tools.asking.compiler import Compiler, Flags, identity
from tools.asking.dependencies import BY_COMPILING, NO_PACKAGES, THREADS, dependency, of_pkg_config
from tools.asking.early import VERSION
from tools.asking.evidence import gathered
from tools.asking.last_output import Origin
from tools.asking.links import flags_to_link, link_together
from tools.asking.packages import who_has
from tools.asking.processes import NoAnswer, end_all
from tools.asking.questions import Question
from tools.asking.text import Sections, can_hold, is_written, spelled
from tools.parallel import side_by_side
from tools.variables import found_program, pkg_config

OWN = ""  # what a program is that is a file of the project, which the run finds by itself
AS_UNSAID = ("false", "-1", spelled(OWN))  # answers without which a machine file means the same
USUAL_SIZES = {"char": 1, "short": 2, "int": 4, "float": 4}
DECLARED = ""  # the name of a dependency that the project declares


def each_once(questions: list[Question]) -> list[Question]:
    """Returns the first of the questions that have one answer."""
    found: dict[tuple[object, ...], Question] = {}
    for it in questions:
        found.setdefault(it.label, it)
    return list(found.values())


def is_mine(question: Question) -> bool:
    """Returns whether the machine answers a question, and not the project or its user."""
    return question.section in ("binaries", "checks") or question.dependency is not None


def labels_of_words(name: str) -> tuple[tuple[object, ...], tuple[object, ...]]:
    """Returns the labels of the questions for a library and for a dependency of this name."""
    return ("checks", f"find_library {name}"), (f"dependency {name}", None)


def guess_of(question: Question) -> object:
    """Returns the answer that most machines give to a question: the thing is there."""
    if question.method in NUMBERS:
        return USUAL_SIZES.get(arguments_of(question.key or "")[1][0], 8)
    words = ["-pthread"] if question.dependency == "threads" else []
    return True if question.method else {"version": "999", "compile_args": words, "link_args": words}


def is_no_file(method: str, arguments: list[str]) -> bool:
    """Returns whether a word is that of another compiler, as /utf-8: to this one it names a source that isn't there."""
    return method == "has_argument" and arguments[0].startswith("/") and not os.path.lexists(arguments[0])


class Machine:
    def __init__(self, compiler: Compiler, sources: str, in_bundles: bool = True) -> None:
        self.compiler, self.sources, self.in_bundles = compiler, os.path.abspath(sources), in_bundles
        args = {"c_args": compiler.c_args, "c_link_args": compiler.c_link_args}
        self.itself: Sections = {
            "binaries": {"c": compiler.c, "ar": compiler.ar}, "built-in options": {name: it for name, it in args.items() if it},
            "host_machine": compiler.host, "compiler": {"id": compiler.id, "version": compiler.version}}
        self.answers: dict[tuple[object, ...], object] = {}
        self.guesses: dict[tuple[object, ...], object] = {}  # of questions whose answers take longer than a run of the program

    def learn(self, questions: list[Question]) -> Sections:
        """Returns the sections that answer these questions. A key that occurs twice has the answer of the first place."""
        self.answer_new(questions)
        return self.sections(questions, self.answers)

    def guess(self, questions: list[Question], known: Sections) -> Sections | None:
        """Returns sections that answer these questions, with guesses where the machine would have to compile. None if each of them is
        answered or was guessed before, or if these are the known sections."""
        is_new = any(it.label not in self.guesses for it in self.fresh(questions))
        self.answer_at_once(questions)
        self.guesses.update({it.label: guess_of(it) for it in self.fresh(questions) if it.label not in self.guesses})
        guessed = self.sections(questions, {**self.guesses, **self.answers})
        return guessed if is_new and guessed != known else None

    def sections(self, questions: list[Question], answers: dict[tuple[object, ...], object]) -> Sections:
        """Returns the sections of a machine file that has these answers."""
        known = {title: dict(values) for title, values in self.itself.items()}
        for question in questions:
            came = answers.get(question.label)
            if came is None or came == OWN or isinstance(came, NoAnswer) or not can_hold(question.section, question.key):
                continue
            if question.key is None:
                known.setdefault(question.section, came)
            else:
                known.setdefault(question.section, {}).setdefault(question.key, came)
        checks = known.pop("checks", {})
        return {**known, "checks": checks}

    def origin(self, questions: list[Question], more: set[str]) -> Origin | None:
        """Returns what all answers come from, with more paths; None if one of them isn't kept."""
        compiler, mine = self.compiler, [it for it in each_once(questions) if is_mine(it)]
        kept = [it for it in mine if it.section != "binaries"]
        paths = [compiler.cache.paths_of(it) for it in (compiler.label_of_trial(), *map(self.cache_label, kept))]
        if compiler.sandbox.lack or any(it is None for it in paths) or any(isinstance(self.answers[it.label], NoAnswer) for it in mine):
            return None
        has_packages = any(it.dependency not in (None, *NO_PACKAGES) for it in kept)
        asked = [identity(tuple(it)) for it in ([compiler.own, pkg_config()] if has_packages else [compiler.own])]
        names = {it.key or "": it for it in mine if it.section == "binaries"}
        programs = {it: found_program(it) for it in (compiler.c[0], compiler.own[0], pkg_config()[0], *names) if "/" not in it}
        files = {self.own_path(it, name): os.path.isfile(self.own_path(it, name)) for name, it in names.items()}
        every = {path for it in paths for path in it or ()} | {it[1] for it in asked} | set(compiler.tools) | more
        stamps = compiler.cache.settled_stamps(every)
        return Origin([([*it[0], *VERSION], it[3]) for it in asked], programs, files, stamps) if stamps is not None else None

    def own_path(self, question: Question, name: str) -> str:
        """Returns where a program would be a file of the project."""
        return os.path.join(self.sources, os.path.dirname(question.file), name)

    def fresh(self, questions: list[Question]) -> list[Question]:
        """Returns the questions for the machine that have no answer yet."""
        return [it for it in each_once(questions) if is_mine(it) and it.label not in self.answers]

    def answer_at_once(self, questions: list[Question]) -> None:
        """Answers what takes no compiler: programs, packages, and what is kept. What gives words to checks comes first."""
        fresh = self.fresh(questions)
        for it in sorted(fresh, key=lambda it: it.texts("dependencies") != ()):
            kept, is_kept = self.compiler.cache.get(self.cache_label(it)) if self.is_complete(it) else (None, False)
            if is_kept:
                self.answers[it.label] = kept
        for it in fresh:
            if it.section == "binaries":
                self.answers[it.label] = self.answered(it)
        side_by_side(self.answer_package, [it for it in fresh if it.dependency and it.label not in self.answers], None, end_all)

    def answer_package(self, question: Question) -> None:
        """Answers a dependency, unless it is found by compiling alone."""
        name = question.dependency or ""
        try:
            is_found = name not in BY_COMPILING or name not in NO_PACKAGES and of_pkg_config(self.compiler, name) is not None
        except NoAnswer:
            is_found = True
        if is_found:
            self.answers[question.label] = self.answered(question)

    def forget(self) -> None:
        """Forgets what was found in another sandbox."""
        self.answers.clear()
        self.guesses.clear()
        self.compiler.forget()

    def is_complete(self, question: Question) -> bool:
        """Returns whether all that a check names is answered."""
        labels = [it for name in question.texts("dependencies") for it in labels_of_words(name)]
        return all(it in self.answers or it not in self.guesses for it in labels)

    def answer_new(self, questions: list[Question]) -> None:
        fresh = self.fresh(questions)
        asked = {it.label: self.check_of(it) for it in fresh if it.method}
        self.answer_together(fresh)
        # A dependency or a library may give other words than those that were guessed.
        again = [it for it in fresh if it.label in asked and self.check_of(it) != asked[it.label]]
        for it in again:
            del self.answers[it.label]
        self.answer_together(again)

    def answer_each(self, questions: list[Question]) -> None:
        self.answers.update(zip([it.label for it in questions], side_by_side(self.answered, questions, None, end_all)))

    def answer_together(self, questions: list[Question]) -> None:
        """Answers checks in bundles, and at the same time those that no bundle takes. Then answers the checks that no bundle has
        settled."""
        if not questions:
            return
        checks: dict[Check, list[Question]] = {}
        alone = []
        for question in questions:
            kept, is_kept = self.compiler.cache.get(self.cache_label(question))
            if is_kept:
                self.answers[question.label] = kept
            elif question.method and not self.refused(question):
                checks.setdefault(self.check_of(question), []).append(question)
            else:
                alone.append(question)
        bundles, rest = bundles_of(list(checks)) if self.in_bundles else ([], list(checks))
        alone += [it for check in rest for it in checks[check]]
        links = self.links_of(alone, bundles)
        settled: dict[Check, bool | int] = {}

        def work(item: list[Check] | list[Flags] | Question) -> None:
            if isinstance(item, Question):
                self.answers[item.label] = self.answered(item)
            elif item is links:
                link_together(self.compiler, item)
            else:
                settled.update(self.together(item))

        later = [it for it in alone if self.flags_to_link(it) in (links or [])]
        side_by_side(work, [*[links] * (links is not None), *bundles, *(it for it in alone if it not in later)], None, end_all)
        for check, answered in settled.items():
            self.answers.update({it.label: answered for it in checks[check]})
        self.answer_each([*later, *(it for bundle in bundles for check in bundle if check not in settled for it in checks[check])])

    def links_of(self, questions: list[Question], bundles: list[list[Check]]) -> list[Flags] | None:
        """Returns the arguments of the links that are tried together, if there are several, or if the link is to show that the compiler
        works, as the link of a bundle may."""
        links = list(filter(None, dict.fromkeys(map(self.flags_to_link, questions)))) if self.in_bundles else []
        plain = Flags(tuple(self.compiler.standard))
        is_shown = self.compiler.is_tried or any(it[0].flags == plain and is_linked(it[0]) for it in bundles)
        return links if len(links) > 1 or self.in_bundles and not is_shown and self.compiler.can_be_tried_later() else None

    def flags_to_link(self, question: Question) -> Flags | None:
        """Returns the arguments of a question that can be linked together with others."""
        if question.dependency is not None:
            return THREADS if question.dependency == "threads" else None
        return flags_to_link(question.key or "") if question.section == "checks" and not self.refused(question) else None

    def together(self, bundle: list[Check]) -> dict[Check, bool | int]:
        """Returns what a bundle settles: nothing if it can't run, since each check runs alone then."""
        try:
            with gathered() as evidence:
                settled = ask_together(self.compiler, bundle)
        except NoAnswer:
            return {}
        self.compiler.cache.put(evidence, {self.label_of_check(check): it for check, it in settled.items()})
        return settled

    def answered(self, question: Question) -> object:
        """Returns the answer, none if nothing is found, or what says that there is none."""
        try:
            if question.section == "binaries":
                return self.program(question, question.key or "")
            with gathered() as evidence:
                came = self.check(question) if question.section == "checks" else self.package(question.dependency or "")
        except NoAnswer as open_question:
            return open_question
        self.compiler.cache.put(evidence, {self.cache_label(question): came})
        return came

    def label_of_check(self, check: Check) -> str:
        return label_of(["check", check.key, check.prefix, dataclasses.astuple(check.flags), self.compiler.words()])

    def cache_label(self, question: Question) -> str:
        """Returns the name by which the answer of a check or a dependency is kept; empty if it isn't kept."""
        if question.method and not self.refused(question):
            return self.label_of_check(self.check_of(question))
        name = question.dependency
        teller = identity(tuple(pkg_config())) if name and name not in NO_PACKAGES else ()
        return label_of(["dependency", name, teller, self.compiler.words()]) if name and is_package(name) else ""

    def package(self, name: str) -> dict[str, object] | None:
        found = dependency(self.compiler, name)
        if found is None and not found_program(pkg_config()[0]):
            raise NoAnswer("there is no pkg-config (PKG_CONFIG names another)")
        return found

    def program(self, question: Question, name: str) -> object:
        if os.path.isfile(self.own_path(question, name)):
            return OWN
        path = found_program(name) if "/" not in name else None
        if path and not is_written(path):
            raise NoAnswer(f"no machine file can hold the path {path!r}")
        return self.itself["binaries"].get(name, path)

    def check(self, question: Question) -> bool | int:
        refused = self.refused(question)
        if refused:
            raise NoAnswer(refused)
        check = self.check_of(question)
        if is_no_file(question.method, arguments_of(check.key)[1]):
            return False
        return answer(self.compiler, check.key, check.prefix, check.flags)

    def check_of(self, question: Question) -> Check:
        """Returns a question in the form in which the compiler can answer it."""
        return Check(question.key or "", "\n".join(question.texts("prefix")), self.flags(question, question.method))

    def refused(self, question: Question) -> str:
        """Returns why a check does not run; empty if it runs."""
        key = question.key or ""
        method, arguments = arguments_of(key)
        if method not in METHODS:
            return "is a check that this command doesn't know"
        of_arguments = tuple("-l" + it if method == "find_library" else it for it in arguments)
        words = of_arguments if method in OF_WORDS else question.texts("args")
        refused = self.compiler.allowed.refused(words)
        return f"is not asked: {DANGER % refused}" if refused is not None and not is_no_file(method, arguments) else ""

    def flags(self, question: Question, method: str) -> Flags:
        """Returns the arguments of a check, as the real Meson has them: an alignment has fewer."""
        if method in OF_WORDS:
            return Flags()
        folders = ["-I" + os.path.join(self.sources, it) for it in question.texts("include_directories")]
        before = [] if method == "alignment" else [*folders, *self.compiler.standard]
        found = [self.words_of(it) for it in question.texts("dependencies")]
        compile_args, link_args = (tuple(word for it in found for word in it.get(name, [])) for name in ("compile_args", "link_args"))
        return Flags((*before, *question.texts("args")), compile_args, link_args)

    def words_of(self, name: str) -> dict[str, list[str]]:
        """Returns what a dependency gives to the compiler and the linker; nothing if it isn't found, or is one that the project
        declares."""
        is_library, found = (self.answers.get(it, self.guesses.get(it)) for it in labels_of_words(name))
        return found if isinstance(found, dict) else {"link_args": ["-l" + name]} if is_library is True else {}

    def lack(self, question: Question) -> str:
        """Says what a run that ended with a question lacks, and who has it; nothing if the answer is no reason to end."""
        came = self.answers.get(question.label, OWN)
        if came is None or came is False:
            return f"{question.name} is not found; {who_has(self.compiler, question.name)}"
        wanted = ", ".join(question.texts("version"))
        return f"{question.name} has version {came.get('version', 'unknown')}, and {wanted} is required" if isinstance(came, dict) else ""

    def remarks(self, questions: list[Question]) -> Iterator[tuple[str, str]]:
        """Returns what is to be said: comments of the machine file, each with what is reported to users at once, if anything."""
        first: dict[str, tuple[str, object]] = {}
        for question in each_once(questions):
            came = self.answers.get(question.label, OWN)
            place, decides = first.setdefault(question.name, (question.place, came))
            if DECLARED in question.texts("dependencies"):
                text = f"{question.place}: {question.name}: was asked without the arguments of a dependency that the project declares"
                yield text, text
            if isinstance(came, NoAnswer):
                yield self.left(question, came.why)
            elif came is None:
                yield f"not found: {question.name}", ""
            elif spelled(came) not in AS_UNSAID and not can_hold(question.section, question.key):
                yield self.left(question, "no machine file can hold this name")
            elif question.section == "checks" and came != decides and not isinstance(decides, NoAnswer):
                text = (f"{question.name}: {spelled(decides)} at {place}, and {spelled(came)} at {question.place}, where the check has "
                        "other arguments: the first decides")
                yield text, text

    def left(self, question: Question, why: str) -> tuple[str, str]:
        """Returns what is said of a question without an answer: by which line a user answers it."""
        key = question.key or "link_args"
        answers = {"checks": 8 if question.method in NUMBERS else True, "binaries": "/path"}
        line = f"{key} = {spelled(answers.get(question.section, [f'-l{question.dependency}']))}"
        way = f"; if this machine has it, add below [{question.section}]: {line}" if can_hold(question.section, question.key) else ""
        text = f"{question.place}: {question.name}: {why}"
        return f"TO FILL IN: {text}", text + way
