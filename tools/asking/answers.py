"""Answers the questions of a project's run, or of a user, and prints what `meson machine-file` prints."""
from __future__ import annotations

import os

from tools.asking.cache import Cache
from tools.asking.checks import METHODS, OF_TWO, arguments_of
from tools.asking.command import BAD_WORDS, FAILED, SCRIPT
from tools.asking.compiler import Compiler
from tools.asking.last_output import LastOutput
from tools.asking.machine import Machine
from tools.asking.project_cache import LastMachineFile, options_in_use
from tools.asking.questions import Project, Question, Told, check_tokens
from tools.asking.text import Sections, text_of
from tools.ending import Stop, one_line, say, write
from tools.files import DEFINITION_FILES

TYPE_CHECKING = False
if TYPE_CHECKING:
    from collections.abc import Callable
    from typing import Any

ROUNDS = 1000  # the most runs of the program
MISSING = "ERROR: E17 "
FIRST = "# What this machine answers; written by `meson machine-file`.\n"


def report(text: str) -> None:
    say(SCRIPT, text)


def question_of(word: str, prefix: str) -> Question:
    """Returns the question that a user asks."""
    kind, _, name = word.partition(" ")
    sections = {"dependency": (word, None), "program": ("binaries", name), **dict.fromkeys(METHODS, ("checks", word))}
    arguments = arguments_of(word)[1]
    if kind not in sections or not all(arguments) or len(arguments) < 1 + (kind in OF_TWO):
        raise Stop(f"--ask: {word!r} is neither a check, as 'has_function strlcat', nor 'dependency NAME' or 'program NAME'", BAD_WORDS)
    return Question(*sections[kind], "--ask", 1, {"prefix": [prefix]})


def refuse_lack(lack: str) -> None:
    """Refuses a sandbox that can't bound the compiler."""
    raise Stop(f"--require-sandbox: {lack}")


def try_out(compiler: Compiler, says: Callable[[str], None]) -> None:
    """Stops where the compiler doesn't work, and reports what the sandbox can't bound."""
    compiler.try_out()
    report_lack(compiler, says)


def report_lack(compiler: Compiler, says: Callable[[str], None]) -> None:
    """Reports what the sandbox can't bound, if there is anything."""
    if compiler.sandbox.lack:
        says(compiler.sandbox.lack)


def settle(machine: Machine, says: Callable[[str], None]) -> bool:
    """Tries out the compiler if no answer has shown that it works, or if pkg-config may not work. Returns whether the answers count: not if
    another sandbox is needed."""
    compiler = machine.compiler
    if compiler.is_tried and not compiler.has_doubt:
        return True
    before = compiler.sandbox
    try_out(compiler, says)
    if compiler.sandbox == before:
        return True
    machine.forget()
    return False


def ask_one(machine: Machine, question: Question) -> int:
    """Prints what a machine file says to a question."""
    known = machine.learn([question]).get(question.section, {})
    values = {key: it for key, it in known.items() if question.key in (None, key)}
    write(text_of({question.section: values}).lstrip().encode())
    for it in head_and_reports(machine, [question])[1]:
        report(it)
    lack = machine.lack(question) if not values else ""
    if lack:
        report(lack)
    return 0 if values else FAILED


def foreseen(machine: Machine, project: Project, known: Sections, told: Told) -> list[Question]:
    """Returns the questions that a run would have if guesses were the answers to its new ones; if it has no new ones, its own. A run of the
    program takes less time than a check."""
    while (guessed := machine.guess(told.questions, known)) is not None:
        told, known = project.ask(text_of(guessed)), guessed
    return told.questions


def ask_all(machine: Machine, project: Project, says: Callable[[str], None]) -> tuple[Sections, Told]:
    """Runs the program and answers its questions until no new one comes. Returns what is known then, and the last run. It begins with
    the last answers, if they are kept. Each run asks at least one more question whose answer is the machine's, so the end is the same
    from any beginning. What was guessed is in no answer: a last run has those of the machine alone."""
    last = LastMachineFile(machine.compiler.cache, project, machine.compiler.words())
    known = last.sections or machine.learn([])
    for _ in range(ROUNDS):
        told = project.ask(text_of(known))
        questions = foreseen(machine, project, known, told)
        learned = machine.learn(questions)
        if not settle(machine, says):
            known = machine.learn([])
            continue
        if learned == known and questions is told.questions:
            last.keep(learned)
            return learned, told
        known = learned
    raise Stop(f"after {ROUNDS} runs there are still new questions")


def ask_project(machine: Machine, project: Project, says: Callable[[str], None]) -> tuple[Sections, Told]:
    """Runs the program and answers its questions, with the options that the project has in use. Returns what `ask_all` returns, and saves
    the answers."""
    compiler, nothing_known = machine.compiler, text_of(machine.learn([]))
    if not compiler.cache.kept.answers:
        project.begin(nothing_known)
    compiler.use(*options_in_use(compiler.cache, project, nothing_known), project.words)
    if not compiler.recall_trial() and not compiler.can_be_tried_later():
        compiler.try_out()
    report_lack(compiler, says)
    known, told = ask_all(machine, project, says)
    if told.fault:
        check_tokens(project.sources)
    compiler.cache.save()
    return known, told


def head_and_reports(machine: Machine, questions: list[Question]) -> tuple[str, list[str]]:
    """Returns the comments at the beginning of a machine file, and what is reported: what isn't answered, and what has two answers."""
    remarks = dict(machine.remarks(questions))
    return "".join([FIRST, *(f"# {one_line(it)}\n" for it in remarks)]), list(filter(None, remarks.values()))


def report_fault(machine: Machine, told: Told) -> None:
    """Says the fault of a run, and of what is missing there who has it."""
    report(told.fault)
    at_fault = {it.name: it for it in told.questions if told.fault.startswith(f"{it.place}: {MISSING}")}
    for lack in filter(None, map(machine.lack, at_fault.values())):
        report(lack)


def compare(machine: Machine, known: Sections, told: Told, path: str) -> int:
    """Prints what a file says that this machine answers otherwise."""
    from tools.asking.compare import NOT_FOUND, differences, gone
    absent = {it.removeprefix(NOT_FOUND.removeprefix("# ")) for it, _ in machine.remarks(told.questions)}
    lines = [*differences(path, known), *gone(path, absent)]
    write("".join(f"{one_line(it)}\n" for it in lines or [f"{path}: nothing would change"]).encode())
    if told.fault:
        report_fault(machine, told)
    return FAILED if lines or told.fault else 0


def keep(last: LastOutput, machine: Machine, project: Project, told: Told, head: str) -> None:
    """Keeps what was printed for a project, if all that it comes from is known."""
    read = [project.program, __file__, *(os.path.join(project.sources, it) for it in DEFINITION_FILES)]
    origin = machine.origin(told.questions, set(map(os.path.abspath, read)))
    if origin is not None:
        last.keep(told.printed, head, text_of(machine.learn(told.questions)), origin)


def answer(given: Any, last: LastOutput, scratch: str, cache: Cache) -> int:
    """Carries out the command with these options. Returns its status."""
    question = question_of(given.ask, given.prefix) if given.ask is not None else None
    machine = Machine(Compiler(scratch, given.source, cache), given.source, not given.alone)
    says = refuse_lack if given.require_sandbox else report
    if question is not None:
        try_out(machine.compiler, says)
        return ask_one(machine, question)
    if given.check is not None:
        from tools.asking.compare import read_sections
        read_sections(given.check)  # a file that is not there is reported at once
    project = Project(last.program, given.source, last.words, scratch)
    known, told = ask_project(machine, project, says)
    if given.check is not None:
        return compare(machine, known, told, given.check)
    head, reports = head_and_reports(machine, told.questions)
    for it in reports:
        report(it)
    write((head + text_of(known)).encode())
    if told.fault:
        report_fault(machine, told)
        return FAILED
    if not reports:
        keep(last, machine, project, told, head)
    return 0


def answer_silently(last: LastOutput, source: str, scratch: str, cache: Cache) -> tuple[bytes, bool]:
    """Returns the text of a machine file of sources, and whether a run that has it ends without a fault."""
    machine, project = Machine(Compiler(scratch, source, cache), source), Project(last.program, source, last.words, scratch)
    known, told = ask_project(machine, project, lambda _: None)
    head, reports = head_and_reports(machine, told.questions)
    if not told.fault and not reports:
        keep(last, machine, project, told, head)
    return (head + text_of(known)).encode(), not told.fault
