"""Runs the command `meson port`: its arguments, its order, what it prints and writes."""
from __future__ import annotations

import contextlib
import os
import re
import sys

from tools.asking.cache import cache_path
from tools.asking.early import begin_compiler, end_early
from tools.command_line import Parser
from tools.ending import Stop, one_line, show
from tools.porting.edits import Change
from tools.porting.journal import Journal, locked
from tools.porting.project import Project, Unreadable
from tools.porting.rule import Rule
from tools.porting.rule_table import BY_NAME, RULES
from tools.porting.unsupported import Unsupported, unsupported_in
from tools.scratch import ScratchFolder

TYPE_CHECKING = False
if TYPE_CHECKING:
    from tools.command_line import Given

SCRIPT, BAD_WORDS = "meson port", 2
# How often a rule is tried again over what it has changed.
MOST_PASSES = 200


def arguments(doc: str | None, given: list[str] | None) -> Given:
    parser = Parser(SCRIPT, doc or "", BAD_WORDS)
    parser.add_argument("source", metavar="SOURCE-DIR", nargs="?", help="the folder of the project's meson.build")
    parser.add_argument("--dry-run", action="store_true",
                        help="print the changes as a patch, write nothing, and print the rest on standard error")
    parser.add_argument("--run", action="store_true",
                        help="run the commands that the project runs while configuring, and write down what they print")
    parser.add_argument("--only", metavar="RULE", action="append", default=[], help="apply only this rule; may be given several times")
    parser.add_argument("--also", metavar="RULE", action="append", default=[],
                        help="also apply this rule, which runs only on request; `--also help` lists such rules")
    parser.add_argument("--all", action="store_true", help="apply every rule after which the same files are built and installed")
    parser.add_argument("--list-rules", action="store_true", help="list the rules, and change nothing")
    parser.add_argument("--program", metavar="PATH", help="the program that tries the result (default: the one of this command)")
    parser.add_argument("--no-trial", action="store_true", help="try the result neither with the program nor with the real Meson")
    parser.add_argument("--no-real", action="store_true", help="don't try the result with the real Meson")
    parser.add_argument("--no-build", action="store_true", help="don't build the result")
    parser.add_argument("-D", metavar="NAME=VALUE", action="append", default=[], dest="options", help="an option for the runs at the end")
    words = parser.parse_args(given)
    for name in words.only + words.also:
        if name == "help" and name in words.also:
            words.list_rules = True
        elif name not in BY_NAME:
            parser.error(f"there is no rule {name!r}; --list-rules lists them")
    if words.source is None and not words.list_rules:
        parser.error("a SOURCE-DIR is required")
    if words.program is not None and not os.access(words.program, os.X_OK):
        parser.error(f"{words.program}: is no program that can be run")
    return words


def report(text: str) -> None:
    """Shows a line, in which a name of the project can't be more than a name."""
    show(one_line(text))


def list_rules(rules: list[Rule]) -> None:
    width = max(len(it.name) for it in rules)
    for rule in rules:
        report(f"{rule.name:{width}}  {'' if rule.is_sure else 'on request: '}{rule.does}")


def chosen(words: Given) -> list[Rule]:
    if words.only:
        return [it for it in RULES if it.name in words.only]
    return [it for it in RULES if it.is_sure or it.name in words.also or words.all and it.keeps]


def carry_out(project: Project, rules: list[Rule]) -> None:
    """Applies each rule until it changes nothing, and all rules again if one may have made work for another."""
    tried: dict[str, tuple[int, ...]] = {}  # the state of the project in which a rule changed nothing
    for _ in range(MOST_PASSES):
        before = len(project.done)
        for rule in rules:
            for _ in range(MOST_PASSES):
                if project.has_spent_all:
                    project.said.append("the definitions take too many steps to follow: not all changes were tried; "
                                        "run this again to go on")
                    return
                state = project.state
                if tried.get(rule.name) == state or not rule.may_change(project):
                    break
                if not project.make(rule.name, found_by(rule, project)):
                    tried[rule.name] = state
                    break
        if len(project.done) == before:
            return


def found_by(rule: Rule, project: Project) -> list[Change]:
    """Returns the changes of a rule. A rule that comes to something unforeseen changes nothing, and the command reports it."""
    try:
        return list(rule.change(project))
    except (AttributeError, IndexError, KeyError, TypeError, ValueError) as error:
        if os.environ.get("PORT_DEBUG"):
            raise
        note = f"the rule {rule.name} was left out: {type(error).__name__}: {error}"
        if note not in project.said:
            project.said.append(note)
        return []


def show_patch(project: Project) -> None:
    """Prints the changes as a patch. A dry run writes nothing else to the standard output."""
    import difflib
    for path, (before, after) in project.results().items():
        old, new = (re.findall(r"[^\n]*\n|[^\n]+", text) for text in (before or "", after))
        for line in difflib.unified_diff(old, new, f"a/{path}" if before is not None else "/dev/null", f"b/{path}"):
            show(line_of_diff(line.removesuffix("\n")) + ("" if line.endswith("\n") else "\n\\ No newline at end of file"))


def show_changes(project: Project) -> None:
    results = project.results()
    for it in sorted(project.done, key=lambda it: (it.path, it.line)):
        report(f"{it.path}:{it.line}: {it.rule}: {it.what}")
    for path, (before, _) in results.items():
        if before is None:
            report(f"{path}: new")


def line_of_diff(line: str) -> str:
    """Returns a line of a diff as a terminal shows it: what would steer that is written as an escape."""
    body = line.removesuffix("\r")
    return "\t".join(map(one_line, body.split("\t"))) + line[len(body):]


def show_left(project: Project) -> list[Unsupported]:
    left = unsupported_in(project)
    for path, line, text in sorted({(it.path, it.line, it.what) for it in project.notes}):
        report(f"note: {path}:{line}: {text}")
    for path, why in sorted(project.outside.items()):
        report(f"left: {path}: {why}")
    for it in sorted(left, key=lambda it: (it.path, it.line)):
        report(f"left: {it.path}:{it.line}: {it.text}{'' if it.is_sure else ' (in a branch that an option or the machine decides)'}")
    return left


def write(project: Project) -> None:
    """Puts all changed files in their places, or none."""
    encoded = lambda text: None if text is None else text.encode()
    texts = {path: (encoded(before), after.encode()) for path, (before, after) in project.results().items()}
    if texts:
        Journal(project.root).put(texts)


def try_out(project: Project, words: Given) -> int:
    """Tries the result with the program and with the real Meson. Returns the status."""
    if words.no_trial:
        report("the program was not asked")
        return 0
    return max(ask_program(project, words), ask_real(project, words))


def ask_program(project: Project, words: Given) -> int:
    """Tries the result with the program, and builds it. Returns the status."""
    from tools.porting.trial import first_fault, program_of
    program = program_of(words.program)
    if program is None:
        report("the program was not asked: it isn't built (--program names another)")
        return 0
    unwritten = {path: text for path, (_, text) in project.results().items()} if words.dry_run else {}
    options = [f"-D{it}" for it in words.options]
    fault, machine = first_fault(program, project.root, unwritten, options, lambda text: report(f"note: {text}"))
    report("meson setup takes the result" if fault is None else f"meson setup stops at: {fault}")
    if fault is not None or words.no_build:
        return 0 if fault is None else 1
    from tools.porting.build import first_failure
    text, is_good = first_failure(program, project.root, unwritten, options, machine, words.run)
    report(text)
    return 0 if is_good else 1


def ask_real(project: Project, words: Given) -> int:
    """Tries the result with the real Meson, if that took the sources before. Returns the status."""
    results = project.results()
    if not results or words.no_real:
        return 0
    from tools.porting.real_meson import real_meson, refusal
    meson = real_meson()
    if meson is None:
        return 0
    if not words.run:
        report("the real Meson was not asked: it runs commands of the project: --run allows that")
        return 0
    options = [f"-D{it}" for it in words.options]
    why = refusal(meson, project.root, {path: text for path, (_, text) in results.items()}, options)
    if why is None:
        report("the real Meson takes the result")
        return 0
    old = refusal(meson, project.root, {path: text or "" for path, (text, _) in results.items()}, options)
    report(f"the real Meson refuses the result: {why}" if old is None else f"the real Meson refuses the sources as they were: {old}")
    return 1 if old is None else 0


def main(doc: str | None, given: list[str] | None = None) -> int:
    """Runs the command with these arguments, else with those of the program. Returns its status."""
    words = arguments(doc, given)
    if words.list_rules:
        list_rules([it for it in RULES if not it.is_sure or "help" not in words.also])
        return 0
    with locked(words.source), ScratchFolder() as scratch:
        try:
            if not words.no_trial:
                # The trial asks the compiler. It says which one it is while the rules are applied.
                begin_compiler(scratch, cache_path())
            return carried_out(words)
        finally:
            end_early()


def carried_out(words: Given) -> int:
    # Messages about a patch are no part of it.
    said_to = sys.stderr if words.dry_run else sys.stdout
    recovered = Journal(words.source).recover()
    if recovered:
        with contextlib.redirect_stdout(said_to):
            report(recovered)
    try:
        project = Project(words.source)
        project.is_asked_to_run = words.run
        carry_out(project, chosen(words))
    except Unreadable as why:
        raise Stop(str(why)) from why
    if words.dry_run:
        show_patch(project)
    with contextlib.redirect_stdout(said_to):
        return report_and_write(project, words)


def report_and_write(project: Project, words: Given) -> int:
    """Says what was changed and what is left, writes it, and asks the program about the result; the status."""
    for line in project.said:
        report(line)
    show_changes(project)
    if not project.done:
        report("nothing to change")
    show_left(project)
    if not words.dry_run:
        write(project)
    return try_out(project, words)
