"""Explains a fault in one line, for those who did not ask for more: what it is about, and what to do."""
from __future__ import annotations

import json
import os

from tools.ending import CALLED, Stop, as_called
from tools.explaining.command import machine_of
from tools.explaining.fault_report import report_of
from tools.explaining.faults import TOLD, detail_of, text_of
from tools.explaining.run import WORDS, Asked, Fault, about, in_place
from tools.meson_arguments import OTHER_FOLDERS
from tools.porting.lexer import line_at

E13, E14, E15, E18, E23 = 13, 14, 15, 18, 23
# How options begin that the real Meson has, and that a packager may give to all projects.
OF_PACKAGERS = (*OTHER_FOLDERS, "wrap_mode", "b_", "unity", "strip", "cpp_", "pkg_config_path", "cmake_prefix_path", "errorlogs", "layout",
                "python.", "backend", "stdsplit")


def brief(program: str, words: list[str]) -> list[str]:
    """Returns the line that says what the fault of a run is about; none if nothing is to be said."""
    try:
        asked = Asked(program, os.getcwd(), words, machine_of(words))
        outcome = in_place(asked)
        return [it for it in [of_fault(asked, outcome.fault) if outcome.fault else ""] if it]
    except (Stop, OSError):
        return []


def of_fault(asked: Asked, fault: Fault) -> str:
    told = about(asked, fault) if fault.number in TOLD else ""
    special = instead_of(asked, fault, told)
    if special:
        return special
    try:
        lines = detail_of(asked, fault, report_of(told), text_of(asked, fault)).lines
    except (Stop, OSError, ValueError, RecursionError):
        lines = (told,) if told else ()
    return as_called("; ".join(it.rstrip(".") for it in lines[:2]))


def instead_of(asked: Asked, fault: Fault, told: str) -> str:
    """Returns what is said in place of the explanation, if there is better advice."""
    is_absent = fault.number == E14 and fault.name == "meson.build" and fault.line == 1 and not os.path.exists("meson.build")
    above = next((it for it in ("..", "../..", "../../..") if os.path.exists(os.path.join(it, "meson.build"))), None)
    if is_absent or fault.number == E13 and above is not None and fault.file == "meson.build":
        here = "this folder has no meson.build" if is_absent else "this meson.build is one of a folder of a project"
        return f"{here}; {f'did you mean to run from {above}?' if above else 'setup is run in the folder of the sources'}"
    if fault.number == E15 and fault.file == WORDS:
        name = (asked.settings()[fault.line - 1:fault.line] or [""])[0].partition("=")[0]
        if name.startswith(OF_PACKAGERS) and "there is none" in told:
            return f"there is no option '{name}' here: leave -D{name}= out of the package's arguments"
    if fault.number == E18:
        return before_error(fault)
    if fault.number == E23:
        return with_rule(asked, fault, told)
    return ""


def before_error(fault: Fault) -> str:
    """Finds a check without an answer, of the file of an `error()` and just before it."""
    asked = [json.loads(line) for line in fault.asked.split("\n") if line]
    near = [it for it in asked if it["file"] == fault.file and it["answer"] is None and not it["section"].endswith(" options")
            and fault.line - 10 <= it["line"] <= fault.line and it["key"] not in ("c", "ar")]
    if not near:
        return ""
    last = near[-1]
    name = last["section"] if last["key"] is None else last["key"]
    return f"the machine file has no answer to '{name}' of line {last['line']}, which counts as \"no\": `{CALLED} machine-file` answers it"


def with_rule(asked: Asked, fault: Fault, told: str) -> str:
    """Says what is left out, and which rule of `meson port` replaces it."""
    rule = rule_for(asked, fault)
    if rule is None:
        return ""
    what = told if "'" in told or " " in told else f"'{told}' is left out"
    also = "" if rule[1] else f" --also {rule[0]}"
    return f"{what}; `{CALLED} port{also} .` rewrites it (rule {rule[0]})"


def rule_for(asked: Asked, fault: Fault) -> tuple[str, bool] | None:
    """Returns the first rule that changes the line of the fault, and whether it is sure."""
    from tools.porting.project import Project, Unreadable
    from tools.porting.rule_table import RULES
    try:
        text, project = text_of(asked, fault) or "", Project(asked.root)
        for rule in RULES:
            if any(it.path == fault.file and line_at(text, it.place) == fault.line for it in rule.change(project)):
                return rule.name, rule.is_sure
    except (Unreadable, OSError, AttributeError, IndexError, KeyError, TypeError, ValueError, RecursionError):
        pass
    return None
