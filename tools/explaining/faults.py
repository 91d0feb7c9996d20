"""Explains a fault: shows its line, the line of the source with a mark below it, and what is refused there."""
from __future__ import annotations

import os

from tools.asking.processes import NoAnswer
from tools.ending import as_called, one_line
from tools.explaining import arguments, duplicates, grammar, limits, machine, names, operators, order, settings
from tools.explaining.context import Context, read, set_in
from tools.explaining.detail import Detail, detail, shown
from tools.explaining.fault_report import FaultReport, report_of
from tools.explaining.place import place_of
from tools.explaining.probe import Probe
from tools.explaining.run import MACHINE, WORDS, Asked, Fault, Room, about
from tools.files import DEFINITION, OPTION_FILES, read_bytes

ON_STATEMENTS = {
    5: names.undefined, 6: operators.refused, 7: operators.refused, 8: names.unknown, 9: arguments.refused, 10: operators.refused,
    11: duplicates.duplicate, 12: order.folder, 13: order.project_call, 14: names.missing_file, 15: settings.of_statement,
    17: names.not_found, 18: order.own_words, 20: order.frozen, 21: limits.not_held, 22: limits.limit, 23: names.left_out,
    24: order.too_late,
}
ON_TEXTS = {2: grammar.token_detail, 3: grammar.grammar_detail, 4: grammar.nesting_detail}
# The faults of which the program reports more than their line says.
TOLD = (9, 11, 15, 16, 21, 22, 23, 24)
# How long a file is that is looked at, and what is said of one that isn't.
MOST_CHARACTERS = 1 << 20
TOO_LONG = "a text or a definition file may have 16,777,216 bytes, a machine file 33,554,432, and a line of a template 65,536"
UNSEEN = {13: "a project begins with project(NAME, 'c')", 22: TOO_LONG}


def explained(asked: Asked, fault: Fault) -> list[str]:
    """Returns the fault line, the line of the source with its mark, and the detail."""
    text = text_of(asked, fault)
    try:
        found = detail_of(asked, fault, report_of(about(asked, fault) if fault.number in TOLD else ""), text)
    except NoAnswer:
        found = detail("it takes too long to ask the program for the values")
    source = shown(text, fault.line, found.at) if text is not None else []
    return [one_line(fault.shown()), *source, *(as_called(one_line(it)) for it in found.lines)]


def text_of(asked: Asked, fault: Fault) -> str | None:
    """Returns the text that has the fault's line."""
    if fault.file == WORDS:
        return "\n".join("-D" + it for it in asked.settings())
    try:
        if fault.file == MACHINE:
            data = asked.machine or b""
        else:
            data = read_bytes(os.path.join(asked.root, fault.file), DEFINITION)
    except OSError:
        return None
    return data.decode(errors="backslashreplace")


def detail_of(asked: Asked, fault: Fault, told: FaultReport, text: str | None) -> Detail:
    if fault.number == 1:
        return grammar.bytes_detail(bytes_of(asked, fault))
    if fault.file == WORDS:
        return settings.of_value(asked, told)
    if fault.file == MACHINE:
        return settings.of_machine(asked, fault, told) if fault.number in (15, 23) else of_machine(asked, fault, told)
    if text is None and fault.number == 22:
        return detail(TOO_LONG)
    if text is None:
        return detail(f"the folder has no {fault.file}: run `meson explain` in the source directory, as `meson setup`")
    if len(text) > MOST_CHARACTERS:
        return detail(UNSEEN.get(fault.number, f"the file has more than {MOST_CHARACTERS:,} characters, and isn't looked at"))
    if fault.number in ON_TEXTS:
        return ON_TEXTS[fault.number](text, fault.line)
    if fault.file in OPTION_FILES:
        return settings.of_option_file(asked, fault, told, text)
    if fault.number == 19:
        return limits.template(grammar.line_text(text, fault.line))
    return on_statement(asked, fault, told, text)


def of_machine(asked: Asked, fault: Fault, told: FaultReport) -> Detail:
    return machine.machine_detail(asked.machine or b"", fault.line, told) if fault.number == 16 else detail(TOO_LONG)


def bytes_of(asked: Asked, fault: Fault) -> bytes:
    if fault.file == MACHINE:
        return asked.machine or b""
    return read_bytes(os.path.join(asked.root, fault.file), DEFINITION)


def on_statement(asked: Asked, fault: Fault, told: FaultReport, text: str) -> Detail:
    """Explains a fault of a statement, whose values it finds by runs of the program."""
    place = place_of(fault.file, text, fault.line) if read(os.path.join(asked.root, fault.file)) is not None else None
    if place is None:
        return detail(UNSEEN.get(fault.number, "the refused part is in this line"))
    with Room(asked, fault.file, text) as room:
        return ON_STATEMENTS[fault.number](Context(asked, fault, told, place, Probe(room, place, fault.number, set_in(asked.root))))
