"""Remembers facts of a project in the cache, so that its next machine file takes fewer runs of the program.

The options in use are kept by all that they come from. The machine file that came last is where the next run begins: it counts only if
that run asks for exactly what is in it, and the machine answers so.
"""
from __future__ import annotations

import os

from tools.asking.cache import Cache, label_of
from tools.asking.stamps import Evidence, stamp_of
from tools.asking.questions import Project, first_statement
from tools.files import DEFINITION, OPTION_FILES, read_text

TYPE_CHECKING = False
if TYPE_CHECKING:
    from tools.asking.text import Sections

InUse = tuple[str, list[str], list[str]]


def text_at(path: str) -> str | None:
    try:
        return read_text(path, DEFINITION)
    except OSError:
        return None


def options_in_use(cache: Cache, project: Project, machine_file: str) -> InUse:
    """Returns c_std, c_args and c_link_args as the project has them in the end."""
    options = [text_at(os.path.join(project.sources, it)) for it in OPTION_FILES]
    program = os.path.abspath(project.program)
    label = label_of(["in use", program, stamp_of(program), first_statement(project.sources), options, project.words, machine_file])
    kept, is_kept = cache.get(label)
    if is_kept and is_in_use(kept):
        return kept[0], kept[1], kept[2]
    found = project.in_use(machine_file)
    cache.put(Evidence(), {label: list(found)})
    return found


def is_in_use(kept: object) -> bool:
    """Returns whether a kept value is a text and two lists of texts."""
    is_list = lambda it: isinstance(it, list) and all(isinstance(word, str) for word in it)
    return isinstance(kept, list) and len(kept) == 3 and isinstance(kept[0], str) and is_list(kept[1]) and is_list(kept[2])


class LastMachineFile:
    """Holds the sections of a project's last machine file, for these arguments and this compiler."""

    def __init__(self, cache: Cache, project: Project, compiler: str) -> None:
        self.cache = cache
        self.label = label_of(["machine file", os.path.abspath(project.sources), project.words, compiler])
        kept, is_kept = cache.get(self.label)
        is_good = is_kept and isinstance(kept, dict) and all(isinstance(it, dict) for it in kept.values())
        self.sections: Sections = kept if is_good else {}

    def keep(self, sections: Sections) -> None:
        if sections != self.sections:
            self.cache.put(Evidence(), {self.label: sections})
