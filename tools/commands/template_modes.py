"""Makes outputs of `configure_file` executable whose templates are: `tools/command template-modes BUILDDIR [PROGRAM]`.

The program gives each output the mode 644. It is run once more, over a folder of links to the sources in which every executable file has
another text: the outputs that have this text come from such a file. BUILDDIR/meson-private/executables keeps the names of both. Without
PROGRAM the outputs that are kept there are made executable. No link is followed, so that nothing outside of BUILDDIR changes.
"""
from __future__ import annotations

import os
import sys
import time

from tools.document import read_document
from tools.ending import Stop, run_script, say
from tools.explaining.run import files_below, setup_elsewhere
from tools.files import DEFINITION_FILES, read_text
from tools.root import Outside, Root, write_file
from tools.scratch import ScratchFolder
from tools.setup_arguments import Setup, is_pipe, machine_path, read_setup

PLACE, MOST_BYTES = "meson-private/executables", 1 << 24
TEMPLATE, OUTPUT = "<", ">"
TEXT = "a text in place of an executable template\n"
UNKNOWN = "it is not known which outputs come from executable templates, so none is made executable"


def templates_of(folder: str, sources: str) -> list[str]:
    """Returns the files that the last setup has looked at and that are executable."""
    places = ((it, os.path.join(sources, it)) for it in read_document(folder).made_from["present"])
    return [it for it, place in places if os.path.basename(it) not in DEFINITION_FILES and "\n" not in it
            and os.path.isfile(place) and os.access(place, os.X_OK)]


def outputs_of(program: str, setup: Setup, templates: list[str]) -> list[str]:
    """Returns the outputs that a run of the program makes of one of these templates, from the build directory."""
    machine = machine_path(setup.words)
    if machine is not None and is_pipe(os.path.join(setup.sources, machine)):
        raise Stop(f"{UNKNOWN}: the machine file was {machine}, which can't be read again")
    with ScratchFolder() as scratch:
        done, folder = setup_elsewhere(program, setup.sources, setup.words, dict.fromkeys(templates, TEXT), scratch)
        if not done.is_good:
            said = done.said.strip().split("\n")
            raise Stop(f"{UNKNOWN}: {said[-1]}")
        return [os.path.relpath(it, folder) for it in files_below(folder) if has_text(it)]


def has_text(path: str) -> bool:
    with open(path, "rb") as it:
        return it.read(len(TEXT) + 1) == TEXT.encode()


def kept_outputs(folder: str) -> list[str]:
    try:
        lines = read_text(os.path.join(folder, PLACE), MOST_BYTES).splitlines()
    except OSError:
        return []
    return [it.removeprefix(OUTPUT) for it in lines if it.startswith(OUTPUT)]


def keep(root: Root, templates: list[str], outputs: list[str]) -> None:
    lines = [*(TEMPLATE + it for it in templates), *(OUTPUT + it for it in outputs)]
    now = time.time_ns()
    root.put("/" + PLACE, write_file("".join(it + "\n" for it in lines).encode(), 0o644, (now, now)))


def set_modes(root: Root, before: list[str], outputs: list[str]) -> None:
    """Makes outputs executable, and those plain that were so before and no longer come from an executable template."""
    for path in dict.fromkeys(before + outputs):
        try:
            root.set_executable("/" + path, path in outputs)
        except (Outside, OSError) as error:
            say("meson setup", f"{path}: {getattr(error, 'strerror', None) or error}: its mode can't be set")


def main() -> int:
    folder, *programs = sys.argv[1:]
    root, before = Root(folder), kept_outputs(folder)
    outputs = before
    if programs:
        setup = read_setup(folder)
        templates = templates_of(folder, setup.sources)
        outputs = outputs_of(programs[0], setup, templates) if templates else []
        keep(root, templates, outputs)
    set_modes(root, before, outputs)
    return 0


def run() -> None:
    run_script("meson setup", main, failed=1)
