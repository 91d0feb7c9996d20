"""Makes the machine file that `meson configure` keeps in a build directory: BUILDDIR/meson-private/machine.ini.

The file is made again each time: the machine may have a package now that it had not. Answers that still hold come from the user's cache.
What was filled in by hand stays where the machine has no answer. Another compiler and other flags are taken only if a variable of the
environment names them now; nothing that the file names is run.
"""
from __future__ import annotations

import os
import shlex
import sys
import tempfile
import time

from tools.asking.compare import as_list, read_sections
from tools.asking.processes import MOST_TOLD, run
from tools.asking.text import text_of
from tools.commands.open_questions import open_questions
from tools.ending import CALLED, Stop
from tools.files import read_text
from tools.root import Outside, Root, write_file
from tools.setup_arguments import MACHINE_FILE, MESON

TYPE_CHECKING = False
if TYPE_CHECKING:
    from tools.asking.text import Sections

# What the environment says of a machine file, by section and key: the variables.
MADE_WITH = {("binaries", "c"): ("CC",), ("binaries", "ar"): ("AR",), ("built-in options", "c_args"): ("CFLAGS", "CPPFLAGS"),
             ("built-in options", "c_link_args"): ("CFLAGS", "LDFLAGS")}
FAULT = ": ERROR: E"
LONGEST = 86400  # seconds that a machine file may take: each of its commands has a time of its own


def encoded(text: str) -> bytes:
    """Returns the bytes of a text in which surrogates hold the bytes that are not UTF-8, as of paths."""
    return text.encode(errors="surrogateescape")


class SavedMachineFile:
    """Makes the file of one build directory: `program` asks about the sources with these settings."""

    def __init__(self, program: str, sources: str, folder: str, settings: list[str]) -> None:
        self.program, self.sources, self.folder, self.settings = program, sources, folder, settings
        self.path = os.path.join(folder, MACHINE_FILE)

    def refresh(self) -> bool:
        """Writes the file if it is absent or would change, and says what can't be answered. Returns whether there is a file."""
        text = self.ask()
        if not text:
            return False
        with tempfile.NamedTemporaryFile("wb", buffering=0) as made:
            made.write(encoded(text))
            before = os.path.join(self.sources, self.path)
            old = read_sections(before) if os.path.isfile(before) else {}
            self.check_same_tools(old, read_sections(made.name))
            text = self.filled_in(text, made.name, old)
        if not old or read_text(before) != text:
            self.put(text)
        return True

    def ask(self) -> str:
        """Queries the machine. Returns the text of the machine file, empty if the run ended in a fault first."""
        # If `configure` is interrupted, the command gets a signal before it is killed, since it ends its compilers and removes its folder.
        done = run([MESON, "machine-file", *self.settings, self.sources], seconds=LONGEST, most=MOST_TOLD, errors="surrogateescape",
                   variables={**os.environ, "HAWKOTTOMAN_CALLED": CALLED}, is_asked_first=True)
        if done.printed:
            sys.stderr.write(done.said)
        elif FAULT not in done.said:
            # Of a fault the run of `setup` says the same.
            said = done.said.strip().split("\n")[-1]
            raise Stop(said.partition(": ")[2] or "no machine file could be made")
        return done.printed

    def check_same_tools(self, old: Sections, new: Sections) -> None:
        """Stops if the compiler or the flags would become others, and no variable of the environment asks for that."""
        for (section, key), variables in MADE_WITH.items():
            then, now = (as_list(it.get(section, {}).get(key, [])) for it in (old, new))
            if isinstance(then, list) and then and then != now and not any(map(os.environ.get, variables)):
                words = f"{variables[0]}={shlex.quote(shlex.join(map(str, then)))}"
                raise Stop(f"{self.path} was made with {words}, which is not set now: set it, or remove that file")

    def filled_in(self, text: str, path: str, old: Sections) -> str:
        """Returns the text, with what the old file answers to questions that this machine leaves open."""
        os.chdir(self.sources)
        sections, is_changed = read_sections(path), False
        for name in open_questions(self.program, [*self.settings, "--native-file", path, "--", self.folder], text):
            section, key = (name, None) if name in old else ("binaries", name[8:]) if name.startswith("program ") else ("checks", name)
            answer = old.get(section, {}) if key is None else {it: old[section][it] for it in [key] if it in old.get(section, {})}
            if answer:
                sections.setdefault(section, {}).update(answer)
                is_changed = True
        if not is_changed:
            return text
        comments = [line for line in text.splitlines(keepends=True) if line.startswith("#")]
        checks = sections.pop("checks", {})
        return "".join(comments) + text_of({**sections, "checks": checks})

    def put(self, text: str) -> None:
        now = time.time_ns()
        try:
            Root(self.sources).put("/" + self.path, write_file(encoded(text), 0o644, (now, now)))
        except Outside as error:
            raise Stop(f"{self.path}: {error}") from error
        except OSError as error:
            raise Stop(f"{self.path}: {error.strerror}") from error
