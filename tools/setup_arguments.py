"""Reads the arguments of the last `meson setup` of a folder, with which other commands configure it again.

BUILDDIR/meson-private/words has them, after the name of its form and the source directory, to which paths are relative. Each ends with a
zero byte and a line end. The command `meson` writes this file, and reads it if no argument has a line end. These scripts have the command
read it too, so that a folder is configured in one place.
"""
from __future__ import annotations

import os

from tools.document import is_name
from tools.ending import CALLED, Stop
from tools.files import read_text
from tools.ninja import call

TYPE_CHECKING = False
if TYPE_CHECKING:
    from collections.abc import Iterator

PLACE = "meson-private/words"
MACHINE_FILE = "meson-private/machine.ini"  # the one that `meson configure` makes
MOST_BYTES, MOST_WORDS = 1 << 23, 1 << 16  # of the arguments of a command, with the two lines before them
SHORT = 1 << 20  # bytes of a file that the command reads
UNREADABLE = 125  # the status of the command `meson` if it leaves it to these scripts to read the arguments
FORMS = ("words-1", "words-of-lines-1")
MESON = os.path.join(os.path.dirname(os.path.dirname(os.path.realpath(__file__))), "meson")


class Setup:
    """Holds the source directory, and the arguments of `meson setup`."""

    def __init__(self, sources: str, words: list[str]) -> None:
        self.sources, self.words = sources, words


def cut(words: list[str]) -> Iterator[tuple[str, str]]:
    """Yields the arguments of a `setup` as the program reads them: each option with its value, and each folder with an empty name."""
    waiting = iter(words)
    for word in waiting:
        name, sign, value = word.partition("=")
        if word == "--":
            yield from (("", it) for it in list(waiting)[:1])
        elif word.startswith("-h") or word == "--help":
            yield "--help", ""
        elif word in ("-D", "--native-file"):
            yield from ((word, it) for it in [next(waiting, None)] if it is not None)
        elif word.startswith("-D"):
            yield "-D", word[2:].removeprefix("=")
        elif name == "--native-file" and sign:
            yield name, value
        elif word == "-" or not word.startswith("-"):
            yield "", word


def build_folder_of(words: list[str]) -> str | None:
    """Returns BUILDDIR among the arguments of a `setup` that succeeded; none if they ask for help."""
    folder = None
    for name, value in cut(words):
        if name == "--help":
            return None
        folder = value if name == "" else folder
    return folder


def machine_path(words: list[str]) -> str | None:
    """Returns the path of the machine file among the arguments."""
    return next((value for name, value in reversed(list(cut(words))) if name == "--native-file"), None)


def settings_of(words: list[str]) -> list[str]:
    """Returns the value of each `-D` among the arguments, as `name=value`."""
    return [value for name, value in cut(words) if name == "-D"]


def is_pipe(path: str) -> bool:
    """Returns whether a machine file was a pipe or a device when it was read, so that it can't be read again."""
    return path.startswith(("/dev/", "/proc/")) or os.path.exists(path) and not os.path.isfile(path)


def has_words(folder: str) -> bool:
    return os.path.lexists(os.path.join(folder, PLACE))


def read_setup(folder: str) -> Setup:
    """Returns what was saved for a folder. Stops if the folder was moved."""
    path = os.path.join(folder, PLACE)
    try:
        fields = read_text(path, MOST_BYTES).split("\0\n")
    except FileNotFoundError as error:
        is_configured = os.path.exists(os.path.join(folder, "meson-info"))
        why = "has no arguments of a `meson setup`: run that again" if is_configured else "is no configured folder: `meson setup` makes one"
        raise Stop(f"{folder}: {why} ({path}: {error.strerror})") from error
    except OSError as error:
        raise Stop(f"{path}: {error.strerror}") from error
    has_form = 3 < len(fields) <= MOST_WORDS and fields[0] in FORMS and fields[-1] == "" and all(map(is_name, fields))
    # The command writes a whole path; any other came with the sources.
    if not has_form or not os.path.isabs(fields[1]):
        raise Stop(f"{path}: doesn't have the arguments of a `meson setup`: run that again")
    setup = Setup(fields[1], fields[2:-1])
    check_place(folder, setup)
    return setup


def check_place(folder: str, setup: Setup) -> None:
    """Stops if the arguments name another folder than the one they are in."""
    configured = os.path.join(setup.sources, build_folder_of(setup.words) or "")
    try:
        is_same = os.path.samefile(folder, configured)
    except (OSError, ValueError):
        is_same = False
    if not is_same:
        raise Stop(f"{folder}: was configured as {configured}: run `meson setup` again where it is now")


def configure_again(folder: str, otherwise: str, failed: int | None = None, shows_log: bool = True) -> None:
    """Runs `meson setup` with the saved arguments. Stops if that fails; `otherwise` says what is not done then."""
    setup = read_setup(folder)
    machine = machine_path(setup.words)
    if machine is not None and is_pipe(os.path.join(setup.sources, machine)):
        raise Stop(f"{folder}: its machine file was {machine}, which can't be read again: run `meson setup` again, with a file", failed)
    variables, status = {**os.environ, "HAWKOTTOMAN_CALLED": CALLED}, UNREADABLE
    if "\n" not in "".join([setup.sources, *setup.words]):
        is_short = os.path.getsize(os.path.join(folder, PLACE)) <= SHORT
        status = call([MESON, ":again", folder, *["short"] * is_short], variables, shows_log)
    if status == UNREADABLE:
        status = call([MESON, "setup", *setup.words], variables, shows_log, cwd=setup.sources)
    if status != 0:
        raise Stop(f"`meson setup` ended with status {status}, so {otherwise}", failed or (status if status > 0 else 1))


def check_is_new(folder: str, files: dict[str, list[str]], option: str = "--no-rebuild") -> None:
    """Stops if what a folder was configured from has changed since, and an option forbids to configure it again.

    These are the files of the document, and the machine file.
    """
    setup, path = read_setup(folder), os.path.join(folder, PLACE)
    kept = os.stat(path).st_mtime_ns
    machine = machine_path(setup.words)
    changed = [it for it in [*files["present"], *filter(None, [machine])] if is_newer(os.path.join(setup.sources, it), kept)]
    changed += [it for it in files["absent"] if os.path.lexists(os.path.join(setup.sources, it))]
    if changed:
        raise Stop(f"{changed[0]} has changed since {folder} was configured; without {option} that is done first")


def is_newer(path: str, than: int) -> bool:
    """Returns whether a file has changed since this time, or is gone."""
    try:
        return os.stat(path).st_mtime_ns > than
    except OSError:
        return True
