"""Has Ninja build outputs of a configured folder.

A build file that includes the folder's own names the outputs. On the command line `-n` would be an option, and `x^` another target than the
output of that name.
"""
from __future__ import annotations

import os

from tools.document import refuse_own_names
from tools.early_signals import signal
from tools.ending import Stop
from tools.files import read_text

# No output of `meson setup` has this name: it refuses a `#`.
WANTED = "wanted#"
# The characters that a shell takes as part of one word.
OF_A_WORD = "abcdefghijklmnopqrstuvwxyzABCDEFGHIJKLMNOPQRSTUVWXYZ0123456789_./+-"
ESCAPES = str.maketrans({it: "$" + it for it in "$ :"})


def is_on_path(name: str) -> bool:
    folders = os.environ.get("PATH", os.defpath).split(os.pathsep)
    return any(os.access(path, os.X_OK) and os.path.isfile(path) for path in (os.path.join(it or ".", name) for it in folders))


def find_ninja() -> list[str]:
    """Returns the words of the command; the variable NINJA names another."""
    named = os.environ.get("NINJA", "")
    if named.strip(OF_A_WORD):
        from tools.variables import words_of
        return words_of("NINJA")
    found = named or next(filter(is_on_path, ("ninja", "ninja-build", "samu")), None)
    if not found:
        raise Stop("there is no ninja on PATH (Debian's package ninja-build has it)")
    return [found]


def escaped(path: str) -> str:
    """Returns a path as Ninja's files have it."""
    if any(it < " " or it in "\x7f|" for it in path):
        raise Stop(f"{path}: no file of Ninja's can have this name")
    return path.translate(ESCAPES)


def plain(path: str) -> str:
    """Returns a path of Ninja's files as it is."""
    if "$" not in path:
        return path
    import re
    return re.sub(r"\$(.)", r"\1", path)


def paths_in(text: str) -> list[str]:
    """Returns the paths that are in a line of Ninja's files."""
    if "$" not in text:
        return [it for it in text.split(" ") if it]
    import re
    return list(map(plain, re.findall(r"(?:[^$ ]|\$.)+", text)))


def call(words: list[str], env: dict[str, str] | None = None, shows_output: bool = True, cwd: str | None = None) -> int:
    """Returns the status of a command. Ends the command first if this script is to end."""
    before = [] if shows_output else [(os.POSIX_SPAWN_OPEN, 1, os.devnull, os.O_WRONLY, 0)]
    if cwd is not None:
        words = ["env", "-C", cwd, *words]
    # The interpreter ignores these two, and a command would too.
    number = os.posix_spawnp(words[0], words, env or os.environ, file_actions=before, setsigdef=(signal.SIGPIPE, signal.SIGXFSZ))
    try:
        return os.waitstatus_to_exitcode(os.waitpid(number, 0)[1])
    except BaseException:
        try:
            os.kill(number, signal.SIGTERM)
            os.waitpid(number, 0)
        except (ProcessLookupError, ChildProcessError):
            pass  # it has ended, and was waited for
        raise


def with_links(folder: str, outputs: list[str]) -> list[str]:
    """Returns the outputs of a folder, and the names of those that are shared libraries, which are links to them."""
    import re
    text = read_text(os.path.join(folder, "build.ninja"))
    edges = re.findall(r"^build ((?:[^$ :|\n]|\$.)+): symlink (.+)$", text, re.M)
    wanted = set(outputs)
    return outputs + [plain(link) for link, output in edges if plain(output) in wanted]


def build(folder: str, outputs: list[str], options: list[str], otherwise: str = "") -> None:
    """Builds these outputs; `all` is what is built by default. `otherwise` says what doesn't come where that fails."""
    refuse_own_names(folder)
    ninja = find_ninja()
    names = "".join(" " + escaped(output) for output in outputs)
    # A file without a name, which Ninja reads by its number.
    number = os.memfd_create("wanted.ninja", 0)
    try:
        with open(number, "w", encoding="utf-8", closefd=False) as it:
            it.write(f"include build.ninja\n\nbuild {WANTED}: phony{names}\n")
        try:
            status = call([*ninja, "-C", folder, "-f", f"/proc/self/fd/{number}", *options, WANTED])
        except OSError as error:
            raise Stop(f"{ninja[0]}: {error.strerror}") from error
    finally:
        os.close(number)
    if status != 0:
        raise Stop("the build failed" + (f", so {otherwise}" if otherwise else ""))
