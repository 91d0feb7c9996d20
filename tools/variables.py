"""Reads variables of the environment that name commands and their arguments, and finds commands on PATH."""
from __future__ import annotations

import errno
import os

from tools.ending import Stop

TYPE_CHECKING = False
if TYPE_CHECKING:
    from collections.abc import Mapping


def words_in(text: str, named: str) -> list[str]:
    """Returns the words of a text as a shell cuts them."""
    if not text:
        return []
    import shlex
    try:
        text.encode()
        return shlex.split(text)
    except UnicodeEncodeError:
        raise Stop(f"{named}: not UTF-8: {text!r}") from None
    except ValueError as error:
        raise Stop(f"{named}: {error}: {text!r}") from error


def pkg_config() -> list[str]:
    """Returns the words of the command pkg-config."""
    return words_of("PKG_CONFIG") or ["pkg-config"]


def words_of(variable: str) -> list[str]:
    """Returns the words that a variable of the environment holds."""
    return words_in(os.environ.get(variable, ""), variable)


def folders_of_path(variables: Mapping[str, str]) -> list[str]:
    """Returns the folders of PATH in an environment."""
    path = variables.get("PATH", os.defpath)
    return path.split(":") if path else []


def found_program(name: str, folders: list[str] | None = None, here: str = "") -> str | None:
    """Returns the path of a command, as `shutil.which` does: in these folders, or in those of PATH; of a name with a slash itself.
    Relative paths count from `here`."""
    searched = folders_of_path(os.environ) if folders is None else folders
    places = [name] if "/" in name else [os.path.join(it, name) for it in searched]
    return next((it for it in places if is_program(os.path.join(here, it))), None)


def is_program(path: str) -> bool:
    """Returns whether a file can be executed."""
    try:
        return os.access(path, os.X_OK) and not os.path.isdir(path)
    except ValueError:  # a NUL in it
        return False


def path_of_program(name: str, variables: Mapping[str, str], here: str = "") -> str:
    """Returns the path by which a command is executed in an environment and a folder. If there is none, an OSError says so."""
    path = name if "/" in name else found_program(name, folders_of_path(variables), here) if name else None
    if not path:
        raise FileNotFoundError(errno.ENOENT, os.strerror(errno.ENOENT), name)
    return path
