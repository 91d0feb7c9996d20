"""Reads the command line of a command: its options, its other arguments, and its help.

It takes what `argparse` takes of these commands, in the same calls, and costs a tenth of its time to load: options may be shortened if
that is clear, values may be joined to them, and arguments and options may be mixed.
"""
from __future__ import annotations

import os
import sys

from tools.ending import Stop, help_as_called, show

TYPE_CHECKING = False
if TYPE_CHECKING:
    from collections.abc import Callable
    from typing import Any, NoReturn

WIDTH, COLUMN = 110, 24
COUNTS = {"*": (0, None), "+": (1, None), "?": (0, 1), None: (1, 1)}


class Given:
    """Holds what a command was given: an attribute for each option and each kind of argument."""

    def __init__(self) -> None:
        self.__dict__: dict[str, Any] = {}


class Option:
    """Describes an option, or a kind of argument, which has no dashes before its name."""

    def __init__(self, names: tuple[str, ...], dest: str | None = None, metavar: str | None = None, action: str = "store",
                 default: object = None, type: Callable[[str], object] = str, help: str = "", nargs: str | None = None,
                 const: object = None) -> None:
        plain = next((it for it in names if it.startswith("--")), names[0]).lstrip("-")
        self.names, self.dest, self.action, self.type, self.help = names, dest or plain.replace("-", "_"), action, type, help
        self.metavar, self.nargs, self.const = metavar or plain.upper().replace("-", "_"), nargs, const
        self.default = False if action == "store_true" and default is None else default

    @property
    def is_word(self) -> bool:
        return not self.names[0].startswith("-")

    @property
    def takes_value(self) -> bool:
        return self.action in ("store", "append")

    def shown(self) -> str:
        """Returns the option as help lists it."""
        if self.is_word:
            return self.metavar
        return ", ".join(it + (" " + self.metavar if self.takes_value else "") for it in self.names)

    def usage(self) -> str:
        if self.is_word:
            return f"[{self.metavar} ...]" if self.nargs == "*" else f"[{self.metavar}]" if self.nargs == "?" else self.metavar
        return f"[{self.names[0]}{' ' + self.metavar if self.takes_value else ''}]"


class Parser:
    """Reads the arguments of a command. A bad one ends it with one line."""

    def __init__(self, script: str, text: str, status: int) -> None:
        self.script, self.text, self.status = script, text.strip(), status
        self.options = [Option(("-h", "--help"), action="help", help="show this help message and exit")]

    def add_folder(self) -> None:
        self.add_argument("-C", dest="folder", metavar="BUILDDIR", default=".",
                          help="the folder that `meson setup` configured (default: the present one)")

    def add_argument(self, *names: str, **how: Any) -> None:
        self.options.append(Option(names, **how))

    def error(self, message: str) -> NoReturn:
        raise Stop(f"{message} (--help says more)", self.status)

    def parse_args(self, words: list[str] | None = None) -> Any:
        """Returns the values of all options; without words those of the command line."""
        given = Given()
        for option in self.options:
            setattr(given, option.dest, list(option.default) if isinstance(option.default, list) else option.default)
        waiting, rest, unknown = list(sys.argv[1:] if words is None else words), [], []
        while waiting:
            word = waiting.pop(0)
            if word == "--":
                rest += waiting
                break
            if word == "-" or not word.startswith("-"):
                rest.append(word)
            elif not self.take(given, word, waiting):
                unknown.append(word)
        rest = self.share_out(given, rest)
        if unknown or rest:
            tip = meant(self.script, rest[0]) if rest and self.find("-C") else ""
            self.error(f"unrecognized arguments: {' '.join(unknown + rest)}{tip}")
        return given

    def take(self, given: Given, word: str, waiting: list[str]) -> bool:
        """Takes an option with its value, of short ones that are joined each; whether there is such an option."""
        name, sign, value = word.partition("=") if word.startswith("--") else (word[:2], word[2:], word[2:])
        option = self.find(name)
        if option is None:
            return False
        if option.takes_value:
            if not sign and not waiting:
                self.error(f"argument {'/'.join(option.names)}: expected one argument")
            self.store(given, option, value if sign else waiting.pop(0))
        elif word.startswith("--") and sign:
            self.error(f"argument {'/'.join(option.names)}: takes no value, and got {value!r}")
        else:
            self.store(given, option, "")
            return not value or self.take(given, "-" + value, waiting)
        return True

    def find(self, name: str) -> Option | None:
        """Returns the option of this name, or the only one of which it is the beginning."""
        named = {it: option for option in self.options for it in option.names if not option.is_word}
        if name in named:
            return named[name]
        found = [it for it in named if name.startswith("--") and it.startswith(name)]
        if len(found) > 1:
            self.error(f"ambiguous option: {name} could match {', '.join(found)}")
        return named[found[0]] if found else None

    def store(self, given: Given, option: Option, text: str) -> None:
        if option.action == "help":
            show(help_as_called(self.format_help()))
            raise Stop("", 0)
        try:
            value = True if option.action == "store_true" else option.const if option.action == "append_const" else option.type(text)
        except ValueError:
            self.error(f"argument {'/'.join(option.names)}: invalid {option.type.__name__} value: {text!r}")
        if option.action.startswith("append"):
            value = [*(getattr(given, option.dest) or []), value]
        setattr(given, option.dest, value)

    def share_out(self, given: Given, rest: list[str]) -> list[str]:
        """Gives the words that are no options to their kinds, in order; those that are left."""
        for kind in (it for it in self.options if it.is_word):
            least, most = COUNTS[kind.nargs]
            taken, rest = rest[:most], rest[len(rest) if most is None else most:]
            if len(taken) < least:
                self.error(f"the following arguments are required: {kind.metavar}")
            if kind.nargs == "*":
                setattr(given, kind.dest, taken)
            elif taken:
                setattr(given, kind.dest, taken[0])
        return rest

    def format_help(self) -> str:
        words, options = ([it for it in self.options if it.is_word == is_word] for is_word in (True, False))
        lines = [filled(f"usage: {self.script} ", [it.usage() for it in options + words]), "", self.text, ""]
        for title, group in (("positional arguments", words), ("options", options)):
            if group:
                lines += [title + ":", *map(listed, group), ""]
        return "\n".join(lines[:-1])


def is_configured(folder: str) -> bool:
    """Returns whether a folder looks as `meson setup` leaves it."""
    return os.path.isdir(os.path.join(folder, "meson-info"))


def meant(script: str, word: str) -> str:
    """Returns what a message about an unknown word adds if that word is a configured folder."""
    return f"; did you mean `{script} -C {word}`?" if is_configured(word) else ""


def check_folder(script: str, folder: str, names: list[str]) -> None:
    """Stops if the first name is a configured folder and `folder` is none, so that -C was meant."""
    if names and not is_configured(folder) and is_configured(names[0]):
        raise Stop(f"{folder}: is no configured folder{meant(script, names[0])}")


def filled(first: str, parts: list[str], column: int | None = None) -> str:
    """Returns the parts in lines of at most WIDTH characters, all but the first line further in."""
    lines, column = [first.rstrip() if column is None else first], len(first) if column is None else column
    for part in parts:
        if len(lines[-1]) + 1 + len(part) > WIDTH and lines[-1].strip():
            lines.append(" " * (column - 1))
        lines[-1] += " " + part
    return "\n".join(lines)


def listed(option: Option) -> str:
    """Returns the line of an option in the help, with what it does."""
    head = f"  {option.shown()}".ljust(COLUMN - 1)
    first = head if len(head) < COLUMN else head + "\n" + " " * (COLUMN - 1)
    return filled(first, option.help.split(), COLUMN)
