"""Reads what `meson setup` says of a configured folder to other programs: meson-info/introspect.json."""
from __future__ import annotations

import os
import posixpath

from tools.ending import Stop
from tools.files import read_text
from tools.light_json import loads

TYPE_CHECKING = False
if TYPE_CHECKING:
    from collections.abc import Iterable
    from typing import Any

    Target = dict[str, Any]
    Test = dict[str, Any]

PARTS = {"targets": list, "tests": list, "buildoptions": list, "installed": dict, "dependencies": list, "projectinfo": dict,
         "buildsystem_files": dict}
# What the document says of the project, the files it was made from, an option, a target and a test, and in what form.
PROJECT, FILES, OPTION = {"name": str, "version": str}, {"present": list, "absent": list}, {"name": str, "type": str}
TARGET = {"name": str, "type": str, "filename": list, "defined_in": str}
TEST = {"cmd": list, "env": list, "name": str, "should_fail": bool, "suite": list, "timeout": int}
# What the commands keep in a build directory for themselves.
OWN = {"meson-private", "meson-info", "meson-logs", "meson-private/words", "meson-private/machine.ini", "meson-private/executables",
       "meson-info/introspect.json", "meson-logs/testlog.txt", "meson-logs/install-log.txt", "compile_commands.json", ".gitignore"}


class Document:
    """Holds the project's name, its targets and tests, the path and destination of each installed file, and the files that it was made
    from."""

    def __init__(self, project: str, targets: list[Target], tests: list[Test], installed: dict[str, str],
                 made_from: dict[str, list[str]]) -> None:
        self.project, self.targets, self.tests, self.installed, self.made_from = project, targets, tests, installed, made_from


def is_name(text: str) -> bool:
    """Returns whether a text can be a name or an argument: a NUL ends what the system gets, and half a pair of surrogates is no
    character."""
    try:
        return "\0" not in text and bool(text.isascii() or text.encode() is not None)
    except UnicodeEncodeError:
        return False


def document_path(folder: str) -> str:
    return os.path.join(folder, "meson-info", "introspect.json")


def read_content(folder: str) -> dict[str, Any]:
    """Returns the document with all its parts; of targets, tests and what is installed the form is not looked at."""
    path = document_path(folder)
    if not os.path.isdir(folder):
        raise Stop(f"{folder}: there is no such folder")
    try:
        content = loads(read_text(path))
    except OSError as error:
        raise Stop(f"{folder}: is no configured folder: {path}: {error.strerror}") from error
    except RecursionError as error:
        raise Stop(f"{path}: is no JSON of a document: it is nested too deeply") from error
    except ValueError as error:
        raise Stop(f"{path}: is no JSON: {error}") from error
    if not is_document(content):
        raise Stop(f"{path}: is no introspection document of `meson setup`")
    return content


def is_document(content: object) -> bool:
    """Returns whether it has all parts, each of its own kind."""
    if not isinstance(content, dict) or not all(isinstance(content.get(part), kind) for part, kind in PARTS.items()):
        return False
    if not has_form(content["projectinfo"], PROJECT) or not has_form(content["buildsystem_files"], FILES):
        return False
    return all(has_form(it, OPTION) and "value" in it for it in content["buildoptions"])


def read_document(folder: str) -> Document:
    path, content = document_path(folder), read_content(folder)
    try:
        project, installed = content["projectinfo"]["name"], content["installed"]
        targets, tests = content["targets"], content["tests"]
        known = all(map(is_target, targets)) and all(isinstance(it, str) for it in installed.values())
        known = known and all(it.startswith("/") for it in installed)
    except (KeyError, TypeError):
        known = False
    if not known:
        raise Stop(f"{path}: is no introspection document of `meson setup`")
    if not all(map(is_test, tests)):
        raise Stop(f"{path}: its tests are not of the form that `meson setup` writes")
    document = Document(project, targets, tests, installed, content["buildsystem_files"])
    for text in texts_of(document):
        if not is_name(text):
            raise Stop(f"{path}: has a text that can be neither a name nor an argument: {text!r}")
    return document


def refuse_own_names(folder: str) -> None:
    """Stops if a target of a configured folder would be made in the place of what the commands keep there."""
    if not os.path.exists(document_path(folder)):
        return
    for target in read_document(folder).targets:
        taken = next((it for it in target["filename"] if posixpath.normpath(it) in OWN), None)
        if taken is not None:
            raise Stop(f"the target {target['name']!r} would be {taken}, which this command keeps for itself in {folder}: "
                       "give it another name")


def has_form(it: object, form: dict[str, type]) -> bool:
    """Returns whether it is an object with these keys, whose lists are lists of texts. A truth value is no number here."""
    return isinstance(it, dict) and all(type(it.get(key)) is kind for key, kind in form.items()) and all(
        isinstance(text, str) for key, kind in form.items() if kind is list for text in it[key])


def is_target(it: object) -> bool:
    return has_form(it, TARGET) and it["filename"] != []


def is_test(it: object) -> bool:
    return has_form(it, TEST) and it["cmd"] != [] and all("=" in text for text in it["env"]) and abs(it["timeout"]) < 2**63


def texts_of(document: Document) -> Iterable[str]:
    yield document.project
    for path, destination in document.installed.items():
        yield from (path, destination)
    for target in document.targets:
        yield from (target["name"], *target["filename"])
    for test in document.tests:
        yield from (test["name"], *test["cmd"], *test["env"], *test["suite"])
