"""Replaces calls of `i18n`: the tools of gettext, which the real Meson calls too, make the translations."""
from __future__ import annotations

import os
import re
from collections.abc import Iterator

from tools.files import read_text
from tools.porting.commands import module_sites
from tools.porting.edits import Change
from tools.porting.lexer import escaped
from tools.porting.project import Project, Site
from tools.porting.rule import in_place_of_statement, is_whole_statement, replaced, text_of, texts_at

LANGUAGE = re.compile(r"[A-Za-z0-9][A-Za-z0-9_@.+-]*")
MOST_BYTES = 1 << 20  # of a list of languages
# Keywords of `gettext` that change no .mo file.
OF_MO = {"args", "preset", "languages", "install", "install_dir", "data_dirs"}
OF_MERGED = {"input", "output", "po_dir", "type", "install", "install_dir", "data_dirs", "build_by_default", "install_tag", "args"}


def languages_of(project: Project, site: Site) -> list[str] | None:
    """Returns the languages of a call, or those of its file LINGUAS."""
    word = site.call.keywords.get("languages")
    if word is not None:
        return texts_at(project, word.value)
    try:
        text = read_text(os.path.join(project.root, site.folder, "LINGUAS"), MOST_BYTES)
    except OSError:
        return None
    return [one for line in text.split("\n") for one in line.partition("#")[0].split()]


def translations(project: Project) -> Iterator[Change]:
    """`i18n.gettext`: a custom_target for each language, in a folder of its own, as all outputs have one name."""
    for site in module_sites(project, "i18n", "gettext"):
        name = text_of(project, site.call.arguments[0]) if site.call.arguments else None
        languages = languages_of(project, site)
        words = site.call.keywords
        is_installed = "install" not in words or project.known.value(words["install"].value) is True
        if (name is None or not LANGUAGE.fullmatch(name) or not languages or not is_whole_statement(site) or not is_installed
                or set(words) - OF_MO or not all(is_there(project, site, it) for it in languages)):
            project.doubt(site, "i18n.gettext: a custom_target with msgfmt for each language, in a folder of its own")
            continue
        place = site.file.source(words["install_dir"].value) if "install_dir" in words else "get_option('localedir')"
        files = {os.path.join(site.folder, it, "meson.build"): definition(name, it, place) for it in languages}
        lines = ["# Each language has a folder of its own: the name of its output is that of all.",
                 f"foreach language : [{', '.join(map(escaped, languages))}]", "  subdir(language)", "endforeach"]
        change = site.change("i18n.gettext: a custom_target for each language",
                             in_place_of_statement(site.file, site.statement, lines), files=files)
        change.notes = [f"the .po files of {', '.join(languages)} are listed here from now on; `ninja {name}-pot` is left to xgettext"]
        yield change


def is_there(project: Project, site: Site, language: str) -> bool:
    """Returns whether a language has its file, and no definitions of its own yet."""
    place = os.path.join(site.folder, language)
    return (LANGUAGE.fullmatch(language) is not None and os.path.isfile(os.path.join(project.root, place + ".po"))
            and not project.exists(os.path.join(place, "meson.build")))


def definition(name: str, language: str, place: str) -> str:
    return (f"custom_target('{name}-{language}.mo', input: '../{language}.po', output: '{name}.mo',\n"
            f"  command: [find_program('msgfmt'), '@INPUT@', '-o', '@OUTPUT@'], install: true,\n"
            f"  install_dir: {place} / '{language}' / 'LC_MESSAGES')\n")


def merged_files(project: Project) -> Iterator[Change]:
    """`i18n.merge_file`: a custom_target with msgfmt."""
    for site in module_sites(project, "i18n", "merge_file"):
        words = site.call.keywords
        kind = text_of(project, words["type"].value) if "type" in words else "xml"
        folder = text_of(project, words["po_dir"].value) if "po_dir" in words else None
        if kind not in ("xml", "desktop") or folder is None or "output" not in words or set(words) - OF_MERGED or site.call.arguments:
            project.doubt(site, "i18n.merge_file: a custom_target with msgfmt")
            continue
        path = os.path.relpath(os.path.normpath(os.path.join(site.folder, folder)), site.folder or ".")
        args = f", {site.file.source(words['args'].value)}" if "args" in words else ""
        command = (f"[find_program('msgfmt'), '--{kind}', '--template', '@INPUT@', '-d', meson.current_source_dir() / {escaped(path)}, "
                   f"'-o', '@OUTPUT@'{args}]")
        kept = [f"{it}: {site.file.source(words[it].value)}" for it in ("input", "output", "install", "install_dir", "build_by_default")
                if it in words]
        name = f"'merged-' + {site.file.source(words['output'].value)}"
        text = f"custom_target({name}, {', '.join(kept)}, command: {command})"
        yield site.change("i18n.merge_file becomes a custom_target with msgfmt", replaced(site, site.call, text))
