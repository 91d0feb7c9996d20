"""Rewrites what is installed or written while configuring, or leaves it to the package."""
from __future__ import annotations

import os
import re
from collections.abc import Iterator

from tools.asking.text import is_written
from tools.porting import tree
from tools.porting.edits import Change
from tools.porting.journal import place_of
from tools.porting.lexer import escaped
from tools.porting.project import Project, Site
from tools.porting.rule import REAL_ALONE, guarded, in_place_of_statement, is_whole_statement, replaced, text_of, texts_at
from tools.porting.values import Thing, flat, kind_of

PLACES = re.compile("@(?:BASE|PLAIN)NAME@")  # in an output's name
STEPS = ("add_install_script", "add_postconf_script", "add_dist_script", "add_devenv", "install_dependency_manifest")
STEP_FUNCTIONS = ("install_symlink", "install_emptydir", "add_test_setup")


def steps(project: Project) -> Iterator[Change]:
    """What is done after installing, or when a release is made, stays with the real Meson."""
    for site in [*project.methods(*STEPS), *project.functions(*STEP_FUNCTIONS)]:
        receiver = site.call.receiver
        if is_whole_statement(site) and (receiver is None or kind_of(project.known.value(receiver)) == "meson"):
            is_dist = site.call.name in ("add_dist_script", "add_devenv", "add_test_setup")
            note = [] if is_dist else [f"{site.call.name} is done only by the real Meson: it is a step of the package"]
            yield guarded(site, REAL_ALONE, f"{site.call.name} is left to the real Meson", note)


def vcs_tag(project: Project) -> Iterator[Change]:
    """A release has no history: the fallback is written."""
    for site in project.functions("vcs_tag"):
        words = site.call.keywords
        marker = text_of(project, words["replace_string"].value) if "replace_string" in words else "@VCS_TAG@"
        if "input" not in words or "output" not in words or not marker or marker[0] != "@" or marker[-1] != "@":
            continue
        fallback = site.file.source(words["fallback"].value) if "fallback" in words else "meson.project_version()"
        others = "".join(f", {site.file.source(words[it])}" for it in ("install", "install_dir") if it in words)
        text = (f"configure_file({site.file.source(words['input'])}, {site.file.source(words['output'])}, "
                f"configuration: {{{escaped(marker[1:-1])}: {fallback}}}{others})")
        change = site.change("vcs_tag becomes a configure_file with its fallback", replaced(site, site.call, text))
        change.notes = ["the version is the fallback of vcs_tag, and no longer taken from the history"]
        yield change


def output_names(project: Project) -> Iterator[Change]:
    """@BASENAME@ and @PLAINNAME@ of configure_file's output, as its input has them."""
    for site in project.functions("configure_file"):
        output, source = site.call.keywords.get("output"), site.call.keywords.get("input")
        name = text_of(project, output.value) if output else None
        texts = input_names(project, source.value) if source else None
        if output is None or name is None or not PLACES.search(name):
            continue
        if not texts or PLACES.search(os.path.basename(texts[0])):
            project.doubt(site, "configure_file: @BASENAME@ and @PLAINNAME@ stay as they are in `output:`: "
                                "in a loop over texts, the name by `split('/')[-1]`")
            continue
        plain = os.path.basename(texts[0])
        better = name.replace("@BASENAME@", os.path.splitext(plain)[0]).replace("@PLAINNAME@", plain)
        yield site.change(f"configure_file: the output is {better}", replaced(site, output.value, escaped(better)))


def input_names(project: Project, node: tree.Node) -> list[str] | None:
    items = flat(project.known.value(node))
    names = [it.value.path if isinstance(it.value, Thing) and kind_of(it.value) == "file" else it.value for it in items if it.is_sure]
    return [str(it) for it in names] if len(names) == len(items) == 1 and isinstance(names[0], str) else None


def install_subdir(project: Project) -> Iterator[Change]:
    """The files of a folder by name, as they are now."""
    for site in project.functions("install_subdir"):
        lines = files_to_install(project, site)
        if lines is not None and is_whole_statement(site):
            change = site.change("install_subdir becomes install_data with the files by name",
                                 in_place_of_statement(site.file, site.statement, lines))
            change.notes = ["the files of an installed folder are named one by one: add each new file"]
            yield change


def files_to_install(project: Project, site: Site) -> list[str] | None:
    words = site.call.keywords
    name = text_of(project, site.call.arguments[0]) if site.call.arguments else None
    if name is None or "install_dir" not in words or set(words) - {"install_dir", "exclude_files", "exclude_directories", "strip_directory",
                                                                   "install_tag"}:
        return None
    strips = project.known.value(words["strip_directory"].value) if "strip_directory" in words else False
    left = [texts_at(project, words[it].value) if it in words else [] for it in ("exclude_files", "exclude_directories")]
    top = os.path.join(project.root, site.folder, name)
    is_inside = place_of(project.root, os.path.normpath(os.path.join(site.folder, name))) is not None
    if None in left or not isinstance(strips, bool) or not is_inside or not os.path.isdir(top):
        return None
    target = site.file.source(words["install_dir"].value)
    if not strips:
        target = f"{target if isinstance(words['install_dir'].value, (tree.Name, tree.Call, tree.Text)) else f'({target})'} / "
        target += escaped(os.path.basename(name.rstrip("/")))
    lines: list[str] = []
    for folder, inner, files in sorted(os.walk(top)):
        below = os.path.relpath(folder, top)
        inner[:] = sorted(it for it in inner if os.path.normpath(os.path.join(below, it)) not in (left[1] or []))
        named = sorted(it for it in files if os.path.normpath(os.path.join(below, it)) not in (left[0] or []))
        if not all(map(is_written, [below, *named])):
            return None
        if named:
            shown = [f"  {escaped(os.path.normpath(os.path.join(name, below, it)))}," for it in named]
            place = target if below == "." else f"{target} / {escaped(below)}"
            lines += ["install_data(", *shown, f"  install_dir: {place})"]
    return lines or None
