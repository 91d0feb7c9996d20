"""Lists the system calls that each run of a project needs, as the list that limit.c carries out. Each definition file is read, each other
source file is looked at once, and each output is written and renamed, in folders that are made."""
import os

OPTION_FILES = ("meson.options", "meson_options.txt")
DEFINITIONS = ("meson.build", *OPTION_FILES)


def of_sources(folder: str, build: str) -> list[str]:
    """Returns the lines for the sources in this folder, all of which its definition files name, except what is in its folder `build`."""
    lines = [f"look {name}" for name in OPTION_FILES if not os.path.exists(os.path.join(folder, name))]
    for top, folders, names in os.walk(folder):
        if top == folder:
            folders.remove(build)
        for name in names:
            path = os.path.relpath(os.path.join(top, name), folder)
            lines.append(f"read {path}" if name in DEFINITIONS else f"look {path}")
    return lines


def of_outputs(build: str, beside: str) -> list[str]:
    """Returns the lines that write as many bytes as the files below `build` have, into the folder `beside`."""
    lines = []
    for top, _, names in os.walk(build):
        into = os.path.normpath(os.path.join(beside, os.path.relpath(top, build)))
        lines.append(f"make {into}")
        lines += [f"write {os.path.getsize(os.path.join(top, name))} {into}/{name}" for name in names]
    return lines


def needed_calls(folder: str, build: str, beside: str) -> str:
    """Returns the list for a project in this folder, whose outputs are in its folder `build`. The limit writes its own into `beside`."""
    return "".join(f"{line}\n" for line in of_sources(folder, build) + of_outputs(os.path.join(folder, build), beside))
