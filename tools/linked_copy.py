"""Makes a folder that shows sources as they would be: links to what stays, files for what is another."""
from __future__ import annotations

import os


def linked_copy(root: str, folder: str, changed: dict[str, str], names: tuple[str, ...] | None = None) -> None:
    """Makes the folder; `changed` says of each path that is another file which text it has. No path leads out of the folder. If there are
    names, nothing else is linked."""
    if any(os.path.isabs(path) or ".." in path.split("/") for path in changed):
        raise ValueError("a path leads out of the folder")
    copied = {""}
    for path in changed:
        while path:
            path = os.path.dirname(path)
            copied.add(path)
    for inner in sorted(copied):
        os.makedirs(os.path.join(folder, inner), exist_ok=True)
        before = os.path.join(root, inner)
        for name in os.listdir(before) if os.path.isdir(before) else []:
            path = os.path.normpath(os.path.join(inner, name))
            if path not in copied and path not in changed and (names is None or path in names):
                os.symlink(os.path.abspath(os.path.join(before, name)), os.path.join(folder, path))
    for path, text in changed.items():
        with open(os.path.join(folder, path), "w", encoding="utf-8", newline="") as it:
            it.write(text)
