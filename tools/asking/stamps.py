"""Notes the time and the size of files, which show whether one has changed."""
import os

Stamp = list[int] | None


class Evidence:
    """Holds paths, and whether an answer depends on nothing else."""

    def __init__(self, paths: set[str] | None = None) -> None:
        self.paths: set[str] = set() if paths is None else paths
        self.is_whole = True


def stamp_of(path: str) -> Stamp:
    """Returns the time and the size of what is at a path; none if nothing is."""
    try:
        found = os.stat(path)
    except (OSError, ValueError):
        return None
    return [found.st_mtime_ns, found.st_size]
