"""Runs commands and measures them: time, memory, output; and finds the other programs that are measured too."""
import contextlib
import dataclasses
import os
import shutil
import subprocess
import tempfile
import time

from built import built

# The other programs of the same use, by their names here, and what they are called on PATH. Debian has another program named muon.
NAMES_ON_PATH = {"muon": ("muon-meson", "muon"), "meson": ("meson",)}


@dataclasses.dataclass
class Ran:
    """Holds the measurements of one run, or the least of several: processor and clock seconds, peak memory, and the output."""

    processor: float
    wall: float
    peak: int
    printed: str = ""
    told: float | None = None

    def seconds(self) -> float:
        return self.processor if self.told is None else self.told

    def least(self, other: "Ran") -> "Ran":
        told = None if self.told is None else min(self.told, other.told)
        return Ran(min(self.processor, other.processor), min(self.wall, other.wall), max(self.peak, other.peak), self.printed, told)


def others() -> dict[str, str]:
    """Returns the paths of the other programs that are installed, by their names here."""
    found = {name: next(filter(None, map(shutil.which, names)), None) for name, names in NAMES_ON_PATH.items()}
    return {name: path for name, path in found.items() if path}


def ran(command: list[str], folder: str, is_told: bool = False, output: str | None = None) -> Ran:
    """Runs a command in the folder of its load. Its standard output goes to the file `output` there, if one is named."""
    with contextlib.ExitStack() as opened:
        out = opened.enter_context(open(os.path.join(folder, output), "w+") if output else tempfile.TemporaryFile("w+"))
        err, figures = map(opened.enter_context, (tempfile.TemporaryFile("w+"), tempfile.NamedTemporaryFile("r")))
        start = time.perf_counter()
        words = [built("start"), figures.name, *command]
        done = subprocess.run(words, cwd=folder, stdin=subprocess.DEVNULL, stdout=out, stderr=err, check=False)
        wall = time.perf_counter() - start
        out.seek(0), err.seek(0)
        said = err.read()
        if done.returncode != 0:
            raise RuntimeError(f"{' '.join(command)[:200]} ended with status {done.returncode}: {said.strip()[-500:]}")
        microseconds, kibibytes = (int(it) for it in figures.read().split())
        told = int(said.split()[-1]) / 1e9 if is_told else None
        return Ran(microseconds / 1e6, wall, kibibytes * 1024, out.read().strip()[-60:], told)
