"""Finds the toolchain, and returns the commands that prove a crate and link the program."""
import pathlib
import shutil
import subprocess

from tools.building.crates import LIBRARIES, LIBRARY, MADE, OUT, PROGRAM, Crate


class Kit:
    """Holds the toolchain that the command `rt` belongs to."""

    def __init__(self) -> None:
        self.folder = pathlib.Path(shutil.which("rt") or "rt").resolve().parent.parent
        self.version = subprocess.run(["rt", "version"], capture_output=True, text=True, check=True).stdout

    @property
    def c_part(self) -> pathlib.Path:
        """Returns the part of the standard library that is in C."""
        return self.folder / "c" / "liblibc_c.a"

    def libraries(self, crate: Crate, below: dict[str, pathlib.Path]) -> list[str]:
        """Returns the words that say where a crate's libraries are: those of this repository by their names, and those of the kit."""
        folders = [self.folder / "rlibs", *dict.fromkeys(it.parent for it in below.values())]
        words = [word for it in folders for word in ("-L", f"dependency={it}")]
        for name in ["std", *crate.listed]:
            words += ["--extern", f"{name}={below.get(name, self.folder / 'rlibs' / f'{name}.rlib')}"]
        return words

    def build(self, crate: Crate, processors: int, below: dict[str, pathlib.Path] | None = None) -> list[str]:
        """Returns the command that proves a crate by so many processors and, if it is proved, writes its statements, or the code of
        the program or of the library for C. `below` has the libraries of this repository by their names, in place of those of LIBRARIES."""
        root = "src/main.rt" if crate.name == PROGRAM else "src/lib.rt"
        below = below or {name: LIBRARIES / f"{name}.rlib" for name in sorted(crate.below)}
        words = [f"{self.folder}/bin/rattle", "build", "--crate-name", crate.name, root, *self.libraries(crate, below)]
        words += ["--antt-project", f"{self.folder}/rattle/logic/antt-project.json", "--logic-built", f"{self.folder}/logic_built"]
        # No crate has C code.
        words += ["--links", f"{crate.name}=", "--jobs", str(processors)]
        if crate.name not in MADE:
            return [*words, "--statements", "-o", f"{crate.made}"]
        words += ["--toolchain", f"{self.folder}/toolchain", "--backend", "llvm"]
        if crate.name == LIBRARY:
            return [*words, "--crate-type", "staticlib", "-o", f"{crate.made}"]
        return [*words, "-o", f"{OUT}/{PROGRAM}.o"]

    def link(self) -> list[str]:
        """Returns the command that links the program's code."""
        return [f"{self.folder}/bin/rattle-link", "--target", "x86_64-unknown-linux-gnu", "--toolchain", f"{self.folder}/toolchain",
                "-o", f"{OUT}/{PROGRAM}", f"{OUT}/{PROGRAM}.o", f"{self.folder}/c/libos_c.a", f"{self.c_part}"]
