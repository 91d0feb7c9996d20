#!/usr/bin/env python3
"""Measures how long a project takes to be configured: `machine-file` and `setup`, compared with `setup` of the real Meson and of muon.

    bench/machine.py                    examples/hello and examples/inifile
    bench/machine.py DIR..              projects, each a folder with a meson.build; each is ported in a copy first, which is timed too,
                                        without a build
    bench/machine.py --program PATH ..  another program than this checkout's
    bench/machine.py --rounds N ..      with N runs of each, of which the least is shown

The command is installed into a temporary folder first, since its modules are compiled there. Each round makes a run of each, one after the
other, in new build directories. `cold` is with an empty cache of answers, `warm` with that of the run before, and `alone` with each check
compiled by itself and no cache. `program` is `setup` of the program alone. `meson` and `muon` are those of PATH, if they are installed and
accept the project. Times are by the clock, in seconds; with --processor they are the processor's, which other work on the machine changes
less.
"""
import argparse
import os
import shutil
import sys
import tempfile

sys.dont_write_bytecode = True

from commands import copied, installed  # noqa: E402
from running import Ran, others, ran  # noqa: E402

CHECKOUT = os.path.dirname(os.path.dirname(os.path.realpath(__file__)))
PROGRAM = os.path.join(CHECKOUT, "crates", "hawkottoman", "out", "hawkottoman")
EXAMPLES = [os.path.join(CHECKOUT, "examples", it) for it in ("hello", "inifile")]
COLUMNS = ("meson", "muon", "cold", "warm", "alone", "program", "port")
BUILD, MACHINE = "build-measured", "measured.ini"


class Measured:
    """Measures one project: a copy as it is, and one that is ported. `clock` is the field of a run that counts: `wall` or `processor`."""

    def __init__(self, source: str, scratch: str, program: str, command: str, clock: str) -> None:
        name = os.path.basename(os.path.abspath(source))
        self.name, self.program, self.command, self.clock = name, program, command, clock
        self.plain, self.ported = (os.path.join(scratch, it, name) for it in ("plain", "ported"))
        for folder in (self.plain, self.ported):
            shutil.copytree(source, folder, symlinks=True)
        self.least: dict[str, float] = {}

    def run(self, words: list[str], folder: str, output: str | None = None) -> list[Ran]:
        """Runs a command; none if it fails."""
        try:
            return [ran(words, folder, output=output)]
        except RuntimeError:
            return []

    def take(self, column: str, runs: list[Ran], count: int = 1) -> None:
        """Keeps the least of the sums of so many commands, if none failed."""
        if len(runs) == count:
            whole = sum(getattr(it, self.clock) for it in runs)
            self.least[column] = min(whole, self.least.get(column, whole))

    def port(self) -> None:
        self.take("port", self.run([self.command, "port", "--run", "--no-build", "--no-real", self.ported], self.ported))

    def made(self, command: str) -> list[Ran]:
        """Runs `setup` in an empty folder, with the machine file of the last run of `machine-file`."""
        shutil.rmtree(os.path.join(self.ported, BUILD), ignore_errors=True)
        return self.run([command, "setup", "--native-file", MACHINE, BUILD], self.ported)

    def ours(self, column: str, *words: str) -> None:
        asked = self.run([self.command, "machine-file", *words, "."], self.ported, MACHINE)
        self.take(column, asked + self.made(self.command), 2)

    def round(self) -> None:
        for name, path in others().items():
            shutil.rmtree(os.path.join(self.plain, BUILD), ignore_errors=True)
            self.take(name, self.run([path, "setup", BUILD], self.plain))
        shutil.rmtree(os.environ["XDG_CACHE_HOME"], ignore_errors=True)
        self.ours("cold")
        self.ours("warm")
        self.ours("alone", "--alone", "--no-cache")
        self.take("program", self.made(self.program))

    def line(self) -> str:
        found = [f"{self.least[it]:.2f}" if it in self.least else "-" for it in COLUMNS]
        over = [f"{self.least[it] / self.least['meson']:.2f}" if {it, "meson"} <= set(self.least) else "-" for it in ("cold", "warm")]
        return f"| {' | '.join([self.name, *found, *over])} |"


def main() -> int:
    parser = argparse.ArgumentParser(prog="machine.py", description=__doc__, formatter_class=argparse.RawDescriptionHelpFormatter)
    parser.add_argument("folders", metavar="DIR", nargs="*", help="the folder of a project")
    parser.add_argument("--program", default=PROGRAM, help="the program (default: that of this checkout)")
    parser.add_argument("--rounds", type=int, default=5, help="how many runs of each")
    parser.add_argument("--processor", action="store_true", help="measure the processor's time")
    words = parser.parse_args()
    if not os.access(words.program, os.X_OK):
        sys.exit(f"machine.py: {words.program}: no program is there; ./meson --help builds it, --program names another")
    print(f"| project | {' | '.join(COLUMNS)} | cold over meson | warm over meson |\n|{'---|' * (len(COLUMNS) + 3)}", flush=True)
    with tempfile.TemporaryDirectory(prefix="machine-") as scratch:
        os.environ["XDG_CACHE_HOME"] = os.path.join(scratch, "cache")
        program = os.path.abspath(words.program)
        command = installed(copied(program, os.path.join(scratch, "checkout")), os.path.join(scratch, "prefix"))
        for source in words.folders or EXAMPLES:
            it = Measured(source, scratch, program, command, "processor" if words.processor else "wall")
            it.port()
            for _ in range(words.rounds):
                it.round()
            print(it.line(), flush=True)
    return 0


if __name__ == "__main__":
    sys.exit(main())
