#!/usr/bin/env python3
"""Measures what the installed command adds to the time of the program and Ninja, over examples/hello.

    bench/commands.py                    the command of this checkout, installed into a temporary folder
    bench/commands.py --program PATH     with another program
    bench/commands.py --rounds N         the least of N runs each (default: 12)

Each row is the processor's time of a command, the time of what it waits for, and the difference with its bound. `meson` and `muon` run in
the same round, if they are installed. The exit status is 0 if each difference is within its bound.
"""
import argparse
import collections
import os
import shutil
import subprocess
import sys
import tempfile

sys.dont_write_bytecode = True

from running import others, ran  # noqa: E402

CHECKOUT = os.path.dirname(os.path.dirname(os.path.realpath(__file__)))
PROGRAM = os.path.join(CHECKOUT, "crates", "hawkottoman", "out", "hawkottoman")
# A command, what it waits for, and the bound: milliseconds more than that.
Row = collections.namedtuple("Row", "name words waits_for bound")
NATIVE = ["--native-file", "native.ini"]
SETUP, NINJA = ("program", "setup", *NATIVE, "build"), ("ninja", "-C", "build")
ROWS = (
    Row("setup", ["setup", *NATIVE, "build"], [SETUP], 5),
    Row("compile, nothing to do", ["compile", "-C", "build"], [SETUP, NINJA], 8),
    Row("setup in a checkout", ["checkout", "setup", *NATIVE, "build"], [SETUP], 20),
    Row("test", ["test", "-C", "build"], [SETUP, NINJA], 40),
    Row("install", ["install", "-C", "build", "--destdir", "dest"], [SETUP, NINJA], 40),
    Row("introspect", ["introspect", "build"], [SETUP], 40),
    Row("explain", ["explain", *NATIVE, "build"], [("program", "questions", *NATIVE, "build")], 90),
    Row("machine-file", ["machine-file"], [("cc", "--version"), ("cc", "--version")], 90),
    Row("port", ["port", "--dry-run", "--no-trial", "."], [], 90),
)
# What others do of the same, by our name.
OF_OTHERS = {
    "muon": {"setup": ["setup", "build-muon"], "compile, nothing to do": ["-C", "build-muon", "samu"],
             "test": ["-C", "build-muon", "test"]},
    "meson": {"setup": ["setup", "build-meson"], "compile, nothing to do": ["compile", "-C", "build-meson"],
              "test": ["test", "-C", "build-meson"], "introspect": ["introspect", "--all", "build-meson"]}}


def milliseconds(words: list[str], folder: str) -> float:
    return ran(words, folder).processor * 1000


def least(commands: dict[str, list[str]], folder: str, rounds: int) -> dict[str, float]:
    """Returns the least time of each command, in turn; another program that fails has none."""
    found, left_out = {}, set()
    for _ in range(rounds):
        for name, words in commands.items():
            try:
                found[name] = min(found.get(name, 1e9), milliseconds(words, folder) if name not in left_out else 1e9)
            except RuntimeError:
                if name not in OF_OTHERS:
                    raise
                left_out.add(name)
    return {name: it for name, it in found.items() if name not in left_out}


def copied(program: str, copy: str) -> str:
    """Returns a checkout with the sources of this one, for which this program counts as built; its command."""
    left_out = shutil.ignore_patterns("__pycache__", "out", "wrong", "must-fail")
    for name in ("tools", "docs", "packaging", "crates"):
        shutil.copytree(os.path.join(CHECKOUT, name), os.path.join(copy, name), ignore=left_out)
    for name in ("meson", "README.md", "crates.txt"):
        shutil.copy2(os.path.join(CHECKOUT, name), copy)
    out = os.path.join(copy, "crates/hawkottoman/out")
    os.makedirs(out)
    # It is newer than all that it might be made from, so the command looks at each source.
    shutil.copy(program, os.path.join(out, "hawkottoman"))
    return os.path.join(copy, "meson")


def installed(checkout: str, prefix: str) -> str:
    """Returns the command of a checkout, installed below a folder."""
    subprocess.run([checkout, "self-install", prefix], check=True, stdout=subprocess.DEVNULL)
    return os.path.join(prefix, "bin", "hawkottoman-meson")


def commands_of(row: Row, program: str, command: str, checkout: str) -> dict[str, list[str]]:
    """Returns the commands of a row by their names: ours, what it waits for, and those of others."""
    ours = [checkout, *row.words[1:]] if row.words[0] == "checkout" else [command, *row.words]
    waits = {f"waits {number}": [program if it[0] == "program" else it[0], *it[1:]] for number, it in enumerate(row.waits_for)}
    beside = {name: [path, *OF_OTHERS[name][row.name]] for name, path in others().items() if row.name in OF_OTHERS[name]}
    return {"ours": ours, **waits, **beside}


def measure(program: str, rounds: int) -> int:
    failures = 0
    with tempfile.TemporaryDirectory() as scratch:
        checkout = copied(program, os.path.join(scratch, "checkout"))
        command = installed(checkout, os.path.join(scratch, "prefix"))
        folder = os.path.join(scratch, "hello")
        shutil.copytree(os.path.join(CHECKOUT, "examples/hello"), folder, ignore=shutil.ignore_patterns("build", "native.ini"))
        with open(os.path.join(folder, "native.ini"), "w", encoding="utf-8") as it:
            subprocess.run([command, "machine-file"], cwd=folder, stdout=it, check=True)
        for words in (["setup", *NATIVE, "build"], ["compile", "-C", "build"]):
            subprocess.run([command, *words], cwd=folder, check=True, stdout=subprocess.DEVNULL)
        for row in ROWS:
            commands = commands_of(row, program, command, checkout)
            found = least(commands, folder, rounds)
            waited = sum(it for name, it in found.items() if name.startswith("waits"))
            more = found["ours"] - waited
            beside = "".join(f", {name} " + (f"{found[name]:.1f}" if name in found else "fails") for name in OF_OTHERS if name in commands)
            is_good = more <= row.bound
            failures += not is_good
            print(f"{row.name:24} {found['ours']:7.1f} ms, waits for {waited:5.1f}, more {more:5.1f} (at most {row.bound})"
                  f"{'' if is_good else ' TOO MUCH'}{beside}", flush=True)
    return 1 if failures else 0


def main() -> int:
    parser = argparse.ArgumentParser(description=__doc__, formatter_class=argparse.RawDescriptionHelpFormatter)
    parser.add_argument("--program", default=PROGRAM, help="the program (default: this checkout's)")
    parser.add_argument("--rounds", type=int, default=12, help="how often each command is run; the least counts")
    words = parser.parse_args()
    if not os.access(words.program, os.X_OK):
        parser.error(f"there is no program {words.program}")
    return measure(os.path.abspath(words.program), words.rounds)


if __name__ == "__main__":
    sys.exit(main())
