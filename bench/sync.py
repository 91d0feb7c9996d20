#!/usr/bin/env python3
"""Measures what it costs to sync outputs before they take their places.

`meson setup` runs over a project with 300 headers by `configure_file`: with no sync at all, with the syncs that the program requests, and
with a sync of each output.

    bench/sync.py                       this checkout's program, in the system's temporary folder
    bench/sync.py --program PATH        another program
    bench/sync.py --folder FOLDER       in a folder of another disk
    bench/sync.py --headers N           with N headers
    bench/sync.py --rounds N            with N runs of each; the least and the middle time are shown

Each is measured into an empty folder, over old outputs with other bytes, and over old outputs with the same bytes, which stay. The library
of the tests (tests/harness/faults.c) is loaded before the program. It makes no sync, or one before each rename. It is loaded for all three,
so that its own cost is in each of them. Times are by the clock.
"""
import argparse
import os
import shutil
import statistics
import subprocess
import sys
import tempfile
import time

sys.dont_write_bytecode = True
sys.path.insert(0, os.path.dirname(os.path.dirname(os.path.realpath(__file__))))

import loads  # noqa: E402
from tests.harness.faults import faults_library  # noqa: E402

CHECKOUT = os.path.dirname(os.path.dirname(os.path.realpath(__file__)))
PROGRAM = os.path.join(CHECKOUT, "crates", "hawkottoman", "out", "hawkottoman")

# How the library changes the syncs of a run, by the name of the row.
WAYS = {"no sync": {"FAULTS_SYNC": "none"}, "as the program does": {}, "a sync of each output": {"FAULTS_SYNC": "all"}}

# What the build directory has before the run that is measured: the value that its outputs were made with, if it has some.
BEFORE = {"into an empty folder": None, "over outputs of other bytes": "old", "over outputs of the same bytes": "new"}


def setup(program: str, folder: str, value: str, env: dict) -> float:
    """Runs a setup whose headers have this value, and returns its seconds."""
    words = [program, "setup", f"-Dvalue={value}", "build"]
    start = time.perf_counter()
    done = subprocess.run(words, cwd=folder, env={**os.environ, **env}, capture_output=True, text=True)
    took = time.perf_counter() - start
    if done.returncode != 0:
        sys.exit(f"sync: {program} ended with status {done.returncode}: {done.stderr.strip()}")
    return took


def measured(program: str, folder: str, before: str | None, env: dict) -> float:
    """Returns the seconds of a run over what a run before has left, once the disk has written that."""
    shutil.rmtree(os.path.join(folder, "build"), ignore_errors=True)
    if before is not None:
        setup(program, folder, before, {})
    os.sync()
    return setup(program, folder, "new", env)


def show(program: str, folder: str, library: str, rounds: int) -> None:
    """Prints a line for each way over each build directory. The ways take turns, so that other work on the machine slows all of them."""
    for title, before in BEFORE.items():
        times: dict = {way: [] for way in WAYS}
        for _ in range(rounds):
            for way, env in WAYS.items():
                times[way].append(measured(program, folder, before, {"LD_PRELOAD": library, **env}))
        least = min(times["no sync"])
        print(title)
        for way, took in times.items():
            least_and_middle = f"least {min(took) * 1e3:8.1f} ms, middle {statistics.median(took) * 1e3:8.1f} ms"
            print(f"  {way:<24}{least_and_middle}, {min(took) / least:5.2f} times the least without a sync", flush=True)


def main() -> int:
    parser = argparse.ArgumentParser(description=__doc__, formatter_class=argparse.RawDescriptionHelpFormatter)
    parser.add_argument("--program", default=PROGRAM, help="measure this program in place of the checkout's")
    parser.add_argument("--folder", help="measure the disk that has this folder")
    parser.add_argument("--headers", type=int, default=300, help="how many headers are written")
    parser.add_argument("--rounds", type=int, default=7, help="how often each is run")
    words = parser.parse_args()
    program = os.path.abspath(words.program)
    if not os.access(program, os.X_OK):
        sys.exit(f"sync: there is no program {program}")
    with tempfile.TemporaryDirectory(dir=words.folder) as folder:
        loads.headers(folder, words.headers)
        show(program, folder, faults_library(tempfile.mkdtemp(dir=folder)), words.rounds)
    return 0


if __name__ == "__main__":
    sys.exit(main())
