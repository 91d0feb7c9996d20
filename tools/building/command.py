"""Provides what `build-program` and `build-library` have in common."""
import argparse
import contextlib
import fcntl
import os
import pathlib
import signal
import subprocess
import sys
import time
from collections.abc import Callable, Iterator
from typing import NoReturn

from tools.building.build import GB, Build
from tools.building.crates import LIBRARIES, LIBRARY, PROGRAM, Crate, checked_below, crates_of
from tools.building.kit import Kit

# What is left to others, and what is taken at most unless another number is said.
OTHER_BYTES = GB
MOST_BYTES = 8 * GB

# The commands that go on from kept work. `rt run` ends with a run of the program, here for its help.
GOES_ON = {PROGRAM: ["rt", "run", "--jobs", "1", "--", "--help"], LIBRARY: ["rt", "lib", "--jobs", "1"]}


def free_bytes() -> int:
    for line in pathlib.Path("/proc/meminfo").read_text().splitlines():
        if line.startswith("MemAvailable:"):
            return int(line.split()[1]) << 10
    return 0


def has_kept_work(crates: dict[str, Crate]) -> bool:
    """Returns whether checks of this checkout have kept their work for each crate."""
    return all((it.folder / "out" / "incremental").is_dir() for it in crates.values())


def go_on(crate: Crate) -> bool:
    """Builds the program or the library over the work that checks have kept."""
    print(f"meson: proving what has changed since the last checks; the log is {crate.log}", file=sys.stderr)
    # It is no longer made from the libraries.
    crate.stamp.unlink(missing_ok=True)
    with open(crate.log, "wb") as log:
        done = subprocess.run(GOES_ON[crate.name], cwd=crate.folder, stdin=subprocess.DEVNULL, stdout=log, stderr=subprocess.STDOUT)
    return not done.returncode


@contextlib.contextmanager
def alone() -> Iterator[None]:
    """Waits while another build of this checkout runs."""
    with open(LIBRARIES / "lock", "w") as lock:
        try:
            fcntl.flock(lock, fcntl.LOCK_EX | fcntl.LOCK_NB)
        except BlockingIOError:
            print("meson: another build is at work here, and is waited for", file=sys.stderr, flush=True)
            fcntl.flock(lock, fcntl.LOCK_EX)
        yield


def build_all(root: str, jobs: int, room: int) -> int:
    """Builds what isn't built yet of the program or the library; the status of the command."""
    crates, start = crates_of(root), time.monotonic()
    below = checked_below(crates, root) if root == LIBRARY else {}
    build = Build(Kit(), crates, jobs, room, below)
    if root == LIBRARY and build.is_made(crates[root]):
        return 0
    if not below and has_kept_work(crates):
        failed = [] if go_on(crates[root]) else [root]
        if root == LIBRARY and not failed:
            crates[root].stamp.write_text(build.digest(root))
    elif len(build.proved) == len(crates):
        return 0
    else:
        crates[root].made.parent.mkdir(exist_ok=True)
        build.prove()
        failed = build.failed
    if failed:
        print(f"meson: {failed[0]} was not built; what was said is at the end of {crates[failed[0]].log}", file=sys.stderr)
        return 1
    print(f"meson: built in {(time.monotonic() - start) / 60:.0f} minutes", file=sys.stderr)
    return 0


def built(root: str, words: argparse.Namespace) -> int:
    """Builds the program or the library by so many processors and in so much memory as the words of a command say; its status."""
    LIBRARIES.mkdir(parents=True, exist_ok=True)
    with alone():
        return build_all(root, words.jobs, words.memory * GB)


def parser_of(name: str, text: str) -> argparse.ArgumentParser:
    """Returns a parser of the arguments of a command that builds."""
    parser = argparse.ArgumentParser(prog=name, description=text, formatter_class=argparse.RawDescriptionHelpFormatter)
    parser.add_argument("-j", "--jobs", type=above_zero, default=len(os.sched_getaffinity(0)),
                        help="use at most so many processors (default: all, here %(default)s)")
    parser.add_argument("-m", "--memory", type=above_zero, default=max(1, min(MOST_BYTES, free_bytes() - OTHER_BYTES) // GB), metavar="GB",
                        help="take about so much memory (default: the free memory less 1 GB, at most 8 GB; here %(default)s)")
    return parser


def above_zero(word: str) -> int:
    if int(word) < 1:
        raise argparse.ArgumentTypeError("takes a number above 0")
    return int(word)


def exit_with(main: Callable[[], int]) -> NoReturn:
    """Ends with the status of a command, whose checks end with it if a signal comes."""
    signal.signal(signal.SIGTERM, lambda *_: sys.exit(128 + signal.SIGTERM))
    try:
        sys.exit(main())
    except KeyboardInterrupt:
        sys.exit(130)
