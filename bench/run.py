#!/usr/bin/env python3
"""Measures groups of loads: time and memory, and how the time of one item or byte grows with their number.

    bench/run.py                    all groups
    bench/run.py values options     these groups
    bench/run.py --rounds 1 ..      with fewer runs of each load
    bench/run.py --program PATH ..  with another program for whole runs than this checkout's

The table GROUPS says what is measured, and loads.py makes the loads. The exit status is 0 if each judged figure is within its bound.
"""
import argparse
import collections.abc
import dataclasses
import os
import shutil
import sys
import tempfile
import typing

sys.dont_write_bytecode = True

import in_python  # noqa: E402
import loads  # noqa: E402
from built import built  # noqa: E402
from needed_calls import needed_calls  # noqa: E402
from running import Ran, others, ran  # noqa: E402

CHECKOUT = os.path.dirname(os.path.dirname(os.path.realpath(__file__)))

# The program of whole runs, which './meson' builds, and that of calls of the libraries, which `rt run` in crates/bench builds.
MESON = os.path.join(CHECKOUT, "crates", "hawkottoman", "out", "hawkottoman")
CALLS = os.path.join(CHECKOUT, "crates", "bench", "out", "bench")

# The folders of the builds of ours and of the limit, and the list of the limit's calls, all in the folder of a load.
BUILD, LIMIT_BUILD, LIMIT_CALLS = "build", "limit", "calls"


@dataclasses.dataclass
class Load:
    """Describes a load in several sizes, from small to great, or of two kinds. Without a generator a size is the count that a call is
    given."""

    name: str
    sizes: tuple
    make: loads.Maker | None = None
    # The most that the time of one at the last size may be over that at the first, and the most bytes of memory for one; None: not judged.
    growth: float | None = 2.0
    memory: float | None = None
    # The most seconds of one at the last size, and the most bytes of memory of a whole run; None: not judged.
    seconds: float | None = None
    peak: float | None = None
    # The most that the memory of one at the last size may be over that at the first; None: not judged.
    memory_growth: float | None = None
    # The name of a command to compare with, and the greatest allowed ratio of our time to its time; None: not judged.
    over: tuple[str, float] | None = None


Command = collections.abc.Callable[[Load, typing.Any], list[str]]
Commands = collections.abc.Callable[[Load, typing.Any], dict[str, list[str]]]


@dataclasses.dataclass
class Group:
    """Holds the loads of one command. The time of a run is that of its calls if the program prints it, else the processor's."""

    says: str
    one: str
    command: Command
    loads: list[Load]
    rounds: int = 5
    is_told: bool = False
    # Other commands on the same load, by name, how often they are run (None: as often as ours), and the files that must be the same
    # after ours and theirs.
    beside: Commands = lambda load, size: {}
    beside_rounds: int | None = None
    alike: tuple[str, ...] = ()
    # Folders that are taken away before each run.
    anew: tuple[str, ...] = ()


def calls(group: str) -> Command:
    return lambda load, size: [CALLS, f"{group}:{load.name}:{size}"]


def setup(load: Load, size: typing.Any) -> list[str]:
    return [MESON, "setup", BUILD]


def replace_names(load: Load, size: typing.Any) -> list[str]:
    return [CALLS, "template:t.in:" + ",".join(f"{name}={value}" for name, value in loads.NAMES.items())]


def replace_names_otherwise(load: Load, size: typing.Any) -> dict[str, list[str]]:
    """Returns the commands that do the same by `sed` and by Python."""
    sed = ";".join(f"s/@{name}@/{value}/g" for name, value in loads.NAMES.items())
    python = (
        "import re; names = %r; text = open('t.in').read(); "
        "open('t.python', 'w').write(re.sub('@([-A-Za-z0-9_]+)@', lambda m: names[m.group(1)], text))" % loads.NAMES
    )
    return {"sed": ["sed", "-n", f"{sed};w t.sed", "t.in"], "python": [sys.executable, "-c", python]}


def setup_hostile(load: Load, size: typing.Any) -> list[str]:
    machine = ["--native-file", "machine.ini"] if load.name == "sections" else []
    return [*setup(load, size), *machine]


def setup_otherwise(load: Load, size: typing.Any) -> dict[str, list[str]]:
    return {name: [path, "setup", f"build-{name}"] for name, path in others().items()}


def setup_for_120_seconds(load: Load, size: typing.Any) -> dict[str, list[str]]:
    """Returns the commands that do the same, but end with status 124 after 120 seconds."""
    return {name: ["timeout", "120", *command] for name, command in setup_otherwise(load, size).items()}


def setup_sources_otherwise(load: Load, size: typing.Any) -> dict[str, list[str]]:
    """Returns the same without chains of libraries: thousands of these take the other programs too long to wait for."""
    return {} if load.name in ("chain", "ladder") else setup_otherwise(load, size)


# What a load of the group `limits` is compared with, and the greatest allowed ratio of our time to its time.
BESIDE_LIMIT = ("limit", 3.0)
BESIDE_PYTHON = ("python", 1.0)


def what_limits(load: Load, size: typing.Any) -> dict[str, list[str]]:
    """Returns the limit of a project, or Python on the same statements."""
    if load.over == BESIDE_LIMIT:
        return {"limit": [built("limit"), LIMIT_CALLS]}
    return {"python": [sys.executable, "-I", "-S", in_python.SCRIPT]} if load.over == BESIDE_PYTHON else {}


def limited(name: str, size: int, make: loads.Maker, peak: float | None = None) -> Load:
    """Returns a load that is compared with the limit. A run before the measured ones shows its outputs."""

    def make_and_list(folder: str, count: int) -> int:
        items = make(folder, count)
        ran([MESON, "setup", BUILD], folder, False)
        loads.write(folder, LIMIT_CALLS, needed_calls(folder, BUILD, LIMIT_BUILD))
        return items

    return Load(name, (size,), make_and_list, peak=peak, over=BESIDE_LIMIT)


def spoken(name: str, size: int, make: loads.Maker) -> Load:
    """Returns a load of statements that are compared with the same in Python."""
    return Load(name, (size,), make, over=BESIDE_PYTHON)


def tenfold(name: str, size: int, make: loads.Maker) -> Load:
    """Returns a load at a tenth of a size and at the whole. Time and memory may grow with an exponent of 1.1: 10^0.1 times as much for
    one."""
    return Load(name, (size // 10, size), make, growth=10**0.1, memory_growth=10**0.1)


GROUPS = {
    "run": Group(
        "whole runs, compared with other programs: the smallest project, and large ones of each kind", "one", setup,
        [
            Load("smallest", (0,), loads.assignments, growth=None),
            tenfold("programs", 20_000, loads.programs_in_folders),
            tenfold("folders", 2_000, loads.folders),
            tenfold("custom_targets", 5_000, loads.custom_targets),
            tenfold("ladder", 960, loads.ladder),
            tenfold("template", 10_000_000, loads.configured),
            tenfold("rounds", 60_000, loads.rounds),
            tenfold("growing_list", 60_000, loads.growing_list),
            tenfold("growing_dictionary", 60_000, loads.growing_dictionary),
        ],
        rounds=3, beside=setup_for_120_seconds,
    ),
    "first_path": Group(
        "whole runs: the smallest project, and so many assignments before its program", "an assignment",
        setup,
        [
            Load("smallest", (0,), loads.assignments, growth=None),
            Load("assignments", (50_000, 200_000), loads.assignments, growth=1.25),
        ],
        beside=setup_otherwise, beside_rounds=1,
    ),
    "language": Group(
        "whole runs: rounds of ten operations, values that grow by +=, folders", "one", setup,
        [
            Load("rounds", (6_000, 60_000), loads.rounds, growth=1.26, seconds=2e-6, peak=20 * 2**20),
            Load("growing_list", (6_000, 60_000), loads.growing_list, growth=1.26),
            Load("growing_text", (6_000, 60_000), loads.growing_text, growth=1.26),
            Load("growing_dictionary", (6_000, 60_000), loads.growing_dictionary, growth=1.26),
            Load("assignments", (20_000, 200_000), loads.assignments, growth=1.26),
            Load("folders", (409, 4_096), loads.folders, growth=1.26),
        ],
        beside=setup_otherwise, beside_rounds=1,
    ),
    "project": Group(
        "whole runs: projects of many sources, libraries and custom targets", "one", setup,
        [
            tenfold("programs", 20_000, loads.programs),
            tenfold("one_program", 8_000, loads.one_program),
            tenfold("chain", 4_000, loads.chain),
            tenfold("ladder", 4_000, loads.ladder),
            tenfold("custom_targets", 5_000, loads.custom_targets),
        ],
        rounds=3, beside=setup_sources_otherwise, beside_rounds=1,
    ),
    "limits": Group(
        "whole runs: projects compared with the system calls that they need, statements compared with the same in Python", "one", setup,
        [
            limited("programs", 20_000, loads.programs_with_arguments),
            limited("one_program", 8_000, loads.one_program, peak=18 * 2**20),
            limited("chain", 960, loads.chain),
            limited("ladder", 960, loads.ladder),
            limited("folders", 2_000, loads.folders_of_programs),
            limited("custom_targets", 5_000, loads.custom_targets),
            limited("one_input", 5_000, loads.one_input),
            spoken("rounds", 60_000, in_python.rounds),
            spoken("growing_list", 60_000, in_python.growing_list),
            spoken("growing_dictionary", 60_000, in_python.growing_dictionary),
            spoken("growing_table", 60_000, in_python.growing_table),
            spoken("growing_text", 60_000, in_python.growing_text),
            spoken("additions", 600_000, in_python.additions),
            spoken("assignments", 200_000, in_python.assignments),
            Load("bare_names", (4_000_000,), loads.bare_names, memory=70),
        ],
        beside=what_limits, anew=(BUILD, LIMIT_BUILD),
    ),
    "hostile": Group(
        "whole runs: tables whose keys collide in a hash that is quick", "a key", setup_hostile,
        [
            Load("names", ("plain", "colliding"), loads.hostile_names),
            Load("dictionary", ("plain", "colliding"), loads.hostile_dictionary),
            Load("options", ("plain", "colliding"), loads.hostile_options),
            Load("sections", ("plain", "colliding"), loads.hostile_sections),
            Load("outputs", ("plain", "colliding"), loads.hostile_outputs),
            Load("paths", ("plain", "colliding"), loads.hostile_paths),
        ],
    ),
    "syntax": Group(
        "definition files parsed", "a byte", lambda load, size: [CALLS, "syntax:statements:source.build"],
        [
            Load("statements", (1_000_000, 4_000_000, 16_000_000), loads.statements, growth=1.5, memory=60),
            Load("sums", (1_000_000, 4_000_000, 16_000_000), loads.sums, growth=1.5, memory=60),
            Load("lists", (1_000_000, 4_000_000, 16_000_000), loads.lists, growth=1.5, memory=60),
            Load("chains", (1_000_000, 4_000_000, 16_000_000), loads.chains, growth=1.5, memory=60),
            Load("dense_statements", (1_000_000, 16_000_000), loads.dense_statements, growth=None),
            Load("dense_lists", (1_000_000, 16_000_000), loads.dense_lists, growth=None),
        ],
    ),
    "values": Group(
        "operations on values", "one", calls("values"),
        [
            *(Load(name, (6_000, 60_000))
              for name in ("append", "characters", "entries", "replaced", "lookups", "format", "unused", "join")),
            Load("double", (1_048_576, 16_777_216)),
        ],
        rounds=7, is_told=True,
    ),
    "options": Group(
        "calls on options and machine files", "one", calls("options"),
        [
            *(Load(name, (1_000, 10_000)) for name in ("declare", "words", "places", "get", "at", "choices", "sections", "keys")),
            # A thousand sections lie in the processor's cache and ten thousand don't, so these are compared with more.
            Load("answers", (10_000, 100_000)),
        ],
        rounds=25, is_told=True,
    ),
    "template": Group(
        "a template with a name for each 50 bytes", "a byte", replace_names, [Load("names", (1_000_000, 10_000_000), loads.template)],
        beside=replace_names_otherwise, alike=("t.in.out", "t.sed", "t.python"),
    ),
}


def shown_time(seconds: float) -> str:
    for unit, scale in (("s", 1), ("ms", 1e3), ("us", 1e6)):
        if seconds * scale >= 1:
            return f"{seconds * scale:8.2f} {unit:<2}"
    return f"{seconds * 1e9:8.1f} ns"


def shown_size(size: int | str) -> str:
    return size if isinstance(size, str) else f"{size:,}"


def least_runs(group: Group, commands: dict[str, list[str]], folder: str, rounds: int) -> dict[str, Ran]:
    """Returns the least run of each command; the commands take turns. If one of the others fails, that is said once, and is no failure
    of ours."""
    best: dict[str, Ran] = {}
    left_out: set[str] = set()
    for number in range(rounds):
        for name, command in commands.items():
            is_ours = name == "ours"
            if name in left_out or not is_ours and group.beside_rounds is not None and number >= group.beside_rounds:
                continue
            for it in group.anew:
                shutil.rmtree(os.path.join(folder, it), ignore_errors=True)
            try:
                one = ran(command, folder, group.is_told and is_ours)
            except RuntimeError as error:
                if is_ours:
                    raise
                print(f"  ({name} is left out: {str(error)[:120]})")
                left_out.add(name)
                continue
            best[name] = best[name].least(one) if name in best else one
    return best


def measured(group: Group, load: Load, size: typing.Any, rounds: int) -> tuple[int, dict[str, Ran]]:
    """Returns how many items a load of this size has, and the least runs of ours and of the others, by their names."""
    with tempfile.TemporaryDirectory() as folder:
        count = load.make(folder, size) if load.make else size
        best = least_runs(group, {"ours": group.command(load, size), **group.beside(load, size)}, folder, rounds)
        texts = [open(os.path.join(folder, it), "rb").read() for it in group.alike]
        if texts and any(it != texts[0] for it in texts):
            raise RuntimeError(f"the files {', '.join(group.alike)} differ")
    ours = best["ours"]
    each = f" {shown_time(ours.seconds() / count)} each" if count else ""
    memory = "" if group.is_told else f" {ours.peak / 2**20:9.1f} MiB"
    print(f"  {load.name:<19}{shown_size(size):>11} {shown_time(ours.seconds())}{each}{memory}   {ours.printed}".rstrip(), flush=True)
    for name, other in best.items():
        if name != "ours":
            ratio = other.wall / ours.wall
            clock = f"{shown_time(other.wall)} by the clock, {ratio:.1f} times ours"
            processor = f"{shown_time(other.processor)} of the processor, {other.processor / max(ours.processor, 1e-4):.2f} times"
            print(f"  {'by ' + name:<30} {clock}, {processor} {other.peak / 2**20:9.1f} MiB", flush=True)
    return count, best


def is_within(load: Load, what: str, figure: float, most: float | None, shown: collections.abc.Callable[[float], str]) -> bool:
    """Says a figure of a load with its bound, and answers whether it is within it."""
    bound = "not judged" if most is None else f"at most {shown(most).strip()}"
    print(f"  {load.name:<19}{what}: {shown(figure).strip()} ({bound})", flush=True)
    return most is None or figure <= most


def shown_times(times: float) -> str:
    return f"{times:.2f}"


def judged(group: Group, load: Load, rounds: int) -> bool:
    """Measures a load in its sizes, and answers whether its figures are within their bounds."""
    runs = [measured(group, load, size, rounds) for size in load.sizes]
    (few, first), (many, last) = [(count, best["ours"]) for count, best in (runs[0], runs[-1])]
    small, great = shown_size(load.sizes[0]), shown_size(load.sizes[-1])
    good = []
    if len(runs) > 1:
        growth = last.seconds() / many / (first.seconds() / few)
        good.append(is_within(load, f"{group.one} at {great} over {group.one} at {small}", growth, load.growth, shown_times))
    if load.memory_growth is not None:
        growth = last.peak / many / (first.peak / few)
        good.append(is_within(load, "the same of memory", growth, load.memory_growth, shown_times))
    if load.over is not None:
        name, most = load.over
        if name not in runs[-1][1]:
            raise RuntimeError(f"there is no time of {name}")
        ratio = last.processor / runs[-1][1][name].processor
        good.append(is_within(load, f"time of ours over that of {name}", ratio, most, shown_times))
    if load.memory is not None:
        most_memory = max(best["ours"].peak / count for count, best in runs)
        good.append(is_within(load, f"most memory for {group.one}", most_memory, load.memory, lambda it: f"{it:.1f} bytes"))
    if load.seconds is not None:
        good.append(is_within(load, f"time of {group.one} at {great}", last.seconds() / many, load.seconds, shown_time))
    if load.peak is not None:
        good.append(is_within(load, "memory of the whole run", last.peak, load.peak, lambda it: f"{it / 2**20:.1f} MiB"))
    if not all(good):
        print(f"  {load.name:<19}IS OVER ITS BOUND", flush=True)
    return all(good)


def main() -> int:
    global MESON
    parser = argparse.ArgumentParser(description=__doc__, formatter_class=argparse.RawDescriptionHelpFormatter)
    parser.add_argument("groups", nargs="*", metavar="GROUP", help=", ".join(GROUPS))
    parser.add_argument("--rounds", type=int, help="how often each load is run")
    parser.add_argument("--program", default=MESON, help="measure whole runs of this program, not of the checkout's")
    words = parser.parse_args()
    MESON = os.path.abspath(words.program)
    for name in words.groups:
        if name not in GROUPS:
            parser.error(f"there is no group {name}; there are {', '.join(GROUPS)}")
    is_good = True
    for name in words.groups or GROUPS:
        group = GROUPS[name]
        program = group.command(group.loads[0], 1)[0]
        if not os.access(program, os.X_OK):
            way = "./meson --help" if program == MESON else "cd crates/bench && rt run -- options:words:20"
            sys.exit(f"there is no program {program}: {way}")
        print(f"{name}: {group.says}", flush=True)
        for load in group.loads:
            try:
                is_good = judged(group, load, words.rounds or group.rounds) and is_good
            except RuntimeError as error:
                print(f"  {load.name:<19}FAILED: {error}")
                is_good = False
    print("all within their bounds" if is_good else "not all are within their bounds")
    return 0 if is_good else 1


if __name__ == "__main__":
    sys.exit(main())
