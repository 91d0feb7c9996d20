"""Tests the replacements of slower parts of the standard library: the arguments of a command, and records. tests/scripts runs this too."""

import os
import subprocess
import sys

from tests.workshop import CHECKOUT, WORK, check
from tools import records
from tools.command_line import Parser
from tools.ending import Stop


def parsed(*words: str) -> dict[str, object] | str:
    """Returns what a command with some options gets from these words; or what is said of bad ones."""
    parser = Parser("meson x", "Does it.", 4)
    parser.add_folder()
    parser.add_argument("names", metavar="NAME", nargs="*", help="a name")
    parser.add_argument("-j", "--jobs", type=int, default=2, help="a number")
    parser.add_argument("-v", "--verbose", action="store_true", help="more")
    parser.add_argument("--suite", action="append", default=[], help="a suite")
    parser.add_argument("--no-suite", action="append", default=[], help="no suite")
    try:
        return vars(parser.parse_args(list(words)))
    except Stop as stop:
        return f"{stop.status} {stop.why}"


PLAIN = {"help": None, "folder": ".", "names": [], "jobs": 2, "verbose": False, "suite": [], "no_suite": []}
WORDS = {
    "": {}, "a -v b": {"names": ["a", "b"], "verbose": True}, "-j3": {"jobs": 3}, "-vj 3": {"jobs": 3, "verbose": True},
    "-vj3 -Cb": {"jobs": 3, "verbose": True, "folder": "b"}, "--jobs=3 a": {"jobs": 3, "names": ["a"]}, "--jo 3": {"jobs": 3},
    "--suite a --suite=b": {"suite": ["a", "b"]}, "-- -v --such": {"names": ["-v", "--such"]}, "-": {"names": ["-"]},
    "--no a": {"no_suite": ["a"]}}
BAD = {
    "--such": "4 unrecognized arguments: --such", "-x a": "4 unrecognized arguments: -x",
    "-j": "4 argument -j/--jobs: expected one argument", "-j x": "4 argument -j/--jobs: invalid int value: 'x'",
    "--verbose=1": "4 argument -v/--verbose: takes no value, and got '1'"}


def test_words() -> None:
    wrong = {text: got for text, wanted in WORDS.items() if (got := parsed(*text.split())) != {**PLAIN, **wanted}}
    check("words: good ones", not wrong, wrong)
    wrong = {text: got for text, wanted in BAD.items() if (got := parsed(*text.split())) != f"{wanted} (--help says more)"}
    check("words: bad ones are told in one line", not wrong, wrong)


@records.dataclass(eq=False)
class Base:
    start: int


@records.dataclass(eq=False)
class Derived(Base):
    name: str
    items: list[int] = records.field(default_factory=list)


@records.dataclass(frozen=True)
class Frozen:
    a: int
    b: str = "b"


def raises(kind: type[Exception], *values: object, **named: object) -> bool:
    try:
        Frozen(*values, **named)
    except kind:
        return True
    return False


def test_records() -> None:
    one, other = Derived(1, "n"), Derived(1, name="n", items=[2])
    check("records: fields, those of the class above first", (one.start, one.name, one.items, other.items) == (1, "n", [], [2]), one)
    one.items.append(1)
    check("records: a default of its own for each", Derived(1, "n").items == [] and one != Derived(1, "n"))
    check("records: equal ones", Frozen(1) == Frozen(1, "b") and hash(Frozen(1)) == hash(Frozen(1)) and Frozen(1) != Frozen(2))
    check("records: replace", records.replace(Frozen(1), b="c") == Frozen(1, "c") and repr(Frozen(1)) == "Frozen(a=1, b='b')")
    is_told = raises(TypeError) and raises(TypeError, 1, 2, 3) and raises(TypeError, 1, a=1) and raises(TypeError, 1, c=1)
    check("records: wrong values are refused", is_told)
    try:
        Frozen(1).a = 2
        check("records: a frozen one is not changed", False)
    except AttributeError:
        check("records: a frozen one is not changed", True)



# Makes a temporary folder with many files, and gets a signal while it is removed; then at each call of the system that begins a command.
REMOVES = """import os, signal, sys
sys.path.insert(0, sys.argv[1])
from tools.ending import run_script
from tools.scratch import ScratchFolder
def main():
    with ScratchFolder(sys.argv[2]) as folder:
        for number in range(20):
            open(os.path.join(folder, str(number)), "w").close()
        unlink, os.unlink = os.unlink, lambda *words, **how: (unlink(*words, **how), os.kill(os.getpid(), signal.SIGTERM))
    return 0
run_script("meson x", main, 1)
"""
WAITS = """import os, signal, sys
sys.path.insert(0, sys.argv[1])
from tools.ending import run_script
from tools.ninja import call
waitpid = os.waitpid
os.waitpid = lambda *words: (waitpid(*words), os.kill(os.getpid(), signal.SIGTERM))[0]
run_script("meson x", lambda: call(["true"]), 1)
"""


def test_signals() -> None:
    """A signal that comes while a folder is removed, or when a command has ended, changes nothing of how a script ends."""
    folder = os.path.join(WORK, "removed")
    os.mkdir(folder)
    for name, text in (("while a folder is removed", REMOVES), ("when a command has ended", WAITS)):
        done = subprocess.run([sys.executable, "-c", text, CHECKOUT, folder], capture_output=True, text=True, timeout=60)
        is_good = (done.returncode, done.stderr, os.listdir(folder)) == (130, "meson x: interrupted\n", [])
        check(f"a signal {name}", is_good, f"{done} {os.listdir(folder)}")


TESTS = (test_words, test_records, test_signals)
