"""Tests that the answers that `meson machine-file` keeps are used while nothing has changed, and only then. tests/machine_files runs these.

The tests count the commands that a run starts, which shows whether a check ran again.
"""
import json
import os
import shutil
import subprocess
import sys
from collections.abc import Callable

from tests.workshop import WORK, check, environment, put, read, run, words_of

PROJECT = """project('kept', 'c')
cc = meson.get_compiler('c')
cc.has_header('own.h')
cc.has_header('later.h')
cc.has_type('later_t', prefix: '#include <own.h>')
cc.sizeof('struct own', prefix: '#include <own.h>')
cc.find_library('own', required: false)
cc.find_library('later', required: false)
cc.has_function('own_function', args: '-lown')
cc.has_function('memcpy')
cc.has_function('later_function')
cc.has_argument('-Wall')
dependency('threads')
find_program('kept-tool', required: false)
"""
PACKAGES = "dependency('own', required: false)\ndependency('later', required: false)\n"
HAS_PACKAGES = shutil.which("pkg-config") is not None
PACKAGE = "Name: it\nDescription: it\nVersion: %s\nLibs: -l%s\nRequires: %s\n"


# Runs a script and records each command that it starts.
COUNTING = """import os, runpy, sys
sys.argv = sys.argv[1:]
sys.path.insert(0, os.path.dirname(os.path.dirname(os.path.realpath(sys.argv[0]))))
from tools.asking import processes
begin, log = processes.Command.begin, os.environ.pop('COUNTED')
def counted(command, *others):
    with open(log, 'a') as it:
        it.write(' '.join(command.words) + '\\n')
    return begin(command, *others)
processes.Command.begin = counted
runpy.run_path(sys.argv[0], run_name='__main__')
"""


def library(name: str, function: str) -> None:
    """Makes a library with one function."""
    source = put(f"kept/{name}.c", f"int {function}(void) {{ return 0; }}\n")
    subprocess.run(["cc", "-shared", "-fPIC", source, "-o", f"{WORK}/kept/lib/lib{name}.so"], check=True)


def variables() -> dict[str, str]:
    return {"CC": f"{WORK}/kept/other-cc", "CPPFLAGS": f"-I{WORK}/kept/first -I{WORK}/kept/second", "LDFLAGS": f"-L{WORK}/kept/lib",
            "PKG_CONFIG_PATH": f"{WORK}/kept/packages", "PATH": f"{WORK}/kept/bin:{os.environ['PATH']}"}


class Asked:
    """Holds the results of a run of `meson machine-file`, and how often it has called the compiler and the program."""

    def __init__(self, *words: str, env: dict[str, str] | None = None) -> None:
        log = put("kept/log", "")
        command = words_of(["meson", "machine-file", *words, "kept/project"])
        done = run([sys.executable, "-c", COUNTING, *command], {**variables(), "COUNTED": log, **(env or {})})
        is_question = lambda line: line.startswith(variables()["CC"]) and "--version" not in line and "-print-search-dirs" not in line
        self.calls = [it for it in read(log).splitlines() if is_question(it)]
        self.runs = sum(it.startswith("meson questions ") for it in read(log).splitlines())
        self.said, self.status = done.stderr, done.returncode
        self.lines = set(done.stdout.splitlines())


def begin() -> None:
    shutil.rmtree(f"{WORK}/kept", ignore_errors=True)
    shutil.rmtree(environment()["XDG_CACHE_HOME"], ignore_errors=True)
    put("kept/project/meson.build", PROJECT + PACKAGES * HAS_PACKAGES)
    put("kept/second/own.h", "#include <inner.h>\nstruct own { char a[5]; };\n")
    put("kept/second/inner.h", "\n")
    put("kept/packages/own.pc", PACKAGE % ("1.0", "own", "needed"))
    put("kept/packages/needed.pc", PACKAGE % ("1.0", "needed", ""))
    put("kept/other-cc", "#!/bin/sh\nexec cc \"$@\"\n", 0o755)
    os.makedirs(f"{WORK}/kept/first")
    os.makedirs(f"{WORK}/kept/lib")
    os.makedirs(f"{WORK}/kept/bin")
    library("own", "own_function")


def test_kept() -> None:
    begin()
    first = Asked()
    check("kept answers: the first run asks", first.status == 0 and first.said == "" and len(first.calls) > 5, first.said)
    second = Asked()
    check("kept answers: the second run asks nothing", second.calls == [], second.calls)
    check("kept answers: the second run says the same", second.lines == first.lines, second.lines ^ first.lines)
    check("kept answers: the second run runs the program once", second.runs == 1 < first.runs, f"{first.runs} {second.runs}")
    anew = Asked("--no-cache")
    check("kept answers: --no-cache asks again", len(anew.calls) > 5 and anew.lines == first.lines, anew.calls)
    alone = Asked("--alone")
    check("kept answers: of bundles and alone are one", alone.calls == [] and alone.lines == first.lines, alone.calls)
    other = Asked(env={"CPPFLAGS": "-DX " + variables()["CPPFLAGS"]})
    check("kept answers: other words are asked for", len(other.calls) > 5, other.calls)
    other = Asked(env={"CPATH": f"{WORK}/kept"})
    check("kept answers: with another environment it asks", len(other.calls) > 5, other.calls)


# A type that an old standard lacks, and a check that it decides about.
OF_STANDARD = """is_new = cc.has_type('new_t', prefix: '#if __STDC_VERSION__ >= 199901L\\ntypedef int new_t;\\n#endif')
cc.has_header(is_new ? 'stdio.h' : 'stdlib.h')
"""


def test_other_definitions() -> None:
    """The machine file that came last is no answer: what a project asks now counts, and the options that it has now."""
    begin()
    first, definitions = Asked(), PROJECT + PACKAGES * HAS_PACKAGES
    for name, text, wanted in (
            ("a question more", definitions + OF_STANDARD, {"has_type new_t = true", "has_header stdio.h = true"}),
            ("an older standard", definitions.replace("'c')", "'c', default_options: 'c_std=gnu89')", 1) + OF_STANDARD,
             {"has_type new_t = false", "has_header stdlib.h = true"})):
        put("kept/project/meson.build", text)
        other, anew = Asked(), Asked("--no-cache")
        is_good = wanted <= other.lines and other.lines == anew.lines
        check(f"kept answers: other definitions: {name}", is_good, f"{other.lines ^ anew.lines} {other.lines}")
    put("kept/project/meson.build", definitions)
    again = Asked()
    check("kept answers: the first definitions", again.lines == first.lines and again.calls == [], again.lines ^ first.lines)


# The changes on the machine, each with a line of the machine file after it.
CHANGES: dict[str, tuple[Callable[[], object], str]] = {
    "a header that was read": (lambda: put("kept/second/own.h", "struct own { char a[77]; };\n"), "sizeof struct own = 77"),
    "a header that a header reads": (lambda: put("kept/second/inner.h", "typedef int later_t;\n"), "has_type later_t = true"),
    "a header that was missing": (lambda: put("kept/first/later.h", ""), "has_header later.h = true"),
    "a header in front of one": (lambda: put("kept/first/own.h", "struct own { char a[99]; };\n"), "sizeof struct own = 99"),
    "a header in front of an inner one": (lambda: put("kept/first/inner.h", "typedef int later_t;\n"), "has_type later_t = true"),
    "a header that is gone": (lambda: os.remove(f"{WORK}/kept/second/own.h"), "has_header own.h = false"),
    "a library that was missing": (lambda: library("later", "later_function"), "find_library later = true"),
    "a library that is another": (lambda: library("own", "other_function_than_it_was"), "has_function own_function = false"),
    "a library that is gone": (lambda: os.remove(f"{WORK}/kept/lib/libown.so"), "find_library own = false"),
    "a package that was missing": (lambda: put("kept/packages/later.pc", PACKAGE % ("3.5", "later", "")), "version = '3.5'"),
    "a package that is another": (lambda: put("kept/packages/own.pc", PACKAGE % ("7.77", "own", "")), "version = '7.77'"),
    "a package that a package needs": (lambda: put("kept/packages/needed.pc", PACKAGE % ("1.0", "needed2", "")),
                                       "link_args = ['-lown', '-lneeded2']"),
    "a program that was missing": (lambda: put("kept/bin/kept-tool", "#!/bin/sh\n", 0o755), f"kept-tool = '{WORK}/kept/bin/kept-tool'"),
    "a compiler that is another": (lambda: put("kept/other-cc", "#!/bin/sh\nexec cc -Dlater_t=int \"$@\"\n", 0o755),
                                   "has_type later_t = true")}


def test_changes() -> None:
    for name, (change, line) in CHANGES.items():
        if "package" in name and not HAS_PACKAGES:
            print(f"scripts: kept answers: {name}: skipped: there is no pkg-config (Debian's package pkgconf has it)")
            continue
        begin()
        before = Asked()
        change()
        after = Asked()
        is_good = line in after.lines - before.lines and after.status == 0
        check(f"kept answers: {name}", is_good, f"{after.said} {after.lines ^ before.lines}")
        check(f"kept answers: {name}: kept again", Asked().calls == [])


def test_damage() -> None:
    """A file of answers that says nothing, or what it shouldn't, is made anew."""
    begin()
    first = Asked()
    path = os.path.join(environment()["XDG_CACHE_HOME"], "hawkottoman", "answers.json")
    outputs = os.path.join(os.path.dirname(path), "outputs")
    whole = read(path)
    form, names, stamps, lists, answers = json.loads(whole)
    for name, text in (("empty", ""), ("cut", whole[:len(whole) // 2]), ("no JSON", "\0" * 100), ("deep", "[" * 100000), ("other", "{}"),
                       ("no numbers", json.dumps([form, names, stamps, lists, {it: ["true", "x"] for it in answers}])),
                       ("no lists", json.dumps([form, names, stamps, [[10**9]], answers])),
                       ("another form", json.dumps([form + 1, names, stamps, lists, answers]))):
        put(path, text)
        shutil.rmtree(outputs)
        again = Asked()
        check(f"kept answers: damaged: {name}", again.lines == first.lines and again.status == 0 and again.said == "", again.said)
        check(f"kept answers: damaged: {name}: made anew", Asked().calls == [])
    os.remove(path)
    shutil.rmtree(outputs)
    other = put("kept/of another", "text")
    os.symlink(other, path)
    check("kept answers: a link is not followed", Asked().lines == first.lines and read(other) == "text")
    shutil.rmtree(os.path.dirname(path))
    put(os.path.dirname(path), "a file")
    check("kept answers: where nothing can be kept", Asked().lines == first.lines)
    check("kept answers: without a place", Asked(env={"XDG_CACHE_HOME": "relative", "HOME": ""}).lines == first.lines)
    os.remove(os.path.dirname(path))


def test_damaged_output() -> None:
    """A file of what was printed that says nothing, or what it shouldn't, isn't printed, and is made anew."""
    begin()
    first = Asked()
    folder = os.path.join(environment()["XDG_CACHE_HOME"], "hawkottoman", "outputs")
    path = os.path.join(folder, *os.listdir(folder))
    whole = read(path)
    key, asked, head, machine, origin = json.loads(whole)
    commands, programs, files, stamps = origin
    for name, text in (("empty", ""), ("cut", whole[:len(whole) // 2]), ("no JSON", "\0" * 100), ("deep", "[" * 100000), ("other", "{}"),
                       ("numbers", "[1, 2, 3, 4, 5]"), ("another key", json.dumps([key + "x", asked, "x", machine, origin])),
                       ("other questions", json.dumps([key, "x", "x", machine, origin])),
                       ("other commands",
                        json.dumps([key, asked, "x", machine, [[[it, "x"] for it, _ in commands], programs, files, stamps]])),
                       ("other programs", json.dumps([key, asked, "x", machine, [commands, {"sh": None}, files, stamps]])),
                       ("other files", json.dumps([key, asked, "x", machine, [commands, programs, {path: False}, stamps]])),
                       ("other stamps", json.dumps([key, asked, "x", machine, [commands, programs, files, {path: [1, 2]}]])),
                       ("no stamps", json.dumps([key, asked, "x", machine, [commands, programs, files, 1]]))):
        put(path, text)
        again = Asked()
        check(f"kept answers: a damaged output: {name}", again.lines == first.lines and again.status == 0 and again.said == "", again.said)
        check(f"kept answers: a damaged output: {name}: made anew", read(path) == whole, read(path))


TESTS = (test_kept, test_other_definitions, test_changes, test_damage, test_damaged_output)
