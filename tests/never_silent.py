"""Tests that the command `meson` reports what is wrong, or does its work again, so that nothing goes wrong silently. tests/scripts runs
this after commands.py, in the same copy of the checkout."""
import os
import pty
import re
import shutil
import signal
import subprocess
import sys
import time

from tests.attacks import is_running
from tests.commands import MESON, NOTHING_ASKED, meson, taken, with_tools
from tests.workshop import (CHECKOUT, COMMAND, WORK, check, configured, environment, only_on_path, over, put, read, refuses, run, shell,
                            wait_until)
from tools.explaining.devices import is_full

ASKED = '{"section":"%s","key":%s,"answer":%s,"file":"meson.build","line":%d,"beside":{}}'
SOURCES = os.path.join(os.path.realpath(WORK), "silent")


def ask(*questions: tuple[str, str, str, int]) -> None:
    """Writes the questions of a run: of each the section, the key and the answer as JSON, and the line."""
    put("asked", "".join(ASKED % it + "\n" for it in questions))
    put("questions", f"cat {WORK}/asked; return 0\n")


def fresh(text: str = "", **parts: object) -> None:
    """Writes sources and what the program writes of them."""
    for name in ("template", "silent"):
        shutil.rmtree(f"{WORK}/{name}", ignore_errors=True)
    configured("template", **parts)
    put("template/build.ninja", "build all: phony\n")
    put("silent/meson.build", "project('p', 'c')\n" + text)
    put("questions", NOTHING_ASKED)


def says(name: str, lines: list[str], *words: str, status: int = 0) -> None:
    """Checks that a setup prints these lines on the standard error, and no others."""
    done = meson("setup", *words, "b", cwd=SOURCES)
    check(f"meson setup: {name}", (done.returncode, done.stderr.splitlines()) == (status, lines), f"{done}")


def test_open_questions() -> None:
    fresh()
    put("silent/n.ini", "# not found: program doxygen\n# not found: dependency gone\n[checks]\nhas_function fsnc = true\n")
    put("silent/own.py", "")
    null = [("checks", f'"has_function f{number}"', "null", number) for number in range(2, 9)]
    ask(("built-in options", '"prefix"', "null", 1), ("binaries", '"c"', "null", 1), *null, null[0])
    first = [f"  meson.build:{number}: has_function f{number}" for number in range(2, 7)]
    to_answer = "  to answer: `meson machine-file > native.ini`, then `meson setup --native-file native.ini b`"
    lines = ['meson: 7 questions have no answer, and count as "no":', *first, "  and 2 more: `meson questions` lists all", to_answer]
    says("lists five questions without an answer, and the number of the rest", lines)
    says("--strict is status 1", lines, "--strict", status=1)
    says("lists them again", lines)
    ask(("checks", '"has_function fsync"', "null", 4), ("dependency gone", "null", "null", 5), ("binaries", '"doxygen"', "null", 6),
        ("binaries", '"own.py"', "null", 7), ("checks", '"sizeof int"', "4", 8))
    says("a name that is misspelt in the machine file, and nothing of what is known to be absent", [
        'meson: 1 question has no answer, and counts as "no":',
        "  meson.build:4: has_function fsync (line 4 of the machine file answers 'has_function fsnc')",
        "  to answer: `meson machine-file --check n.ini` says what this machine answers"], "--native-file", "n.ini")
    ask(("dependency zlib", "null", "null", 3), ("host_machine", '"cpu"', "null", 4), ("binaries", '"awk\\"x"', "null", 5))
    says("dependencies, machines and programs", [
        'meson: 3 questions have no answer, and count as "no":', "  meson.build:3: dependency zlib", "  meson.build:4: host_machine cpu",
        "  meson.build:5: program awk\"x", to_answer])
    ask(("checks", '"sizeof int"', "4", 8))
    says("nothing where all is answered", [], "--strict")
    done = meson("setup", "-D", "--strict", "b", cwd=SOURCES)
    check("meson setup: --strict that is a value", done.stdout == "program setup -D --strict b\n", f"{done}")
    done = meson("setup", "--", "--strict", cwd=SOURCES)
    check("meson setup: --strict that is a folder", done.stdout == "program setup -- --strict\n", f"{done}")
    put("questions", NOTHING_ASKED)


NOTED = """include_directories('there', 'absent')
include_directories(
    'made',
    'absent too')
test('a', exe, is_parallel: false)
test('b', exe, is_parallel: false, suite: ['x', 'serial'], workdir: meson.current_source_dir())
custom_target('c', output: 'c', command: 'c', depends: exe)
test('d', exe,
    depends: exe)
"""


def test_check_of_machine_file() -> None:
    """`machine-file --check FILE` says what would change, and writes nothing."""
    fresh()
    tool = put("bin/tool-y", "#!/bin/sh\n", 0o755)
    put("asked", "".join(ASKED % it + "\n" for it in (("binaries", '"tool-y"', "null", 2), ("checks", '"has_type int"', "null", 3))))
    put("questions", f"cat {WORK}/asked\n{NOTHING_ASKED}")
    env = {**with_tools(), "PATH": f"{WORK}/tools:{os.path.dirname(tool)}:{os.environ['PATH']}"}
    text = run([MESON, "machine-file"], env, cwd=SOURCES).stdout

    def answers(name: str, file: str, lines: list[str]) -> None:
        path = put("silent/n.ini", file)
        before = os.stat(path).st_mtime_ns
        done = run([MESON, "machine-file", "--check", "n.ini"], env, cwd=SOURCES)
        wanted = (1, lines) if lines else (0, ["n.ini: nothing would change"])
        is_good = (done.returncode, done.stdout.splitlines()) == wanted and done.stderr == "" and os.stat(path).st_mtime_ns == before
        check(f"meson machine-file --check: {name}", is_good, f"{done}")

    answers("nothing", text, [])
    answers("a program of another path", text.replace(tool, "/usr/bin/tool-y"),
            [f"[binaries] tool-y: '/usr/bin/tool-y', and this machine answers '{tool}'"])
    answers("a check that has changed", text.replace("has_type int = true", "has_type int = false"),
            ["[checks] has_type int: false, and this machine answers true"])
    answers("a check whose name is misspelt", text.replace("has_type int", "has_tpye int"),
            ["[checks] has_type int: nothing, and this machine answers true"])
    os.remove(tool)
    answers("a program that is gone", text, ["[binaries] tool-y: is in the file, and this machine has none"])
    refuses("--check of no file", [MESON, "machine-file", "--check", "absent.ini"], 1, "absent.ini: No such file", env=env, cwd=SOURCES)
    put("questions", NOTHING_ASKED)


def test_notes() -> None:
    fresh(NOTED, buildoptions=[{"name": "known", "type": "string", "value": ""}])
    put("silent/meson.build", "project('p', 'c', default_options: ['known=1', 'unknwon=2'])\n" + NOTED)
    put("silent/there/x", "")
    put("template/made/x", "")
    before = "  meson.build:"
    says("what has no effect", [
        "meson: to look at:", f"{before}1: default_options: there is no option 'unknwon', so it has no effect",
        f"{before}2: the include folder 'absent' is not there", f"{before}5: the include folder 'absent too' is not there",
        f"{before}6: `is_parallel: false` has no effect; a test of `suite: 'serial'` runs alone",
        f"{before}7: `workdir:` has no effect: tests run in the build folder; `meson port` writes `env -C`",
        "  and 1 more"])


def test_configured_again() -> None:
    """`test`, `install` and `introspect` see what was edited since the last setup."""
    fresh(tests=[shell("before", ":")])
    meson("setup", "b", cwd=SOURCES)
    configured("template", tests=[shell("after", ":")])
    taken("configured")
    for command, words, wanted in (("test", ["-C", "b"], "after"), ("install", ["-C", "b", "--destdir", "d"], ""),
                                   ("introspect", ["b", "--tests"], '"name": "after"')):
        done = meson(command, *words, cwd=SOURCES)
        again = taken("configured")
        is_good = done.returncode == 0 and wanted in done.stdout and again == f"{SOURCES} setup b\n"
        check(f"meson {command}: configures again", is_good and done.stderr == "", f"{again} {done}")
    check("meson introspect: prints nothing else", done.stdout.startswith("[{"), done.stdout)
    os.utime(f"{SOURCES}/meson.build", (time.time() + 5,) * 2)
    for command, words, status in (("test", ["-C", "b"], 126), ("install", ["-C", "b", "--destdir", "d"], 1), ("introspect", ["b"], 1)):
        done = meson(command, *words, "--no-rebuild", cwd=SOURCES)
        said = f"meson {command}: meson.build has changed since b was configured; without --no-rebuild that is done first\n"
        is_told = done.stderr == said
        check(f"meson {command}: --no-rebuild refuses an old configuration", done.returncode == status and is_told, f"{done}")
    refuses("a dry run of an old configuration", [MESON, "install", "-C", "b", "-n"], 1, "; without --dry-run that is done first",
            env=with_tools(), cwd=SOURCES)
    os.utime(f"{SOURCES}/meson.build", (time.time() - 3600,) * 2)
    done = meson("test", "-C", "b", "--no-rebuild", cwd=SOURCES)
    check("meson test: --no-rebuild takes one that is not old", done.returncode == 0 and taken("configured") == "", f"{done}")
    put("instead", "exit 1")
    for command, words, status in (("test", ["-C", "b"], 125), ("install", ["-C", "b"], 1), ("introspect", ["b"], 1)):
        done = meson(command, *words, cwd=SOURCES)
        is_told = f"meson {command}: `meson setup` ended with status 1, so " in done.stderr
        check(f"meson {command}: where setup fails", done.returncode == status and is_told, f"{done}")
    os.remove(f"{WORK}/instead")


def members(path: str) -> list[str]:
    return run(["ar", "t", path]).stdout.split() if os.path.exists(f"{WORK}/{path}") else []


ARCHIVE = "rule ar\n command = ar csr lib.a $in\nbuild sub/lib.a: ar %s\nbuild a$ b.a: ar one.o\n"


def test_archives() -> None:
    """An archive that has lost a member is made again; others stay."""
    fresh()
    long_name = "a_name_of_more_than_fifteen_letters.o"
    put("template/build.ninja", ARCHIVE % f"one.o two.o x/{long_name}")
    meson("setup", "b", cwd=SOURCES)
    os.makedirs(f"{SOURCES}/b/x")
    for name in ("one.o", "two.o", f"x/{long_name}"):
        put(f"silent/b/{name}", name)
    os.makedirs(f"{SOURCES}/b/sub", exist_ok=True)
    make = lambda: run(["ar", "csr", "sub/lib.a", "one.o", "two.o", f"x/{long_name}"], cwd=f"{SOURCES}/b")
    make()
    run(["ar", "csr", "a b.a", "one.o"], cwd=f"{SOURCES}/b")
    time.sleep(0.02)
    put("template/build.ninja", ARCHIVE % f"x/{long_name} one.o two.o" + "\n")
    meson("compile", "-C", "b", cwd=SOURCES)
    check("archives: one that has its members stays", members("silent/b/sub/lib.a") == ["one.o", "two.o", long_name])
    for left in (f"one.o x/{long_name}", "one.o two.o"):
        make()
        time.sleep(0.02)
        put("template/build.ninja", ARCHIVE % left)
        done = meson("compile", "-C", "b", cwd=SOURCES)
        is_gone = not os.path.exists(f"{SOURCES}/b/sub/lib.a") and members("silent/b/a b.a") == ["one.o"]
        check(f"archives: one that has lost a member is removed: {left}", is_gone and done.returncode == 0, f"{done}")
    put("outside/lib.a", "kept")
    os.rmdir(f"{SOURCES}/b/sub")
    os.symlink(f"{WORK}/outside", f"{SOURCES}/b/sub")
    time.sleep(0.02)
    put("template/build.ninja", ARCHIVE % "one.o" + "\n")
    done = run([MESON, "setup", "b"], with_tools(), cwd=SOURCES)
    is_told = "sub/lib.a: has a link on its way that leads " in done.stderr and done.returncode == 0
    check("archives: none is removed outside of BUILDDIR", is_told and read("outside/lib.a") == "kept", f"{done}")


def test_another_meson() -> None:
    fresh()
    put("silent/b/meson-private/coredata.dat", "")
    taken("configured")
    refuses("a build folder of another Meson", [MESON, "setup", "b"], 2, "b: is a build folder of another Meson", env=with_tools(),
            cwd=SOURCES)
    left = [sorted(os.listdir(f"{SOURCES}/{it}")) for it in ("b", "b/meson-private")]
    check("meson setup: a build folder of another Meson: writes nothing", left == [["meson-private"], ["coredata.dat"]] and
          taken("configured") == "", left)


def test_beside() -> None:
    """The files that go with a build directory, and none of them through a link."""
    fresh()
    done = meson("setup", "b", cwd=SOURCES)
    text = read("silent/b/.gitignore")
    check("meson setup: .gitignore", done.returncode == 0 and text.endswith("\n*\n"), text)
    shutil.rmtree(f"{SOURCES}/b")
    put("outside/kept", "kept")
    os.makedirs(f"{SOURCES}/b/meson-private")
    for name in (".gitignore", "compile_commands.json", "meson-private/words"):
        os.symlink(f"{WORK}/outside/{'kept' if 'words' in name else 'new'}", f"{SOURCES}/b/{name}")
    meson("setup", "b", cwd=SOURCES)
    left = os.listdir(f"{WORK}/outside")
    is_kept = set(left) - {"lib.a"} == {"kept"} and read("outside/kept") == "kept"
    check("meson setup: writes through no link", is_kept and not os.path.islink(f"{SOURCES}/b/meson-private/words"), left)
    shutil.rmtree(f"{SOURCES}/b")
    os.makedirs(f"{SOURCES}/b/meson-private/words")
    done = meson("setup", "b", cwd=SOURCES)
    check("meson setup: a folder in the place of the words", done.returncode == 2 and "can't have the arguments" in done.stderr, f"{done}")
    shutil.rmtree(f"{SOURCES}/b")


def test_benchmarks() -> None:
    """Tests of the suite `benchmark` run where they, or a suite of theirs, are named."""
    configured("s", tests=[shell("t", "echo t >>log"), shell("b", "echo b >>log", ("x", "benchmark")), shell("u", "echo u >>log", ("x",))])
    for words, wanted in (((), "tu"), (("--suite", "benchmark"), "b"), (("--suite", "x"), "bu"), (("b",), "b"), (("b", "t"), "bt")):
        put("s/log", "")
        done = run(over("test", "s", "--no-rebuild", "-j1", *words))
        got = "".join(sorted(read("s/log").split()))
        check(f"meson test: benchmarks: {' '.join(words) or 'nothing named'}", done.returncode == 0 and got == wanted, f"{got} {done}")
    os.remove(f"{WORK}/s/log")


def test_serial() -> None:
    """Tests of the suite `serial` run alone, after the others."""
    step = "echo begin >>log; sleep 0.2; echo end >>log"
    configured("s", tests=[shell("s1", step, ("serial",)), shell("p1", "sleep 0.5; echo p >>log"), shell("s2", step, ("x", "serial")),
                           shell("p2", "sleep 0.5; echo p >>log")])
    done = run(over("test", "s", "--no-rebuild", "-j", "8"))
    is_good = done.returncode == 0 and read("s/log").split() == ["p", "p", "begin", "end", "begin", "end"]
    check("meson test: the suite serial runs alone, after the others", is_good, f"{read('s/log')} {done}")
    os.remove(f"{WORK}/s/log")
    done = run(over("test", "s", "--no-rebuild", "p1", "--repeat", "3"))
    check("meson test: --repeat", done.returncode == 0 and read("s/log").split() == ["p"] * 3 and "3/3 p1" in done.stdout, f"{done}")
    configured("s", tests=[shell("t", "echo \"$0 $A\"", env=["A=b"])])
    done = run(over("test", "s", "--no-rebuild", "-v", "--wrap", "env A='c d'"))
    check("meson test: --wrap and -v", done.returncode == 0 and "\nsh c d\n" in done.stdout, f"{done}")
    gdb = put("bin/gdb", '#!/bin/sh\necho "gdb $*" >gdb-words\n', 0o755)
    done = run(over("test", "s", "--no-rebuild", "--gdb"), {"PATH": f"{os.path.dirname(gdb)}:{os.environ['PATH']}"})
    check("meson test: --gdb", done.returncode == 0 and read("s/gdb-words").startswith("gdb --args sh -c echo"), f"{done}")
    refuses("no rounds", over("test", "s", "--repeat", "0"), 126, "--repeat takes a number above 0")
    done = run(over("test", "s", "--no-rebuild", "--wrap", "/no/such/wrapper -x"))
    check("meson test: a wrapper that is not there", done.returncode == 1 and "/no/such/wrapper: No such file" in done.stdout, f"{done}")
    refuses("no gdb", over("test", "s", "--no-rebuild", "--gdb"), 126, "there is no gdb on PATH", env={"PATH": only_on_path(*COMMAND)})


def test_told_places() -> None:
    """A path where `-C` is wanted."""
    configured("s", tests=[shell("t", ":")])
    for command, status in (("test", 126), ("compile", 1), ("install", 2)):
        refuses("a folder in the place of -C", [MESON, command, "s"], status, f"did you mean `meson {command} -C s`?", env=with_tools())
    refuses("a word that is no folder", ["meson", "install", "there"], 2, "unrecognized arguments: there (")
    configured("s/in", tests=[shell("t", ":")])
    refuses("a folder that is no test, in a configured one", ["meson", "test", "in"], 126, "did you mean `meson test -C in`?",
            cwd=f"{WORK}/s")
    refuses("a folder in the place of -C, in a configured one", ["meson", "install", "in"], 2, "did you mean `meson install -C in`?",
            cwd=f"{WORK}/s")


def test_compile_commands() -> None:
    """They are written where they have changed, and only whole."""
    fresh()
    place, printed = f"{SOURCES}/b/compile_commands.json", "echo '[]'"
    ninja = put("bin/compdb", f'#!/bin/sh\ntest "$1" = -t || exit 0\n. {WORK}/compdb\n', 0o755)
    setup = lambda: run([MESON, "setup", "b"], {**with_tools(), "NINJA": ninja}, cwd=SOURCES)
    put("compdb", printed)
    setup()
    check("compile_commands.json: is written", read(place) == "[]\n")
    os.utime(place, (10**9, 10**9))
    put("template/build.ninja", "build all: phony\n\n")
    setup()
    check("compile_commands.json: stays where it is the same", os.stat(place).st_mtime == 10**9)
    for number, (text, wanted) in enumerate((("echo '[1]'", "[1]\n"), ("echo '['; exit 1", "[1]\n"))):
        put("compdb", text)
        put("template/build.ninja", "build all: phony\n" + "\n" * (number + 2))
        done = setup()
        left = [it for it in os.listdir(f"{SOURCES}/b") if it.startswith("compile_commands.json.")]
        check(f"compile_commands.json: {text}", read(place) == wanted and not left and done.stderr == "", f"{read(place)} {left} {done}")
    os.remove(place)
    os.mkdir(place)
    put("template/build.ninja", "build all: phony\n" * 2)
    done = setup()
    left = [it for it in os.listdir(f"{SOURCES}/b") if it.startswith("compile_commands.json.")]
    check("compile_commands.json: a folder in its place", done.returncode == 0 and not left and not os.listdir(place), f"{left} {done}")


COMMAND_LINE = "rule c_link\n command = $COMMAND\nbuild p: c_link\n COMMAND = %s\n"


def test_long_commands() -> None:
    """The report names a command that the system refuses, and no command that it accepts."""
    for name, command, is_told in (("131,071 bytes", "a" * 131071, False), ("131,072 bytes", "a" * 131072, True),
                                   ("131,071 bytes with dollars", "$$" * 131071, False), ("letters of two bytes", "ä" * 65536, True)):
        fresh()
        put("template/build.ninja", COMMAND_LINE % command)
        done = meson("setup", "b", cwd=SOURCES)
        is_said = "meson: p: its command has 131072 bytes, and the system" in done.stderr
        is_good = done.stderr.count("\n") == is_told and is_said == is_told
        check(f"meson setup: a command of {name}", is_good and done.returncode == 0, done.stderr[:300])


def test_own_faults() -> None:
    """A refusal by the command itself is printed once, and is no fault that `explain` could explain."""
    fresh()
    put("template/build.ninja", "build meson-logs: phony\n")
    refuses("a target of a name that is the command's own", [MESON, "setup", "b"], 1, "a target would be meson-logs, which this command",
            env=with_tools(), cwd=SOURCES)
    fresh()


def test_dear_sources() -> None:
    """Sources that make an explanation dear: it is given up, and `setup` ends all the same."""
    lines = ["import sys, tools.explaining.brief as it, tools.commands.advise as advise, tools.time_limit", "def endless(*words):",
             "    while True: pass", "it.brief, tools.time_limit.SECONDS, sys.argv = endless, 0.2, ['advise', 'program', '1', 'b']",
             "advise.main()"]
    done = run([sys.executable, "-B", "-c", "\n".join(lines)], {"PYTHONPATH": CHECKOUT})
    wanted = "meson: it takes too long to say here what the fault is about\nmeson: more: meson explain b\n"
    check("meson setup: an explanation that is dear", (done.returncode, done.stderr) == (0, wanted), f"{done}")


def test_device_faults() -> None:
    """After status 2: which file it is, and the system's reason, in one line."""
    fresh("executable('p', 'a.c')\n")
    put("instead", "echo 'meson: device fault' >&2; exit 2")
    put("questions", "echo 'meson: device fault' >&2; return 2\n")
    lines = lambda text: ["meson: device fault", f"meson: {text}"]
    put("silent/b", "")
    says("a file in the place of BUILDDIR", lines("b: Not a directory"), status=2)
    os.remove(f"{SOURCES}/b")
    os.symlink(WORK, f"{SOURCES}/b")
    says("a link in the place of BUILDDIR", lines("b: is a link, and no link is followed on the way to an output"), status=2)
    os.remove(f"{SOURCES}/b")
    os.mkfifo(f"{SOURCES}/a.c")
    says("a source that is a pipe", lines("a.c: is no file, but a pipe, a socket or a device"), status=2)
    os.remove(f"{SOURCES}/a.c")
    put("silent/native.ini", "")
    near = "nativ.ini: the machine file: No such file or directory; did you mean native.ini?"
    says("a machine file whose name is misspelt", lines(near), "--native-file", "nativ.ini", status=2)
    way = "of/this: the machine file: No such file or directory; `meson machine-file > of/this` makes one"
    says("a machine file in a folder that is not there", lines(way), "--native-file", "of/this", status=2)
    is_good = is_full(WORK, [1, 1 << 62]) and not is_full(WORK, [1]) and not is_full(WORK, [])
    check("meson setup: a disk without room for an output", is_good)
    os.remove(f"{WORK}/instead")
    fresh()


def test_bad_words() -> None:
    """After status 4: what is right in the place of words of the real Meson."""
    fresh()
    put("instead", "echo device fault >&2; exit 2")
    says("a machine file that is a folder", ["device fault", "meson: .: the machine file: Is a directory"], "--native-file", ".", status=2)
    put("instead", "echo 'error: bad' >&2; exit 4")
    for words, said in {
            "--reconfigure": "a second setup of a folder configures it again: leave --reconfigure out",
            "--wipe": "nothing in a build directory is needed again: remove the folder first, as `rm -r b`",
            "--wrap-mode=nofallback": "there are no subprojects: leave --wrap-mode out",
            "--localstatedir=/var": "only a project that has such an option takes it, as -Dlocalstatedir=..: leave --localstatedir out",
            "--prefix=/usr": "the option is -Dprefix=/usr; `meson configure b` takes --prefix too",
            "--buildtype release": "the option is -Dbuildtype=release; `meson configure b` takes --buildtype too",
            "--cross-file x": "cross builds are left out; the machine file of this machine is --native-file"}.items():
        says(f"{words} gets a tip", ["error: bad", f"meson: {said}"], *words.split(), status=4)
    for folder in ("/abs/b", "../b", "."):
        done = meson("setup", folder, cwd=SOURCES)
        wanted = "error: bad\nmeson: run setup in the folder of the sources, and name a folder below it: `meson setup build`\n"
        check(f"meson setup: {folder} gets a tip", done.stderr == wanted, f"{done}")
    one = "setup takes one folder, that of the build: run it in the folder of the sources, as `meson setup build`"
    says("two folders", ["error: bad", f"meson: {one}"], "a", status=4)
    os.remove(f"{WORK}/instead")


def test_streams_of_setup() -> None:
    """A machine file that is a pipe is read once, and an output that can't be written is reported in one line."""
    fresh()
    wanted = (2, "meson: the standard output can't be written\n")
    for words in ("--version", "setup --help"):
        for stream in ("/dev/full", "&-"):
            done = run(["sh", "-c", f"{MESON} {words} >{stream}"], cwd=SOURCES)
            check(f"meson {words} >{stream}", (done.returncode, done.stderr) == wanted, f"{done}")
    ask(("checks", '"has_function f"', "null", 2))
    line = "meson: the machine file was /dev/stdin, which can't be read again, so what has no answer isn't listed\n"
    put("silent/n.ini", "[checks]\n")
    for name, words in (("is a pipe", 'cat n.ini | "$0" setup {} --native-file /dev/stdin b'),
                        ("comes through a redirection", '"$0" setup {} --native-file=/dev/stdin b <n.ini')):
        for strict, status in (("", 0), ("--strict", 1)):
            done = run(["sh", "-c", words.format(strict), MESON], cwd=SOURCES)
            check(f"meson setup {strict}: a machine file that {name}", (done.returncode, done.stderr) == (status, line), f"{done}")
    taken("configured")
    told = "b: its machine file was /dev/stdin, which can't be read again: run `meson setup` again, with a file"
    for command, words, status in (("compile", ["-C", "b"], 1), ("test", ["-C", "b"], 125), ("install", ["-C", "b"], 1),
                                   ("introspect", ["b"], 1)):
        done = meson(command, *words, cwd=SOURCES, stdin=subprocess.DEVNULL)
        is_told = done.returncode == status and f": {told}\n" in done.stderr and done.stderr.count("\n") <= 2
        check(f"meson {command}: a machine file that was a pipe", is_told and taken("configured") == "", f"{done}")
    put("questions", NOTHING_ASKED)
    done = meson("configure", "b", "-Dprefix=/usr", cwd=SOURCES, stdin=subprocess.DEVNULL)
    is_good = done.returncode == 0 and done.stdout == "program setup -Dprefix=/usr --native-file b/meson-private/machine.ini -- b\n"
    check("meson configure: a machine file that was a pipe is made anew", is_good, f"{done}")


def test_names_of_its_own() -> None:
    """A target at the place of a file that the commands keep is reported before anything is built, and again each time."""
    fresh()
    put("template/build.ninja", "build sub/x meson-logs: custom ../a\n COMMAND = x\nbuild compile_commands.json: phony\n")
    for round_number in (1, 2):
        says(f"names that the command keeps for itself, round {round_number}", [
            f"meson: a target would be {name}, which this command keeps for itself: give it another name"
            for name in ("meson-logs", "compile_commands.json")], status=1)
        check("meson setup: and keeps no words", not os.path.exists(f"{SOURCES}/b/meson-private/words"))


def test_configure_that_is_ended() -> None:
    """A compiler that hangs is ended with `configure`, and no folder is left."""
    fresh()
    scratch = os.path.join(WORK, "scratch of configure")
    os.makedirs(scratch)
    hangs = put("hangs", "#!/bin/sh\n[ $1 != --version ] || exit 0\necho $$ >>$TMPDIR/pids; exec sleep 300\n", 0o755)
    # The queries of the compiler itself run without a sandbox, in a folder of the script's own.
    env = environment({**with_tools(), "CC": hangs, "TMPDIR": scratch})
    process = subprocess.Popen([MESON, "configure", "b"], cwd=SOURCES, env=env, stdout=subprocess.PIPE, stderr=subprocess.PIPE, text=True)
    pids = os.path.join(scratch, "pids")
    has_begun = wait_until(lambda: os.path.exists(pids) and read(pids).endswith("\n"), 120)
    process.send_signal(signal.SIGTERM)
    errors = process.communicate(timeout=200)[1]
    is_told = has_begun and (process.returncode, errors) == (130, "meson configure: interrupted\n")
    check("meson configure: interrupted", is_told, f"{process.returncode} {errors}")
    running = [int(it) for it in read(pids).split() if is_running(int(it))]
    check("meson configure: interrupted: ends the compiler", not running, running)
    os.remove(pids)
    check("meson configure: interrupted: leaves nothing", os.listdir(scratch) == [], os.listdir(scratch))


def test_configure() -> None:
    """`configure`: a machine file and a setup in one, then other options."""
    fresh(buildoptions=[{"name": "prefix", "type": "string", "value": "/usr"}, {"name": "mode", "type": "combo", "value": "b"}])
    put("silent/meson.build", "project('p', 'c', default_options: ['mode=b'])\n")
    put("silent/meson.options", "option('mode', type: 'combo', choices: ['a', 'b'], value: 'a', description: 'Which way')\n")
    path = "b/meson-private/machine.ini"
    done = meson("configure", "b", "--prefix=/usr", "--wrap-mode=nodownload", cwd=SOURCES)
    is_told = done.stderr == "meson configure: note: --wrap-mode has no effect here: there are no subprojects\n"
    words = f"program setup -Dprefix=/usr --native-file {path} -- b\n"
    is_made = "[compiler]\n" in read(f"silent/{path}") and os.path.exists(f"{SOURCES}/b/build.ninja")
    is_good = (done.returncode, done.stdout) == (0, words) and is_told and is_made
    check("meson configure: makes the machine file, and sets up", is_good, f"{done}")
    before = os.stat(f"{SOURCES}/{path}").st_mtime_ns
    done = meson("configure", "silent/b", "-Dmode=b", "--prefix", "/opt")
    words = f"program setup -Dprefix=/opt -Dmode=b --native-file {path} -- b\n".replace("-Dprefix=/opt -Dmode=b", "-Dmode=b -Dprefix=/opt")
    is_kept = os.stat(f"{SOURCES}/{path}").st_mtime_ns == before
    check("meson configure: changes what was given before", (done.returncode, done.stdout) == (0, words) and is_kept, f"{done}")
    done = meson("configure", cwd=f"{SOURCES}/b")
    rows = [line.split() for line in done.stdout.splitlines()]
    wanted = [["prefix", "/usr", "/usr/local", "command", "line", "where", "files", "are", "installed"],
              ["mode", "b", "a", "a", "b", "command", "line", "Which", "way"]]
    check("meson configure: a table of all options", done.returncode == 0 and rows[1:3] == wanted, f"{done}")
    kept = read("silent/meson.options")
    for name, text, dropped in (("a file that can't be read", "option(", False), ("no such option any more", "", True)):
        put("silent/meson.options", text)
        done = meson("configure", "silent/b", "--prefix", "/opt")
        is_told = done.stderr == "meson configure: note: -Dmode=b of an earlier setup is left out: there is no such option now\n" * dropped
        is_good = done.returncode == 0 and ("-Dmode=b" in done.stdout) != dropped and is_told
        check(f"meson configure: options of an earlier setup: {name}", is_good, f"{done}")
    put("silent/meson.options", kept)
    put("silent/n.ini", "[project options]\nmode = 'b'\n")
    done = meson("configure", "c", "--native-file", "n.ini", cwd=SOURCES)
    is_mine = done.stdout == "program setup --native-file n.ini -- c\n" and not os.path.exists(f"{SOURCES}/c/meson-private/machine.ini")
    rows = [line.split() for line in meson("configure", "c", cwd=SOURCES).stdout.splitlines()]
    check("meson configure: a machine file of one's own", is_mine and rows[2][5:7] == ["machine", "file"], f"{done} {rows}")
    os.remove(f"{SOURCES}/n.ini")
    done = meson("configure", "c", cwd=SOURCES)
    check("meson configure: the table without that file", done.returncode == 0 and "\nmode" in done.stdout, f"{done}")
    with open(f"{CHECKOUT}/docs/REFERENCE.md", encoding="utf-8") as it:
        listed = it.read().partition("\n| Option |")[2].partition("\n\n")[0].splitlines()[2:]
    names = {name for line in listed for name in re.findall(r"`(\w+)`", line.split("|")[1])}
    asks = "from tools.option_table import BUILT_IN; print(*BUILT_IN)"
    known = run([sys.executable, "-B", "-c", asks], {"PYTHONPATH": CHECKOUT}).stdout.split()
    check("meson configure: the options of docs/REFERENCE.md", names == set(known) and len(known) == 17, names ^ set(known))
    put("instead", "exit 1")
    done = meson("configure", "d", cwd=SOURCES)
    check("meson configure: a setup that fails leaves no folder", done.returncode == 1 and not os.path.exists(f"{SOURCES}/d"), f"{done}")
    os.remove(f"{WORK}/instead")


OF_MESON = {
    "--buildtype=release": "-Dbuildtype=release", "--libdir lib64": "-Dlibdir=lib64",
    "--default-library=static": "-Ddefault_library=static", "--auto-features=enabled": "-Dauto_features=enabled",
    "--warnlevel=3": "-Dwarning_level=3", "--werror": "-Dwerror=true",
    "--debug": "-Ddebug=true", "--wrap-mode=nofallback": "", "--localstatedir=/var": "", "--reconfigure": "", "--wipe": "",
    "--sbindir=sbin": "", "--backend=ninja": "", "--fatal-meson-warnings": ""}


def test_words_of_meson() -> None:
    """Arguments of the real Meson are options here, or have no effect and are said to have none."""
    fresh()
    put("silent/n.ini", "")
    wrong = {}
    for words, wanted in OF_MESON.items():
        done = meson("configure", "b", "--native-file=n.ini", *words.split(), cwd=SOURCES)
        shutil.rmtree(f"{SOURCES}/b")
        note = f"meson configure: note: {words.split('=')[0]} has no effect here: "
        is_told = done.stderr == "" if wanted else done.stderr.startswith(note) and done.stderr.count("\n") == 1
        is_good = done.stdout == f"program setup {wanted + ' ' * bool(wanted)}--native-file n.ini -- b\n" and done.returncode == 0
        wrong |= {} if is_told and is_good else {words: done}
    check("meson configure: arguments of the real Meson", not wrong, wrong)


def test_refreshed() -> None:
    """`configure` asks the machine again, keeps what was filled in by hand, and changes no compiler and no flags unasked."""
    fresh()
    put("silent/meson.options", "option('x', type: 'string')\n")
    path = "silent/b/meson-private/machine.ini"
    put("asked", ASKED % ("binaries", '"tool-x"', "null", 3) + "\n")
    put("questions", f"cat {WORK}/asked\n{NOTHING_ASKED}")
    configure = lambda *words, **env: run([MESON, "configure", "b", *words], {**with_tools(), **env}, cwd=SOURCES)
    configure()
    text = read(path)
    check("meson configure: what is not found", "\n# not found: program tool-x\n" in text, text)
    tool = put("bin/tool-x", "#!/bin/sh\n", 0o755)
    found = {"PATH": f"{WORK}/tools:{os.path.dirname(tool)}:{os.environ['PATH']}"}
    done = configure("-Dx=1", **found)
    check("meson configure: finds what was installed since", f"\ntool-x = '{tool}'\n" in read(path) and done.returncode == 0, read(path))
    odd = ASKED % ("checks", '"has_function odd"', "null", 4)
    put("asked", odd.replace('"beside":{}', '"beside":{"args":["-fplugin=odd.so"]}') + "\n")
    configure("-Dx=1")
    check("meson configure: what can't be answered", "\n# TO FILL IN: meson.build:4: has_function odd: " in read(path), read(path))
    put(path, read(path) + "\n[checks]\nhas_function odd = true\nhas_function gone = true\n")
    done = configure("-Dx=2")
    is_kept = read(path).endswith("\n[checks]\nhas_function odd = true\n")
    check("meson configure: what was filled in by hand stays", done.returncode == 0 and is_kept, f"{read(path)} {done}")
    put("questions", NOTHING_ASKED)
    flags = {"CC": "gcc", "CFLAGS": "-DA='a b'"}
    configure("-Dx=3", **flags)
    text = read(path)
    check("meson configure: another compiler that is asked for", "\nc = ['gcc']\n" in text and "c_args = ['-DA=a b']" in text, text)
    for env, told in (({}, "CC=gcc"), ({"CC": "gcc"}, "CFLAGS=\"-DA='a b'\""), ({"CFLAGS": "-O1"}, "CC=gcc")):
        done = configure("-Dx=4", **env)
        is_told = done.stderr.startswith("meson configure: b/meson-private/machine.ini was made with ") and done.stderr.count("\n") == 1
        is_good = done.returncode == 1 and is_told and read(path) == text and done.stdout == ""
        check(f"meson configure: no other compiler and flags unasked: {env}", is_good, f"{done} {read(path)}")
    check("meson configure: with the same flags", configure("-Dx=4", **flags).returncode == 0 and read(path) == text)


def test_moved_words() -> None:
    """Words that name no absolute source directory are not those of a setup here, but came with the sources."""
    fresh()
    put("silent/b/meson-private/words", "words-1\0\n.\0\n--native-file\0\nevil.ini\0\nb\0\n")
    put("silent/evil.ini", "")
    for words in (["compile", "-C", "b"], ["configure", "b", "-Dx=1"]):
        refuses("words with a relative folder", [MESON, *words], 1, "doesn't have the arguments of a `meson setup`", env=with_tools(),
                cwd=SOURCES)


def test_configure_that_refuses() -> None:
    fresh()
    put("silent/b/meson-private/coredata.dat", "")
    put("silent/sub/meson.build", "")
    made = sorted(os.listdir(SOURCES))
    for name, words, status, text in (
            ("another Meson's folder", ["b"], 2, "b: is a build folder of another Meson"),
            ("a folder of sources", ["sub"], 2, "holds a meson.build"),
            ("an absolute folder", ["/tmp/b"], 4, "/tmp/b: is no configured folder"),
            ("the present folder", [], 4, "name a folder below it"),
            ("a bad word", ["b", "--such"], 4, "--such")):
        refuses(name, [MESON, "configure", *words], status, text, env=with_tools(), cwd=SOURCES)
    put("silent/old/meson-info/introspect.json", "{}")
    refuses("a folder whose arguments are not saved", [MESON, "configure", "old", "-Dx=1"], 1, "old: has no arguments of a `meson setup`",
            env=with_tools(), cwd=SOURCES)
    shutil.rmtree(f"{SOURCES}/old")
    refuses("no sources", [MESON, "configure", "x"], 1, "there is no meson.build here; did you mean to run from ..?", env=with_tools(),
            cwd=f"{SOURCES}/b")
    check("meson configure: writes nothing where it refuses", sorted(os.listdir(SOURCES)) == made, os.listdir(SOURCES))
    os.makedirs(f"{WORK}/outside", exist_ok=True)
    os.symlink(f"{WORK}/outside", f"{SOURCES}/link")
    before = sorted(os.listdir(f"{WORK}/outside"))
    refuses("a folder that is a link", [MESON, "configure", "link"], 1, "has a link on its way", env=with_tools(), cwd=SOURCES)
    check("meson configure: a folder that is a link: nothing is written", sorted(os.listdir(f"{WORK}/outside")) == before)


def on_terminal(*words: str) -> str:
    """Returns what a command prints if its output is a terminal."""
    master, slave = pty.openpty()
    process = subprocess.Popen([MESON, *words], cwd=SOURCES, env=environment(with_tools()), stdout=slave, stderr=subprocess.DEVNULL)
    os.close(slave)
    process.wait(60)
    shown = os.read(master, 4096).decode()
    os.close(master)
    return shown


def test_summary() -> None:
    """One line on a terminal, and none in a file."""
    fresh(tests=[shell("t", ":")], installed={"/a": "/b", "/c": "/d"})
    shown = on_terminal("setup", "b")
    line = "p 1: 0 targets, 1 test, 2 files to install; next: meson compile -C b\r\n"
    check("meson setup: a summary on a terminal", line in shown, shown)
    ask(("checks", '"has_function f"', "null", 2))
    shown = on_terminal("setup", "--strict", "b")
    check("meson setup: none where it ends with 1", "next: " not in shown and "program setup" in shown, shown)
    put("questions", NOTHING_ASKED)
    check("meson setup: none in a file", meson("setup", "b", cwd=SOURCES).stdout == "program setup b\n")
    fresh()


TESTS = (test_open_questions, test_check_of_machine_file, test_notes, test_configured_again, test_archives, test_another_meson,
         test_beside, test_benchmarks, test_serial, test_told_places, test_compile_commands, test_long_commands, test_own_faults,
         test_dear_sources, test_device_faults, test_bad_words, test_streams_of_setup, test_names_of_its_own, test_configure_that_is_ended,
         test_configure, test_words_of_meson, test_refreshed, test_moved_words, test_configure_that_refuses, test_summary)
