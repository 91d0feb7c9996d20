"""Tests the command `meson` itself and the scripts that call it; tests/scripts runs this too. The tests use a copy of the checkout with
three crates. A toolchain that makes a program of a few lines is in place of the real one, and a Ninja records its arguments."""
import json
import os
import pty
import re
import shutil
import subprocess
import sys
import time
import types
from collections.abc import Callable

from tests.workshop import (CHECKOUT, COMMAND, WORK, check, configured, document, environment, only_on_path, over, put, read, refuses, run,
                            shell, shows_help, wait_until, words_of)
from tools.explaining.devices import unwritable
from tools.setup_arguments import build_folder_of

COPY = os.path.join(WORK, "checkout")
MESON = os.path.join(COPY, "meson")
# It prints its arguments, runs the file `instead` if there is one, and writes the text of `template`. The file `questions` has its
# questions, and the file `told` what it prints of a fault.
PROGRAM = f"""#!/bin/sh
if test "$1" = questions; then . {WORK}/questions; exit; fi
if test "$1" = fault && test -f {WORK}/told; then . {WORK}/told; exit; fi
echo "program $*"
if test -f {WORK}/instead; then . {WORK}/instead; fi
for last; do :; done
case $* in
*--help*) ;;
setup*) echo "$PWD" "$@" >>{WORK}/configured; mkdir -p "$last" && cp -r {WORK}/template/. "$last" ;;
esac
"""
# Of a project without questions: prints the options in use if a run queries them.
NOTHING_ASKED = """test "$(tail -n 1 meson.build | cut -c 1-5)" != meson || for it in 1 2; do
echo '{"section":"checks","key":"sizeof in use","answer":null,"file":"meson.build","line":2,"beside":{"prefix":["none"],"args":[]}}'
done
"""
NINJA = f"""#!/bin/sh
test ! -f {WORK}/ninja-fails || exit 1
test "$1 $2" != "-t compdb" || exit
while test $# -gt 0; do
    case $1 in
    -f) cat "$2" >>{WORK}/asked-of-ninja ; shift ;;
    wanted*) ;;
    *) echo "$1" >>{WORK}/asked-of-ninja ;;
    esac
    shift
done
"""
# Of the toolchain: the prover, which prints the crate's name and makes a library or code; the linker; and `rt`.
RATTLE = f"""#!/bin/sh
for last; do :; done
echo "$(basename "$PWD") build" >>{WORK}/proved
echo "$*" >{WORK}/words-of-check
test ! -f {WORK}/broken || exit 1
if test -f {WORK}/slow; then echo $$ >{WORK}/at-work; exec sleep 60; fi
case $last in *.rlib) mkdir -p "$last" ;; *.a) cp {WORK}/library.a "$last" ;; *) : >"$last" ;; esac
"""
LINK = f"""#!/bin/sh
cp {WORK}/program out/hawkottoman
"""
RT = f"""#!/bin/sh
if test "$1" = version; then cat {WORK}/kit/version; exit; fi
echo "$(basename "$PWD") $1" >>{WORK}/proved
mkdir -p out; cp {WORK}/program out/hawkottoman
"""
FURTHER = ["configure", "explain", "compile", "test", "install", "introspect", "machine-file", "self-install"]


def with_tools() -> dict[str, str]:
    return {"PATH": f"{WORK}/tools:{os.environ['PATH']}", "NINJA": f"{WORK}/tools/ninja"}


def meson(*words: str, cwd: str = WORK, **how: object) -> subprocess.CompletedProcess:
    return run([MESON, *words], with_tools(), cwd, **how)


def taken(name: str) -> str:
    """Returns the text of a file of WORK, which is removed."""
    if not os.path.exists(f"{WORK}/{name}"):
        return ""
    text = read(name)
    os.remove(f"{WORK}/{name}")
    return text


# The program's tests use `devices`, and the program does not.
CRATES = """\
# NAME: DEP
low: std

# Tests: devices.
devices: low

# Run.
hawkottoman: low devices

# Tests: others.
low_tests: low devices
"""


def make_copy() -> None:
    os.makedirs(f"{COPY}/docs")
    shutil.copy(os.path.join(CHECKOUT, "meson"), COPY)
    shutil.copy(os.path.join(CHECKOUT, "docs/hawkottoman-meson.1"), f"{COPY}/docs")
    shutil.copytree(os.path.join(CHECKOUT, "tools"), f"{COPY}/tools", ignore=shutil.ignore_patterns("__pycache__", "port"))
    for crate in ("low", "devices", "hawkottoman", "low_tests"):
        put(f"checkout/crates/{crate}/src/lib.rt", "")
    put("checkout/crates.txt", CRATES)
    put("program", PROGRAM, 0o755)
    put("tools/ninja", NINJA, 0o755)
    for name, text in (("rattle", RATTLE), ("rattle-link", LINK), ("rt", RT)):
        put(f"kit/bin/{name}", text, 0o755)
    put("kit/version", "a kit\n")
    os.symlink("../kit/bin/rt", f"{WORK}/tools/rt")
    target = {"build_by_default": True, "defined_in": "meson.build", "installed": False}
    configured("template", tests=[shell("t", ":")], targets=[
        {**target, "filename": ["sub/run"], "name": "run", "type": "executable", "defined_in": "sub/meson.build"},
        {**target, "filename": ["libx.so.1"], "name": "x", "type": "shared library"},
        {**target, "filename": ["libx.a"], "name": "x", "type": "static library"},
        {**target, "filename": ["a.c", "a.h"], "name": "files of a", "type": "custom"}])
    put("template/build.ninja", "build libx.so: symlink libx.so.1\n")
    os.makedirs(f"{WORK}/sources")


def test_without_the_program() -> None:
    """The scripts that don't need it, where it can't be built."""
    make_copy()
    configured("plain", tests=[shell("t", ":")])
    put("plain/build.ninja", "")
    env = {"NINJA": f"{WORK}/tools/ninja"}
    for words in (over("test", "plain"), over("install", "plain"), ["meson", "introspect", "plain"],
                  ["meson", "machine-file", "--ask", "has_type int"]):
        done = run([MESON, *words[1:]], env)
        check(f"meson {words[1]}: without the program", done.returncode == 0 and done.stderr == "", f"{done}")
    path = only_on_path(*COMMAND, "awk", "cut", "find", "cat")
    done = run([MESON, "setup", "b"], {"PATH": path})
    check("meson setup: no rt", done.returncode == 127 and "there is no command 'rt'" in done.stderr, f"{done}")
    check("meson --version", (run([MESON, "--version"], {"PATH": path}).stdout) == "Hawkottoman 0.1\n")
    taken("asked-of-ninja")


def test_building() -> None:
    def built(name: str, wanted: list[str]) -> str:
        taken("proved")
        done = meson("setup", "b", cwd=f"{WORK}/sources")
        got = taken("proved").splitlines()
        is_good = sorted(got) == sorted(wanted) and got[-1:] == wanted[-1:] and done.returncode == 0
        check(f"meson setup: {name}", is_good and done.stdout == "program setup b\n", f"{got} {done}")
        return done.stderr

    def touch(name: str, seconds: float) -> None:
        os.utime(os.path.join(COPY, name), (time.time() + seconds,) * 2)

    errors = built("builds what the program stands on", ["low build", "hawkottoman build"])
    check("meson setup: says where it is", "1 of 2 crates proved" in errors and "out/build-" in errors, errors)
    check("meson setup: builds once", built("is built", []) == "")
    touch("crates/low_tests/src/lib.rt", 5)
    touch("crates/devices/src/lib.rt", 5)
    built("a changed test, or what only tests of the program use, builds nothing", [])
    put("checkout/crates.txt", CRATES + "more_tests: low\n")
    built("a further test crate builds nothing", [])
    put("checkout/crates.txt", "low: std\nmiddle:\nhawkottoman: low middle\n")
    put("checkout/crates/middle/src/lib.rt", "")
    built("a further crate is built, and what stands on it", ["middle build", "hawkottoman build"])
    touch("crates/low/src/lib.rt", 1)
    time.sleep(1.1)
    built("crates of the same bytes are not proved again", [])
    put("checkout/crates/low/src/lib.rt", "// changed\n")
    touch("crates/low/src/lib.rt", 1)
    time.sleep(1.1)
    built("a changed crate is built, and what stands on it", ["low build", "hawkottoman build"])
    put("kit/version", "another kit\n")
    touch("crates/low/src/lib.rt", 1)
    time.sleep(1.1)
    built("another toolchain proves all", ["low build", "middle build", "hawkottoman build"])
    for crate in ("low", "middle", "hawkottoman"):
        os.makedirs(f"{COPY}/crates/{crate}/out/incremental")
    touch("crates/low/src/lib.rt", 1)
    time.sleep(1.1)
    built("goes on from what checks have kept", ["hawkottoman run"])
    for crate in ("low", "middle", "hawkottoman"):
        os.rmdir(f"{COPY}/crates/{crate}/out/incremental")
    touch("crates/low/src/lib.rt", 1)
    time.sleep(1.1)
    built("and a program of that is not taken for one of the libraries", ["hawkottoman build"])


def test_ending_a_build() -> None:
    """A build that is ended by a signal leaves no check running."""
    put("checkout/crates/low/src/lib.rt", "// changed again\n")
    put("slow", "")
    build = subprocess.Popen([f"{COPY}/tools/build-program"], env=environment(with_tools()), stderr=subprocess.DEVNULL)
    wait_until(lambda: os.path.exists(f"{WORK}/at-work"))
    build.terminate()
    check("build-program: ends by a signal", build.wait() == 143)
    number = taken("at-work").strip()
    check("build-program: and so do its checks", wait_until(lambda: not os.path.exists(f"/proc/{number}")))
    taken("slow")
    meson("--help")


def make_archives() -> None:
    """Makes the archive of a library for C, and that of the toolchain's C part."""
    put("library.c", "int part(void);\nint hawkottoman_setup(void) { return part(); }\n")
    put("part.c", "int part(void) { return 0; }\n")
    os.makedirs(f"{WORK}/kit/c")
    for name, archive in (("library", "library.a"), ("part", "kit/c/liblibc_c.a")):
        run(["cc", "-fPIC", "-c", f"{name}.c"])
        run(["ar", "rcs", archive, f"{name}.o"])


def test_building_the_library() -> None:
    """It is built over the libraries that checks have made, where all are new, and otherwise over what is proved for it."""
    def built(name: str, wanted: list[str], is_over_checked: bool = False) -> None:
        taken("proved")
        done = run([f"{COPY}/tools/build-library"], with_tools())
        got, words = taken("proved").splitlines(), taken("words-of-check")
        is_good = got == wanted and done.returncode == 0 and done.stdout == "".join(f"{it}\n" for it in libraries)
        is_over = "low=" + os.path.join(COPY, "crates/low/out/rlib/low.rlib") in words
        check(f"build-library: {name}", is_good and is_over == is_over_checked, f"{got} {words} {done}")

    make_archives()
    libraries = [f"{COPY}/crates/hawkottoman_c/out/{it}" for it in ("libhawkottoman.a", "libhawkottoman.so")]
    kept = read("checkout/crates.txt")
    put("checkout/crates.txt", kept + "hawkottoman_c staticlib: low\n")
    put("checkout/crates/hawkottoman_c/src/lib.rt", "")
    built("is built over what is proved", ["hawkottoman_c build"])
    exported = run(["nm", "-D", "--defined-only", libraries[1]]).stdout.split()[2:]
    check("build-library: the shared library exports the calls alone", exported == ["hawkottoman_setup"], exported)
    built("is built once", [])
    put("checkout/crates/hawkottoman_c/src/lib.rt", "// changed\n")
    os.makedirs(f"{COPY}/crates/low/out/rlib/low.rlib")
    built("is built over what checks have made", ["hawkottoman_c build"], True)
    put("checkout/crates/low/src/lib.rt", "// changed for the library\n")
    os.utime(f"{COPY}/crates/low/src/lib.rt", (time.time() + 5,) * 2)
    built("is not built over what is older than its files", ["low build", "hawkottoman_c build"])
    shutil.rmtree(f"{COPY}/crates/low/out/rlib")
    shutil.rmtree(f"{COPY}/crates/hawkottoman_c")
    put("checkout/crates.txt", kept)
    meson("--help")


def test_commands() -> None:
    listed = lambda text: [line.split()[0] for line in text.splitlines() if line.startswith("  ")]
    done = meson("--help")
    is_good = done.returncode == 0 and done.stdout.startswith("program --help\n") and listed(done.stdout) == FURTHER
    is_same = meson("-h").stdout == meson("help").stdout == done.stdout
    check("meson: help", is_good and done.stderr == "" and is_same, f"{done}")
    for words in ([], ["such"], ["build-program"], ["../tools/test"], [""], ["port"], ["-C", "b", "test"], ["--such"]):
        done = meson(*words)
        is_good = done.returncode == 4 and done.stdout == "" and listed(done.stderr) == ["setup", "questions", "fault", *FURTHER]
        check(f"meson: {words} is no command", is_good and repr(words[0] if words else "")[1:-1] in done.stderr, f"{done}")
    for word, near in (("setupp", "setup"), ("tests", "test"), ("zzzzzz", ""), ("x; y", "")):
        done = meson(word)
        wanted = f"meson: there is no command '{word}'" + (f"; did you mean `meson {near}`?" if near else "")
        check(f"meson: {word} may have meant another command", done.stderr.splitlines()[0] == wanted, f"{done}")
    put("old/meson.build", "")
    done = meson("out", cwd=f"{WORK}/old")
    is_good = done.stderr.splitlines()[0] == "meson: there is no command 'out'; did you mean `meson setup out`?"
    check("meson: a folder in the place of a command", is_good, f"{done}")
    put("instead", "echo '  -h, --help  Print help'; exit 0")
    done = meson("setup", "--help")
    is_good = done.returncode == 0 and re.search(r"^ {6}--strict +Ends .*\n  -h, --help", done.stdout, re.M)
    check("meson setup: help has the option of the command", is_good and done.stderr == "", f"{done}")
    os.remove(f"{WORK}/instead")
    put("checkout/tools/port", 'import sys\nprint("port", *sys.argv[1:])\n', 0o755)
    check("meson port: where it is there", meson("port", "a b").stdout == "port a b\n" and "port" in listed(meson("such").stderr))
    os.remove(f"{COPY}/tools/port")
    for command in FURTHER:
        shows_help(command, "Exit status:")
    with open(f"{CHECKOUT}/CHANGELOG.md", encoding="utf-8") as it:
        version = re.search(r"^## ([0-9.]+)", it.read(), re.M)[1]
    is_same = meson("--version").stdout == meson("-v").stdout == f"Hawkottoman {version}\n"
    check("meson --version: the last one of CHANGELOG.md", is_same, version)
    os.rename(f"{COPY}/crates/hawkottoman/out/hawkottoman", f"{WORK}/kept-program")
    without = {"PATH": only_on_path(*COMMAND, "awk", "cat", "find")}
    ends = {it: run([MESON, it, "--help"], without).returncode for it in FURTHER}
    check("meson: the help of each command without a program and rt", not any(ends.values()), ends)
    done = run([MESON, "--help"], without)
    is_good = done.returncode == 0 and listed(done.stdout) == ["setup", "questions", "fault", *FURTHER] and "a release" in done.stdout
    check("meson: help without a program and rt", is_good and done.stderr == "", f"{done}")
    os.rename(f"{WORK}/kept-program", f"{COPY}/crates/hawkottoman/out/hawkottoman")


SAID_OF_FAULTS = "why\nmeson: more: meson explain b\n"


def test_setup() -> None:
    """The program's own output and status; its words are kept where it ended with 0."""
    words_of_setup = "sources/b/meson-private/words"
    sources = os.path.realpath(f"{WORK}/sources")
    for words in (["b"], ["-D", "b=b", "--native-file", "a b.ini", "b"], ["-Dx=\"'\\\n", "--native-file=n", "--", "b"], ["./b/"]):
        taken(words_of_setup)
        done = meson("setup", *words, cwd=sources)
        is_good = done.returncode == 0 and done.stdout == f"program setup {' '.join(words)}\n" and done.stderr == ""
        kept = taken(words_of_setup).split("\0\n")
        form = "words-of-lines-1" if "\n" in "".join(words) else "words-1"
        check(f"meson setup: keeps {words}", is_good and kept == [form, sources, *words, ""], f"{done} {kept}")
    check("meson setup: help keeps nothing", meson("setup", "--help", "b", cwd=sources).returncode == 0 and taken(words_of_setup) == "")
    for text, status in {"echo why >&2; exit 1": 1, "exit 4": 4, "kill -TERM $$": -15, "kill -KILL $$": -9}.items():
        put("instead", text)
        done = meson("setup", "b", cwd=sources)
        is_good = (done.returncode, done.stdout, done.stderr) == (status, "program setup b\n", SAID_OF_FAULTS if status == 1 else "")
        check(f"meson setup: status {status} is the program's, and keeps nothing", is_good and taken(words_of_setup) == "", f"{done}")
    put("instead", "exec sleep 300")
    process = subprocess.Popen([MESON, "setup", "b"], cwd=sources, env=environment(with_tools()), stdout=subprocess.PIPE, text=True)
    process.stdout.readline()
    process.terminate()
    check("meson setup: a signal ends the program", process.wait(100) == -15, process.returncode)
    process.stdout.close()
    os.remove(f"{WORK}/instead")
    cuts = {"b": "b", "-D x b": "b", "-Dx b": "b", "b -D x": "b", "--native-file n b": "b", "--native-file=n b": "b", "-- -b": "-b",
            "-Dx -- b": "b", "b --": "b", "-": "-", "-h b": None, "b --help": None, "-Dh b": "b", "-D=x b": "b"}
    wrong = {text: build_folder_of(text.split()) for text, wanted in cuts.items() if build_folder_of(text.split()) != wanted}
    check("meson setup: BUILDDIR among its words", not wrong, wrong)
    shutil.rmtree(f"{sources}/b")
    os.makedirs(f"{sources}/b")
    os.makedirs(f"{WORK}/elsewhere")
    os.symlink(f"{WORK}/elsewhere", f"{sources}/b/meson-private")
    done = meson("setup", "b", cwd=sources)
    is_told = done.stderr.startswith("meson: b/meson-private/words: has a link on its way") and done.stderr.count("\n") == 1
    is_good = done.returncode == 2 and is_told and os.listdir(f"{WORK}/elsewhere") == []
    check("meson setup: says that the words can't be kept", is_good, f"{done}")
    os.remove(f"{sources}/b/meson-private")


# Makes of each template an output of its bytes, in place of one with other bytes.
CONFIGURES = f"""case $1 in setup)
    for last; do :; done
    echo "$PWD" "$@" >>{WORK}/configured
    mkdir -p "$last/sub"
    cp -rp {WORK}/template/. "$last"
    for it in *.in; do
        made=$last/sub/$(basename "$it" .in)
        cmp -s "$it" "$made" || (rm -f "$made"; cat "$it" >"$made")
    done
    exit ;;
esac
"""


NAMES_TEMPLATE = "project('p', 'c')\nconfigure_file(input: 'script.in', output: 'script')\n"
# Files that have an executable file, and none that may be a template.
NAMES_NO_TEMPLATE = (
    "configure_file(input: 'plain.in', output: 'plain')\nfind_program('script.in')\n",
    "configure_file(output: 'a')\ncustom_target(input: 'script.in', output: 'b')\n",
    "configure_file(\n  output: 'a',  # (\n  input : files('plain.in')\n)\nrun(input: x)\n")
MAY_NAME_TEMPLATE = (
    "configure_file(\n  output: 'script', # )\n  input : files('script.in'),\n)\n", "configure_file(output: 's', input: x)\n",
    "configure_file(output: ')', input:\n  'script.in')\n", "configure_file(input: 'script' + '.in')\n", "configure_file(kwargs: x)\n",
    "test('x', configure_file(input: 'script.in'))\n", "configure_file(input: './script.in')\n",
    "configure_file(input: 'a/../script.in')\n",
    "configure_file(output: '''(\n)''', input: 'script.in')\n", "if configure_file(input: a) == configure_file(input: 'script.in')\n",
    "configure_file(input: meson.current_source_dir() / 'script.in')\n", "configure_file(input: f'@x@.in')\n",
    "configure_file(input: 'scr\\x69pt.in')\n", "x = [configure_file(input: ['script.in'])]\n")


def test_modes_of_templates() -> None:
    """An output whose template is executable is executable, and no other one."""
    sources = os.path.realpath(put("modes/meson.build", NAMES_TEMPLATE))
    sources, output = os.path.dirname(sources), f"{os.path.dirname(sources)}/b/sub"
    put("modes/script.in", "#!/bin/sh\n", 0o755)
    put("modes/plain.in", "plain\n")
    put("instead", CONFIGURES)
    shutil.move(f"{WORK}/template", f"{WORK}/kept-template")
    configured("template", buildsystem_files={"absent": [], "present": ["meson.build", "script.in", "plain.in"]})
    put("template/build.ninja", "")
    is_executable = lambda name: os.stat(f"{output}/{name}").st_mode & 0o111

    def sets_up(name: str, runs: int, script: bool, words: list[str] | None = None) -> None:
        taken("configured")
        done = meson(*(words or ["setup", "b"]), cwd=sources)
        taken("asked-of-ninja")
        got = bool(is_executable("script")), bool(is_executable("plain")), taken("configured").count(" setup ")
        is_good = got == (script, False, runs) and done.returncode == 0
        check(f"meson {(words or ['setup'])[0]}: modes of outputs: {name}", is_good, f"{got} {done}")

    sets_up("that of the template", 2, True)
    sets_up("a second run finds nothing to do", 1, True)
    put("modes/script.in", "#!/bin/sh\n:\n", 0o755)
    sets_up("other bytes", 1, True)
    put("modes/script.in", "#!/bin/sh\n: 2\n", 0o755)
    sets_up("other bytes", 1, True, ["compile", "-C", "b"])
    os.chmod(f"{sources}/script.in", 0o644)
    sets_up("a template that is no longer executable", 1, False)
    os.chmod(f"{sources}/script.in", 0o755)
    sets_up("a template that is executable now", 2, True)
    os.remove(f"{output}/script")
    os.symlink(put("modes/outside", "#!/bin/sh\n: 2\n"), f"{output}/script")
    sets_up("a link in the place of an output leads nowhere", 1, False)
    check("meson setup: modes of outputs: what a link leads to stays", not os.stat(f"{sources}/outside").st_mode & 0o111)
    os.remove(f"{output}/script")
    kept = f"{sources}/b/meson-private/executables"
    for name, make in (("a pipe", os.mkfifo), ("a link to a device", lambda it: os.symlink("/dev/zero", it))):
        os.remove(kept)
        make(kept)
        sets_up(f"{name} in the place of what is kept", 2, True)
        check(f"meson setup: modes of outputs: {name} is replaced", os.path.isfile(kept) and not os.path.islink(kept))
    for text in NAMES_NO_TEMPLATE:
        shutil.rmtree(f"{sources}/b")
        put("modes/meson.build", text)
        sets_up(f"an executable that is no template: {text.splitlines()[-1]}", 1, False)
        sets_up(f"an executable that is no template, again: {text.splitlines()[-1]}", 1, False)
    for text in MAY_NAME_TEMPLATE:
        shutil.rmtree(f"{sources}/b")
        put("modes/meson.build", text)
        sets_up(f"what may be a template: {text.splitlines()[-1]}", 2, True)
    for odd in ('a"b.in', "a]b.in", 'a"]b.in', "a\\b.in", "a\\"):
        for name in ("b", "script.in"):
            (shutil.rmtree if name == "b" else os.remove)(f"{sources}/{name}")
        put(f"modes/{odd}", "#!/bin/sh\n", 0o755)
        put("modes/meson.build", f"configure_file(input: x)\n# {odd}\n")
        configured("template", buildsystem_files={"absent": [], "present": ["plain.in", odd, "meson.build"]})
        put("instead", CONFIGURES.replace("*.in", f"*.in '{odd}'").replace("$(basename \"$it\" .in)", "script"))
        taken("configured")
        done = meson("setup", "b", cwd=sources)
        is_good = done.returncode == 0 and is_executable("script") and taken("configured").count(" setup ") == 2
        check(f"meson setup: modes of outputs: a template {odd}", is_good, f"{done}")
        os.rename(f"{sources}/{odd}", f"{sources}/script.in")
    put("instead", CONFIGURES)
    put("modes/meson.build", NAMES_TEMPLATE)
    configured("template", buildsystem_files={"absent": [], "present": ["meson.build", "script.in", "plain.in"]})
    put("native.ini", "")
    meson("setup", "--native-file", "../native.ini", "b", cwd=sources)
    got = taken("configured")
    check("meson setup: modes of outputs: a machine file above the sources", f" --native-file {sources}/../native.ini " in got, got)
    taken("asked-of-ninja")
    os.remove(f"{WORK}/instead")
    shutil.rmtree(f"{WORK}/template")
    shutil.move(f"{WORK}/kept-template", f"{WORK}/template")


def test_questions() -> None:
    """The program's own; machine-file is given the program."""
    put("questions", 'echo "$@"; echo said >&2; return 1\n')
    done = meson("questions", "-Dx=1", "b", cwd=f"{WORK}/sources")
    is_passed_on = (done.returncode, done.stdout, done.stderr) == (1, "questions -Dx=1 b\n", "said\n")
    check("meson questions: the program's output and status", is_passed_on, f"{done}")
    done = meson("fault", "-Dx=1", "b", cwd=f"{WORK}/sources")
    check("meson fault: the program's own", done.returncode == 0 and done.stdout == "program fault -Dx=1 b\n", f"{done}")
    put("questions", NOTHING_ASKED)
    put("asks/meson.build", "project('p', 'c')\n")
    done = meson("machine-file", "asks")
    check("meson machine-file: asks the program", done.returncode == 0 and done.stderr == "" and "[compiler]\n" in done.stdout, f"{done}")
    put("questions", "echo 'meson: device fault' >&2; return 2\n")
    done = meson("machine-file", "asks")
    is_said = (done.returncode, done.stdout, done.stderr) == (1, "", "meson machine-file: meson: device fault\n")
    check("meson machine-file: a program that can't read", is_said, f"{done}")
    put("questions", NOTHING_ASKED)


def test_explain() -> None:
    """Its command line and its statuses; what it says of faults is tried by tests/explained_cases."""
    put("explained/meson.build", "project('p', 'c')\nexecutable('p', 'a.c', instal: true)\n")
    put("explained/n.ini", "[binaries]\n")
    put("explained/b/kept", "")
    sources = f"{WORK}/explained"

    def explains(name: str, script: str, words: list[str], status: int, text: str) -> None:
        put("questions", script)
        before = sorted(os.listdir(sources))
        done = meson("explain", *words, cwd=sources)
        is_good = done.returncode == status and text in (done.stdout if status < 2 else done.stderr)
        is_untouched = sorted(os.listdir(sources)) == before and os.listdir(f"{sources}/b") == ["kept"]
        check(f"meson explain: {name}", is_good and is_untouched and (done.stderr == "") == (status < 2), f"{done}")

    fault = "echo 'meson.build:2: ERROR: E9 arguments' >&2; exit 1"
    put("told", f"""echo "keyword 'instal': there is none"; {fault}\n""")
    explains("a fault", fault, ["b"], 1, "executable: keyword 'instal': there is none; near: 'install'")
    put("told", f"""echo "keyword 'instal': there is none"; echo 'meson.build:3: ERROR: E9 arguments' >&2; exit 1\n""")
    explains("a fault of another run is not told", fault, ["b"], 1, "executable: it can't use what it got")
    os.remove(f"{WORK}/told")
    shown = "meson.build:2: ERROR: E9 arguments\n  2 | exec"
    with_words = f'case "$*" in "questions -D x=1 --native-file=/"*"/native.ini -- b") {fault} ;; esac'
    explains("a fault, with words", with_words, ["-D", "x=1", "--native-file=n.ini", "--", "b"], 1, shown)
    explains("no fault", "exit 0", ["./b/"], 0, "there is no fault\n")
    explains("a machine file that isn't there", "exit 0", ["--native-file", "no.ini", "b"], 2, "no.ini: the machine file: No such file")
    explains("want of memory", "echo 'meson: out of memory' >&2; exit 3", ["b"], 3, "meson explain: out of memory\n")
    such = "there is no word --such"
    explains("bad words", f"echo 'error: {such}' >&2; exit 4", ["--such", "b"], 4, f"meson explain: {such}\n")
    os.symlink(WORK, f"{sources}/link")
    explains("a folder that is a link", "exit 0", ["link/b"], 2, "link: is a link")
    os.remove(f"{sources}/link")
    explains_what_is_unread(explains, sources)
    explains_odd_files(explains)
    explains_last_setup(sources)
    put("questions", NOTHING_ASKED)


def explains_last_setup(sources: str) -> None:
    """Tries a folder that is named alone: what is explained is a run with the arguments of its last setup."""
    put("questions", NOTHING_ASKED)
    meson("setup", "-Dx=1", "--native-file", "n.ini", "c", cwd=sources)
    put("questions", """case "$*" in "questions -Dx=1 --native-file "*" c") ;; *) echo "$*" >&2; exit 2 ;; esac\n""")
    says = lambda words: f"meson explain: with the arguments of the last setup: {words}\n"
    saved = says("-Dx=1 --native-file n.ini c")
    for name, words, wanted in (("its arguments", ["c"], (0, saved)),
                                ("its arguments, if given", ["-Dx=1", "--native-file", "n.ini", "c"], (0, ""))):
        done = meson("explain", *words, cwd=sources)
        check(f"meson explain: the last setup: {name}", (done.returncode, done.stderr) == wanted, f"{done}")
    done = meson("explain", "-Dx=2", "c", cwd=sources)
    is_other = done.returncode == 2 and "with the arguments" not in done.stderr
    check("meson explain: the last setup: not with other arguments", is_other, f"{done}")
    put("explained/d/meson-private/machine.ini", "[binaries]\n")
    put("questions", """case "$*" in "questions --native-file "*"/native.ini d") ;; *) echo "$*" >&2; exit 2 ;; esac\n""")
    done = meson("explain", "d", cwd=sources)
    wanted = (0, says("--native-file d/meson-private/machine.ini d"))
    check("meson explain: the last setup: the machine file of `configure`", (done.returncode, done.stderr) == wanted, f"{done}")
    done = meson("explain", "c", cwd=sources)
    check("meson explain: the last setup: another folder has its own", done.returncode == 2 and saved in done.stderr, f"{done}")
    put("questions", NOTHING_ASKED)
    meson("setup", f"-Dx={'1' * 5000}", "c", cwd=sources)
    done = meson("explain", "c", cwd=sources)
    check("meson explain: the last setup: of many arguments the first", done.returncode == 0 and 1000 < len(done.stderr) < 1100, f"{done}")
    for name in "cd":
        shutil.rmtree(f"{sources}/{name}")


def test_reasons() -> None:
    """A read-only file system is reported as such, and not as a missing permission."""
    kept, os.statvfs = os.statvfs, lambda path: types.SimpleNamespace(f_flag=os.ST_RDONLY)
    try:
        told = unwritable(WORK)
    finally:
        os.statvfs = kept
    check("meson explain: a file system that can only be read", told == "Read-only file system" and unwritable(WORK) is None, told)


def explains_what_is_unread(explains: Callable[..., None], sources: str) -> None:
    """Tests status 2: the explanation names the file that the definitions name, and no other that can't be read either."""
    os.mkfifo(f"{sources}/a.c")
    device_fault = "echo 'meson: device fault' >&2; exit 2"
    explains("a file that can't be read", device_fault, ["b"], 2, "a.c: is no file, but a pipe")
    os.remove(f"{sources}/a.c")
    put("explained/a.c", "")
    put("explained/other/x", "")
    os.mkfifo(f"{sources}/other/a.c")
    os.symlink("nobody@nowhere", f"{sources}/.#meson.build")
    os.symlink("nowhere", f"{sources}/p")
    os.symlink(WORK, f"{sources}/link")
    explains("a pipe elsewhere is not what failed", device_fault, ["link/b"], 2, "link: is a link")
    explains("nor is a link to nothing", device_fault, ["b/c"], 2, "other/a.c: is no file, but a pipe")
    os.remove(f"{sources}/link")


def explains_odd_files(explains: Callable[..., None]) -> None:
    """Checks that a file named in a branch that isn't taken is read only to its end, and that deep expressions are followed or left."""
    path, fault = f"{WORK}/explained/sub/meson.build", "echo 'meson.build:2: ERROR: E5 undefined name: nmae' >&2; exit 1"
    put("explained/meson.build", "project('p', 'c', name: nmae)\nmessage(nmae)\nif false\n  subdir('sub')\nendif\nname = 1\n")
    os.makedirs(os.path.dirname(path))
    for name, make in {"a pipe": lambda: os.mkfifo(path), "a device": lambda: os.symlink("/dev/zero", path),
                       "3 GiB of nothing": lambda: os.truncate(os.open(path, os.O_CREAT | os.O_WRONLY), 3 << 30)}.items():
        make()
        explains(f"{name} in a branch that isn't taken", fault, ["b"], 1, "near: 'name'")
        os.remove(path)
    for count in (600, 5000):
        put("explained/meson.build", f"project('p', 'c')\nx = nmae + {' + '.join(['1'] * count)}\n")
        explains(f"a chain of {count}", fault, ["b"], 1, "meson.build:2: ERROR: E5 undefined name: nmae\n")


def test_compile() -> None:
    sources = os.path.realpath(f"{WORK}/sources")
    words = ["-Dx=a b", "--native-file", "n.ini", "b"]
    meson("setup", *words, cwd=sources)
    taken("configured")
    again = f"{sources} setup {' '.join(words)}\n"

    def compiles(name: str, given: list[str], asked: str, cwd: str = WORK) -> None:
        done = meson("compile", *given, cwd=cwd)
        got, configured_by = taken("asked-of-ninja"), taken("configured")
        options, _, targets = asked.rpartition("|")
        file = f"include build.ninja\n\nbuild wanted#: phony {targets}\n" if targets else ""
        folder = given[given.index("-C") + 1] if "-C" in given else "."
        wanted = f"-C\n{folder}\n{file}" + "".join(f"{it}\n" for it in options.split())
        is_good = done.returncode == 0 and got == wanted and configured_by == again
        check(f"meson compile: {name}", is_good and done.stderr == "", f"{got} {configured_by} {done}")

    compiles("configures again and builds all", ["-C", "sources/b"], "")
    compiles("the present folder", [], "", f"{sources}/b")
    compiles("-j and -v", ["-C", "sources/b", "-j", "3", "-v"], "-j 3 -v|")
    compiles("words for Ninja", ["-C", "sources/b", "--ninja-args=-k 0"], "-k 0|all")
    compiles("words for Ninja, with a comma", ["-C", "sources/b", "--ninja-args=-x a,b"], "-x a,b|all")
    compiles("words for Ninja, between commas", ["-C", "sources/b", "--ninja-args=-k,0"], "-k 0|all")
    compiles("words for Ninja, as a list", ["-C", "sources/b", "--ninja-args=['-k', '0']"], "-k 0|all")
    done = meson("compile", "-C", "sources/b", "--clean")
    is_clean = done.returncode == 0 and taken("asked-of-ninja") == "-C\nsources/b\n-t\nclean\n"
    check("meson compile: --clean removes and builds nothing", is_clean and taken("configured") == "", f"{done}")
    compiles("targets", ["-C", "sources/b", "run", "files of a"], "sub/run a.c a.h")
    compiles("a target by its folder", ["-C", "sources/b", "sub/run"], "sub/run")
    compiles("a target by its kind, with its links", ["-C", "sources/b", "x:shared_library"], "libx.so.1 libx.so")
    compiles("an output", ["-C", "sources/b", "a.h"], "a.h")


def fails(name: str, given: list[str], status: int, text: str) -> None:
    """Checks that `meson compile` says in one line what is wrong, if `meson setup` says nothing."""
    put("instead", "exec >/dev/null")
    refuses(name, [MESON, "compile", *given], status, text, env=with_tools())
    os.remove(f"{WORK}/instead")
    taken("asked-of-ninja")


def test_compile_that_fails() -> None:
    sources, in_b = os.path.realpath(f"{WORK}/sources"), ["-C", "sources/b"]
    fails("a name of two targets", [*in_b, "x"], 1, "the name 'x' has more than one target: say libx.a or libx.so.1")
    fails("no such target", [*in_b, "y"], 1, "there is no target 'y'")
    fails("no number", [*in_b, "-j0"], 4, "--jobs takes a number above 0")
    fails("no such word", [*in_b, "--such"], 4, "--such")
    put("ninja-fails", "")
    fails("a build of a target that fails", [*in_b, "run"], 1, "the build failed")
    check("meson compile: a build that fails", meson("compile", *in_b).returncode == 1)
    os.remove(f"{WORK}/ninja-fails")
    for status in (1, 2, 4):
        put("instead", f"exit {status}")
        done = meson("compile", *in_b)
        is_told = done.stderr.endswith(f"meson compile: `meson setup` ended with status {status}, so nothing was built\n")
        is_good = done.returncode == status and is_told and not taken("asked-of-ninja")
        check(f"meson compile: where setup ends with {status}", is_good, f"{done}")
    os.remove(f"{WORK}/instead")
    fails("no configured folder", [], 1, ".: is no configured folder")
    os.rename(f"{sources}/b", f"{sources}/moved")
    fails("a folder that was moved", ["-C", "sources/moved"], 1, f"was configured as {sources}/b: run `meson setup` again")
    kept = "sources/moved/meson-private/words"
    for text in ("", "[]", "words-2\0\n/\0\nb\0\n", "words-1\0\n/\0\n", "words-1\0\n/\0\nb", "\0" * 5000):
        put(kept, text)
        fails(f"words that are {text[:20]!r}", ["-C", "sources/moved"], 1, "doesn't have the arguments of a `meson setup`")
    os.remove(f"{WORK}/{kept}")
    fails("a folder without words", ["-C", "sources/moved"], 1, "has no arguments of a `meson setup`: run that again")


def test_introspect() -> None:
    content = document(tests=[shell("ä", ":")], projectinfo={"name": "p", "version": "1", "license": ["MIT"]})
    configured("w", **content)
    for words, wanted in {"": content, "--tests": content["tests"], "--projectinfo": content["projectinfo"], "--targets": [],
                          "--buildoptions": [], "--installed": {}, "--dependencies": [],
                          "--buildsystem-files": content["buildsystem_files"],
                          "--tests --targets": {"tests": content["tests"], "targets": []}}.items():
        done = run(["meson", "introspect", "w", *words.split()])
        got = json.loads(done.stdout) if done.returncode == 0 else None
        check(f"meson introspect {words}", got == wanted and done.stdout.count("\n") == 1 and done.stderr == "", f"{done}")
    check("meson introspect: the present folder", json.loads(run(["meson", "introspect", "--installed"], cwd=f"{WORK}/w").stdout) == {})
    refuses("no configured folder", ["meson", "introspect"], 1, ".: is no configured folder")
    refuses("no such part", ["meson", "introspect", "w", "--such"], 4, "--such")
    done = run(["bash", "-c", '"$@" | head -c 1; echo ${PIPESTATUS[0]}', "bash", *words_of(["meson", "introspect", "w"])])
    check("meson introspect: | head", done.stdout in ("{0\n", "{1\n") and done.stderr == "", f"{done}")


def test_progress() -> None:
    """On a terminal a line says which tests are running, and goes; in a file there is none."""
    configured("w", tests=[shell("one", ":"), shell("two", ":")])
    master, slave = pty.openpty()
    words = words_of(over("test", "w", "--no-rebuild", "-j1"))
    process = subprocess.Popen(words, cwd=WORK, env=environment({"TERM": "xterm"}), stdout=slave)
    os.close(slave)
    shown = b""
    try:
        while data := os.read(master, 4096):
            shown += data
    except OSError:
        pass  # the other end is closed
    os.close(master)
    process.wait()
    lines = [line.rpartition("\r\x1b[K")[2] for line in shown.decode().split("\r\n")]
    check("meson test: a line of progress on a terminal", b"[0/2] one" in shown and b"[1/2] two" in shown, shown)
    is_gone = lines[0].startswith("1/2 one") and lines[1].startswith("2/2 two") and lines[2] == "" and process.returncode == 0
    check("meson test: which goes", is_gone, shown)
    check("meson test: and none in a file", "\x1b" not in run(over("test", "w", "--no-rebuild")).stdout)


COMPLETIONS = ("share/bash-completion/completions/hawkottoman-meson", "share/zsh/site-functions/_hawkottoman-meson",
               "share/fish/vendor_completions.d/hawkottoman-meson.fish")
# Completes the last of its words, as bash does.
COMPLETE = """. prefix/share/bash-completion/completions/hawkottoman-meson
COMP_WORDS=("$@"); COMP_CWORD=$(($# - 1)); _hawkottoman_meson; printf '%s\n' "${COMPREPLY[@]}"
"""


def test_completion() -> None:
    """Completion of the installed command's words."""
    completed = lambda *words: run(["bash", "-c", COMPLETE, "bash", "hawkottoman-meson", *words]).stdout.splitlines()
    got = completed("co"), completed("test", "--no-"), completed("compile", "-C", "pre"), completed("configure", "--def")
    check("completion: bash", got == (["configure", "compile"], ["--no-suite", "--no-rebuild"], ["prefix"], ["--default-library"]), got)
    os.makedirs(f"{WORK}/a folder with blanks")
    got = run(["bash", "-c", COMPLETE, "bash", "hawkottoman-meson", "compile", "-C", "a f"]).stdout
    check("completion: bash, a folder with blanks", got == "a folder with blanks\n", got)
    text = read("prefix/" + COMPLETIONS[0])
    for command in FURTHER[:-1]:
        shown = run(["prefix/bin/hawkottoman-meson", command, "--help"]).stdout
        heads = re.findall(r"^ {2}(-\S.*?)(?: {2}|$)", shown, re.M)
        listed = {it.split()[0] for head in heads for it in head.split(", ") if it.startswith("-")} or {"-D", "--native-file", "--help"}
        got = set(re.search(rf'^    {command}\) words="(.*)" ;;$', text, re.M)[1].split())
        check(f"completion: {command}: the options of its help", got == listed, got ^ listed)
    done = run([f"{CHECKOUT}/tools/completion", "true", "bash", "x"])
    check("completion: a command without help", (done.returncode, done.stdout) == (1, "") and "shows no commands" in done.stderr, f"{done}")
    for shell, path in zip(("bash", "zsh", "fish"), COMPLETIONS):
        if shutil.which(shell):
            done = run([shell, "-n", f"prefix/{path}"])
            check(f"completion: {shell} can read it", done.returncode == 0 and done.stderr == "", f"{done}")


def try_name(installed: str) -> None:
    """Checks the name of the installed command, in its own messages and in those of the commands that it calls."""
    put("instead", "exit 1")
    for command, what in (("test", "no test was run"), ("install", "nothing was installed"), ("introspect", "nothing is printed")):
        done = run([installed, command, *(["c"] if command == "introspect" else ["-C", "c"])], with_tools(), cwd=f"{WORK}/sources")
        wanted = (f"hawkottoman-meson: more: hawkottoman-meson explain c\nhawkottoman-meson {command}: `hawkottoman-meson setup` ended "
                  f"with status 1, so {what}\n")
        check(f"meson self-install: the name in messages of {command}", done.stderr == wanted, f"{done}")
    os.remove(f"{WORK}/instead")
    put("questions", """echo '{"section":"checks","key":"has_function f","answer":null,"file":"meson.build","line":2,"beside":{}}'\n""")
    done = run([installed, "setup", "e"], with_tools(), cwd=f"{WORK}/sources")
    is_good = done.stderr.startswith("hawkottoman-meson: 1 question ") and "`hawkottoman-meson machine-file > native.ini`" in done.stderr
    check("meson self-install: the name in the list of questions", is_good and "`meson" not in done.stderr, f"{done}")
    put("questions", "echo 'meson.build:1: ERROR: E14 file missing: meson.build' >&2; exit 1\n")
    done = run([installed, "explain", "e"], with_tools(), cwd=f"{WORK}/sources")
    check("meson self-install: the name in what is explained", "run `hawkottoman-meson explain` in" in done.stdout, f"{done}")
    put("questions", NOTHING_ASKED)
    early = "import os, sys; sys.argv[0] = 'test'; import tools.early_signals; os.kill(os.getpid(), 15)"
    done = run([sys.executable, "-B", "-c", early], {"HAWKOTTOMAN_CALLED": "hawkottoman-meson", "PYTHONPATH": CHECKOUT})
    is_good = (done.returncode, done.stderr) == (130, "hawkottoman-meson test: interrupted\n")
    check("meson self-install: the name in what ends at once", is_good, f"{done}")
    put("instead", "echo 'Usage: meson setup [OPTIONS]'; exit 0")
    said = [run([installed, *words, "--help"], with_tools()).stdout for words in ([], ["setup"])]
    is_named = all("\nUsage: hawkottoman-meson setup [OPTIONS]\n" in it for it in said)
    check("meson self-install: the name in the program's help", is_named, said)
    os.remove(f"{WORK}/instead")
    wrong = {}
    for command in (it for it in FURTHER if it != "self-install"):
        done = run([installed, command, "--help"])
        if done.returncode or f"usage: hawkottoman-meson {command} " not in done.stdout or re.search(r"(?<![\w-])meson [a-z]", done.stdout):
            wrong[command] = done.stdout + done.stderr
    check("meson self-install: the name in the help of each command", not wrong, wrong)


# Parts of the standard library that cost more than a command gets of them.
SLOW = re.compile(r"\| +(argparse|dataclasses|inspect|secrets|typing)$", re.M)


def test_light_start() -> None:
    """The interpreter that was found runs the scripts, and they load nothing that is slow to load; `setup` and `compile` run without it."""
    python = put("bin/python", f'#!/bin/sh\necho "$@" >>{WORK}/started\nexec {sys.executable} -X importtime "$@" 2>>{WORK}/loaded\n', 0o755)
    done = run([MESON, "self-install", "light"], {**with_tools(), "PYTHON": python})
    is_named = f"\npython={python}\n" in read("light/lib/hawkottoman/meson")
    check("meson self-install: PYTHON names the interpreter", done.returncode == 0 and is_named, f"{done}")
    light = lambda *words: run([f"{WORK}/light/bin/hawkottoman-meson", *words], with_tools(), cwd=f"{WORK}/asks")
    taken("started")
    ends = [light("setup", "b").returncode]
    put("instead", "exit 0")  # what is written stays as it was
    ends += [light(*words).returncode for words in (["setup", "b"], ["setup", "-Dx=1", "b"], ["compile", "-C", "b", "-j2", "-v"])]
    check("meson: setup and compile without Python", ends == [0] * 4 and not os.path.exists(f"{WORK}/started"), ends)
    os.remove(f"{WORK}/instead")
    wrong = {}
    for words in (["test", "-C", "b"], ["install", "-C", "b"], ["introspect", "b"], ["compile", "-C", "b", "--ninja-args=-k 0"],
                  ["configure", "b"], ["configure", "b", "-Dx=2"], ["explain", "b"], ["machine-file", "--alone"]):
        taken("started"), taken("loaded")
        done = light(*words)
        started, loaded = taken("started"), taken("loaded")
        if done.returncode or not all(it.startswith("-I -S ") for it in started.splitlines()) or not started or SLOW.search(loaded):
            wrong[" ".join(words)] = f"{done.returncode} {started} {SLOW.findall(loaded)}"
    check("meson: scripts load nothing that is slow to load", not wrong, wrong)
    words = [sys.executable, "-I", "-S", "-X", "importtime", f"{CHECKOUT}/tools/port", "--dry-run", "--no-trial", "asks"]
    loaded = run(words).stderr
    check("meson port: loads nothing that is slow to load", "| " in loaded and not SLOW.search(loaded), SLOW.findall(loaded))
    for name in ("a b", "a|b", "a&b", "x;y"):
        refuses(f"an interpreter {name!r}", ["env", f"PYTHON=/bin/{name}", MESON, "self-install", "light"], 4, "PYTHON: ", env=with_tools())


def test_light_reports() -> None:
    """What `setup` may have to report is found without Python, whatever other definition files say."""
    for name in ("asks", "template"):
        shutil.rmtree(f"{WORK}/{name}", ignore_errors=True)
    put("asks/meson.build", "project('p', 'c', default_options: ['c_std=c99'])\ntest('a', x, args: [')', '('])\nsubdir('sub')\n")
    put("asks/sub/meson.build", "test('b', x, is_parallel: true,  # workdir: is for others (\n  args: 'depends:')\n"
        "custom_target('c', output: 'c', command: 'c', depends: x)\ninclude_directories('.')\nfind_program('own.py')\n")
    put("asks/sub/own.py", "", 0o755)
    option = {"name": "c_std", "type": "combo", "value": "c99"}
    configured("template", buildoptions=[option],
               buildsystem_files={"absent": [], "present": ["meson.build", "sub/meson.build", "sub/own.py"]})
    put("template/build.ninja", "build all: phony\n")
    put("asked", '{"section":"binaries","key":"own.py","answer":null,"file":"sub/meson.build","line":5,"beside":{}}\n')
    put("questions", f"cat {WORK}/asked\n")
    taken("started")
    setup = [f"{WORK}/light/bin/hawkottoman-meson", "setup", "b"]
    done = run(setup, with_tools(), f"{WORK}/asks")
    started = taken("started")
    is_quiet = (done.returncode, done.stderr, started) == (0, "", "")
    check("meson setup: no script for what has nothing to report", is_quiet, f"{done} {started}")
    text = read("asks/sub/meson.build")
    for change in (("is_parallel: true", "is_parallel: false"), ("args: 'depends:'", "args: 'a', depends: x"),
                   ("args: 'depends:'", "args: '''a)''', \n workdir: x"), ("is_parallel: true", "is_parallel:\n false"),
                   ("include_directories('.')", "include_directories('gone')"), ("'own.py'", "'own')\ndependency('y'")):
        put("asks/sub/meson.build", text.replace(*change))
        put("asked", '{"section":"dependency y","key":null,"answer":null,"file":"sub/meson.build","line":5,"beside":{}}\n'
            if "dependency" in change[1] else "")
        done = run(setup, with_tools(), f"{WORK}/asks")
        said = taken("loaded")  # the errors of the interpreter go there
        check(f"meson setup: a script reports {change[1]!r}", done.returncode == 0 and "\n  sub/meson.build:" in said, f"{done} {said}")
    shutil.rmtree(f"{WORK}/asks/b")
    put("asks/meson.build", "project('p', 'c')\n")
    put("questions", NOTHING_ASKED)


def test_self_install() -> None:
    done = run(["sh", "-c", 'umask 077; exec "$0" self-install prefix', MESON], with_tools())
    files = [os.path.join(folder, it) for folder, _, names in os.walk(f"{COPY}/tools") for it in names
             if os.path.basename(folder) not in ("__pycache__", "building")]
    scripts = {f"lib/hawkottoman/tools/{os.path.relpath(it, f'{COPY}/tools')}" for it in files
               if os.path.basename(it) not in ("build-program", "build-library", "self-install", "release", "completion")}
    names = {*scripts, "lib/hawkottoman/hawkottoman", "lib/hawkottoman/meson", "bin/hawkottoman-meson",
             "share/man/man1/hawkottoman-meson.1", *COMPLETIONS}
    places = {os.path.join(os.path.realpath(WORK), "prefix", it) for it in names}
    check("meson self-install: says what it installs", set(done.stdout.split()) == places and done.returncode == 0,
          f"{set(done.stdout.split()) ^ places} {done.stderr}")
    modes = {it: os.stat(f"{WORK}/prefix/{it}").st_mode & 0o777 for it in (*scripts, "lib", "lib/hawkottoman/tools/commands")}
    check("meson self-install: is right under any umask", all(it in (0o755, 0o644) for it in modes.values()), modes)
    compiled = f"{WORK}/prefix/lib/hawkottoman/tools/commands/__pycache__"
    check("meson self-install: compiles its scripts", len(os.listdir(compiled)) > 4, os.listdir(compiled))
    put("prefix/lib/hawkottoman/tools/old.py", "")
    put("prefix/share/hawkottoman/meson", "")
    meson("self-install", "prefix")
    is_whole = not os.path.exists(f"{WORK}/prefix/lib/hawkottoman/tools/old.py") and not os.path.exists(f"{WORK}/prefix/share/hawkottoman")
    check("meson self-install: replaces an older version whole", is_whole and sorted(os.listdir(f"{WORK}/prefix/lib")) == ["hawkottoman"])
    test_completion()


def test_self_install_that_fails() -> None:
    """It says so in one line, an older version stays, and nothing else is left."""
    files_of = lambda place: {os.path.join(folder, it) for folder, _, names in os.walk(f"{WORK}/{place}") for it in names}
    whole = files_of("prefix")
    put("fails/mv", '#!/bin/sh\ncase "$*" in *hawkottoman.new*) exit 1 ;; esac\nexec /bin/mv "$@"\n', 0o755)
    refuses("a folder that can't be replaced", [MESON, "self-install", "prefix"], 1, "prefix/lib/hawkottoman was not installed",
            env={**with_tools(), "PATH": f"{WORK}/fails:{with_tools()['PATH']}"})
    check("meson self-install: a folder that can't be replaced: the older version stays", whole == files_of("prefix"))
    os.rename(f"{WORK}/prefix/lib/hawkottoman", f"{WORK}/prefix/lib/hawkottoman.old")
    run([MESON, "self-install", "prefix"], {**with_tools(), "PATH": f"{WORK}/fails:{with_tools()['PATH']}"})
    check("meson self-install: after one that was killed: the older version is there again", whole == files_of("prefix"))
    with open("/dev/full", "w") as full:
        refuses("a full output", [MESON, "self-install", "prefix"], 1, "the standard output can't be written", env=with_tools(),
                stdout=full)
    done = run(["sh", "-c", '"$0" self-install prefix >&-', MESON], with_tools())
    is_told = done.returncode == 1 and done.stderr == "meson self-install: the standard output can't be written\n"
    check("meson self-install: a closed output", is_told, f"{done}")
    check("meson self-install: leaves what was there", whole == files_of("prefix"))
    for place in ("bin/hawkottoman-meson", "share/man/man1/hawkottoman-meson.1", *COMPLETIONS):
        os.makedirs(f"{WORK}/other/{place}")
        refuses(f"a folder in the place of a file: {os.path.basename(place)}", [MESON, "self-install", "other"], 1,
                f"other/{place}: is a folder, where a file is to be; nothing was installed", env=with_tools())
        check("meson self-install: and puts no file anywhere", not files_of("other"), files_of("other"))
        shutil.rmtree(f"{WORK}/other")
    put("other/share", "")
    refuses("a file in the place of a folder", [MESON, "self-install", "other"], 1,
            "hawkottoman-meson.1 was not installed: Not a directory", env=with_tools())
    shutil.rmtree(f"{WORK}/other")
    refuses("no words", ["meson", "self-install"], 4, "takes one argument")
    refuses("a word of another kind", ["meson", "self-install", "--prefix=/usr"], 4, "is no folder PREFIX")


def test_installed_copy() -> None:
    """What is installed, without its checkout."""
    os.rename(COPY, f"{WORK}/gone")
    installed = f"{WORK}/prefix/bin/hawkottoman-meson"
    done = run([installed, "test", "-C", "nowhere"])
    check("meson self-install: messages have the name of the command", done.stderr.startswith("hawkottoman-meson test: "), f"{done}")
    done = run([installed, "setup", "c"], with_tools(), cwd=f"{WORK}/sources")
    check("meson self-install: setup", (done.returncode, done.stdout, done.stderr) == (0, "program setup c\n", ""), f"{done}")
    try_name(installed)
    taken("asked-of-ninja")
    for words in (["compile", "-C", "c"], ["test", "-C", "c"], ["install", "-C", "c"], ["introspect", "c"], ["machine-file", "../asks"]):
        done = run([installed, *words], with_tools(), cwd=f"{WORK}/sources")
        check(f"meson self-install: {words[0]}", done.returncode == 0 and done.stderr == "", f"{done}")
    check("meson self-install: no command of the checkout alone", "self-install" not in run([installed, "--help"]).stdout)
    manual = read("prefix/share/man/man1/hawkottoman-meson.1")
    named = set(re.findall(r"^\.B hawkottoman-meson ([a-z-]+)$", manual, re.M))
    wanted = {"setup", "questions", "fault", "port", *FURTHER} - {"self-install"}
    check("meson self-install: the manual page has each command", named == wanted and manual.startswith(".TH HAWKOTTOMAN-MESON 1 "),
          named ^ wanted)
    os.rename(f"{WORK}/gone", COPY)
    done = run([MESON, "self-install", "/usr"], {**with_tools(), "DESTDIR": f"{WORK}/stage"})
    staged = run([f"{WORK}/stage/usr/bin/hawkottoman-meson", "test", "--help"])
    check("meson self-install: DESTDIR", done.returncode == staged.returncode == 0, f"{done} {staged}")


def test_build_that_fails() -> None:
    put("broken", "")
    put("checkout/crates/low/src/lib.rt", "// broken\n")
    os.utime(f"{COPY}/crates/low/src/lib.rt", (time.time() + 5,) * 2)
    done = meson("setup", "b", cwd=f"{WORK}/sources")
    is_told = re.search(r"^meson: low was not built; ", done.stderr, re.M)
    check("meson setup: a build that fails", done.returncode == 127 and is_told and done.stdout == "", f"{done}")


TESTS = (test_without_the_program, test_building, test_ending_a_build, test_building_the_library, test_commands, test_setup,
         test_modes_of_templates, test_questions, test_explain, test_reasons, test_compile, test_compile_that_fails, test_introspect,
         test_progress)
# The last leaves no program that is built.
LAST = (test_light_start, test_light_reports, test_self_install, test_self_install_that_fails, test_installed_copy, test_build_that_fails)
