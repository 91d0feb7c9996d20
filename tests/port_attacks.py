"""Tries again each attack that once harmed users of `meson port`. tests/scripts runs these too.

The files that must not change are in a folder `outside`, next to the sources in `p`.
"""
import contextlib
import errno
import io
import json
import os
import re
import shutil
import signal
import subprocess
import sys
import tempfile
import time
from collections.abc import Callable

from tests.attacks import files_below, fresh, is_running, link
from tests.plain_cases import PORTING, cases_of
from tests.workshop import CHECKOUT, WORK, check, configured, environment, put, read, run, shell, wait_until
from tools.asking import processes
from tools.asking.sandbox import version_of_landlock
from tools.ending import Stop, one_line
from tools.porting import build, journal, trial
from tools.porting.command import main
from tools.porting.project import Project, Unreadable
from tools.porting.rule_table import RULES

PORT = [os.path.join(CHECKOUT, "tools", "port"), "--no-trial"]
OLD = "project('p', 'c')\nimport('pkgconfig')\n"
NEW = "project('p', 'c')\n"
HAS_LANDLOCK = version_of_landlock() > 0


def port(*words: str) -> subprocess.CompletedProcess:
    """Runs the command in this process, since most of a run of its own would be Python's beginning."""
    out, said = (io.TextIOWrapper(io.BytesIO(), "utf-8", newline="") for _ in range(2))
    with contextlib.redirect_stdout(out), contextlib.redirect_stderr(said):
        try:
            status, why = main("", ["--no-trial", *words, f"{WORK}/p"]), ""
        except Stop as stop:
            status, why = 1 if stop.status is None else stop.status, f"meson port: {one_line(stop.why)}\n"
    return subprocess.CompletedProcess(words, status, out.buffer.getvalue().decode(), said.buffer.getvalue().decode() + why)


def refused(name: str, text: str, *words: str) -> None:
    done = port(*words)
    check(f"meson port: {name}: is refused", done.returncode == 1 and text in done.stderr and done.stderr.count("\n") == 1, f"{done}")


def project(text: str = OLD) -> None:
    fresh("p", "outside")
    put("p/meson.build", text)


def test_places() -> None:
    """Nothing outside of the sources is read as a definition, and nothing is changed there."""
    def stays(name: str, text: str, status: int = 0, shown: str = "is outside of SOURCE-DIR, or a link leads there") -> None:
        before = files_below("outside")
        for words in ((), ("--dry-run",)):
            done = port(*words)
            is_told = done.returncode == status and shown in done.stdout + done.stderr and "Traceback" not in done.stderr
            check(f"meson port: {name}: is told {' '.join(words)}".rstrip(), is_told, f"{done}")
        check(f"meson port: {name}: stays", files_below("outside") == before and before, files_below("outside"))
        check(f"meson port: {name}: the rest is done", status or read("p/meson.build") == text, read("p/meson.build"))

    for name, path in (("subdir climbs out", "../outside"), ("subdir at the root", f"{WORK}/outside")):
        project(f"{OLD}subdir('{path}')\n")
        put("outside/meson.build", "import('pkgconfig')\n")
        stays(name, f"{NEW}subdir('{path}')\n")
    for name, target, place in (("a link to a folder", "../outside", "p/sub"),
                                ("a link to a file", "../../outside/meson.build", "p/sub/meson.build")):
        project(f"{OLD}subdir('sub')\n")
        put("outside/meson.build", "import('pkgconfig')\n")
        link(target, place)
        stays(name, f"{NEW}subdir('sub')\n")
    project(f"{OLD}get_option('sbindir')\n")
    put("outside/options", "")
    link("../outside/options", "p/meson_options.txt")
    stays("an option file that is a link", "", 1)
    project("")
    put("outside/meson.build", OLD)
    os.remove(f"{WORK}/p/meson.build")
    link("../outside/meson.build", "p/meson.build")
    stays("a root file that is a link", "", 1)
    project(f"{OLD}subdir('sub')\n")
    put("p/real/meson.build", "import('pkgconfig')\n")
    link("real", "p/sub")
    done = port()
    is_good = done.returncode == 0 and read("p/real/meson.build") == "" and os.path.islink(f"{WORK}/p/sub")
    check("meson port: a link that stays inside is followed and stays a link", is_good, f"{done}")


def test_folders_outside() -> None:
    """Names of files and folders that are none of the project's are not written down."""
    for name in ("../outside", f"{WORK}/outside", "way"):
        project(f"{OLD}install_subdir('{name}', install_dir: 'x')\n")
        put("outside/secret", "")
        link("../outside", "p/way")
        done = port("--dry-run")
        is_good = done.returncode == 0 and "secret" not in done.stdout
        check(f"meson port: install_subdir of a folder outside: {name[:3]}", is_good, f"{done}")
    project(f"{OLD}install_subdir('d', install_dir: 'x')\nx = import('fs').name('a/\\ud800\\x9b')\n")
    put("p/d/\udcff", "")
    done = port()
    is_good = done.returncode == 0 and "install_subdir(" in read("p/meson.build") and r"x = '\ud800\x9b'" in read("p/meson.build")
    check("meson port: names and texts that are no UTF-8", is_good, f"{done}")
    project(f"{OLD}import('i18n').gettext('p', languages: ['..'])\n")
    put("p/...po", "")
    done = port("--dry-run")
    check("meson port: a language that climbs out", done.returncode == 0 and "../meson.build" not in done.stdout, f"{done}")


def test_bytes_that_stay() -> None:
    for name, before, after in (("CRLF", OLD.replace("\n", "\r\n"), NEW.replace("\n", "\r\n")), ("a BOM", "\ufeff" + OLD, "\ufeff" + NEW),
                                ("no last newline", OLD + "x = 1", NEW + "x = 1")):
        project()
        with open(f"{WORK}/p/meson.build", "w", encoding="utf-8", newline="") as it:
            it.write(before)
        done = port()
        with open(f"{WORK}/p/meson.build", encoding="utf-8", newline="") as it:
            check(f"meson port: {name} stays", it.read() == after, f"{done}")
    project("project('p', 'c')\nmessage(get_option('sbindir'))\n")
    put("p/meson_options.txt", "option('a', type: 'string')")
    done = port()
    text = read("p/meson_options.txt")
    check("meson port: no last newline of the option file stays", "\noption('" in text and not text.endswith("\n"), f"{text!r} {done}")


def test_what_a_file_is() -> None:
    """Owner, mode and other names stay, or nothing is changed."""
    project()
    os.link(f"{WORK}/p/meson.build", f"{WORK}/outside/other")
    refused("hard links", "meson.build: has 2 names (hard links), which would be two files then; nothing is changed")
    project()
    os.chmod(f"{WORK}/p/meson.build", 0o444)
    refused("a write-protected file", "meson.build: is write-protected; nothing is changed")
    check("meson port: what is refused stays", read("p/meson.build") == OLD and not os.path.lexists(f"{WORK}/p/.meson-port"))
    project()
    os.chmod(f"{WORK}/p/meson.build", 0o664)
    if os.geteuid() == 0:
        os.chown(f"{WORK}/p/meson.build", 12345, 12346)
    old = os.stat(f"{WORK}/p/meson.build")
    port()
    new = os.stat(f"{WORK}/p/meson.build")
    is_same = (new.st_mode, new.st_uid, new.st_gid) == (old.st_mode, old.st_uid, old.st_gid)
    check("meson port: owner and mode stay", is_same and read("p/meson.build") == NEW, f"{new}")


def two_files() -> dict[str, tuple[bytes | None, bytes]]:
    fresh("p", "outside")
    put("p/meson.build", "old a")
    put("p/sub/meson.build", "old b")
    return {"meson.build": (b"old a", b"new a"), "sub/meson.build": (b"old b", b"new b"), "new/c.pc.in": (None, b"new c")}


def state() -> tuple[str, ...]:
    paths = ("meson.build", "sub/meson.build", "new/c.pc.in")
    return tuple(read(f"p/{it}") if os.path.exists(f"{WORK}/p/{it}") else "" for it in paths)


OLD_STATE, NEW_STATE = ("old a", "old b", ""), ("new a", "new b", "new c")


def is_killed(action: Callable[[journal.Journal], object], step: int) -> bool:
    """Returns whether a process that does this was ended by SIGKILL before a step: one of the calls of the system that change files."""
    child = os.fork()
    if child == 0:
        left = step

        def before_call(event: str, given: tuple[object, ...]) -> None:
            nonlocal left
            left -= event == "open" or event.startswith("os.")
            if left < 0:
                os.kill(os.getpid(), signal.SIGKILL)
        try:
            sys.addaudithook(before_call)
            action(journal.Journal(f"{WORK}/p"))
        finally:
            os._exit(0)
    return os.WIFSIGNALED(os.waitpid(child, 0)[1])


def test_kills() -> None:
    """SIGKILL between any two steps, in the runs that finish it too: the next run has all of the new files, or all of the old ones."""
    seen, bad, kept = set(), [], os.fsync
    os.fsync = lambda number: None  # a killed process leaves the same with and without it
    for step in range(1000):
        texts = two_files()
        if not is_killed(lambda it: it.put(texts), step):
            break
        is_killed(lambda it: it.recover(), step % 13)
        journal.Journal(f"{WORK}/p").recover()
        seen.add(state())
        if state() not in (OLD_STATE, NEW_STATE) or sorted(os.listdir(f"{WORK}/p"))[0].startswith("."):
            bad.append((step, state(), os.listdir(f"{WORK}/p")))
    check("meson port: killed between any two steps: all is new or all is old", not bad and step > 20, f"{step} {bad[:3]}")
    check("meson port: killed between any two steps: both were seen", seen == {OLD_STATE, NEW_STATE}, seen)
    check("meson port: a run that isn't killed", state() == NEW_STATE, state())
    texts = {"meson.build": (OLD.encode(), NEW.encode())}
    is_there = lambda: os.path.exists(f"{WORK}/p/.meson-port/journal.json")
    for step in range(1000):
        project()
        if not is_killed(lambda it: it.put(texts), step) or is_there():
            break
    os.fsync = kept
    done = port()
    is_good = done.stdout.startswith("an interrupted run is finished: its changes are made\n") and read("p/meson.build") == NEW
    check("meson port: the next command finishes what was killed", is_good and not is_there(), f"{step} {done}")
    project()
    os.mkdir(f"{WORK}/p/.meson-port")
    done = port("--dry-run")
    is_good = done.stdout.startswith("--- a/meson.build\n") and "an interrupted run has left .meson-port, which is removed" in done.stderr
    check("meson port --dry-run: prints the patch alone after an interrupted run", is_good, f"{done}")


def test_full_disk() -> None:
    texts, kept = two_files(), os.fsync

    def full(number: int) -> None:
        raise OSError(errno.ENOSPC, os.strerror(errno.ENOSPC))
    os.fsync = full
    try:
        journal.Journal(f"{WORK}/p").put(texts)
        why = ""
    except Stop as stop:
        why = stop.why
    finally:
        os.fsync = kept
    is_good = why.endswith("/p/.meson-port: No space left on device; nothing is changed") and state() == OLD_STATE
    check("meson port: a full disk", is_good and not os.path.lexists(f"{WORK}/p/.meson-port"), f"{why} {state()}")


def test_journals_of_strangers() -> None:
    """A project may bring a journal: it moves nothing out of its folder or into it, and makes nothing that `port` doesn't make."""
    for name, place in (("climbs", "../outside/it"), ("is absolute", f"{WORK}/outside/it"), ("is a link", "way/it"), ("is the root", ".")):
        project()
        link("../outside", "p/way")
        put("p/.meson-port/0", "new")
        put("p/.meson-port/journal.json", json.dumps([[place, "0", ""]]))
        refused(f"a journal whose place {name}", "journal.json: is no journal of `meson port`", "--dry-run")
        check(f"meson port: a journal whose place {name}: moves nothing", not files_below("outside"), files_below("outside"))
    for place in (".git/hooks/pre-commit", ".git/config", "_darcs/prefs/defaults", "run.sh", ".meson.build", "meson.build/x"):
        project()
        put("p/.git/config", "old")
        put("p/.meson-port/0", "#!/bin/sh\n", 0o755)
        put("p/.meson-port/journal.json", json.dumps([[place, "0", journal.digest(b"old") if place.endswith("config") else ""]]))
        refused(f"a journal that makes {place}", "journal.json: is no journal of `meson port`", "--dry-run")
        is_same = not os.path.exists(f"{WORK}/p/{place}") or read(f"p/{place}") == "old"
        check(f"meson port: a journal that makes {place}: makes nothing", is_same)
    for name, text in (("no JSON", "["), ("other JSON", "{}"), ("deep", "[" * 50000),
                       ("a path that waits", '[["a", "../meson.build", ""]]')):
        project()
        put("p/.meson-port/journal.json", text)
        refused(f"a journal that is {name}", "journal.json: is no journal of `meson port`")
    project()
    link("../outside", "p/.meson-port")
    refused("a folder of the journal that is a link", ".meson-port: is not the folder of `meson port`")
    project()
    put("p/.meson-port/0", NEW)
    put("p/.meson-port/journal.json", json.dumps([["meson.build", "0", journal.digest(b"other")]]))
    refused("a file that was changed meanwhile", "meson.build: was changed after `meson port` was interrupted")
    check("meson port: a file that was changed meanwhile stays", read("p/meson.build") == OLD)


# The build file of a program, a static library and a shared one, as the program writes it.
EDGES = """rule c_compile
 command = $COMMAND

build liba.a.p/a.c.o: c_compile ../a.c
 COMMAND = cc -I. -I.. -Wall -fPIC -MD -MQ liba.a.p/a.c.o -MF liba.a.p/a.c.o.d -o liba.a.p/a.c.o -c ../a.c
 DESC = Compiling C object liba.a.p/a.c.o

build liba.a: ar liba.a.p/a.c.o
 COMMAND = ar csr liba.a liba.a.p/a.c.o

build libs.so.1.p/a.c.o: c_compile ../a.c
 COMMAND = cc -I. -I.. -Wall -fPIC -MD -MQ libs.so.1.p/a.c.o -MF libs.so.1.p/a.c.o.d -o libs.so.1.p/a.c.o -c ../a.c

build libs.so.1: c_link libs.so.1.p/a.c.o
 COMMAND = cc -shared -fPIC -Wl,-soname,libs.so.1 -o libs.so.1 libs.so.1.p/a.c.o

build libs.so: symlink libs.so.1
 COMMAND = ln -f -s libs.so.1 libs.so

build sub/p.p/m.c.o: c_compile ../m.c
 COMMAND = cc -Isub -I../sub -Wall @C_ARGS@ -MD -MQ sub/p.p/m.c.o -MF sub/p.p/m.c.o.d -o sub/p.p/m.c.o -c ../m.c

build sub/p: c_link sub/p.p/m.c.o | liba.a
 COMMAND = cc -o sub/p sub/p.p/m.c.o liba.a '-Wl,-rpath,$$ORIGIN/..' @LINK_ARGS@

build all: phony liba.a libs.so.1 libs.so sub/p

default all
"""
# Words of a project by which a compiler or a linker would run what is the project's, or write elsewhere; OUTSIDE is a folder.
TRIED = {
    "C_ARGS": ("-fplugin=OUTSIDE/../p/evil.so", "-MF OUTSIDE/it", "-o OUTSIDE/it", "-wrapper OUTSIDE/../p/evil", "-B..",
               "-fdump-tree-all=OUTSIDE/it", "@../words", "../evil.c", "-include /dev/null"),
    "LINK_ARGS": ("-Wl,-soname,x,-plugin,../evil.so", "-Wl,-rpath,x,-plugin,../evil.so", "-Wl,-plugin,../evil.so", "-o OUTSIDE/it",
                  "-Wl,-Map=OUTSIDE/it", "-wrapper ../evil", "-fuse-ld=../evil", "-L..", "../evil.so", "-Wl,--version-script=OUTSIDE/it")}


def built(c_args: str = "", link_args: str = "", *words: str) -> subprocess.CompletedProcess:
    """Returns a trial whose program writes this build file."""
    outside = f"{WORK}/outside"
    text = EDGES.replace("@C_ARGS@", c_args).replace("@LINK_ARGS@", link_args).replace("OUTSIDE", outside)
    put("edges", text)
    return run([PORT[0], "--dry-run", "--program", program_that_sets_up(), *words, "p"])


def program_that_sets_up() -> str:
    """Returns a program that takes all, and writes the build file `edges` and a document."""
    configured("empty")
    copies = f"cp -R {WORK}/empty $1\ncp {WORK}/edges $1/build.ninja\n"
    return put("program", f"#!/bin/sh\n[ $1 = setup ] || exit 0\nshift $(($# - 1))\n{copies}", 0o755)


def test_trial() -> None:
    """The build of the result runs nothing of the project, and writes nothing elsewhere."""
    project(NEW)
    put("p/a.c", "int a(void) { return 0; }\n")
    put("p/m.c", "int a(void);\nint main(void) { return a(); }\n")
    done = built()
    check("meson port: a trial that is good", "the result was built\n" in done.stderr and done.returncode == 0, f"{done}")
    done = built("-Dmain=")
    is_told = done.returncode == 1 and re.search("the build fails: sub/p.p/m.c.o: .*error: ", done.stderr)
    check("meson port: a trial that doesn't compile", is_told, f"{done}")
    done = built("", "-Wl,--defsym=a=none")
    is_told = done.returncode == 1 and re.search("the build fails: sub/p: .*none", done.stderr)
    check("meson port: a trial that can't be linked", is_told, f"{done}")
    put("p/evil.c", f"#include <fcntl.h>\n__attribute__((constructor)) static void f(void) {{ creat(\"{WORK}/outside/ran\", 0600); }}\n")
    run(["cc", "-shared", "-fPIC", "p/evil.c", "-o", "p/evil.so"])
    put("p/evil", f"#!/bin/sh\n: >{WORK}/outside/ran\n", 0o755)
    put("p/words", f"-fplugin={WORK}/p/evil.so\n")
    for place, words in (("c_args", "-MF OUTSIDE/it"), ("link_args", "-o OUTSIDE/it"), ("link_args", "-Wl,-soname,x,-plugin,../evil.so")):
        done = built(**{place: words})
        is_told = "would run commands of the project, as `the compiler with -" in done.stderr
        check(f"meson port: a trial with {words}: is not made", is_told and done.returncode == 0, f"{done}")
        check(f"meson port: a trial with {words}: runs and writes nothing", not files_below("outside"), files_below("outside"))
    for words in ("-Wl,-soname,x,-plugin,../evil.so", "-o OUTSIDE/it", "-wrapper ../evil", "-Wl,-Map=OUTSIDE/it"):
        carried_out_all_the_same(words)
        is_stopped = not files_below("outside") or not HAS_LANDLOCK
        check(f"meson port: a trial with {words}: the sandbox alone stops it", is_stopped, files_below("outside"))


def test_modules() -> None:
    """A PYTHONPATH with an empty part names the present folder: no module of the project is imported."""
    project(NEW)
    for name in ("tempfile", "signal", "re", "json"):
        put(f"p/{name}.py", f"open({WORK + '/outside/ran'!r}, 'w')\n")
    put("bin/meson", f"#!{sys.executable}\nimport json\nprint('1.0.0')\n", 0o755)
    put("p/meson.build", OLD)
    words = [sys.executable, "-I", "-S", PORT[0], "--dry-run", "--no-build", "--program", program_that_sets_up(), "."]
    done = run(words, {"PYTHONPATH": ":", "PATH": f"{WORK}/bin:{os.environ['PATH']}"}, cwd=f"{WORK}/p")
    is_good = done.returncode == 0 and "meson setup takes the result\nthe real Meson was not asked" in done.stderr
    check("meson port: modules of the project are not imported", is_good and not files_below("outside"), f"{done} {files_below('outside')}")
    shutil.rmtree(f"{WORK}/bin")


def test_doubts() -> None:
    """Which builds are in doubt, so that no trial is made of them."""
    project(NEW)
    text = "build m.h: custom\n COMMAND = touch m.h\n\n" + EDGES.replace(": c_compile ../m.c\n", ": c_compile ../m.c || m.h\n")
    made = [it.words for it in build.edges_of(text)]
    check("meson port: a trial needs what is made before a source is compiled", made[0] == ["touch", "m.h"], made)
    with tempfile.TemporaryDirectory(dir=WORK) as scratch:
        trial = build.Trial(f"{WORK}/p", scratch, scratch)
    for place, tried in TRIED.items():
        for words in tried:
            text = EDGES.replace(f"@{place}@", words).replace("OUTSIDE", f"{WORK}/outside")
            said = [it for it in map(trial.doubt_of, build.edges_of(re.sub("@[A-Z_]+@", "", text))) if it]
            check(f"meson port: a trial with {words}: is in doubt", said and said[0].startswith("the compiler with "), said)
    for words, wanted in ((["-O1", "-w", "-g", "x"], [["-O1"], ["x"]]), (["-w", "-g"], [[], []]), (["-g", "-w"], [[], ["-g", "-w"]]),
                          ([], [[], []])):
        check(f"meson port: a trial: the user's words among {words}", build.parts_round(words, ["-w", "-g"]) == wanted)
    check("meson port: a trial: no words of the user", build.parts_round(["-x"], []) == [[], ["-x"]])
    for before, after in (("ar csr", "ar csrP"), ("ln -f -s", "cp -f"), ("cc -I. ", "./cc -I. "), (" -c ../a.c", " -c @../a.c"),
                          ("ar liba", "ar -liba"), (": ar ", ": custom ")):
        said = [it for it in map(trial.doubt_of, build.edges_of(re.sub("@[A-Z_]+@", "", EDGES).replace(before, after))) if it]
        check(f"meson port: a trial with a command {after}: is in doubt", said, said)


def carried_out_all_the_same(words: str) -> None:
    """Runs the build of these words, which no table looks at."""
    put("edges", EDGES.replace("@C_ARGS@", "").replace("@LINK_ARGS@", words).replace("OUTSIDE", f"{WORK}/outside"))
    fresh("trial", "scratch")
    for name in ("a.c", "m.c", "evil.so", "evil"):
        os.symlink(f"{WORK}/p/{name}", f"{WORK}/trial/{name}")
    os.mkdir(f"{WORK}/trial/{build.BUILD}")
    build.Trial(f"{WORK}/p", f"{WORK}/trial", f"{WORK}/scratch").carry_out(build.edges_of(read("edges")))


def test_lines_that_are_forged() -> None:
    """What a project says is shown, and not obeyed by the terminal."""
    project("project('p', 'c')\nx = '\x1b[2Jred\x07'\nimport('pkgconfig')\ny = import('gnome\x1b[1m\rleft')\n")
    for words in ((), ("--dry-run",)):
        done = port(*words)
        is_plain = not any(ord(it) < 32 and it not in "\n\t" for it in done.stdout + done.stderr)
        check(f"meson port: control characters {' '.join(words)}".rstrip(), is_plain and done.stdout, f"{done.stdout!r}")
        put("p/meson.build", "project('p', 'c')\nx = '\x1b[2Jred\x07'\nimport('pkgconfig')\n")


def test_streams() -> None:
    project()
    for name, words in (("a full output", "{} >/dev/full"), ("a closed output", "{} >&-")):
        done = run(["sh", "-c", words.format(" ".join([*PORT, "--dry-run", "p"]))])
        is_one_line = done.stderr.startswith("meson port: standard output: ") and done.stderr.count("\n") == 1
        check(f"meson port: {name}", done.returncode == 1 and is_one_line, f"{done}")
    project("project('p', 'c')\nx = run_command('echo', 'é', check: true).stdout()\n")
    done = run([*PORT, "--run", "--dry-run", "p"], {"PYTHONIOENCODING": "ascii"})
    check("meson port: an output of ASCII alone", done.returncode == 0 and "\\xe9" in done.stdout, f"{done}")


def test_signals() -> None:
    """A command that the project runs is ended with the script."""
    for number in (signal.SIGINT, signal.SIGTERM, signal.SIGHUP):
        project("project('p', 'c')\nx = run_command('sh', '-c', 'echo $$ >pid; sleep 300 & wait', check: true)\n")
        process = subprocess.Popen([*PORT, "--run", "p"], cwd=WORK, env=environment(), stdout=subprocess.PIPE,
                                   stderr=subprocess.PIPE, text=True,
                                   preexec_fn=lambda: [signal.signal(it, signal.SIG_DFL) for it in (signal.SIGINT, signal.SIGHUP)])
        has_begun = wait_until(lambda: os.path.exists(f"{WORK}/p/pid") and read("p/pid").endswith("\n"), 120)
        process.send_signal(number)
        errors = process.communicate(timeout=200)[1]
        is_told = (process.returncode, errors) == (130, "meson port: interrupted\n")
        check(f"meson port: {number.name}", is_told, f"{process.returncode} {errors}")
        is_ended = has_begun and not is_running(int(read("p/pid")))
        check(f"meson port: {number.name} ends what it runs", is_ended, "it runs" if has_begun else "it has not begun in time")


def test_signal_in_a_trial() -> None:
    """What Ninja runs is ended with the script, and no folder is left."""
    project(NEW)
    fresh("scratch")
    put("edges", f"rule custom\n command = $COMMAND\n\nbuild it: custom\n COMMAND = echo $$$$ >{WORK}/outside/pid; sleep 300; true\n\n"
        "build all: phony it\n")
    process = subprocess.Popen([PORT[0], "--run", "--program", program_that_sets_up(), "p"], cwd=WORK, stdout=subprocess.PIPE,
                               stderr=subprocess.PIPE, text=True, env=environment({"TMPDIR": f"{WORK}/scratch"}))
    has_begun = wait_until(lambda: os.path.exists(f"{WORK}/outside/pid") and read("outside/pid").endswith("\n"), 120)
    process.send_signal(signal.SIGTERM)
    errors = process.communicate(timeout=200)[1]
    is_told = has_begun and (process.returncode, errors) == (130, "meson port: interrupted\n")
    check("meson port: a signal in a trial", is_told, f"{process.returncode} {errors}")
    check("meson port: a signal in a trial ends what Ninja runs", has_begun and not is_running(int(read("outside/pid"))))
    check("meson port: a signal in a trial leaves nothing", os.listdir(f"{WORK}/scratch") == [], os.listdir(f"{WORK}/scratch"))


def test_early_signals() -> None:
    """A signal that comes while a script is being read."""
    for script in ("port", "command test", "machine-file program machine-file"):
        name, *words = script.split()
        for delay in (0.06, 0.1, 0.2):
            process = subprocess.Popen([sys.executable, f"{CHECKOUT}/tools/{name}", *words, "--help"], cwd=WORK, env=environment(),
                                       stdout=subprocess.PIPE, stderr=subprocess.PIPE, text=True)
            # Not before the interpreter has begun with the script itself.
            wait_until(lambda: process.poll() is not None or is_reading(process.pid), 60)
            time.sleep(delay / 10)
            process.send_signal(signal.SIGINT)
            errors = process.communicate(timeout=200)[1]
            # At its very end the interpreter heeds no signal by a function any more.
            is_good = process.returncode in (0, 130, -signal.SIGINT) and "Traceback" not in errors
            check(f"tools/{name}: a signal {delay} after the beginning", is_good, f"{process.returncode} {errors}")


def is_reading(number: int) -> bool:
    """Returns whether a process heeds signals by a function of its own, or is gone."""
    try:
        with open(f"/proc/{number}/status", encoding="ascii") as it:
            caught = next(int(line.split()[1], 16) for line in it if line.startswith("SigCgt"))
    except (OSError, StopIteration):
        return True
    return caught & 1 << signal.SIGTERM - 1 != 0


def test_costs() -> None:
    """Loops in loops, chains of operators and many calls."""
    loops = "".join(f"foreach a{n} : ['1', '2', '3', '4', '5', '6', '7', '8']\n" for n in range(8)) + "endforeach\n" * 8
    for name, text, seconds in (
            ("8 loops of 8", f"{OLD}{loops}", 15), ("a chain of 900", f"{OLD}x = {' + '.join(['1'] * 900)}\n", 15),
            ("many calls", "project('p', 'c')\npkg = import('pkgconfig')\n" + "".join(
                f"pkg.generate(name: 'l{n}', description: 'd')\n" for n in range(400)), 30)):
        project(text)
        begun = time.process_time()
        done = port("--dry-run")
        used = time.process_time() - begun
        is_good = done.returncode == 0 and "Traceback" not in done.stderr and used < seconds
        check(f"meson port: {name}: ends", is_good, f"{used} s {done.stderr}")
    project(f"{OLD}x = {' + '.join(['1'] * 5000)}\n")
    refused("a chain of 5,000", "meson.build:3: expressions are nested too deeply")
    project(f"{OLD}import('fs').name()\nx = import('fs').name('a/b')\n")
    done = port()
    check("meson port: fs.name without arguments", "rule" not in done.stdout and "x = 'b'" in read("p/meson.build"), f"{done}")


# Statements that make a value greater each time, and the statement before them.
GROWING = {
    "t = 'aaaaaaaa'": "t += t", "r = 'aa'": "r = r.replace('a', r)", "j = 'aa'": "j = j.join([j, j, j])",
    "f = 'aa'": "f = '@0@@0@'.format(f)", "p = 'a/b'": "p = p / p", "l = ['a']": "l += l", "n = ['a']": "n = [n, n]",
    "i = 99": "i = i * i", "o = get_option('x') ? ['a'] : 'a'": "o = [o, o]"}


def test_growth() -> None:
    """Values that double in each of sixty statements, many variables at many calls, and files of many tokens."""
    grown = "".join(f"{first}\n" + f"{step}\n" * 60 for first, step in GROWING.items())
    many = "".join(f"v{n} = 1\n" for n in range(8000)) + "".join(f"foreach a{n} : [1, 2, 3, 4, 5, 6, 7, 8]\n" for n in range(5))
    digits = f"d = {'9' * 5000}\ne = '{'9' * 5000}'.to_int()\ng = '@{'9' * 5000}@'.format(1)\nh = '1'.version_compare('>{'9' * 5000}')\n"
    for name, text in {"values": f"{grown}files(n, l)\nexecutable('e', o, i.to_string(), t)\n",
                       "calls": f"{many}message(a0)\n" + "endforeach\n" * 5,
                       "digits": digits + "message(d.to_string(), e, g, h)\n"}.items():
        project(OLD + text)
        done, most = run_in_memory("--dry-run")
        check(f"meson port: {name} that grow", done.returncode == 0 and "Traceback" not in done.stderr, f"{done}"[-2000:])
        check(f"meson port: {name} that grow: memory", most < 700 << 10, most)
    project(OLD + "1\n" * 300000)
    refused("a file of many tokens", "a file of more than 262,144 tokens is not read here", "--dry-run")


def test_odd_files() -> None:
    """Nothing is read but files of a bounded size."""
    project(f"{OLD}subdir('sub')\n")
    os.mkdir(f"{WORK}/p/sub")
    os.mkfifo(f"{WORK}/p/sub/meson.build")
    refused("a pipe", "sub/meson.build: is no file, but a pipe or a device")
    os.remove(f"{WORK}/p/sub/meson.build")
    with open(f"{WORK}/p/sub/meson.build", "wb") as it:
        it.truncate(3 << 30)
    refused("3 GiB of nothing", "sub/meson.build: has more than 16,777,216 bytes")
    for name, text in {
            "LINGUAS": "import('i18n').gettext('p')", "a.c": "meson.get_compiler('c').compiles(files('a.c'))",
            "in.h": "configure_file(input: 'in.h', output: 'out.h', configuration: {'A': true})",
            "script": "custom_target('c', output: 'c', command: [files('script')])"}.items():
        for kind in ("a pipe", "a device", "3 GiB of nothing"):
            project(f"{OLD}{text}\n")
            special_file(f"p/{name}", kind)
            done, most = run_in_memory("--dry-run")
            is_good = done.returncode == 0 and "Traceback" not in done.stderr
            check(f"meson port: {name} that is {kind}", is_good, f"{done}")
            check(f"meson port: {name} that is {kind} is not kept", most < 200 << 10, most)


def special_file(place: str, kind: str) -> None:
    path = f"{WORK}/{place}"
    if kind == "a pipe":
        os.mkfifo(path)
    elif kind == "a device":
        os.symlink("/dev/zero", path)
    else:
        with open(path, "wb") as it:
            it.truncate(3 << 30)


def run_in_memory(*words: str) -> tuple[subprocess.CompletedProcess, int]:
    """Runs the command in a process of its own. Returns the memory that it used too, in KiB."""
    with tempfile.TemporaryFile("w+", dir=WORK) as said:
        process = subprocess.Popen([*PORT, *words, "p"], cwd=WORK, env=environment(), stdout=subprocess.DEVNULL, stderr=said)
        _, status, used = os.wait4(process.pid, 0)
        process.returncode = os.waitstatus_to_exitcode(status)
        said.seek(0)
        return subprocess.CompletedProcess(PORT, process.returncode, "", said.read()), used.ru_maxrss


def test_installed() -> None:
    """The installed command asks the program that it is installed with, and none of another name on PATH."""
    project(NEW)
    for place in ("lib", "bin"):
        program = put(f"installed/{place}/hawkottoman", f"#!/bin/sh\necho $1 >>{WORK}/outside/{place}\n", 0o755)
    shutil.copytree(os.path.join(CHECKOUT, "tools"), f"{WORK}/installed/lib/tools", ignore=shutil.ignore_patterns("__pycache__"))
    env = {"PATH": f"{os.path.dirname(program)}:{os.environ['PATH']}"}
    done = run([f"{WORK}/installed/lib/tools/port", "--no-build", "p"], env)
    is_asked = done.returncode == 0 and "meson setup takes the result\n" in done.stdout and list(files_below("outside")) == ["outside/lib"]
    check("meson port: where it is installed", is_asked, f"{done} {files_below('outside')}")


def test_budget() -> None:
    """Once the budget is spent, the command reports what it has not tried."""
    project()
    it = Project(f"{WORK}/p")
    before, it.spent = it.has_spent_all, 1 << 40
    check("meson port: a budget that is spent", not before and it.has_spent_all)


def test_rules_by_name() -> None:
    """The report lists the rules that need an option, and names no rule that does not exist."""
    done = port("--also", "help")
    names = {line.split()[0] for line in done.stdout.splitlines()}
    is_good = done.returncode == 0 and names == {it.name for it in RULES if not it.is_sure} and "test-protocol" in names
    check("meson port: --also help lists the rules that are asked for", is_good, done)
    folder = os.path.join(CHECKOUT, "tools", "porting")
    texts = [read(os.path.join(folder, it)) for it in os.listdir(folder) if it.endswith(".py")]
    named = {name for text in texts for name in re.findall(r"--also ([a-z-]+)`", text)} - {"help"}
    check("meson port: what is left names rules that are there", named and named <= names, named - names)


# Replaces the real Meson: refuses what has the name `bad`, and notes where it was run.
REAL = """#!/bin/sh
case $1 in --version) echo 1.7.0; exit ;; esac
pwd >>"$0.ran"
if grep -q bad meson.build; then echo 'meson.build:2:0: ERROR: it is bad'; exit 1; fi
"""


def test_names_of_rules() -> None:
    """A rule finds nothing in a project that has none of the names in its words; tried on the projects of all cases."""
    cases = [it for path in sorted(os.listdir(f"{CHECKOUT}/tests/porting")) for it in cases_of(f"{CHECKOUT}/tests/porting/{path}", PORTING)]
    found, skipped = [], 0
    for case in cases:
        texts = {path: lines for path, lines in case.all("file")}
        first = case.all("in")[0][1] if case.all("in") else ""
        texts["meson.build"] = first if first.startswith("project(") else f"project('p', 'c', version: '1.0')\n{first}"
        fresh("p")
        for path, text in texts.items():
            put(f"p/{path}", text)
        try:
            looked = Project(f"{WORK}/p")
        except Unreadable:
            continue
        others = [it for it in RULES if not it.may_change(looked)]
        skipped += len(others)
        found += [f"{it.name}: {case.title}" for it in others if list(it.change(looked))]
    check("meson port: a rule is tried where its names are", not found and skipped > 50 * len(cases), f"{found} {skipped}")


def test_real_meson() -> None:
    """The result is tried with the real Meson where commands of the project may run; what it refused before is no fault of the result."""
    put("real/meson", REAL, 0o755)
    put("ours/meson", "#!/bin/sh\ncase $1 in --version) echo Hawkottoman 0.1; exit ;; esac\ntouch \"$0.ran\"\n", 0o755)
    path = f"{WORK}/ours:{WORK}/real:{os.environ['PATH']}"

    def asks(name: str, text: str, said: str, status: int = 0, runs: int = 1, words: tuple[str, ...] = ("--run",)) -> None:
        project(text)
        command = [os.path.join(CHECKOUT, "tools", "port"), "--program", "/bin/true", "--no-build", *words, f"{WORK}/p"]
        done = run(command, {"PATH": path})
        ran = read("real/meson.ran").splitlines() if os.path.exists(f"{WORK}/real/meson.ran") else []
        is_elsewhere = not any(it == os.path.realpath(f"{WORK}/p") for it in ran)
        is_good = done.returncode == status and said in done.stdout + done.stderr and len(ran) == runs and is_elsewhere
        check(f"meson port: the real Meson: {name}", is_good and os.listdir(f"{WORK}/p") == ["meson.build"], f"{done} {ran}")
        fresh("real")
        put("real/meson", REAL, 0o755)

    asks("takes the result", OLD, "\nthe real Meson takes the result\n")
    asks("takes a patch", OLD, "\nthe real Meson takes the result\n", words=("--run", "--dry-run"))
    asks("refuses the result", OLD + "if true\n  gnome = import('gnome')\n  gnome.such()\nendif\nrun_target('bad', command: ['true'])\n",
         "\nthe real Meson refuses the sources as they were: meson.build:2:0: ERROR: it is bad\n", runs=2)
    asks("refuses the result alone", OLD + "x = run_command('sh', '-c', 'echo b' + 'ad', check: true).stdout()\n",
         "\nthe real Meson refuses the result: meson.build:2:0: ERROR: it is bad\n", 1, 2)
    asks("isn't asked where nothing may run", OLD,
         "\nthe real Meson was not asked: it runs commands of the project: --run allows that\n", 0, 0, ())
    asks("isn't asked where that isn't wanted", OLD, "", 0, 0, ("--run", "--no-real"))
    asks("isn't asked where nothing changes", NEW, "", 0, 0)
    check("meson port: this command isn't taken for the real Meson", not os.path.exists(f"{WORK}/ours/meson.ran"))


def test_machine_file_of_a_trial() -> None:
    """A build of a patch gets the machine file of the changed sources, and not of those on the disk."""
    project("project('p', 'c')\n")
    own, seen = trial.machine_file, []

    def machine_file(program: str, root: str, words: list[str]) -> tuple[bytes, bool]:
        seen.append(read(os.path.relpath(f"{root}/meson.build", WORK)))
        return b"[binaries]\n", False

    trial.machine_file = machine_file
    try:
        came = trial.first_fault("/bin/true", f"{WORK}/p", {"meson.build": NEW}, [], print)
    finally:
        trial.machine_file = own
    is_good = came == (None, b"[binaries]\n") and seen == [NEW]
    check("meson port: a trial: the machine file is that of the result", is_good, f"{came} {seen}")
    begun, begin = [], processes.Command.begin
    processes.Command.begin = lambda self, *words: (begun.append(self.words), begin(self, *words))[1]
    try:
        came = trial.first_fault("/bin/true", f"{WORK}/p", {}, [], print)
    finally:
        processes.Command.begin = begin
    names = {os.path.basename(it[0]) for it in begun}
    check("meson port: a trial: no other script makes the machine file", names == {"cc", "meson"} and came[0] is None, f"{came} {begun}")


def test_what_a_trial_says() -> None:
    """What a build of the result says, and which rule helps; nothing of the project runs where that isn't allowed."""
    place = os.path.join(os.path.realpath(WORK), "trial", build.BUILD)
    fresh("trial", "scratch")
    built = build.Trial(f"{WORK}/p", f"{WORK}/trial", f"{WORK}/scratch")

    def says(name: str, edge: str, command: str, wanted: str, is_good: bool = False, env: str = "A=b", may_run: bool = True) -> None:
        fresh("trial")
        text = f"rule {edge}\n command = $COMMAND\nbuild x: {edge}\n COMMAND = {command}\nbuild all: phony x\ndefault all\n"
        put(f"trial/{build.BUILD}/build.ninja", text)
        made = [{"defined_in": "meson.build", "filename": [it], "name": it, "type": "custom"} for it in ("x", "data")]
        configured(f"trial/{build.BUILD}", targets=made, tests=[shell("t", ":", env=[env])])
        got = build.outcome(built, may_run)
        check(f"meson port: a trial build: {name}", wanted in got[0] and got[1] == is_good, got)

    says("is good", "custom", f'touch x; test "$$TMPDIR" = {WORK}/scratch', "the result was built", True)
    says("is not made where it runs the project's", "custom", "touch x", "as `touch x`: --run allows that", True, may_run=False)
    says("static libraries out of order", "c_link", "echo undefined reference to x; false",
         "`--also link-order` names static libraries")
    says("a header of another folder", "c_link", "echo fatal error: h.h: No such file; false", "the rule made-headers has its folder")
    says("what another target makes", "custom", "cat y", "No such file or directory; where another target makes it, name that target")
    says("is made as the project has it, if it fails without optimization", "c_compile",
         "sh -c 'case $$* in *-O0*) exit 1 ;; esac; touch x' sh", "the result was built", True)
    says("what a test needs", "custom", "touch x", "the test t needs data, which is not built by default", env=f"DATA={place}/data")
    says("what a test has", "custom", "touch x", "the result was built", True, env=f"DATA={place}/x")


TESTS = (test_rules_by_name, test_names_of_rules, test_real_meson, test_places, test_folders_outside, test_bytes_that_stay,
         test_what_a_file_is, test_kills, test_full_disk, test_journals_of_strangers, test_trial, test_modules, test_doubts,
         test_machine_file_of_a_trial, test_what_a_trial_says, test_lines_that_are_forged, test_streams, test_signals,
         test_signal_in_a_trial, test_early_signals, test_costs, test_growth, test_odd_files, test_installed, test_budget)
