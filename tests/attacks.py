"""Tries again each attack that once harmed users of the scripts. tests/scripts runs these too.

The files that no script may touch are in a folder `outside`, next to the folder that a script is given.
"""
import os
import re
import resource
import shutil
import signal
import subprocess
import sys
import time

from tests.commands import MESON, NOTHING_ASKED, with_tools
from tests.workshop import CHECKOUT, WORK, check, configured, environment, over, put, read, refuses, run, shell, words_of

ROOT = os.path.realpath(WORK)


def files_below(folder: str) -> dict[str, bytes]:
    """Returns the files and links below a folder of WORK, each with its bytes or with where it leads."""
    found = {}
    for place, folders, names in os.walk(os.path.join(WORK, folder)):
        for path in (os.path.join(place, name) for name in folders + names):
            if os.path.islink(path):
                found[os.path.relpath(path, WORK)] = os.fsencode(os.readlink(path))
            elif os.path.isfile(path):
                with open(path, "rb") as it:
                    found[os.path.relpath(path, WORK)] = it.read()
    return found


def fresh(*folders: str) -> None:
    for folder in folders:
        shutil.rmtree(os.path.join(WORK, folder), ignore_errors=True)
        os.makedirs(os.path.join(WORK, folder))


def link(target: str, place: str) -> None:
    os.makedirs(os.path.dirname(os.path.join(WORK, place)), exist_ok=True)
    os.symlink(target, os.path.join(WORK, place))


# install: destinations

def to_install(*destinations: str) -> None:
    """Makes a configured folder `i` that installs a header to each of these places."""
    configured("i", installed={put(f"i{n}/a.h", f"{n}\n"): place for n, place in enumerate(destinations)})
    put("i/build.ninja", "")


def leaves(name: str, destination: str, text: str, status: int = 2) -> None:
    """Checks that a command is refused at once: it writes neither to the place before nor to anything outside, and builds nothing."""
    to_install("/first/before.h", destination)
    before = files_below("d"), files_below("outside")
    refuses(f"{name}: is refused", over("install", "i", "--destdir", "d"), status, text,
            env={"NINJA": put("no-ninja", "#!/bin/sh\ntouch built\n", 0o755)})
    check(f"meson install: {name}: writes nothing", before == (files_below("d"), files_below("outside")) and
          not os.path.exists(f"{WORK}/built"), files_below("d"))


def test_destinations() -> None:
    fresh("d", "outside")
    for place in ("/usr/local/../../../outside/a.h", "/usr/local/include/../../../../outside/a.h", "/..", "/../a.h", "/usr/./..//../a.h"):
        leaves(f"a destination {place}", place, f"{place}: climbs above the root; {WORK}/i1/a.h can't be installed there")
    leaves("a relative prefix", "usr/include/a.h", "usr/include/a.h: is a relative path; the option prefix has to be an absolute one")
    leaves("the root itself", "/usr/..", "is the root itself")
    to_install("/usr/include/before.h", f"{ROOT}/.." + "/.." * ROOT.count("/") + f"{ROOT}/outside/a.h")
    refuses("climbs above /", over("install", "i", "--no-rebuild"), 2, "climbs above the root", env={"DESTDIR": ""})
    check("meson install: climbs above /: writes nothing", not files_below("outside") and not os.path.exists("/usr/include/before.h"))
    refuses("a dry run", over("install", "i", "--destdir", "d", "-n"), 2, "climbs above the root")
    to_install("/usr/local/../lib/a.h", "/usr//./include/a.h")
    done = run(over("install", "i", "--destdir", "d", "--no-rebuild"))
    check("meson install: parts are carried out", set(files_below("d")) == {"d/usr/lib/a.h", "d/usr/include/a.h"}, f"{done}")
    check("meson install: and shown so", f"Installing {WORK}/i0/a.h to {WORK}/d/usr/lib\n" in done.stdout, done.stdout)


def test_links_on_the_way() -> None:
    for name, target, place in (("an absolute link", f"{WORK}/outside", "d/usr"), ("a relative link", "../../outside", "d/usr/lib"),
                                ("a link to the root", "/", "d/usr"), ("a link to a link", "there", "d/usr")):
        fresh("d", "outside")
        link(target, place)
        link(f"{WORK}/outside", "d/there")
        leaves(name, "/usr/lib/a.h", "/usr/lib/a.h: has a link on its way that leads ")
    fresh("d", "outside")
    link("usr", "d/usr")
    leaves("a circle of links", "/usr/lib/a.h", "d/usr/lib/a.h: Too many levels of symbolic links", 1)
    fresh("d", "outside")
    link("gone/../../outside", "d/usr")
    leaves("a link over a folder that is absent", "/usr/lib/a.h", "has a link on its way that leads out of")


def test_links_that_stay() -> None:
    fresh("d", "outside")
    for target, place in {"lib64": "d/usr/lib", "../usr/share": "d/usr/doc", f"{WORK}/d/usr/bin": "d/bin", "usr/sbin": "d/sbin"}.items():
        link(target, place)
    os.makedirs(f"{WORK}/d/usr/bin")
    put("outside/kept", "kept")
    link(f"{WORK}/outside/kept", "d/usr/share/last.h")
    to_install("/usr/lib/a.h", "/usr/doc/b.h", "/bin/c.h", "/sbin/d.h", "/usr/share/last.h")
    done = run(over("install", "i", "--destdir", "d", "--no-rebuild"))
    came = {name for name in files_below("d") if name.endswith(".h")}
    wanted = {"d/usr/lib64/a.h", "d/usr/share/b.h", "d/usr/bin/c.h", "d/usr/sbin/d.h", "d/usr/share/last.h"}
    check("meson install: links that stay in DESTDIR are followed", done.returncode == 0 and came == wanted, f"{done} {came ^ wanted}")
    is_replaced = read("outside/kept") == "kept" and not os.path.islink(f"{WORK}/d/usr/share/last.h")
    check("meson install: a link in the place of a file is replaced", is_replaced)
    fresh("d", "outside")
    link(f"{WORK}/outside", "d/link")
    to_install(f"{ROOT}/d/link/sub/a.h")
    done = run(over("install", "i", "--no-rebuild"))
    check("meson install: without DESTDIR links are followed", list(files_below("outside")) == ["outside/sub/a.h"], f"{done}")


def test_links_that_come_late() -> None:
    """A link that the build makes, and a folder that is replaced by a link while a file is put into it."""
    fresh("d", "outside")
    to_install("/usr/lib/a.h")
    ninja = put("late-ninja", f"#!/bin/sh\nln -s {WORK}/outside {WORK}/d/usr\n", 0o755)
    refuses("a link that comes with the build", over("install", "i", "--destdir", "d"), 2, "has a link on its way", env={"NINJA": ninja})
    check("meson install: a link that comes with the build: nothing is written", not files_below("outside"))
    fresh("d", "outside")
    swap = f"""import os, sys
sys.dont_write_bytecode = True
from tools.root import Root, write_file
def make(folder, name):
    os.rename({WORK + '/d/usr'!r}, {WORK + '/d/moved'!r})
    os.symlink({WORK + '/outside'!r}, {WORK + '/d/usr'!r})
    write_file(b'x', 0o644, (0, 0))(folder, name)
Root({WORK + '/d'!r}).put('/usr/a.h', make)
"""
    done = run(["python3", "-c", swap], {"PYTHONPATH": CHECKOUT})
    is_good = not files_below("outside") and "d/moved/a.h" in files_below("d")
    check("meson install: a folder that becomes a link under way", is_good, done.stderr)


# Names that Ninja's command line reads otherwise

NAMES = ["-n", "x^", "x", "a b", "c$d", "e:f", "-t", "all^", "wanted"]


def test_names_for_ninja() -> None:
    fresh("n", "d")
    spelled = lambda name: re.sub(r"([$ :])", r"$\1", name)
    edges = [f"build {spelled(name)}: make\n OUT = {spelled(name) if ' ' not in name else name.replace('$', '$$')}\n" for name in NAMES]
    put("n/build.ninja", "rule make\n command = printf made >'./$OUT'\n\n" + "\n".join(edges) + "\nbuild user: make x^\n OUT = user\n"
        "\nbuild all: phony\n\ndefault all\n")
    target = {"build_by_default": False, "defined_in": "meson.build", "installed": True, "name": "t", "type": "custom"}
    targets = [{**target, "filename": [name]} for name in NAMES]
    for script, wanted in (("test", ["x^", "-n", "a b", "c$d"]), ("install", ["-n", "x^", "e:f", "-t", "all^", "wanted"])):
        for name in (*NAMES, "user"):
            if os.path.exists(f"{WORK}/n/{name}"):
                os.remove(f"{WORK}/n/{name}")
        configured("n", targets=targets, tests=[{**shell("t", ":"), "cmd": ["true", *(f"{ROOT}/n/{it}" for it in wanted)]}],
                   installed={f"{ROOT}/n/{it}": f"/opt/{it}" for it in wanted} if script == "install" else {})
        done = run(over(script, "n", *(["--destdir", "d"] if script == "install" else [])))
        made = {it for it in os.listdir(f"{WORK}/n") if it in (*NAMES, "user")}
        check(f"meson {script}: builds just the outputs of these names", done.returncode == 0 and made == set(wanted), f"{made} {done}")
    check("meson install: installs them", {os.path.basename(it) for it in files_below("d")} == set(wanted), files_below("d"))


# Streams that can't be written, and texts that no system takes

STATUS = {"test": 126, "install": 1}


def try_streams(script: str, words: list[str], status: int) -> None:
    """Tries a script over streams that can't be written."""
    for given in (words, ["meson", script, "--help"]):
        name = " ".join(given[::len(given) - 1])
        with open("/dev/full", "w") as full:
            refuses(f"{name}: a full output", given, status, "standard output: No space left on device", stdout=full)
        ends = os.pipe()
        os.close(ends[0])
        done = run(given, stdout=ends[1])
        check(f"{name}: a closed pipe: ends quietly", done.returncode == status and done.stderr == "", f"{done}")
        os.close(ends[1])
    done = run(["sh", "-c", '"$@" >&-', "sh", *words_of(words)])
    is_told = done.stderr == f"meson {script}: standard output: Bad file descriptor\n"
    check(f"meson {script}: a closed output", done.returncode == status and is_told, f"{done}")
    with open("/dev/full", "w") as full:
        done = run(over(script, "nowhere"), stderr=full)
        check(f"meson {script}: a full error stream", done.returncode == status and done.stdout == "", f"{done}")
    done = run(["sh", "-c", '"$@" 2>&-', "sh", *words_of(over(script, "nowhere"))])
    check(f"meson {script}: a closed error stream", done.returncode == status and done.stdout == done.stderr == "", f"{done}")


def test_streams() -> None:
    to_install("/usr/include/a.h")
    configured("t", tests=[shell(f"t{n}", ":") for n in range(20)])
    try_streams("test", over("test", "t", "--no-rebuild"), STATUS["test"])
    try_streams("install", over("install", "i", "--destdir", "d", "--no-rebuild"), STATUS["install"])
    done = run(["bash", "-c", '"$@" | head -1; echo ${PIPESTATUS[0]}', "bash", *words_of(over("test", "t", "--no-rebuild"))])
    lines = done.stdout.splitlines()
    # Where all was said before head went away, the run is a good one.
    is_good = len(lines) == 2 and lines[1] in ("0", "126") and done.stderr == ""
    check("meson test: | head -1", is_good, f"{done}")


ODD = {"a NUL": "\0", "half a pair": "\ud800"}


def test_odd_documents() -> None:
    target = {"build_by_default": True, "defined_in": "meson.build", "filename": ["t"], "installed": False, "name": "t", "type": "custom"}
    for script in ("test", "install"):
        bad = lambda name, text: refuses(name, over(script, "c", "--no-rebuild"), STATUS[script], text)
        for name, odd in ODD.items():
            for part in ({"installed": {f"/a{odd}": "/b"}}, {"installed": {"/a": f"/b{odd}"}}, {"tests": [shell("t", odd)]},
                         {"tests": [shell("t", ":", env=[f"A={odd}"])]}, {"targets": [{**target, "filename": [odd]}]}):
                configured("c", **part)
                bad(f"{name} in {next(iter(part))}", "introspect.json: has a text that can be neither a name nor an argument")
        configured("c", targets=[{**target, "filename": []}])
        bad("a target without files", "is no introspection document")
        configured("c", targets=[{**target, "filename": [], "type": "shared library"}])
        bad("a library without files", "is no introspection document")
        put("c/meson-info/introspect.json", "[" * 5000 + "]" * 5000)
        bad("5,000 lists in one another", "is nested too deeply")
        put("c/meson-info/introspect.json", '{"tests":' + "9" * 5000 + "}")
        bad("a number of 5,000 digits", "is no JSON: Exceeds the limit")
        os.remove(f"{WORK}/c/meson-info/introspect.json")
        os.mkfifo(f"{WORK}/c/meson-info/introspect.json")
        bad("a pipe in its place", "is no file, but a pipe or a device")
        os.remove(f"{WORK}/c/meson-info/introspect.json")
    for part, value in {"buildoptions": [{"name": "x"}], "projectinfo": {"name": "p"}, "buildsystem_files": {"present": [1], "absent": []},
                        "targets": {}, "tests": "x", "dependencies": None}.items():
        configured("c", **{part: value})
        for words in (["meson", "introspect", "c"], over("test", "c", "--no-rebuild"), over("install", "c", "--no-rebuild")):
            refuses(f"another kind of {part}", words, STATUS.get(words[1], 1), "is no introspection document")
    configured("c", tests=[shell("t", ":", timeout=10**400)])
    refuses("a timeout of 400 digits", over("test", "c"), 126, "its tests are not of the form")
    configured("c", tests=[shell("t", ":")])
    refuses("a factor that is no number", over("test", "c", "-t", "nan"), 126, "--timeout-multiplier takes a number")
    check("meson test: an endless timeout", run(over("test", "c", "-t", "inf", "--no-rebuild")).returncode == 0)


def test_odd_files() -> None:
    to_install("/usr/a.h")
    with open(f"{WORK}/i/build.ninja", "wb") as it:
        it.write(b"build \xff: phony\n")
    refuses("a build.ninja that is not UTF-8", over("install", "i", "--destdir", "d"), 1, "i/build.ninja: not UTF-8")
    configured("t", tests=[])
    put("t/build.ninja", "")
    refuses("an open quotation in NINJA", over("install", "t", "--destdir", "d"), 1, "NINJA: No closing quotation", env={"NINJA": "'"})
    refuses("an open quotation in NINJA", over("test", "t"), 125, "NINJA: No closing quotation", env={"NINJA": "'"})


def test_broken_elf() -> None:
    """Bytes that only begin as a program does."""
    target = {"build_by_default": True, "defined_in": "meson.build", "filename": ["t"], "installed": True, "name": "t"}
    with open(shutil.which("true"), "rb") as it:
        whole = it.read()
    for name, data in {"cut": whole[:5], "a header alone": whole[:64], "its half": whole[:len(whole) // 2],
                       "places beyond its end": whole[:32] + b"\xff" * 24 + whole[56:],
                       "no segment": whole[:64] + bytes(len(whole) - 64)}.items():
        put("e/t", "")
        with open(f"{WORK}/e/t", "wb") as it:
            it.write(data)
        configured("e", targets=[{**target, "type": "executable"}], installed={f"{ROOT}/e/t": "/bin/t"})
        done = run(over("install", "e", "--destdir", "d", "--no-rebuild", "-q"))
        check(f"meson install: a program that is {name}", (done.returncode, done.stderr.count("\n")) in ((0, 0), (1, 1)), f"{done}")


def test_large_files() -> None:
    """What is installed is copied piece by piece, and only files are."""
    fresh("d")
    to_install("/usr/large.h", "/usr/small.h")
    with open(f"{WORK}/i0/a.h", "wb") as it:
        it.truncate(400 << 20)
    process = subprocess.Popen(words_of(over("install", "i", "--destdir", "d", "--no-rebuild", "-q")), cwd=WORK, env=environment())
    _, status, used = os.wait4(process.pid, 0)
    process.returncode = os.waitstatus_to_exitcode(status)
    sizes = [os.path.getsize(f"{WORK}/d/usr/{it}.h") for it in ("large", "small")]
    most = max(60 << 10, resource.getrusage(resource.RUSAGE_SELF).ru_maxrss + 4096)
    check("meson install: a large file", (process.returncode, sizes) == (0, [400 << 20, 2]), f"{process.returncode} {sizes}")
    check("meson install: a large file is not kept", used.ru_maxrss < most, f"{used.ru_maxrss} KiB")
    fresh("d")
    os.remove(f"{WORK}/i0/a.h")
    os.mkfifo(f"{WORK}/i0/a.h")
    refuses("a pipe in the place of a file", over("install", "i", "--destdir", "d", "--no-rebuild"), 1, "i0/a.h: there is no such file")
    os.remove(f"{WORK}/i0/a.h")


# test: signals, logs, much output

def test_signals() -> None:
    for number in (signal.SIGHUP, signal.SIGTERM):
        fresh("s")
        configured("s", tests=[shell(f"hangs {n}", f"echo $$ >pid{n}; exec sleep 300") for n in range(2)])
        process = subprocess.Popen(words_of(over("test", "s", "--no-rebuild", "-j2")), cwd=WORK, env=environment(),
                                   stdout=subprocess.DEVNULL, stderr=subprocess.PIPE, text=True, preexec_fn=heed_hangups)
        pids = wait_for_pids(["s/pid0", "s/pid1"])
        process.send_signal(number)
        errors = process.communicate(timeout=300)[1]
        is_told = (process.returncode, errors) == (130, "meson test: interrupted\n")
        check(f"meson test: {number.name}", is_told, f"{process.returncode} {errors}")
        check(f"meson test: {number.name} ends its tests", len(pids) == 2 and not any(map(is_running, pids)), pids)


def heed_hangups() -> None:
    """Restores SIGHUP. If these tests run under `nohup`, it is ignored, and the commands that they start would ignore it too."""
    signal.signal(signal.SIGHUP, signal.SIG_DFL)


def wait_for_pids(names: list[str]) -> list[int]:
    for _ in range(1000):
        if all(os.path.exists(os.path.join(WORK, it)) and read(it).endswith("\n") for it in names):
            return [int(read(it)) for it in names]
        time.sleep(0.1)
    return []


def is_running(number: int) -> bool:
    """Returns whether a process is still there after a while, and no mere entry of one that has ended."""
    for _ in range(600):
        try:
            with open(f"/proc/{number}/stat", encoding="utf-8") as it:
                if it.read().rpartition(")")[2].split()[0] == "Z":
                    return False
        except (FileNotFoundError, ProcessLookupError):
            return False
        time.sleep(0.05)
    return True


def test_logs() -> None:
    for script, log, words in (("test", "testlog.txt", over("test", "l", "--no-rebuild")),
                               ("install", "install-log.txt", over("install", "l", "--destdir", "d", "--no-rebuild"))):
        fresh("l", "outside", "d")
        configured("l", tests=[shell("t", "echo said")], installed={put("i0/a.h", ""): "/opt/a.h"})
        kept, path = put("outside/kept", "kept"), f"{WORK}/l/meson-logs/{log}"
        for name, make in {"a link": lambda: os.symlink(kept, path), "a hard link": lambda: os.link(kept, path),
                           "a pipe": lambda: os.mkfifo(path), "a link to nothing": lambda: os.symlink(f"{WORK}/outside/new", path)}.items():
            shutil.rmtree(f"{WORK}/l/meson-logs", ignore_errors=True)
            os.mkdir(f"{WORK}/l/meson-logs")
            make()
            done = run(words)
            is_new = os.path.isfile(path) and not os.path.islink(path) and ("said" in read(path) or "/d/opt/a.h" in read(path))
            check(f"meson {script}: a log that is {name} is made new", done.returncode == 0 and is_new, f"{done}")
            check(f"meson {script}: a log that is {name}: nothing else is touched", files_below("outside") == {"outside/kept": b"kept"})
        shutil.rmtree(f"{WORK}/l/meson-logs")
        os.symlink(f"{WORK}/outside", f"{WORK}/l/meson-logs")
        refuses("logs in a link", words, STATUS[script], "l/meson-logs: is a link")
        check(f"meson {script}: logs in a link: nothing is written", set(files_below("outside")) == {"outside/kept"})


def test_much_output() -> None:
    """48 MiB of each of two tests: in the log they are whole, in memory they are not."""
    fresh("o")
    count = 48 << 20
    configured("o", tests=[shell(f"t{n}", f"head -c {count} /dev/zero | tr '\\0' {n}; echo; echo the end; exit 1") for n in range(2)])
    with open(f"{WORK}/shown", "wb") as shown:
        process = subprocess.Popen(words_of(over("test", "o", "--no-rebuild", "-j2", "--print-errorlogs")), cwd=WORK, env=environment(),
                                   stdout=shown, stderr=subprocess.DEVNULL)
        _, status, used = os.wait4(process.pid, 0)
        process.returncode = os.waitstatus_to_exitcode(status)
    check("meson test: much output: status", process.returncode == 2, process.returncode)
    size = os.path.getsize(f"{WORK}/o/meson-logs/testlog.txt")
    check("meson test: much output is whole in the log", 2 * count < size < 2 * count + 4096, size)
    # What a process begins with counts too: the peak of the one that it comes from.
    most = max(40 << 10, resource.getrusage(resource.RUSAGE_SELF).ru_maxrss + 4096)
    check("meson test: much output is not kept", used.ru_maxrss < most, f"{used.ru_maxrss} KiB")
    size = os.path.getsize(f"{WORK}/shown")
    check("meson test: of much output the end is shown", 2 << 20 < size < (2 << 20) + 4096, size)
    with open(f"{WORK}/shown", "rb") as it:
        text = it.read()
    check("meson test: and what is left out is said", text.count(b"the end\n") == 2 and text.count(b"[the first ") == 2, text[:500])
    shutil.rmtree(f"{WORK}/o")
    os.remove(f"{WORK}/shown")


# names that a project gives

def test_shown_names() -> None:
    """They are shown, and neither obeyed by a terminal nor taken for a further result."""
    fresh("n")
    configured("n", tests=[shell("a\x1b[2J\n1/1 forged  OK  0.00s", "exit 1", suite=("s\r",), env=["A=\x07"])])
    for words in ((), ("--list",), ("--print-errorlogs",)):
        done = run(over("test", "n", "--no-rebuild", *words))
        is_plain = not any(ord(it) < 32 and it != "\n" for it in done.stdout) and not re.search(r"^1/1 forged", done.stdout, re.M)
        check(f"meson test: names with control characters {' '.join(words)}".rstrip(), is_plain and "\\x1b[2J" in done.stdout, f"{done}")
    check("meson test: names with control characters in the log", not re.search("^1/1 forged|\x1b", read("n/meson-logs/testlog.txt"), re.M))


def test_own_names() -> None:
    """What the commands keep in a build directory is no target's."""
    target = {"build_by_default": True, "defined_in": "meson.build", "installed": False, "name": "t", "type": "custom"}
    for name in ("meson-private", "meson-info", "meson-logs", "./meson-info"):
        configured("o", targets=[{**target, "filename": [name]}], tests=[shell("t", ":")])
        put("o/build.ninja", "")
        refuses(f"a target {name}", over("test", "o"), 125, f"the target 't' would be {name}, which this command keeps for itself in o")


# files without an end that come with a build directory

def ends(name: str, words: list[str], cwd: str = WORK) -> subprocess.CompletedProcess | None:
    """Returns how a command ends that may take a minute and a gibibyte; none if it doesn't end."""
    begins = lambda: (os.setsid(), resource.setrlimit(resource.RLIMIT_AS, (1 << 30, 1 << 30)))
    process = subprocess.Popen(words, cwd=cwd, env=environment(with_tools()), stdin=subprocess.DEVNULL, stdout=subprocess.PIPE,
                               stderr=subprocess.PIPE, text=True, preexec_fn=begins)
    try:
        out, errors = process.communicate(timeout=60)
        return subprocess.CompletedProcess(words, process.returncode, out, errors)
    except subprocess.TimeoutExpired:
        os.killpg(process.pid, signal.SIGKILL)
        process.communicate()
        check(f"{name}: ends", False)
        return None


def hole(path: str, begin: bytes = b"", size: int = 1 << 40) -> None:
    """Makes a file of this size that takes no place on the disk."""
    with open(f"{WORK}/{path}", "wb") as it:
        it.write(begin)
        it.truncate(size)


def test_words_without_end() -> None:
    """Arguments of a `setup` that nobody has given."""
    fresh("w", "template")
    put("w/meson.build", "project('p', 'c')\n")
    put("questions", NOTHING_ASKED)
    configured("template", buildsystem_files={"absent": [], "present": ["meson.build"]})
    put("template/build.ninja", "build all: phony\n")
    sources, kept = f"{ROOT}/w", "w/b/meson-private/words"
    run([MESON, "setup", "b"], with_tools(), sources)
    good = read(kept)
    many = f"words-1\0\n{sources}\0\n" + "-v\0\n" * 200_000 + "b\0\n"
    makes = {"a hole": (lambda: hole(kept), "meson-private/words: has more than 8,388,608 bytes"),
             "a hole after a good beginning": (lambda: hole(kept, good.encode()), "meson-private/words: has more than 8,388,608 bytes"),
             "more words than a command may have": (lambda: put(kept, many), "doesn't have the arguments of a `meson setup`")}
    for name, (make, text) in makes.items():
        for script, status in (("compile", 1), ("test", 126), ("install", 1), ("configure", 1)):
            make()
            done = ends(f"meson {script}: words that are {name}", [MESON, script, *([] if script == "configure" else ["-C"]), "b"], sources)
            if done is not None:
                is_told = text in done.stderr and done.stderr.count("\n") == 1
                check(f"meson {script}: words that are {name}", done.returncode == status and is_told, f"{done}")
        make()
        done = ends(f"meson setup: words that are {name}", [MESON, "setup", "b"], sources)
        is_good = done is not None and (done.returncode, done.stderr, read(kept)) == (0, "", good)
        check(f"meson setup: words that are {name} are replaced", is_good, f"{done}")
    words = [f"-Dx={number}" for number in range(5000)]
    run([MESON, "setup", *words, "b"], with_tools(), sources)
    done = ends("meson compile: 5,000 arguments", [MESON, "compile", "-C", "b"], sources)
    is_good = done and done.returncode == 0 and read(kept).split("\0\n")[2:-1] == [*words, "b"] and words[-1] in done.stdout
    check("meson compile: 5,000 arguments", is_good, done and (done.returncode, done.stderr))
    configured("template")


def test_words_that_steer() -> None:
    """Arguments of a `setup` that nobody has given are shown, and neither obeyed by a terminal nor taken for a further line."""
    fresh("w/b")
    put("w/meson.build", "project('p', 'c')\n")
    put("questions", NOTHING_ASKED)
    configured("template", buildsystem_files={"absent": [], "present": ["meson.build"]})
    put("template/build.ninja", "build all: phony\n")
    sources = f"{ROOT}/w"
    run([MESON, "setup", "b"], with_tools(), sources)
    for path, shown in (("/dev/\x1b[2J", "/dev/?[2J"), ("/dev/a\tb\x7f", "/dev/a?b?"), ("/dev/\\033[2J\\c", "/dev/\\033[2J\\c")):
        put("w/b/meson-private/words", f"words-1\0\n{sources}\0\n--native-file\0\n{path}\0\nb\0\n")
        done = run([MESON, "compile", "-C", "b"], with_tools(), sources)
        is_shown = done.stderr.startswith(f"meson: b: its machine file was {shown}, which can't be read again")
        check(f"meson compile: words that have {shown}", is_shown and done.stderr.count("\n") == 2, f"{done}")
    configured("template")


def member(name: str, size: int) -> bytes:
    return f"{name:<16}{0:<12}{0:<6}{0:<6}{644:<8}{size:<10}`\n".encode()


def test_archives_without_end() -> None:
    """An archive that comes with a build directory: its members are not read, and none leads back to one before it."""
    fresh("a")
    put("a/build.ninja", "build lib.a: ar one.o\n")
    drop = [sys.executable, os.path.join(CHECKOUT, "tools", "command"), "drop-archives", "a"]
    for name, begin, is_kept in (("a member of ten gigabytes", member("one.o/", 9_999_999_998), True),
                                 ("a member of ten gigabytes that is gone", member("two.o/", 9_999_999_998), False),
                                 ("a list of names of ten gigabytes", member("//", 9_999_999_998), True),
                                 ("a member of a size below zero", member("one.o/", -60), False), ("a hole", b"", False)):
        hole("a/lib.a", b"!<arch>\n" + begin if begin else b"", 10_000_000_066)
        done = ends(f"archives: {name}", drop)
        is_good = done is not None and (done.returncode, done.stderr) == (0, "") and os.path.exists(f"{WORK}/a/lib.a") == is_kept
        check(f"archives: {name}: is {'kept' if is_kept else 'removed'}", is_good, f"{done}")
    shutil.rmtree(f"{WORK}/a")


# These need the copy of the checkout, with its program, that commands.py makes.
OF_THE_COMMAND = (test_words_without_end, test_words_that_steer, test_archives_without_end)
TESTS = (test_shown_names, test_own_names, test_destinations, test_links_on_the_way, test_links_that_stay,
         test_links_that_come_late, test_names_for_ninja, test_streams, test_odd_documents, test_odd_files, test_broken_elf,
         test_large_files, test_signals,
         test_logs, test_much_output)
