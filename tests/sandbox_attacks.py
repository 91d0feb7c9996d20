"""Tries to run a project's own code while `meson machine-file` runs a compiler. tests/machine_files runs these too.

Each attack is tried twice. First only the sandbox prevents it: the compiler gets the arguments as if no table refused them. Then only the
table of arguments prevents it, on a system without Landlock. Each attack has worked without both.
"""
import contextlib
import ctypes
import os
import resource
import shutil
import sys
import tempfile
import time
from collections.abc import Iterator

from tests.attacks import files_below, fresh
from tests.workshop import CHECKOUT, WORK, check, put, read, run
from tools.asking.allowed import Allowed
from tools.asking.compiler import Compiler, Flags
from tools.asking.processes import NoAnswer
from tools.asking.sandbox import Sandbox, version_of_landlock

HAS_LANDLOCK = version_of_landlock() > 0
MAIN = "int main(void) { return 0; }"
# Begins with a call that makes a file wherever the program is run.
RUNS = '#include <fcntl.h>\n__attribute__((constructor)) static void f(void) { creat("%s/outside/ran", 0600); }\n' + MAIN


class Filter(ctypes.Structure):
    """Defines `struct sock_filter`: a step of a filter of system calls."""
    _fields_ = (("code", ctypes.c_uint16), ("jt", ctypes.c_uint8), ("jf", ctypes.c_uint8), ("k", ctypes.c_uint32))


class Program(ctypes.Structure):
    """Defines `struct sock_fprog`."""
    _fields_ = (("length", ctypes.c_uint16), ("steps", ctypes.POINTER(Filter)))


def forget_landlock() -> None:
    """Has the system lose Landlock: from here on it does not know the call that sets it up."""
    steps = (Filter * 4)(Filter(0x20, 0, 0, 0), Filter(0x15, 0, 1, 444), Filter(0x06, 0, 0, 0x00050000 | 38),
                         Filter(0x06, 0, 0, 0x7FFF0000))
    libc = ctypes.CDLL(None, use_errno=True)
    libc.prctl(38, *map(ctypes.c_ulong, (1, 0, 0, 0)))
    if libc.prctl(22, ctypes.c_ulong(2), ctypes.byref(Program(4, steps)), ctypes.c_ulong(0), ctypes.c_ulong(0)) != 0:
        raise OSError(ctypes.get_errno(), "no filter of system calls")


@contextlib.contextmanager
def compiler_in(sources: str) -> Iterator[Compiler]:
    with tempfile.TemporaryDirectory(dir=WORK) as scratch:
        yield Compiler(scratch, os.path.join(WORK, sources))


def tool() -> str:
    """Returns the path of a program of the project, which makes a file wherever it is run."""
    return put("m/tool", f"#!/bin/sh\necho ran >{WORK}/outside/ran\n", 0o755)


def in_sandbox(name: str, words: list[str], source: str = MAIN, mode: str = "link") -> None:
    """Runs the compiler with arguments that no table would have."""
    with compiler_in("m") as compiler:
        done = compiler.attempt(mode, source, Flags(tuple(words)), hears=True)
    if HAS_LANDLOCK:
        check(f"sandbox: {name}: nothing runs, and nothing is written", not files_below("outside"), f"{files_below('outside')} {done}")


def without_sandbox(name: str, text: str, env: dict[str, str] | None = None, cwd: str = WORK) -> None:
    """Tries a project on a system that can't sandbox: nothing runs all the same."""
    put("m/meson.build", f"project('p', 'c')\ncc = meson.get_compiler('c')\n{text}\n")
    words = ["meson", "machine-file", *([] if cwd != WORK else ["m"])]
    done = run(words, env, cwd, preexec_fn=forget_landlock)
    is_said = "this system has no Landlock" in done.stderr and "is not asked" in done.stderr
    check(f"words alone: {name}: is not asked", done.returncode == 0 and is_said, f"{done}")
    check(f"words alone: {name}: nothing runs", not files_below("outside"), files_below("outside"))


def test_words() -> None:
    """Each way is tried first without table and sandbox: else the others would show nothing."""
    fresh("outside", "m/bin")
    path, place = tool(), f"{WORK}/outside/it"
    for called in ("as", "ld", "cc1", "collect2"):
        shutil.copy(path, f"{WORK}/m/bin/{called}")
    for name, words in {"-wrapper": ["-wrapper", path], "-wrapper of a shell": ["-wrapper", f"/bin/sh,{path}"], "-B": [f"-B{WORK}/m/bin/"],
                        "-Wl,-Map": [f"-Wl,-Map={place}"], "-MF": ["-MD", f"-MF{place}"],
                        "-fdump": [f"-fdump-tree-all={place}"], "-aux": ["-fstack-usage", "-dumpdir", f"{WORK}/outside/"],
                        "-Wa": [f"-Wa,-al={place}"]}.items():
        with compiler_in("m") as compiler:
            compiler.sandbox = Sandbox(0, None)
            compiler.attempt("link", MAIN, Flags(tuple(words)))
        check(f"without table and sandbox: {name}", files_below("outside") != {}, words)
        fresh("outside")
        in_sandbox(name, words)
        listed = ", ".join(f"'{it}'" for it in words)
        without_sandbox(name, f"cc.has_function('puts', args: [{listed}])\ncc.has_link_argument('{words[0]}')")


def test_what_a_check_has_compiled() -> None:
    """The prefix is a program, which becomes the assembler of the next step."""
    fresh("outside", "m")
    words = ["-B.", "-flto", "-fno-use-linker-plugin", "-Wl,-o,as"]
    with compiler_in("m") as compiler:
        compiler.sandbox = Sandbox(0, None)
        compiler.attempt("link", RUNS % WORK, Flags(tuple(words)))
    check("without table and sandbox: the assembler is what was compiled", files_below("outside") != {}, words)
    fresh("outside")
    in_sandbox("the assembler is what was compiled", words, RUNS % WORK)
    listed, prefix = ", ".join(f"'{it}'" for it in words), (RUNS % WORK).replace("\n" + MAIN, "")
    without_sandbox("the assembler is what was compiled", f"cc.has_function('puts', prefix: '''{prefix}''', args: [{listed}])")


# The compiler makes a link of several parts by a makefile, which has these arguments between quotes that they could close.
IN_MAKEFILES = ("-fdebug-prefix-map=a=$(shell echo ran >'%s')", "-ffile-prefix-map=a=';echo ran >'%s", "-L/'$(shell echo ran >'%s')'")


def test_the_makefile_of_a_link() -> None:
    """What lto-wrapper writes into a makefile is no command of the project."""
    for word in IN_MAKEFILES:
        fresh("outside", "m")
        name, words = word.partition("=")[0][:20], ["-O1", "-flto=2", word % f"{WORK}/outside/ran"]
        with compiler_in("m") as compiler:
            compiler.sandbox = Sandbox(0, None)
            compiler.attempt("link", MAIN, Flags(tuple(words)))
        is_skipped = not shutil.which("make")
        shown = f"without table and sandbox: a makefile: {name}{': skipped, without make' * is_skipped}"
        check(shown, files_below("outside") != {} or is_skipped, words)
        fresh("outside")
        in_sandbox(f"a makefile: {name}", words)
        listed = ", ".join("'" + it.replace("'", "\\'") + "'" for it in words)
        without_sandbox(f"a makefile: {name}", f"cc.has_function('puts', args: [{listed}])")


def test_the_table() -> None:
    """Words that only describe code, and others that look much like them."""
    fresh("m", "outside")
    allowed = Allowed((f"{WORK}/m",))
    for words in (["-DX=$(a) 'b'\n"], ["-D", "X"], ["-U", "X"], ["-Wall"], ["-W#warnings"], ["-Wno-error=x"], ["-Wformat=2"],
                  ["-fPIC"], ["-fno-plt"], ["-flto"], ["-flto=auto"], ["-flto=8"], ["-flto=thin"], ["-fdebug-prefix-map=/a b=c"],
                  ["-isystem", "/usr/x"], ["-I/a b"],
                  ["-L/usr/lib"], ["-lz"], ["-l:libz.so.1"], ["/usr/lib/libz.so.1"], ["-Wl,-rpath,$ORIGIN/../x"],
                  ["-Wl,-rpath", "-Wl,/opt/x"],
                  ["-Wl,-z,relro,-z,now"], ["-Wl,--defsym=a=b"], ["-Wl,-e,main"], [f"-Wl,--version-script={WORK}/m/x"], ["-march=native"],
                  ["-Wl,--build-id=sha1"], ["-pthread"], ["-g3"], ["-std=gnu11"]):
        check(f"the table takes {' '.join(words)!r}", allowed.refused(words) is None)
    for words in (["-Wno-x';id;'"], ["-W$(id)"], ["-fdebug-prefix-map=a=$(id)"], ["-fmacro-prefix-map=a='"], ["-ffile-prefix-map=a=\n"],
                  ["-L/x'y"], ["-L/x$(id)"], ["/x'y/libz.a"], ["-flto=x$"], ["-flto=a b"], ["-Wl,-rpath,-o"], ["-Wl,-rpath", "-Wl,-o"],
                  ["-Wl,-e,-o"], ["-Wl,-soname,x,-plugin,y"], [f"-Wl,--version-script={WORK}/outside/x"], ["-Wl,--version-script=../../x"],
                  [f"-L{WORK}/m"], ["-D"], ["-D", "-o"], ["-I", "@x"], ["-isystem", "-o"], ["@x"], ["-o"], ["-x"], ["-MF"], ["-include"],
                  ["-specs=x"], ["-B."], ["-Xlinker"], ["-T"], ["-fuse-ld=x"], ["-fplugin=x"], ["-save-temps"], ["-dumpdir"], ["x.c"],
                  [""]):
        check(f"the table refuses {' '.join(words)!r}", allowed.refused(words) is not None)


def test_packages() -> None:
    """A name by which pkg-config reads a file of the project that holds arguments for the compiler is refused."""
    fresh("outside", "m")
    put("m/evil.pc", f"Name: own\nDescription: own\nVersion: 1\nCflags: -wrapper {tool()}\n")
    for name in ("evil.pc,", "evil.pc >= 0", "../../proc/self/cwd/evil", f"{WORK}/m/evil.pc", "--evil", ""):
        without_sandbox(f"the package {name}", f"cc.has_type('int', dependencies: dependency('{name}', required: false))\n"
                        "cc.has_link_argument('-o')", cwd=f"{WORK}/m")
    put("own/evil.pc", f"Name: own\nDescription: own\nVersion: 1\nCflags: -wrapper {tool()}\n")
    env = {"PKG_CONFIG_PATH": f"{WORK}/own"}
    without_sandbox("the words of a package", "cc.has_type('int', dependencies: dependency('evil', required: false))\n"
                    "cc.has_link_argument('-o')", env)
    put("m/meson.build", "project('p', 'c')\ndependency('evil')\n")
    done = run(["meson", "machine-file", "m"], env)
    is_told = ("dependency evil: pkg-config names arguments for it, and '-wrapper' is not among the arguments" in done.stderr and
               "[dependency evil]" not in done.stdout)
    is_skipped = not shutil.which("pkg-config")
    check(f"the words of a package pass the table{': skipped, without pkg-config' * is_skipped}", is_told or is_skipped, f"{done}")
    in_sandbox("the words of a package", ["-wrapper", tool()])


def test_the_sources_as_libraries() -> None:
    """Folders and files of the project are no libraries, however they are named."""
    fresh("outside", "m")
    put("m/libevil.a", "INPUT(no-such)\n")
    if not os.path.lexists(f"{WORK}/outside.link"):
        os.symlink(f"{WORK}/m", f"{WORK}/outside.link")
    for word in (f"-L{WORK}/m", f"-L{WORK}/outside.link", f"-Wl,-rpath-link,{WORK}/m", f"{WORK}/m/libevil.a", "-L.", "-l:../m/libevil.a"):
        without_sandbox(f"a library: {word.partition('/')[0]}", f"cc.has_link_argument('{word}')")
    without_sandbox("a library: its name", "cc.find_library(':../../m/libevil.a', required: false)")


def test_precompiled_headers() -> None:
    """GCC would load the bytes next to a header in its place, if it is the first that is included."""
    fresh("outside", "m", "made")
    put("m/x.h", "\n")
    put("made/x.h", "typedef int precompiled;\n")
    run(["sh", "-c", "cc -O0 -c made/x.h -o m/x.h.gch"])
    put("m/meson.build", "project('p', 'c')\nmeson.get_compiler('c').has_type('precompiled', prefix: '#include \"x.h\"', "
        "include_directories: include_directories('.'))\n")
    done = run(["meson", "machine-file", "m"])
    check("a precompiled header is not read", "has_type precompiled = false\n" in done.stdout, f"{done}")


def test_limits() -> None:
    """A source without end stops at the limit of memory, of file size or of time. Its folder is removed with all that it made."""
    fresh("outside", "m", "scratch")
    begun = time.monotonic()
    put("m/meson.build", "project('p', 'c')\ncc = meson.get_compiler('c')\ncc.has_type('int', prefix: '#include \"/dev/zero\"')\n"
        "cc.has_type('char', prefix: 'char big[1 << 30] = {1};')\n")
    done = run(["meson", "machine-file", "m"], {"TMPDIR": f"{WORK}/scratch"})
    used = resource.getrusage(resource.RUSAGE_CHILDREN).ru_maxrss
    is_good = done.returncode == 0 and "has_type int = false\n" in done.stdout and used < 2100 << 10
    check("limits: a device as a header", is_good, f"{used} KiB {time.monotonic() - begun} s {done}")
    check("limits: nothing is left", os.listdir(f"{WORK}/scratch") == [], os.listdir(f"{WORK}/scratch"))
    with compiler_in("m") as compiler:
        is_asked = compiler.takes("compile", MAIN)
        compiler.end = time.monotonic()
        try:
            said = str(compiler.takes("compile", MAIN))
        except NoAnswer as late:
            said = late.why
    check("limits: the time of all checks together", is_asked and said.startswith("is not asked: the commands before it took"), said)


def test_launchers() -> None:
    """If a compiler runs through a cache or a distributor, the check calls the compiler itself."""
    for names in (("ccache", "gcc"), ("distcc", "gcc")):
        if all(map(shutil.which, names)):
            done = run(["meson", "machine-file", "--require-sandbox", "--ask", "has_function puts"], {"CC": " ".join(names)})
            is_good = done.returncode == 0 and done.stdout.endswith("has_function puts = true\n")
            check(f"CC='{' '.join(names)}'", is_good or not HAS_LANDLOCK, f"{done}")
    put("launch/ccache", "#!/bin/sh\nexit 1\n", 0o755)
    put("m/meson.build", "project('p', 'c')\nmeson.get_compiler('c').has_function('puts')\n")
    done = run(["meson", "machine-file", "m"], {"CC": f"{WORK}/launch/ccache cc"})
    is_good = "has_function puts = true\n" in done.stdout and f"c = ['{WORK}/launch/ccache', 'cc']\n" in done.stdout
    check("a launcher stays in the machine file, and is not asked", is_good, f"{done}")


def test_what_weakens_the_sandbox() -> None:
    """Neither words of a project, nor programs that lie in the present folder, have the compiler run more than its own programs."""
    fresh("outside", "m/bin")
    picky = put("picky", f"#!/bin/sh\ncase $* in *-DX=*) : >{WORK}/outside/it || exit 1 ;; esac\nexec cc \"$@\"\n", 0o755)
    for option in ("c_args", "c_link_args"):
        put("m/meson.build", f"project('p', 'c', default_options: '{option}=-DX=1')\nmeson.get_compiler('c').has_type('int')\n")
        done = run(["meson", "machine-file", "m"], {"CC": picky})
        is_refused = done.returncode == 1 and "the C compiler can't" in done.stderr
        check(f"{option} of a project that work in no sandbox", is_refused and not files_below("outside") or not HAS_LANDLOCK, f"{done}")
    done = run(["meson", "machine-file", "--ask", "has_argument -gsplit-dwarf"])
    check("a word for which the compiler calls objcopy", done.stdout.endswith("has_argument -gsplit-dwarf = true\n"), f"{done}")
    names_programs = ("import sys; sys.dont_write_bytecode = True; import tempfile\n"
                      "from tools.asking.programs import programs_of\n"
                      "print(*programs_of([sys.argv[1]], [], tempfile.gettempdir()), sep='\\n')")
    for name in ("as", "bin/tool", "tool"):
        put(f"m/{name}", "#!/bin/sh\n", 0o755)
    named = put("names", "#!/bin/sh\n# bin/tool ./tool ../m/tool\nexec cc \"$@\"\n", 0o755)
    env = {"PATH": f".:bin::{os.environ['PATH']}", "PYTHONPATH": CHECKOUT}
    done = run([sys.executable, "-c", names_programs, named], env, f"{WORK}/m")
    is_clean = done.returncode == 0 and "/cc1\n" in done.stdout and os.path.realpath(f"{WORK}/m") not in done.stdout
    check("programs of the present folder are none of the compiler's", is_clean, f"{done}")


def test_without_landlock() -> None:
    put("m/meson.build", "project('p', 'c')\nmeson.get_compiler('c').has_type('int')\n")
    done = run(["meson", "machine-file", "m"], preexec_fn=forget_landlock)
    is_said = done.stderr == ("meson machine-file: this system has no Landlock, so compilers run without a sandbox; their arguments "
                              "are checked all the same\n")
    check("without Landlock: it is said once, and asked all the same", is_said and "has_type int = true\n" in done.stdout, f"{done}")
    done = run(["meson", "machine-file", "--require-sandbox", "m"], preexec_fn=forget_landlock)
    is_refused = (done.returncode, done.stdout, done.stderr.count("\n")) == (1, "", 1) and "--require-sandbox: this system" in done.stderr
    check("without Landlock: --require-sandbox ends", is_refused, f"{done}")
    if HAS_LANDLOCK:
        done = run(["meson", "machine-file", "--require-sandbox", "m"])
        check("with Landlock: --require-sandbox", (done.returncode, done.stderr) == (0, ""), f"{done}")
        hidden = put("hidden", "#!/usr/bin/env python3\nimport os, sys\nname = ''.join(map(chr, (103, 99, 99)))\n"
                     "os.execvp(name, [name, *sys.argv[1:]])\n", 0o755)
        done = run(["meson", "machine-file", "m"], {"CC": hidden})
        is_said = done.stderr.startswith("meson machine-file: the compiler runs programs that are not known here")
        check("a compiler whose programs are not known", is_said and "has_type int = true\n" in done.stdout, f"{done}")
        put("one.pc", "Name: one\nDescription: one\nVersion: 1.2\n")
        put("m/meson.build", "project('p', 'c')\nmeson.get_compiler('c').has_function('puts')\ndependency('one', required: false)\n")
        hidden = put("hidden-pkg-config", read(hidden).replace("103, 99, 99", "112, 107, 103, 45, 99, 111, 110, 102, 105, 103"), 0o755)
        for what in ("", ": again"):
            done = run(["meson", "machine-file", "m"], {"PKG_CONFIG": hidden, "PKG_CONFIG_PATH": WORK})
            is_said = done.stderr.startswith("meson machine-file: the compiler runs programs that are not known here")
            is_found = "version = '1.2'\n" in done.stdout and "has_function puts = true\n" in done.stdout
            check(f"a pkg-config whose programs are not known{what}", is_said and is_found or not shutil.which("pkg-config"), f"{done}")


TESTS = (test_words, test_what_a_check_has_compiled, test_the_makefile_of_a_link, test_the_table, test_packages,
         test_the_sources_as_libraries, test_precompiled_headers, test_limits, test_launchers, test_what_weakens_the_sandbox,
         test_without_landlock)
