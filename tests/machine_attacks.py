"""Tries again each attack that once harmed users of `meson machine-file`. tests/machine_files runs these too.

The files that must not change are in a folder `outside`, next to the sources in `m`.
"""
import glob
import os
import re
import shutil
import signal
import subprocess

from tests.attacks import files_below, fresh, is_running, try_streams, wait_for_pids
from tests.workshop import WORK, check, environment, put, refuses, run, wait_until, words_of

MACHINE_FILE = ["meson", "machine-file", "m"]


def of_machine_file(text: str, env: dict[str, str] | None = None) -> subprocess.CompletedProcess:
    put("m/meson.build", text if text.startswith("project") else f"project('p', 'c')\ncc = meson.get_compiler('c')\n{text}\n")
    return run(MACHINE_FILE, env)


def test_broken_compilers() -> None:
    put("m/meson.build", "project('p', 'c')\n")
    old = put("old-cc", "#!/bin/sh\ncase $* in *-std=*) echo 'no such standard' >&2; exit 1 ;; esac\nexec cc \"$@\"\n", 0o755)
    for name, env, text in (
            ("CFLAGS", {"CFLAGS": "-nonsense"}, "can't compile an empty program: `cc -nonsense`: "),
            ("CC", {"CC": "false"}, "can't compile an empty program: `false`: it ended with status 1"),
            ("LDFLAGS", {"LDFLAGS": "-Wl,--no-such-word"}, "can't link an empty program: `cc -Wl,--no-such-word`: "),
            ("a word of LDFLAGS", {"LDFLAGS": "-nonsense"}, "can't link an empty program: `cc -nonsense`: "),
            ("a library", {"LDFLAGS": "-lno-such"}, "can't link an empty program: `cc -lno-such`: "),
            ("quotes", {"CFLAGS": "'"}, "CFLAGS: No closing quotation"),
            ("bytes", {"CFLAGS": "-D\udcff"}, "CFLAGS: not UTF-8"),
            ("none", {"CC": "no-such-cc"}, "no C compiler: 'no-such-cc' isn't on PATH")):
        refuses(f"a compiler that doesn't work: {name}", MACHINE_FILE, 1, text, env=env)
        refuses(f"a compiler that doesn't work: {name}: --ask", [*MACHINE_FILE[:2], "--ask", "has_type int"], 1, text, env=env)
    for name, words, env, text in (
            ("c_std", ["-Dc_std=gnu11"], {"CC": old}, f"`{old} -std=gnu11`: no such standard"),
            ("c_args", ["-Dc_args=-nonsense"], {}, "`cc -nonsense`: "),
            ("c_link_args", ["-Dc_link_args=-lno-such"], {}, "can't link an empty program: `cc -lno-such`: ")):
        refuses(f"a compiler that doesn't work: {name}", [*MACHINE_FILE, *words], 1, text, env=env)
    put("m/meson.build", "project('p', 'c', default_options: 'c_std=gnu11')\n")
    refuses("a compiler that doesn't work: c_std of the project", MACHINE_FILE, 1, f"`{old} -std=gnu11`: no such", env={"CC": old})


def test_what_checks_may_do() -> None:
    """No word of a check writes elsewhere or runs a program; prefixes are compiled and not run."""
    fresh("outside")
    place, tool = f"{WORK}/outside/it", put("tool", f"#!/bin/sh\ntouch {WORK}/outside/ran\n", 0o755)
    words = [f"-o{place}", f"-Wl,-o,{place}", f"-Wl,-o{place}", f"-Wl,-Map={place}", f"-MF{place}", f"-B{WORK}/", f"-fplugin={tool}",
             f"-specs={tool}", f"-fuse-ld={tool}", "@words", "-Wl,@words", f"-save-temps={WORK}/outside", f"-wrapper,{tool}", "-wrapper"]
    texts = ", ".join(f"'{it}'" for it in [*words, f"{put('outside.o', '')}"])
    done = of_machine_file(f"""foreach w : [{texts}]
  cc.has_argument(w)
  cc.has_link_argument(w)
endforeach
cc.has_function('puts', args: ['-wrapper', '{tool}'])
cc.has_function('gets', args: ['-wrapper', 'touch,ran'])
cc.has_header('stdio.h', args: '-MF{place}')
cc.has_argument('-o')
cc.has_link_argument('-Wl,-o')
cc.has_link_argument('-Wl,-rpath,/opt/lib')
cc.has_argument('/utf-8')
cc.has_argument('-fdebug-prefix-map=/a=b')""")
    count = 2 * (len(words) + 1) + 5
    left = re.findall(r"^# TO FILL IN: .* is not asked: .* is not among the arguments", done.stdout, re.M)
    is_told = len(left) == count == len(done.stderr.splitlines())
    check("meson machine-file: words that write are not asked", done.returncode == 0 and is_told, f"{count} {done}")
    wanted = (f"meson machine-file: meson.build:4: has_argument -o{place}: is not asked: '-o{place}' is not among the arguments that "
              f"a compiler may get for a project; if this machine has it, add below [checks]: has_argument -o{place} = true")
    check("meson machine-file: words that write: the line to add is told", done.stderr.splitlines()[0] == wanted, done.stderr)
    check("meson machine-file: words that write: nothing is written", not files_below("outside"), files_below("outside"))
    check("meson machine-file: words that read are asked", "has_link_argument -Wl,-rpath,/opt/lib = true\n" in done.stdout and
          "has_argument -fdebug-prefix-map=/a=b = true\n" in done.stdout and "has_argument /utf-8 = false\n" in done.stdout, done.stdout)


def test_what_a_project_gives() -> None:
    """Words that reach the compiler on other ways than by a check: options of the project, and a package of its own."""
    fresh("outside")
    tool = put("tool", f"#!/bin/sh\ntouch {WORK}/outside/ran\n", 0o755)
    for option, word in (("c_args", "-wrapper"), ("c_args", f"-fplugin={tool}"), ("c_link_args", f"-Wl,-Map={WORK}/outside/it"),
                         ("c_link_args", "@words")):
        put("m/meson.build", f"project('p', 'c', default_options: ['{option}={word} {tool}'])\n")
        wanted = (f"{option} of the project: '{word}' is not among the arguments that a compiler may get for a project; "
                  f"-D{option}=.. gives others")
        refuses(f"{option} of the project: {word.partition('=')[0]}", MACHINE_FILE, 1, wanted)
        done = run([*MACHINE_FILE, f"-D{option}=-O1"])
        check(f"meson machine-file: {option} in place of the project's", done.returncode == 0 and done.stderr == "", f"{done}")
    done = of_machine_file("project('p', 'c', default_options: ['c_args=-DX=int', 'c_link_args=-Wl,-z,relro'])\n"
                           "meson.get_compiler('c').has_type('X')\nmeson.get_compiler('c').has_function('fsync')\n")
    check("meson machine-file: harmless words of the project", "has_type X = true\nhas_function fsync = true\n" in done.stdout, f"{done}")
    put("m/own.pc", f"Name: own\nDescription: own\nVersion: 1\nCflags: -wrapper {tool}\n")
    text = "cc.has_type('int', dependencies: dependency('%s', required: false))"
    for name in ("own.pc", f"{WORK}/m/own.pc"):
        put("m/meson.build", f"project('p', 'c')\ncc = meson.get_compiler('c')\n{text % name}\n")
        done = run([*MACHINE_FILE[:2]], cwd=f"{WORK}/m")
        is_told = f"dependency {name}: is not asked: pkg-config would read the file of this name" in done.stderr
        is_good = is_told and "has_type int = true\n" in done.stdout
        check(f"meson machine-file: a package of the project: {name[:1]}..", is_good, f"{done}")
    check("meson machine-file: what a project gives runs nothing", not files_below("outside"), files_below("outside"))


def test_sizes() -> None:
    """The compiler answers them; a program that is made would write a file as it begins."""
    fresh("outside")
    begins = f"#include <fcntl.h>\n__attribute__((constructor)) static void f(void) {{ creat(\"{WORK}/outside/ran\", 0600); }}"
    sizes = {"char": 1, "char [16]": 16, "char [17]": 17, "char [100000]": 100000, "struct { char a[3]; }": 3, "struct {}": 0,
             "char [3000000000]": 3000000000, "no_such_type": -1}
    asked = "\n".join(f"cc.sizeof('{name}', prefix: '''{begins}''')" for name in sizes)
    done = of_machine_file(f"{asked}\ncc.alignment('char', prefix: '''{begins}''')\ncc.alignment('struct {{ _Alignas(64) char c; }}')")
    wanted = [f"sizeof {name} = {size}\n" for name, size in sizes.items()] + ["alignment char = 1\n"]
    missing = [it for it in wanted if it not in done.stdout]
    check("meson machine-file: sizes", not missing, f"{missing} {done.stderr}")
    check("meson machine-file: an alignment", "_Alignas(64) char c; } = 64\n" in done.stdout, done.stdout)
    check("meson machine-file: no program is run", not files_below("outside"))


def test_streams() -> None:
    put("m/meson.build", "project('p', 'c')\n")
    try_streams("machine-file", MACHINE_FILE, 1)


def test_odd_names() -> None:
    done = of_machine_file("cc.has_header('a\\0b')\ncc.has_header('a' + '\\n' + 'b')\ndependency('a\\0b', required: false)\n"
                           "find_program('a\\0b', required: false)\ncc.has_type('int', args: '-D\\0')")
    is_told = [it.split(": ")[2] for it in done.stderr.splitlines()] == ["dependency a\\x00b", "has_type int"]
    check("meson machine-file: names with NUL", done.returncode == 0 and is_told, f"{done}")
    done = of_machine_file("cc.sizeof('char /*\\n*/')")
    is_told = done.stderr == "meson machine-file: meson.build:3: sizeof char /*\\n*/: no machine file can hold this name\n"
    check("meson machine-file: a name with a line's end", done.returncode == 0 and is_told, f"{done}")
    stub = put("broken-pkg-config", "#!/bin/sh\necho \"'\"\n", 0o755)
    put("m/meson.build", "project('p', 'c')\ndependency('one')\n")
    refuses("an open quotation of pkg-config", MACHINE_FILE, 1, "dependency one: --cflags: No closing quotation", env={"PKG_CONFIG": stub})
    shutil.rmtree(f"{WORK}/m")
    os.makedirs(f"{WORK}/m")
    os.mkfifo(f"{WORK}/m/meson.build")
    refuses("a pipe as definition file", MACHINE_FILE, 1, "m/meson.build: is no file, but a pipe or a device")
    os.remove(f"{WORK}/m/meson.build")


def test_headers_of_the_project() -> None:
    """A header that the compiler reads for ever, or that names the script's own standard input, keeps nobody waiting."""
    fresh("m", "scratch")
    put("m/bomb.h", "#include \"bomb.h\"\n" * 2)
    put("m/meson.build", "project('p', 'c')\ncc = meson.get_compiler('c')\ncc.has_type('int', prefix: '#include \"bomb.h\"', "
        "include_directories: include_directories('.'))\ncc.has_type('char')\n")
    process = subprocess.Popen(words_of(MACHINE_FILE), cwd=WORK, env=environment({"TMPDIR": f"{WORK}/scratch"}), stdin=subprocess.DEVNULL,
                               stdout=subprocess.PIPE, stderr=subprocess.PIPE, text=True)
    printed, errors = process.communicate(timeout=400)
    is_told = "has_type int: cc prints more than 16,777,216 bytes" in errors and "has_type char = true\n" in printed
    check("meson machine-file: a header that includes itself for ever", process.returncode == 0 and is_told, f"{errors[:400]} {printed}")
    check("meson machine-file: which leaves nothing", os.listdir(f"{WORK}/scratch") == [], os.listdir(f"{WORK}/scratch"))
    put("m/meson.build", "project('p', 'c')\nmeson.get_compiler('c').has_type('int', prefix: '#include \"/dev/stdin\"')\n")
    reading, writing = os.pipe()
    done = run(MACHINE_FILE, stdin=reading)
    os.close(writing)
    os.close(reading)
    check("meson machine-file: the standard input as a header", "has_type int = true\n" in done.stdout, f"{done}")


def begun() -> tuple[subprocess.Popen[str], list[int]]:
    """Starts a machine-file whose compiler hangs. Returns it, and the compiler's number."""
    fresh("s", "scratch")
    # It can write nowhere but in the folder of its check.
    hangs = put("hangs", "#!/bin/sh\ncase $* in *-Wslow*) echo $$ >$TMPDIR/pid; exec sleep 300 ;; esac\nexec cc \"$@\"\n", 0o755)
    put("m/meson.build", "project('p', 'c')\nmeson.get_compiler('c').has_argument('-Wslow')\n")
    env = environment({"CC": hangs, "TMPDIR": f"{WORK}/scratch"})
    process = subprocess.Popen(words_of(MACHINE_FILE), cwd=WORK, env=env, stdout=subprocess.PIPE, stderr=subprocess.PIPE, text=True)
    wait_until(lambda: glob.glob(f"{WORK}/scratch/*/*/pid"), 200)
    return process, wait_for_pids(glob.glob(f"{WORK}/scratch/*/*/pid"))


def test_interrupted_checks() -> None:
    """A compiler that hangs is ended with machine-file, at once, and no folder is left."""
    process, pids = begun()
    process.send_signal(signal.SIGTERM)
    process.send_signal(signal.SIGHUP)
    printed, errors = process.communicate(timeout=200)
    is_told = (process.returncode, printed, errors) == (130, "", "meson machine-file: interrupted\n")
    check("meson machine-file: interrupted", is_told, f"{process.returncode} {errors}")
    check("meson machine-file: interrupted: ends the compiler", len(pids) == 1 and not is_running(pids[0]), pids)
    check("meson machine-file: interrupted: leaves nothing", os.listdir(f"{WORK}/scratch") == [], os.listdir(f"{WORK}/scratch"))
    process, pids = begun()
    process.kill()
    process.communicate(timeout=200)
    check("meson machine-file: killed: ends the compiler", len(pids) == 1 and not is_running(pids[0]), pids)


TESTS = (test_broken_compilers, test_what_checks_may_do, test_what_a_project_gives, test_sizes, test_streams, test_odd_names,
         test_headers_of_the_project, test_interrupted_checks)
