#!/usr/bin/env python3
"""Compares machine files with the real Meson: each check that both answer has to have one answer. Run by hand; no part of ./test.

    tests/agreement.py                       the table of checks in this file
    tests/agreement.py DIR..                 projects, each a folder with a meson.build that the real Meson takes
    tests/agreement.py DIR.. --meson PATH    another real Meson than that of PATH
    tests/agreement.py DIR.. --program PATH  another program than this checkout's
    tests/agreement.py DIR.. -DNAME=VALUE    an option, for both programs

The script copies each project and has the real Meson configure it. Its log has each check with the answer. If a check has two answers
there, the first counts. A check that only one side makes is listed and is no failure. Machine files are made twice, with checks that run
together and with --alone, and have to be the same. The last line is 'N passed, M failed'.
"""
import argparse
import os
import re
import shutil
import subprocess
import sys
import tempfile

sys.dont_write_bytecode = True
sys.path.insert(0, os.path.dirname(os.path.dirname(os.path.realpath(__file__))))

from tests.machine_lines import machine_lines  # noqa: E402

CHECKOUT = os.path.dirname(os.path.dirname(os.path.realpath(__file__)))
# Lines of the real Meson's log, each with the method of its check and the arguments among its groups; the last group is the answer.
ANSWER = r" ?: (YES|NO|-?[0-9]+)\b"
LINES = {
    "has_argument": rf"^Compiler for C supports arguments (.*?){ANSWER}",
    "has_link_argument": rf"^Compiler for C supports link arguments (.*?){ANSWER}",
    "has_function": rf'^Checking for function "(.*?)"[^:]*?{ANSWER}',
    "has_header": rf'^Has header "(.*?)"[^:]*?{ANSWER}',
    "check_header": rf'^Check usable header "(.*?)"[^:]*?{ANSWER}',
    "has_header_symbol": rf'^Header "(.*?)" has symbol "(.*?)"[^:]*?{ANSWER}',
    "has_type": rf'^Checking for type "(.*?)"[^:]*?{ANSWER}',
    "has_member": rf'^Checking whether type "(.*?)" has member "(.*?)"[^:]*?{ANSWER}',
    "sizeof": rf'^Checking for size of "(.*?)"[^:]*?{ANSWER}',
    "alignment": rf'^Checking for alignment of "(.*?)"[^:]*?{ANSWER}',
    "find_library": r"^Library (.*?) found: (YES|NO)\b",
}
DEPENDENCY = r"^(?:Run-time dependency|Dependency) (\S+)(?: \(modules: .*?\))? found: (YES|NO)(?: ([0-9][^ ]*))?"
FLAGS = ("-Wall", "-Wformat-security", "-Wno-such", "-Wno-format-security", "-Wlogical-op", "-Wnon-virtual-dtor", "-fno-rtti", "-such",
         "-Wno-error=such", "-Wno-error=unused", "-Werror=format-security", "-Wno-long-long", "-mno-such", "-std=c99",
         "-Wno-unknown-pragmas", "-fstack-protector-strong", "-Wno-frame-larger-than")
LINK_FLAGS = ("-Wl,--as-needed", "-Wl,--no-such", "-Wl,-z,relro", "-Wl,-z,such", "-rdynamic", "-pie", "-Wl,-O1", "-Wl,--version-script,/no")
FUNCTIONS = ("__sync_add_and_fetch", "__atomic_load_n", "memcpy", "strlcat", "alloca", "__builtin_expect", "lchmod", "no_such", "printf",
             "sin", "clz", "bswap_32", "__builtin_such", "dlopen", "gets", "va_copy", "abs", "revoke", "gnu_dev_major")
TYPES = ("int", "struct such", "__int128", "size_t", "long double", "void", "_Bool", "char[4]")
HEADERS = ("stdio.h", "no/such.h", "sys/param.h", "windows.h", "emmintrin.h")
LIBRARIES = ("m", "dl", "rt", "such", "pthread", "resolv", "c")
TABLE = f"""project('table', 'c')
cc = meson.get_compiler('c')
cc.get_supported_arguments({list(FLAGS)})
foreach it : {list(LINK_FLAGS)}
  cc.has_link_argument(it)
endforeach
foreach it : {list(FUNCTIONS)}
  cc.has_function(it)
endforeach
cc.has_function('major', prefix: '#include <sys/sysmacros.h>')
cc.has_function('getline', prefix: '#include <stdio.h>')
cc.has_function('lchmod_of_none', prefix: '#include <sys/stat.h>')
cc.has_function('sinh', dependencies: cc.find_library('m'))
foreach it : {list(TYPES)}
  cc.has_type(it)
  cc.sizeof(it)
endforeach
foreach it : ['int', 'short', '__int128', 'long double']
  cc.alignment(it)
endforeach
cc.sizeof('off_t', prefix: '#include <sys/types.h>')
cc.has_type('loff_t', prefix: '#include <fcntl.h>')
cc.has_header_symbol('sys/sysmacros.h', 'major')
cc.has_header_symbol('limits.h', 'INT_MAX')
cc.has_header_symbol('stdio.h', 'such')
cc.has_header_symbol('fcntl.h', 'O_PATH')
cc.has_header_symbol('fcntl.h', 'O_TMPFILE', prefix: '#define _GNU_SOURCE')
cc.has_header_symbol('string.h', 'memmem')
cc.has_member('struct stat', 'st_mtim', prefix: '#include <sys/stat.h>')
cc.has_member('struct stat', 'st_such', prefix: '#include <sys/stat.h>')
cc.has_member('struct sockaddr', 'sa_len', prefix: '#include <sys/socket.h>')
foreach it : {list(HEADERS)}
  cc.has_header(it)
  cc.check_header(it)
endforeach
foreach it : {list(LIBRARIES)}
  cc.find_library(it, required: false)
endforeach
dependency('threads')
foreach it : ['dl', 'iconv', 'intl', 'curses', 'zlib', 'openmp', 'm', 'no-such']
  dependency(it, required: false)
endforeach
"""
Answers = dict[str, object]


def real_answers(log: str) -> Answers:
    """Returns what a log of the real Meson says, by the keys of machine files."""
    plain = {"YES": True, "NO": False}
    found: Answers = {}
    for line in re.sub("\x1b\\[[0-9;]*m", "", log).split("\n"):
        for method, form in LINES.items():
            match = re.search(form, line)
            if match:
                *arguments, said = match.groups()
                found.setdefault(" ".join([method, *arguments]), plain[said] if said in plain else int(said))
        match = re.search(DEPENDENCY, line)
        if match:
            name = "openmp" if match[1] == "OpenMP" else match[1]
            found.setdefault(f"dependency {name}", (match[3] or "found") if match[2] == "YES" else False)
    return found


def our_answers(text: bytes) -> Answers:
    """Returns what a machine file answers, by the same keys; what it doesn't name is not found."""
    sections = machine_lines(text)
    found: Answers = dict(sections.get("checks", {}))
    found.update({it: sections[it].get("version", "found") for it in sections if it.startswith("dependency ")})
    found.update({it: False for it in re.findall(r"^# not found: (dependency .*)$", text.decode(), re.M)})
    return found


class Comparison:
    def __init__(self, meson: str, program: str, words: list[str]) -> None:
        self.meson, self.program, self.words, self.passed, self.failed = meson, program, words, 0, 0

    def count(self, name: str, is_good: bool, shown: str = "") -> None:
        self.passed, self.failed = self.passed + is_good, self.failed + (not is_good)
        if not is_good:
            print(f"{name}: FAILED {shown}", flush=True)

    def compare(self, name: str, folder: str) -> None:
        """Compares a project, in a folder of its own."""
        done = subprocess.run([self.meson, "setup", *self.words, "build-real"], cwd=folder,
                              capture_output=True, text=True, errors="replace")
        if done.returncode != 0:
            self.count(name, False, f"the real Meson refuses it: {done.stdout[-500:]}{done.stderr[-500:]}")
            return
        with open(os.path.join(folder, "build-real/meson-logs/meson-log.txt"), encoding="utf-8", errors="replace") as it:
            real = real_answers(it.read())
        asking = [os.path.join(CHECKOUT, "tools", "machine-file"), self.program, "machine-file", "--no-cache", *self.words, folder]
        made = subprocess.run(asking, capture_output=True)
        if made.returncode != 0:
            self.count(name, False, f"no machine file: {made.stderr.decode(errors='replace')}")
            return
        alone = subprocess.run([*asking, "--alone"], capture_output=True)
        self.count(f"{name}: checks asked together and alone", alone.stdout == made.stdout, f"{made.stdout}\nnot\n{alone.stdout}")
        ours = our_answers(made.stdout)
        both = [it for it in real if it in ours]
        for key in both:
            self.count(f"{name}: {key}", real[key] == ours[key], f"the real Meson says {real[key]}, the machine file {ours[key]}")
        print(f"{name}: {len(both)} answers of both", flush=True)
        for key in real:
            if key not in ours:
                print(f"{name}: asked by the real Meson alone: {key}: {real[key]}", flush=True)


def main() -> int:
    parser = argparse.ArgumentParser(prog="agreement.py", description=__doc__, formatter_class=argparse.RawDescriptionHelpFormatter)
    parser.add_argument("folders", metavar="DIR", nargs="*", help="the folder of a project")
    parser.add_argument("--meson", default=shutil.which("meson"), help="the real Meson; without it the one on PATH")
    parser.add_argument("-D", metavar="NAME=VALUE", action="append", default=[], dest="options", help="an option, for both programs")
    parser.add_argument("--program", default=os.path.join(CHECKOUT, "crates/hawkottoman/out/hawkottoman"),
                        help="the program; without it that of this checkout")
    words = parser.parse_args()
    if words.meson is None:
        sys.exit("agreement.py: there is no real Meson (Debian's package meson)")
    if not os.access(words.program, os.X_OK):
        sys.exit(f"agreement.py: {words.program}: no program is there; ./meson --help builds it, --program names another")
    options = ["-D" + it for it in words.options]
    comparison = Comparison(os.path.abspath(words.meson), os.path.abspath(words.program), options)
    with tempfile.TemporaryDirectory(prefix="agreement-") as scratch:
        if not words.folders:
            os.mkdir(os.path.join(scratch, "table"))
            with open(os.path.join(scratch, "table", "meson.build"), "w", encoding="utf-8") as it:
                it.write(TABLE)
            comparison.compare("table", os.path.join(scratch, "table"))
        for folder in words.folders:
            name = os.path.basename(os.path.abspath(folder))
            shutil.copytree(folder, os.path.join(scratch, name), symlinks=True)
            comparison.compare(name, os.path.join(scratch, name))
    print(f"{comparison.passed} passed, {comparison.failed} failed")
    return 1 if comparison.failed else 0


if __name__ == "__main__":
    sys.exit(main())
