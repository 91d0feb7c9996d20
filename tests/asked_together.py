"""Tests that checks that run together get the same answers as checks that run alone. tests/machine_files runs these too.

Each installed compiler runs the checks both ways: of names that exist and names that don't, mixed with checks that a bundle can't settle,
such as checks after a text with an open comment or bracket.
"""
import os
import shutil
import tempfile
from collections.abc import Iterator

from tests.workshop import check
from tools.asking.bundles import Check, ask_together, bundles_of
from tools.asking.cache import Cache
from tools.asking.checks import answer
from tools.asking.compiler import MAIN, Compiler, Flags
from tools.asking.evidence import gathered
from tools.asking.links import flags_to_link, link_together
from tools.asking.processes import end_all
from tools.parallel import side_by_side

STAT = "#include <sys/stat.h>"
KEYS = {
    "": ["has_header stdio.h", "has_header no/such.h", "has_header sys/param.h", "has_header a\"b.h", "has_header stdio.h>\n#error",
         "check_header stdio.h", "check_header no/such.h", "has_type int", "has_type such_t", "has_type struct such",
         "has_type unsigned such", "has_type int) + sizeof(int", "has_header_symbol stdio.h EOF", "has_header_symbol stdio.h such",
         "has_header_symbol stdio.h printf",
         "has_header_symbol stdio.h FILE", "has_header_symbol no/such.h X", "has_header_symbol limits.h INT_MAX",
         "has_header_symbol limits.h 1x", "sizeof int", "sizeof such_t", "sizeof void", "sizeof char[4]", "sizeof char[3000000000]",
         "sizeof struct such", "sizeof long double", "alignment int", "alignment such_t", "alignment char[4]", "alignment double",
         "has_function memcpy", "has_function no_such", "has_function alloca", "has_function __builtin_expect", "has_function gets",
         "has_function lchmod", "has_function revoke", "has_function int", "has_function main", "has_function strerror_such",
         "has_function bswap_32", "has_function _exit", "has_function _GNU_SOURCE", "has_function clz",
         "has_argument -Wall", "has_argument -Wno-such", "has_argument -Wsuch", "has_argument -Wnon-virtual-dtor", "has_argument -fno-rtti",
         "has_argument -fno-such", "has_argument -Wformat-security", "has_argument -Wno-error=such", "has_argument -Wframe-larger-than",
         "has_argument -Wno-frame-larger-than", "has_argument -fvisibility=such", "has_argument -Wlogical-op", "has_argument -Werror=implicit",
         "has_argument -Werror=address", "has_argument -Werror=such",
         "has_argument -Werror=format-security", "has_argument -Werror=format", "has_argument -Werror=init-self"],
    STAT: ["has_member struct stat st_mtim", "has_member struct stat st_such", "has_member struct such st_mtim", "has_member such_t x",
           "has_member struct stat st_mtim.tv_sec", "has_type mode_t", "has_type such_t", "has_function stat", "has_function no_such",
           "has_function lchmod", "has_function S_ISREG", "has_function mode_t", "sizeof mode_t", "sizeof struct stat",
           "has_header_symbol sys/stat.h S_ISREG", "has_header_symbol fcntl.h O_PATH"],
    "#include <no/such.h>": ["has_type int", "has_type such_t", "has_function memcpy", "has_function alloca", "sizeof int", "sizeof long",
                             "has_header stdio.h", "has_header no/such.h", "has_member struct stat st_mode"],
    "#define FIRST int); (void) sizeof(int\n#define SECOND }\n#define such_t int": [
        "has_type FIRST", "has_type SECOND", "has_type such_t", "has_type int", "has_type none_t", "sizeof SECOND", "sizeof such_t",
        "has_function FIRST", "has_function memcpy", "has_function SECOND"],
    "#define X \\": ["has_type int", "has_type long", "has_header stdio.h", "has_header no.h", "has_function memcpy", "has_function puts"],
    "/*": ["has_type int", "has_type long", "has_header stdio.h", "has_header no.h", "has_function memcpy", "has_function puts"],
    "#if 0": ["has_type int", "has_type such", "has_header stdio.h", "has_header no.h", "sizeof int", "sizeof such"],
    "struct a {": ["has_type int", "has_type long", "sizeof int", "sizeof long"],
    "#ifdef X\n#error\n#endif\n#include <math.h>": ["has_function sin", "has_function cos", "has_function isnan", "has_function such"]}
# What no bundle settles, though it has a plain text before it.
HARD = ("has_header a\"b.h", "has_header stdio.h>\n#error", "has_type unsigned such", "has_type int) + sizeof(int",
        "has_header_symbol limits.h INT_MAX", "has_header_symbol limits.h 1x", "alignment char[4]", "has_function __builtin_expect",
        "has_function int", "has_function main", "has_function _GNU_SOURCE", "has_function mode_t", "has_function revoke",
        "has_argument -Wno-error=such", "has_argument -fvisibility=such", "has_argument -Werror=format-security",
        "has_argument -Werror=format", "has_header_symbol sys/stat.h S_ISREG", "has_header_symbol fcntl.h O_PATH")
FLAGS = (Flags(), Flags(("-Werror", "-Wall", "-ffunction-sections", "-Wl,--gc-sections")), Flags(("-O2", "-flto", "-Wfatal-errors")))


def compilers(scratch: str) -> Iterator[tuple[str, Compiler]]:
    """Yields each installed compiler with its name."""
    for name in filter(shutil.which, ("gcc", "clang")):
        old, os.environ["CC"] = os.environ.get("CC"), name
        compiler = Compiler(scratch, scratch, Cache(os.path.join(scratch, "answers.json")))
        os.environ.pop("CC")
        if old is not None:
            os.environ["CC"] = old
        yield name, compiler


def test_both_ways() -> None:
    with tempfile.TemporaryDirectory() as scratch:
        for name, compiler in compilers(scratch):
            for flags in FLAGS:
                ask_both_ways(name, compiler, flags)


def together(compiler: Compiler, bundle: list[Check]) -> dict[Check, bool | int]:
    """Returns what a bundle settles, while it notes what the answers depend on."""
    with gathered():
        return ask_together(compiler, bundle)


def ask_both_ways(name: str, compiler: Compiler, flags: Flags) -> None:
    of_words = lambda key: key.startswith("has_argument ")
    checks = [Check(key, prefix, Flags() if of_words(key) else flags) for prefix, keys in KEYS.items() for key in dict.fromkeys(keys)
              if flags == Flags() or not of_words(key)]
    bundles, _ = bundles_of(checks)
    settled = {it: answered for some in side_by_side(lambda it: together(compiler, it), bundles, None, end_all)
               for it, answered in some.items()}
    alone = side_by_side(lambda it: answer(compiler, it.key, it.prefix, it.flags), list(settled), None, end_all)
    wrong = {it: answered for it, answered in zip(settled, alone) if settled[it] != answered}
    what = f"machine files: {name} {' '.join(flags.args)}: {len(settled)} of {len(checks)} checks asked together"
    check(f"{what} have the answers of checks alone", not wrong, wrong)
    if flags == Flags():
        is_plain = lambda it: it.prefix in ("", STAT) and it.key not in HARD
        left = [it for it in checks if is_plain(it) and it not in settled]
        check(f"{what}: what is plain is settled", not left, left)


# Checks by the link of an empty program: sets of which a link settles all, and one that it doesn't settle.
LIBRARIES = [f"find_library {it}" for it in ("m", "dl", "such", "c", "pthread", "no_such-1.0", "rt")]
WORDS = [f"has_link_argument -Wl,{it}" for it in ("-z,relro", "-z,now", "-Bsymbolic-functions", "--as-needed", "--gc-sections", "-O1",
                                                 "--hash-style=gnu", "--version-script,@GOOD")]
BAD_SCRIPT = "has_link_argument -Wl,--version-script,@BAD"
# What is never linked together with others: it may make a bad link good, or the linker may warn of it alone.
NOT_TOGETHER = ("-nostdlib", "-static", "-r", "-Wl,--unresolved-symbols=ignore-all", "-Wl,--no-such", "-Wl,-z,such", "-Wl,-z,noexecstack",
                "-Wl,--allow-shlib-undefined", "-Wl,--version-script,a,--noinhibit-exec")


def test_links() -> None:
    with tempfile.TemporaryDirectory() as scratch:
        paths = {"@GOOD": os.path.join(scratch, "good.map"), "@BAD": os.path.join(scratch, "bad.map")}
        for name, text in (("@GOOD", "{ global: main; local: *; };\n"), ("@BAD", "{ global main\n")):
            with open(paths[name], "w", encoding="utf-8") as it:
                it.write(text)
        for name, compiler in compilers(scratch):
            for what, keys in {"libraries": LIBRARIES, "words": WORDS, "both": LIBRARIES + WORDS,
                               "a bad script": [*LIBRARIES, BAD_SCRIPT]}.items():
                named = [it.replace("@GOOD", paths["@GOOD"]).replace("@BAD", paths["@BAD"]) for it in keys]
                link_both_ways(f"machine files: {name}: links of {what}", compiler, named, BAD_SCRIPT in keys)
    left = [it for it in NOT_TOGETHER if flags_to_link(f"has_link_argument {it}") is not None]
    check("machine files: words that may make a bad link good are tried alone", not left, left)


def link_both_ways(what: str, compiler: Compiler, keys: list[str], is_open: bool) -> None:
    wanted = [it for it in map(flags_to_link, keys) if it is not None]
    compiler.linked.clear()
    link_together(compiler, [*wanted, Flags(("-pthread",))])
    settled = dict(compiler.linked)
    alone = side_by_side(lambda it: compiler.attempt("link", MAIN, it).is_good, list(settled), None, end_all)
    wrong = {it: settled[it].is_good for it, is_good in zip(settled, alone) if settled[it].is_good != is_good}
    check(f"{what} together have the answers of links alone", not wrong and len(wanted) == len(keys), wrong)
    left = [it for it in wanted if it not in settled]
    check(f"{what} together: which are settled", bool(left) == is_open, left)


TESTS = (test_both_ways, test_links)
