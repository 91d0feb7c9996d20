"""Finds the dependencies of this machine: those that pkg-config knows, and those that Meson finds by compiling and linking.

Their arguments and their order are those of the real Meson: what the C library has needs no argument, else the library is linked.
"""
from __future__ import annotations

import os
from collections.abc import Callable

from tools.asking.allowed import DANGER, is_package
from tools.asking.checks import answer
from tools.asking.compiler import MAIN, Compiler, Flags
from tools.asking.evidence import add_evidence, add_packages, gathered
from tools.asking.processes import NoAnswer, end_all
from tools.parallel import side_by_side
from tools.variables import pkg_config, words_in

Found = dict[str, object]
# Each candidate of curses: a library, and the headers that it may have.
CURSES = (("pdcurses", ("pdcurses/curses.h",)), ("ncursesw", ("ncursesw/ncurses.h", "ncurses.h")),
          ("ncurses", ("ncurses/ncurses.h", "ncurses/curses.h", "ncurses.h")), ("curses", ("curses.h",)))
THREADS = Flags(("-pthread",))
# The dates of OpenMP's macro, as in its specification.
OPENMP = {"202111": "5.2", "202011": "5.1", "201811": "5.0", "201611": "5.0-revision1", "201511": "4.5", "201307": "4.0",
          "201107": "3.1", "200805": "3.0", "200505": "2.5", "200203": "2.0", "199810": "1.0"}


def found(compile_args: list[str], link_args: list[str], version: str = "") -> Found:
    return {**({"version": version} if version else {}), "compile_args": compile_args, "link_args": link_args}


def package_folders(compiler: Compiler) -> list[str]:
    """Returns the folders that pkg-config searches. If it doesn't say so, it may not work in the sandbox."""
    with compiler.searches:
        if compiler.package_folders is None:
            own = os.environ.get("PKG_CONFIG_LIBDIR")
            done = compiler.ask([*pkg_config(), "--variable", "pc_path", "pkg-config"])
            compiler.has_doubt = compiler.has_doubt or not done.is_good
            searched = own if own is not None else done.printed.strip()
            places = [*os.environ.get("PKG_CONFIG_PATH", "").split(":"), *searched.split(":")]
            compiler.package_folders = [it for it in places if it]
        return compiler.package_folders


def of_pkg_config(compiler: Compiler, name: str) -> Found | None:
    """Returns what pkg-config says of a package, and asks it once."""
    if name not in compiler.packages:
        with gathered() as evidence:
            try:
                compiler.packages[name] = asked_now(compiler, name), evidence
            except NoAnswer as open_question:
                compiler.packages[name] = open_question, evidence
    came, evidence = compiler.packages[name]
    add_evidence(evidence)
    if isinstance(came, NoAnswer):
        raise came
    return came


def asked_now(compiler: Compiler, name: str) -> Found | None:
    """Returns what pkg-config says of a package, if all of its words are such as a project may give."""
    asked = lambda word: compiler.ask([*pkg_config(), word, "--", name])
    version = asked("--modversion")
    add_packages(name, package_folders(compiler))
    if not version.is_good:
        return None
    lists = ("--cflags", "--libs")
    printed = [it.printed.strip() for it in side_by_side(asked, list(lists), None, end_all)]
    found_words = [words_in(text, f"dependency {name}: {word}") for word, text in zip(lists, printed)]
    for words in found_words:
        refused = compiler.allowed.refused(words)
        if refused is not None:
            raise NoAnswer(f"pkg-config names arguments for it, and {DANGER % refused}")
    return found(*found_words, version.printed.strip())


def has_library(compiler: Compiler, library: str, header: str) -> bool:
    return all(answer(compiler, it) is True for it in (f"has_header {header}", f"find_library {library}"))


def threads(compiler: Compiler) -> Found | None:
    return found(["-pthread"], ["-pthread"]) if compiler.takes("link", MAIN, THREADS) else None


def openmp(compiler: Compiler) -> Found | None:
    flags = Flags(("-fopenmp",))
    version = OPENMP.get(compiler.define("_OPENMP", "", flags))
    return found(["-fopenmp"], ["-fopenmp"], version) if version and answer(compiler, "has_header omp.h", flags=flags) else None


def dl(compiler: Compiler) -> Found | None:
    if answer(compiler, "has_function dlopen", "#include <dlfcn.h>"):
        return found([], [])
    return found([], ["-ldl"]) if has_library(compiler, "dl", "dlfcn.h") else None


def of_c_library(header: str, call: str, library: str) -> Callable[[Compiler], Found | None]:
    """Returns a call that the C library may have, else a library of its own."""
    def ask(compiler: Compiler) -> Found | None:
        if compiler.takes("link", f"#include <{header}>\nint main() {{ {call}; }}"):
            return found([], [])
        return found([], ["-l" + library]) if has_library(compiler, library, header) else None
    return ask


def curses(compiler: Compiler) -> Found | None:
    known = filter(None, (of_pkg_config(compiler, it) for it in ("pdcurses", "ncursesw", "ncurses", "curses")))
    by_hand = ((library, header) for library, headers in CURSES for header in headers if has_library(compiler, library, header))
    return next(known, None) or next((found([], ["-l" + library], compiler.define("NCURSES_VERSION", f"#include <{header}>"))
                                      for library, header in by_hand), None)


def zlib(compiler: Compiler) -> Found | None:
    return found([], ["-lz"], compiler.define("ZLIB_VERSION", "#include <zlib.h>")) if has_library(compiler, "z", "zlib.h") else None


BY_COMPILING: dict[str, Callable[[Compiler], Found | None]] = {
    "threads": threads, "openmp": openmp, "dl": dl, "curses": curses, "zlib": zlib,
    "iconv": of_c_library("iconv.h", 'iconv_open("", "")', "iconv"), "intl": of_c_library("libintl.h", 'gettext("Hello world")', "intl")}


# What the real Meson finds by compiling alone, whatever package has that name.
NO_PACKAGES = ("threads", "openmp", "dl", "iconv", "intl")
# Packages whose headers alone are used: their libraries are static, and are no part of another library.
OF_HEADERS = ("valgrind",)


def dependency(compiler: Compiler, name: str) -> Found | None:
    """Returns the lines of its section, or None if it isn't found."""
    if not is_package(name):
        raise NoAnswer("is not asked: pkg-config would read the file of this name, or take it for other arguments")
    by_compiling, package = BY_COMPILING.get(name), of_pkg_config(compiler, name) if name not in NO_PACKAGES else None
    if package and name in OF_HEADERS:
        return {**package, "link_args": []}
    return package or (by_compiling(compiler) if by_compiling else None)
