"""Runs the C compiler: finds which it is, the flags in use, and whether it accepts a source.

The compiler reads the text of a project that nobody has to trust, and no result is run. Each source has a folder of its own, the current
one, and the last arguments name the output in it. The arguments of a project are those of an allowlist (allowed.py), and the compiler runs
in a sandbox (sandbox.py).
"""
from __future__ import annotations

import _thread
import functools
import os
import re
import time

from tools import records as dataclasses
from tools.asking.allowed import DANGER, Allowed
from tools.asking.cache import Cache, label_of, short_name
from tools.asking.early import DEFINED, VERSION, after_launchers, compiler_words, early_or_run
from tools.asking.evidence import add_evidence, add_headers, add_linked, at_work, cut_headers, folders_in, gathered
from tools.asking.processes import Done, NoAnswer, run
from tools.asking.programs import own_folders, path_folders
from tools.asking.sandbox import SECONDS, Sandbox, sandbox_of
from tools.asking.stamps import Evidence, stamp_of
from tools.ending import Stop
from tools.files import read_bytes
from tools.scratch import ScratchFolder
from tools.variables import found_program, pkg_config, words_of

# The programs that a compiler runs, and what is looked at of all that it defines.
TOOLS = ("cc1", "as", "collect2", "ld")
OF_INTEREST = ("__clang__", "__GNUC__", "__VERSION__", "__x86_64__", "__BYTE_ORDER__")
MAIN = "int main(void) { return 0; }"
# Included first, so that no header of the project is the first one: in its place GCC would load a precompiled header next to it, whose
# bytes it trusts.
INCLUDED_FIRST = ["-include", os.devnull]
ASSEMBLY = (".s", ".S")
# Comes after the arguments of a check and of a project, and changes nothing. If the last of these takes the next argument as the name of
# a file to write, it gets this one, and none of the compiler's own files.
GUARD = "-Wl,-O0"
MOST_BYTES = 1 << 26  # of a program that holds answers
ALL_SECONDS = 1800  # that all commands may take together: a project can ask any number of questions
# The words of the real Meson for each way to try a source, and one that makes no code.
MODES = {"preprocess": ["-E", "-P"], "compile": ["-c"], "link": [], "check": ["-fsyntax-only"]}
# Words that change nothing in the folders that are searched for headers.
OF_NO_FOLDER = r"(?s)-[DU]\w.*|-W(?![lpa],)[\w+=-]+|-std=[\w:+]+|-O\w?|-pthread|-f[\w+=-]+"
OF_CLANG = ["-Werror=implicit-function-declaration"]
OF_CLANG_THAT_COMPILES = ["-Werror=unknown-warning-option", "-Werror=unused-command-line-argument", "-Werror=ignored-optimization-argument"]


@functools.cache
def identity(words: tuple[str, ...]) -> tuple[object, ...]:
    """Returns which program these arguments run."""
    path = os.path.realpath(found_program(words[0]) or words[0])
    return (words, path, stamp_of(path), early_or_run([*words, *VERSION]).printed)


def bytes_made(path: str) -> bytes:
    """Returns the bytes of a file that the compiler has made; none if it has made none, or more than a check is answered by."""
    try:
        return read_bytes(path, MOST_BYTES)
    except OSError:
        return b""


@dataclasses.dataclass(frozen=True)
class Flags:
    """Holds the arguments that are added to those in use: of a check, and those that its dependencies give to the compiler and the
    linker."""
    args: tuple[str, ...] = ()
    compile_args: tuple[str, ...] = ()
    link_args: tuple[str, ...] = ()


@dataclasses.dataclass(frozen=True)
class Linked:
    """Holds whether an empty program was linked, and what that depends on."""
    is_good: bool
    evidence: Evidence


class Compiler:
    def __init__(self, scratch: str, sources: str, cache: Cache | None = None) -> None:
        self.scratch, self.allowed, self.cache = scratch, Allowed((sources,)), cache or Cache(None)
        self.folders: dict[Flags, list[str] | None] = {}  # that are searched for headers
        self.linked: dict[Flags, Linked] = {}  # whether an empty program is linked with these arguments, if that is known
        self.packages: dict[str, tuple[object, Evidence]] = {}  # what pkg-config has said of them, and what that depends on
        self.package_folders: list[str] | None = None  # that it searches
        self.has_doubt = False  # pkg-config may not work in the sandbox
        self.is_tried = False  # an empty program was linked with the flags in use, in the present sandbox
        self.searches = _thread.allocate_lock()
        self.end = time.monotonic() + ALL_SECONDS  # after which no command is run
        self.c, self.ar = compiler_words(), words_of("AR") or ["ar"]
        self.own = after_launchers(self.c)  # as it is called for a check
        self.standard: list[str] = []
        self.words_of_user: tuple[list[str], list[str], list[str]] | None = None  # if there are others of the project among those in use
        self.tried_out: dict[str, Sandbox] = {}  # the sandbox in which flags work
        self.c_args, self.c_link_args = words_of("CPPFLAGS") + words_of("CFLAGS"), words_of("CFLAGS") + words_of("LDFLAGS")
        for word in (self.c[0], self.own[0]):
            if not found_program(word):
                raise Stop(f"no C compiler: {word!r} isn't on PATH (CC names another)")
        with ScratchFolder(scratch) as folder:
            self.sandbox = sandbox_of(self.own, pkg_config(), folder)
            self.itself = [*identity(tuple(self.own))]
            defined, tools, self.own_headers = self.found_out(folder)
        self.tools, self.itself = tools, [*self.itself, *([it, stamp_of(it)] for it in tools)]
        self.id = "clang" if "__clang__" in defined else "gcc" if "__GNUC__" in defined else "unknown"
        self.version = (re.search(r"\d+(\.\d+)+", defined.get("__VERSION__", "")) or ["unknown"])[0]
        system = os.uname()
        cpu = system.machine or "unknown"
        if cpu == "x86_64" and "__x86_64__" not in defined:
            cpu = "i686"
        families = {r"i.86": "x86", r"aarch64.*|arm64": "aarch64", r"arm.*": "arm", r"ppc64.*|powerpc64.*": "ppc64"}
        family = next((family for form, family in families.items() if re.fullmatch(form, cpu)), cpu)
        endian = "big" if defined.get("__BYTE_ORDER__") == "__ORDER_BIG_ENDIAN__" else "little"
        self.host = {"system": system.sysname.lower(), "cpu_family": family, "cpu": cpu, "endian": endian}

    def found_out(self, folder: str) -> tuple[dict[str, str], list[str], list[str] | None]:
        """Returns what the compiler defines before all sources, the programs that it runs, and the folders that it searches for headers."""
        label = label_of(["compiler", self.itself])
        kept, is_good = self.cache.get(label)
        if is_good and isinstance(kept, list):
            return kept[0], kept[1], kept[2]
        done = early_or_run([*self.own, *DEFINED])
        defined, headers = dict(re.findall(r"^#define (\w+) (.*)$", done.printed, re.M)), folders_in(done.said)
        searched = [*own_folders(tuple(self.own), folder), *path_folders()]
        evidence = Evidence(set(filter(None, (found_program(it, searched) for it in TOOLS))) if self.cache.path else None)
        tools = sorted(evidence.paths)
        self.cache.put(evidence, {label: [{it: defined[it] for it in OF_INTEREST if it in defined}, tools, headers]})
        return defined, tools, headers

    def words(self) -> str:
        """Returns a name of what an answer depends on in addition to its question: the compiler, and the arguments in use."""
        return short_name([self.itself, self.sandbox.lack, self.standard, self.c_args, self.c_link_args])

    def use(self, c_std: str, c_args: list[str], c_link_args: list[str], given: list[str]) -> None:
        """Takes over the options in use. What neither the environment nor a word `-D..` gives is the project's, and looked at."""
        for name, words, own in (("c_args", c_args, self.c_args), ("c_link_args", c_link_args, self.c_link_args)):
            if words == own or any(it.startswith(f"-D{name}=") for it in given):
                continue
            self.words_of_user = self.words_of_user or ([], self.c_args, self.c_link_args)
            refused = self.allowed.refused(words)
            if refused is not None:
                raise Stop(f"{name} of the project: {DANGER % refused}; -D{name}=.. gives others")
        self.standard = [] if c_std == "none" else ["-std=" + c_std]
        self.c_args, self.c_link_args, self.is_tried = c_args, c_link_args, False

    def try_out(self) -> None:
        """Stops if an empty program can't be compiled and linked with the flags in use: every check would be false then."""
        fault = self.choose_sandbox()
        if fault:
            raise Stop(fault)

    def choose_sandbox(self) -> str:
        """Takes the strongest sandbox in which an empty program can be made with the flags in use; why that fails, where it fails in each.
        Words of the project take no weaker one than the user's words."""
        if not self.has_doubt and self.recall_trial():
            return ""
        self.has_doubt = False
        if self.words_of_user is None:
            return self.tried_in(list(self.sandbox.weaker()))
        fault = self.tried_in([self.sandbox])
        if not fault:
            return ""
        strongest, words = self.sandbox, (self.standard, self.c_args, self.c_link_args)
        self.standard, self.c_args, self.c_link_args = self.words_of_user
        self.tried_in(list(self.sandbox.weaker()))
        self.standard, self.c_args, self.c_link_args = words
        return fault if self.sandbox == strongest else self.tried_in([self.sandbox])

    def tried_in(self, sandboxes: list[Sandbox]) -> str:
        """Takes the first sandbox in which an empty program can be made with the flags in use. Returns why that fails in each."""
        label, faults, self.is_tried = self.label_of_trial(), [], False
        for number, self.sandbox in enumerate(sandboxes):
            with gathered() as evidence:
                faults.append(self.fault_of_empty())
            if not faults[-1]:
                self.keep_trial(label, number, evidence)
                return ""
        self.sandbox = sandboxes[0]
        return faults[0]

    def label_of_trial(self) -> str:
        return label_of(["works", self.words()])

    def keep_trial(self, label: str, number: int, evidence: Evidence) -> None:
        """Notes that an empty program was made in a sandbox, which is the first, second or third that was tried."""
        self.cache.put(evidence, {label: number})
        self.tried_out[label], self.is_tried = self.sandbox, True

    def recall_trial(self) -> bool:
        """Takes the sandbox in which an empty program was made before, with the same flags; returns whether there is one."""
        label, sandboxes = self.label_of_trial(), list(self.sandbox.weaker())
        kept, is_kept = self.cache.get(label)
        is_known = label in self.tried_out or is_kept and kept in range(len(sandboxes))
        if is_known:
            self.sandbox = self.tried_out.get(label) or sandboxes[int(str(kept))]
            self.is_tried = True
        return is_known

    def can_be_tried_later(self) -> bool:
        """Returns whether the first link of a check may show that the compiler works: that of GCC, which compiles what it links by the same
        words."""
        return self.id == "gcc"

    def forget(self) -> None:
        """Forgets what was found in another sandbox."""
        self.linked.clear()
        self.packages.clear()
        self.folders.clear()
        self.package_folders = None
        self.cache.new.clear()

    def note_trial(self, evidence: Evidence) -> None:
        """Notes that a link with at least the flags in use was good, so that an empty program needn't be tried."""
        if not self.is_tried and self.can_be_tried_later():
            self.keep_trial(self.label_of_trial(), 0, evidence)

    def note_links(self, links: list[Flags], is_good: bool, evidence: Evidence) -> None:
        """Notes how empty programs are linked with these arguments."""
        self.linked.update(dict.fromkeys(links, Linked(is_good, evidence)))

    def fault_of_empty(self) -> str:
        """Returns why it can't compile and link an empty program; empty if it can."""
        # Other compilers than GCC compile with words of their own. GCC compiles to link, so what it links it compiles.
        fault = (self.id != "gcc" and self.fault_of("compile")) or self.fault_of("link")
        if fault:
            return self.fault_of("compile") or fault
        asked = [*pkg_config(), "--version"]
        is_broken = not self.ask(asked).is_good and run(asked, self.scratch).is_good
        return "pkg-config doesn't work in the sandbox" if is_broken else ""

    def fault_of(self, mode: str) -> str:
        """Returns why it can't take an empty program in this way; empty if it can."""
        done = self.attempt(mode, MAIN, Flags(tuple(self.standard)), hears=True)
        import shlex
        given = shlex.join([*self.c, *self.standard, *self.c_args, *(self.c_link_args if mode == "link" else [])])
        return "" if done.is_good else f"the C compiler can't {mode} an empty program: `{given}`: {done.why}"

    def in_sandbox(self, words: list[str], folder: str, hears: bool = True) -> Done:
        """Runs a command that may write in this folder alone."""
        left = int(self.end - time.monotonic())
        if left <= 0:
            raise NoAnswer(f"is not asked: the commands before it took {ALL_SECONDS} seconds")
        with self.sandbox.entrance(folder) as enter:
            return run(words, folder, hears=hears, seconds=min(SECONDS, left), variables=self.sandbox.variables(folder), enter=enter)

    def ask(self, words: list[str]) -> Done:
        """Runs a command in the sandbox, in an empty folder."""
        with ScratchFolder(self.scratch) as folder:
            return self.in_sandbox(words, folder)

    def attempt(self, mode: str, source: str, flags: Flags = Flags(), hears: bool = False, ending: str = ".c",
                reads: bool = False) -> Done:
        """Returns how the compiler takes a source, in a file of this ending, with the arguments of a check in the order of the real
        Meson. Reads the output if the caller requests it."""
        with ScratchFolder(self.scratch) as folder:
            # The words of a check can't name the source, whose text is the project's too.
            file = os.path.join(folder, os.urandom(8).hex() + ending)
            with open(file, "w", encoding="utf-8", errors="surrogatepass") as it:
                it.write(source + "\n")
            own = (OF_CLANG + (OF_CLANG_THAT_COMPILES if mode == "compile" else [])) if self.id == "clang" else []
            evidence = at_work() if self.cache.path else None
            lists_headers = ["-H"] if evidence else []
            first = [] if ending in ASSEMBLY else INCLUDED_FIRST
            given = [*self.own, file, *first, *MODES[mode], *lists_headers, *flags.compile_args, *self.c_args, "-O0", *own, *flags.args]
            given += [GUARD, *flags.link_args, *self.c_link_args, GUARD, *(["-Wl,--verbose"] if evidence else [])] if mode == "link" else []
            path = os.path.join(folder, "made")
            to = [] if hears and mode == "preprocess" else ["-o", path]
            done = self.in_sandbox([*given, *to], folder, hears or evidence is not None)
            done = self.noted(evidence, mode, source, flags, done) if evidence else done
            if mode == "link" and done.is_good and flags == Flags(tuple(self.standard)):
                self.note_trial(evidence or Evidence())
            made = bytes_made(path) if reads and done.is_good else b""
            return dataclasses.replace(done, said=done.said.replace(file, "empty" + ending), made=made)

    def noted(self, evidence: Evidence, mode: str, source: str, flags: Flags, done: Done) -> Done:
        """Takes what a run reports of the files that it has read out of what it says, and adds it to the evidence."""
        said, headers = cut_headers(done.said)
        if headers or "#" in source:
            add_headers(evidence, source, said, headers, self.searched(flags))
        if mode == "link":
            add_linked(evidence, done.is_good, done.printed, said)
        return dataclasses.replace(done, said=said)

    def searched(self, flags: Flags) -> list[str] | None:
        """Returns the folders that are searched for headers, with the words of a check."""
        with self.searches:
            if flags not in self.folders:
                self.folders[flags] = self.known_folders([*flags.compile_args, *self.c_args, *flags.args])
            if self.folders[flags] is None:
                with ScratchFolder(self.scratch) as folder:
                    words = [*flags.compile_args, *self.c_args, *flags.args, "-x", "c", os.devnull, "-o", os.path.join(folder, "made")]
                    self.folders[flags] = folders_in(self.in_sandbox([*self.own, "-E", "-v", *words], folder).said)
            return self.folders[flags]

    def known_folders(self, words: list[str]) -> list[str] | None:
        """Returns the folders that are searched for headers with words that add no other folders than those which they name. None if
        that isn't known."""
        added = [it.removeprefix("-I") for it in words if it.startswith("-I/")]
        is_known = all(it.startswith("-I/") or re.fullmatch(OF_NO_FOLDER, it) for it in words)
        return [*added, *self.own_headers] if is_known and self.own_headers else None

    def takes(self, mode: str, source: str, flags: Flags = Flags()) -> bool:
        known = self.linked.get(flags) if mode == "link" and source == MAIN else None
        if known is None:
            return self.attempt(mode, source, flags).is_good
        add_evidence(known.evidence)
        return known.is_good

    def expansion(self, name: str, prefix: str, flags: Flags = Flags()) -> str:
        """Returns what a macro expands to after a prefix; empty if it is none."""
        printed = self.attempt("preprocess", f'{prefix}\n#ifndef {name}\n#define {name}\n#endif\n"it is" {name}', flags, hears=True).printed
        return printed.rpartition('"it is"')[2].strip()

    def define(self, name: str, prefix: str, flags: Flags = Flags()) -> str:
        """Returns what a macro expands to after a prefix, without quotation marks."""
        return self.expansion(name, prefix, flags).strip('"')
