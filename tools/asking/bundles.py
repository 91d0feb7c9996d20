"""Runs checks together: one compilation, link or preprocessor run answers many.

Two checks run together if they have the same arguments and the same text before them. A bundle gives an answer only if a run for this
check alone would surely give the same:

- true, if the compiler accepts a source that holds this check and others;
- false, if an error at the lines of this check, or the linker, names what is missing;
- a number, if the linked program holds its digits.

Every other check has to run alone.
"""
from __future__ import annotations

import os
import re
from collections.abc import Callable

from tools import records as dataclasses
from tools.asking.checks import (BUILTIN_TEST, DECLARED_BEFORE, GREATEST, MAIN_OF, NUMBERS, OF_ARGUMENT, STUB, arguments_of,
                                 names_of_function, words_to_try)
from tools.asking.compiler import MAIN, Compiler, Flags
from tools.asking.evidence import at_work
from tools.asking.stamps import Evidence

DIGITS = 19  # of a number
WARNS = "-Wl,--warn-unresolved-symbols"
ROUNDS = 4  # compilations of one bundle: each leaves out what the one before has refused
# Patterns are texts: each is compiled when it is used first, and a run whose answers are kept uses none.
WORD = r"[A-Za-z_]\w*"
TYPE = r"(?:\w+ )*\w+(?: ?\*+)?(?: ?\[\d+\])?"
MEMBER = r"\w+(?:\.\w+)*"
HEADER = r"[\w./+-]+"
# Names that the system's headers read, one that each program defines, and those of the language.
TAKEN = (r"_[A-Z]\w*|__builtin_\w*|main|defined|auto|break|case|char|const|continue|default|do|double|else|enum|extern|float|for"
         r"|goto|if|inline|int|long|register|restrict|return|short|signed|sizeof|static|struct|switch|typedef|union|unsigned|void"
         r"|volatile|while")
# The lines of a text before checks that leaves nothing open, but for conditions, which are counted.
LINE = r"""(?xa)\s*(?:\#\s*(?:include\s*(?:<[\w./+-]+>|"[\w./+-]+")|(?:define|undef|ifdef|ifndef)\s+\w+(?:\s+[\w +-]*)?
                      |if\s+[\w !()&|<>=]+|else|endif))?\s*"""
# What an error says that means no more than that a name is not known; the name is the first group.
NOT_KNOWN = (r"'([^']*)' undeclared\b|unknown type name '([^']*)'|use of undeclared identifier '([^']*)'"
             r"|invalid application of 'sizeof' to (?:an )?incomplete type '([^']*)'"
             r"|'[^']*' has no member named '([^']*)'|no member named '([^']*)' in '[^']*'"
             r"|variable has incomplete type '([^']*)'")
NOT_COMPLETE = r"storage size of 'foo' isn't known|field 'target' has incomplete type|#error"
NO_HEADER = r"fatal error: (?:[^ ]+: No such file or directory|'[^']+' file not found)"
# Words that change no other word's meaning, and what the compiler says of one that it doesn't know.
FREE = r"-W(?!(?:no-)?(?:error|fatal))[a-z][\w+-]*(?:=\w+)?|-f(?:no-[a-z-]+|visibility=hidden|stack-[a-z-]+|strict-[a-z-]+)"
# Words each of which makes one warning an error. Those of formats are left out: GCC refuses one alone that it accepts after another.
STRICT = r"-Werror=(?!.*format|abi)[a-z][\w-]*"
NO_WORD = (r".*error: (?:unrecognized command[- ]line option|unknown warning option|unknown argument:|missing argument to"
           r"|argument to) "
           r"'([^'=]+)=?'.*"
           r"|.*error: (?:'(-Werror=[^']+)': no option|unknown warning option '(-Werror=[^']+)').*"
           r"|.*command[- ]line option '([^']+)' is valid for C\+\+/ObjC\+\+ but not for C.*")
UNDEFINED = r"(?:undefined reference to [`']|undefined symbol: )([^'\s]+)"
ERROR = r"(?:^|: )(?:fatal )?error: "
# Errors that say that there were others.
SUMMARY = (r"collect2: error: ld returned \d+ exit status|.*error: linker command failed .*"
           r"|fatal error: too many errors emitted.*")


@dataclasses.dataclass(frozen=True)
class Check:
    """Holds a check with its prefix and flags."""
    key: str
    prefix: str
    flags: Flags


Answers = dict[Check, bool | int]


def argument_of(check: Check) -> str:
    """Returns the first argument."""
    return arguments_of(check.key)[1][0]


def is_closed(prefix: str) -> bool:
    """Returns whether a text consists of whole directives, so that what follows it is read as it is written."""
    lines = prefix.split("\n")
    opens = sum(re.match(r"\s*#\s*if", it) is not None for it in lines)
    return all(re.fullmatch(LINE, it) for it in lines) and opens == sum(re.match(r"\s*#\s*endif", it) is not None for it in lines)


def set_of(check: Check) -> tuple[str, str, Flags] | None:
    """Returns the set whose checks run together: its family, what is before them, their flags. None if a check runs alone."""
    method, (a, b) = arguments_of(check.key)[0], (*arguments_of(check.key)[1], "")[:2]
    if method == "has_argument" and re.fullmatch(f"{FREE}|{STRICT}", a):
        return method, "-Werror=" * a.startswith("-Werror="), Flags()
    if not is_closed(check.prefix):
        return None
    if method == "has_header" and re.fullmatch(HEADER, a):
        return method, check.prefix, check.flags
    if method in ("has_type", "has_member") and re.fullmatch(TYPE, a) and (method == "has_type" or re.fullmatch(MEMBER, b)):
        return "compile", check.prefix, check.flags
    is_symbol = method == "has_header_symbol" and re.fullmatch(WORD, b)
    if (is_symbol or method == "check_header") and re.fullmatch(HEADER, a):
        return "compile", f"{check.prefix}\n#include <{a}>".removeprefix("\n"), check.flags
    if method == "has_function" and re.fullmatch(WORD, a) and not re.fullmatch(TAKEN, a):
        return method, check.prefix, check.flags
    return (method, check.prefix, check.flags) if method in NUMBERS and re.fullmatch(TYPE, a) else None


def bundles_of(checks: list[Check]) -> tuple[list[list[Check]], list[Check]]:
    """Returns the sets of these checks, and those that run alone."""
    sets: dict[tuple[str, str, Flags], list[Check]] = {}
    alone = []
    for check in checks:
        which = set_of(check)
        if which is None:
            alone.append(check)
        else:
            sets.setdefault(which, []).append(check)
    # One check of a header or a compilation is quick by itself.
    small = [it for (family, _, _), it in sets.items() if len(it) == 1 and family in ("has_header", "compile")]
    return [it for it in sets.values() if it not in small], [*alone, *(it[0] for it in small)]


def is_linked(check: Check) -> bool:
    """Returns whether a bundle of such checks ends in a link."""
    return arguments_of(check.key)[0] in (*NUMBERS, "has_function")


def ask_together(compiler: Compiler, bundle: list[Check]) -> Answers:
    """Returns what one set of checks settles."""
    which = set_of(bundle[0])
    assert which is not None
    family, before, flags = which
    if family == "has_header":
        return ask_headers(compiler, bundle, before, flags)
    if family == "has_argument":
        return ask_words(compiler, bundle)
    unit = Unit(compiler, bundle, flags)
    if family in NUMBERS:
        return ask_numbers(unit, family, before)
    return ask_functions(unit, before) if family == "has_function" else ask_compilation(unit, before)


def marked(compiler: Compiler, before: str, flags: Flags, tests: list[str]) -> list[bool | None]:
    """Says how each condition of the preprocessor comes out after a text; none if it isn't printed exactly once."""
    mark = "mark_" + os.urandom(8).hex()
    blocks = "".join(f"\n{it}\n{mark} {number} yes\n#else\n{mark} {number} no\n#endif" for number, it in enumerate(tests))
    done = compiler.attempt("preprocess", f"{before}{blocks}", flags, hears=True)
    told = re.findall(rf"^{mark} (\d+) (yes|no)$", done.printed, re.M) if done.is_good else []
    found = [[word for which, word in told if int(which) == number] for number in range(len(tests))]
    return [it[0] == "yes" if len(it) == 1 else None for it in found]


def ask_headers(compiler: Compiler, bundle: list[Check], before: str, flags: Flags) -> Answers:
    tests = [f"#if __has_include(\"{argument_of(it)}\")" for it in bundle]
    return {check: it for check, it in zip(bundle, marked(compiler, before, flags, tests)) if it is not None}


def ask_words(compiler: Compiler, bundle: list[Check]) -> Answers:
    """Gives the compiler all arguments together; it names each one that it doesn't know. GCC does so before it makes any code."""
    mode = "check" if compiler.id == "gcc" else "compile"
    if any(it.startswith("-Werror") for it in compiler.c_args):
        return {}
    settled: Answers = {}
    for _ in range(ROUNDS):
        left = {it: words_to_try(argument_of(it)) for it in bundle if it not in settled}
        if not left:
            break
        done = compiler.attempt(mode, OF_ARGUMENT, Flags(tuple(word for words in left.values() for word in words)), hears=True)
        lines = [it for it in done.said.split("\n") if "error: " in it or "is valid for C++/ObjC++" in it]
        matches = [re.fullmatch(NO_WORD, it) for it in lines]
        named = {it for match in matches if match for it in match.groups()}
        refused = [check for check, words in left.items() if named & set(words)]
        if done.is_good and not lines:
            return {**settled, **dict.fromkeys(left, True)}
        if not all(matches) or not refused:
            break
        settled.update(dict.fromkeys(refused, False))
    return settled


class Unit:
    """Writes one source for the checks of a bundle: each check has lines of its own, so that an error says which check it belongs to."""

    def __init__(self, compiler: Compiler, bundle: list[Check], flags: Flags) -> None:
        self.compiler, self.bundle, self.mark = compiler, bundle, "unit_" + os.urandom(8).hex()
        every_error = ("-ferror-limit=0",) if compiler.id == "clang" else ()
        self.flags = dataclasses.replace(flags, args=(*flags.args, *every_error))
        self.missing: list[Check] = []  # refused by an error that names what is missing
        self.has_no_header = False  # a header before all checks is missing
        self.none = ""  # a function that is nowhere

    def name(self, check: Check) -> str:
        return f"{self.mark}_{self.bundle.index(check)}"

    def linked(self, source: Callable[[list[Check], Unit], str]) -> list[Check]:
        """Returns the checks that are linked together. The linker only warns of what is missing, so it names all at once, and also a
        function that is surely missing: if it doesn't warn of that one, the link shows nothing."""
        lenient = Unit(self.compiler, self.bundle, dataclasses.replace(self.flags, link_args=(*self.flags.link_args, WARNS)))
        lenient.none = f"{lenient.mark}_none"
        accepted, _ = lenient.accepted("link", lambda left: source(left, lenient))
        self.missing, self.has_no_header = lenient.missing, lenient.has_no_header
        if accepted and self.flags == Flags(tuple(self.compiler.standard)):
            self.compiler.note_trial(at_work() or Evidence())
        if accepted or len(self.missing) == len(self.bundle):
            return accepted
        self.missing = []
        return self.accepted("link", lambda left: source(left, self))[0]

    def accepted(self, mode: str, source: Callable[[list[Check]], str]) -> tuple[list[Check], bytes]:
        """Returns the checks that are accepted together, and what is made of them."""
        left = list(self.bundle)
        for _ in range(ROUNDS):
            if not left:
                break
            done = self.compiler.attempt(mode, source(left), self.flags, hears=True, reads=True)
            if done.is_good:
                warned = set(re.findall(UNDEFINED, done.said))
                if self.none and self.none not in warned:
                    break
                self.missing += [it for it in left if argument_of(it) in warned]
                return [it for it in left if argument_of(it) not in warned], done.made
            refused = self.refused(done.said)
            if not refused:
                break
            self.missing += [it for it in left if refused.get(self.name(it))]
            left = [it for it in left if self.name(it) not in refused]
        return [], b""

    def lines(self, check: Check, text: str) -> str:
        return f"#line 1 \"{self.name(check)}\"\n{text}\n"

    def refused(self, said: str) -> dict[str, bool] | None:
        """Returns, by the name of a check, whether its first error names what is missing. None if an error belongs to no check."""
        checks = {self.name(it): it for it in self.bundle}
        by_function = {argument_of(it): self.name(it) for it in self.bundle}
        found: dict[str, bool] = {}
        for line in said.split("\n"):
            undefined = re.search(UNDEFINED, line)
            match = re.match(r"([^:\s]+):\d+:(?:\d+:)? (?:fatal )?error: (.*)", line)
            if undefined and undefined[1] in by_function:
                found.setdefault(by_function[undefined[1]], True)
            elif match and match[1] in checks:
                found.setdefault(match[1], is_understood(match[2], checks[match[1]]))
            elif match and re.search(NO_HEADER, line) and "limits.h" not in line:
                # It is before all checks, none of which includes a header.
                self.has_no_header = True
                return dict.fromkeys(checks, True)
            elif undefined or re.search(ERROR, line) and not re.fullmatch(SUMMARY, line.strip()):
                return None
        return found


def is_understood(said: str, check: Check) -> bool:
    """Returns whether an error says that a name is not known that this check asks for."""
    match = re.match(NOT_KNOWN, said)
    if not match:
        return re.match(NOT_COMPLETE, said) is not None
    named = next(it for it in match.groups() if it is not None)
    asked = {it for argument in arguments_of(check.key)[1] for it in re.findall(r"\w+", argument)}
    return set(re.findall(r"\w+", named)) <= asked


def ask_compilation(unit: Unit, before: str) -> Answers:
    def block(check: Check) -> str:
        method, (a, b) = arguments_of(check.key)[0], (*arguments_of(check.key)[1], "")[:2]
        body = {"has_type": f"(void) sizeof({a});", "has_member": f"{a} foo;\n(void) ( foo.{b} );\n(void) foo;",
                "has_header_symbol": f"\n#ifndef {b}\n{b};\n#endif\n", "check_header": ""}[method]
        return unit.lines(check, f"void {unit.name(check)}(void) {{ {body} }}")

    accepted, _ = unit.accepted("compile", lambda left: f"{before}\n" + "".join(map(block, left)))
    return {**dict.fromkeys(unit.missing, False), **dict.fromkeys(accepted, True)}


def ask_numbers(unit: Unit, method: str, before: str) -> Answers:
    """Returns the numbers whose digits a linked program holds after a mark."""
    expression, text, kind = NUMBERS[method]

    def block(check: Check) -> str:
        names = {"a": argument_of(check), "tmp": unit.name(check) + "_of"}
        value = f"(long)({expression.format(**names)})"
        digits = ", ".join(f"'0' + {value} / {10**place}L % 10" for place in reversed(range(DIGITS)))
        mark = ", ".join(f"'{it}'" for it in unit.name(check) + ":")
        return unit.lines(check, f"{kind.format(**names)}\nconst char {unit.name(check)}[] = {{ {mark}, {digits}, ';', 0 }};")

    def source(left: list[Check]) -> str:
        shown = "".join(f'printf("%s", {unit.name(it)}); ' for it in left)
        return f"{text.format(prefix=before)}\n" + "".join(map(block, left)) + f"int main(void) {{ {shown}return 0; }}"

    accepted, made = unit.accepted("link", source)
    numbers = {it: re.search(unit.name(it).encode() + rb":(\d{%d});" % DIGITS, made) for it in accepted}
    read = {it: int(match[1]) for it, match in numbers.items() if match and int(match[1]) <= GREATEST // 4}
    return {**dict.fromkeys(unit.missing, -1), **read}


def ask_functions(unit: Unit, before: str) -> Answers:
    is_declared = "#include" in before

    def block(part: Unit, check: Check) -> str:
        a = argument_of(check)
        declares = "" if is_declared else f"#undef {a}\nchar {a} (void);"
        return part.lines(check, declares + STUB.format(a=a) + f"int {part.name(check)}(void) {{ {MAIN_OF[is_declared].format(a=a)} }}")

    def source(left: list[Check], part: Unit) -> str:
        hidden = "" if is_declared else "".join(f"#define {argument_of(it)} no_{argument_of(it)}\n" for it in left)
        names = [*map(part.name, left), *filter(None, [part.none])]
        declared = f"int {part.none}(void);\n" if part.none else ""
        called = " + ".join(f"{it}()" for it in names)
        blocks = "".join(block(part, it) for it in left)
        return f"{hidden}{DECLARED_BEFORE.format(prefix=before)}{blocks}{declared}int main(void) {{ return {called}; }}"

    accepted = unit.linked(source)
    if unit.has_no_header:
        return dict.fromkeys(unit.missing, False)
    return {**dict.fromkeys(accepted, True), **(ask_builtins(unit, before) if unit.missing else {})}


def ask_builtins(unit: Unit, before: str) -> Answers:
    """Returns the functions of a failed link that the compiler has itself, if it says so; then the rest is linked without them."""
    tests = [BUILTIN_TEST.format(mark=unit.mark, **names_of_function(argument_of(it), before)) for it in unit.missing]
    *is_builtin, says_so = marked(unit.compiler, before, unit.flags, [*tests, "#ifdef __has_builtin"])
    found = {check: it for check, it in zip(unit.missing, is_builtin) if it is not None}
    if any(found.values()) and not (says_so and unit.compiler.takes("link", f"{before}\n{MAIN}", unit.flags)):
        return {check: it for check, it in found.items() if not it}
    return dict(found)
