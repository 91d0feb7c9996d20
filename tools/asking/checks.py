"""Answers the checks of a compiler; each is compiled as the real Meson does it."""
from tools.asking.compiler import MAIN, Compiler, Flags

# How each check is tried, and a source that the compiler takes where the answer is true.
SOURCES = {
    "has_header": ("preprocess", "{prefix}\n#ifdef __has_include\n#if !__has_include(\"{a}\")\n#error\n#endif\n#else\n"
                   "#include <{a}>\n#endif"),
    "check_header": ("compile", "{prefix}\n#include <{a}>"),
    "has_type": ("compile", "{prefix}\nvoid bar(void) {{ (void) sizeof({a}); }}"),
    "has_member": ("compile", "{prefix}\nvoid bar(void) {{ {a} foo;\n(void) ( foo.{b} );\n(void) foo; }}"),
    "has_header_symbol": ("compile", "{prefix}\n#include <{a}>\nint main(void) {{\n#ifndef {b}\n{b};\n#endif\nreturn 0; }}"),
}
OF_ARGUMENT = "extern int i;\nint i;"
# A function that fails wherever it is called, as the C library says of some.
STUB = "\n#if defined __stub_{a} || defined __stub___{a}\n#error\n#endif\n"
# With an `#include` in the prefix the header declares the function; else it is declared here, so that the linker alone decides.
DECLARED_BEFORE = "{prefix}\n#include <limits.h>\n"
MAIN_OF = {True: "void *a = (void*) &{a}; long long b = (long long) a; return (int) b;", False: "return {a} ();"}
DECLARED = DECLARED_BEFORE + STUB + "int main(void) {{ " + MAIN_OF[True] + " }}"
UNDECLARED = ("#define {a} no_{a}\n" + DECLARED_BEFORE + "#undef {a}\nchar {a} (void);\n" + STUB + "int main(void) {{ " + MAIN_OF[False] +
              " }}")
BUILTIN = ("{prefix}\nint main(void) {{\n#if {needs_macro:d} && !defined({a})\n#error\n#endif\n#ifdef __has_builtin\n"
           "#if !__has_builtin({builtin})\n#error\n#endif\n#elif !defined({a})\n{builtin};\n#endif\nreturn 0; }}")
# The same condition for the preprocessor, with a name of its own: if it doesn't hold, a compilation of `BUILTIN` ends in an `#error`.
BUILTIN_TEST = ("#undef {mark}\n#ifdef __has_builtin\n#if __has_builtin({builtin})\n#define {mark}\n#endif\n#else\n#define {mark}\n#endif\n"
                "#if defined({mark}) && ({needs_macro:d} == 0 || defined({a}))")
# What a number is, what is before it, and a type that it needs.
NUMBERS = {"sizeof": ("sizeof({a})", "{prefix}\n#include <stddef.h>\n#include <stdio.h>", ""),
           "alignment": ("offsetof(struct {tmp}, target)", "{prefix}\n#include <stdio.h>\n#include <stddef.h>",
                         "\nstruct {tmp} {{ char c;\n{a} target; }};")}
# An array that has a size only where the condition holds.
HOLDS = "%s\nint main(void) { static int check[1 - 2 * !(%s)]; check[0] = 0; return check[0]; }"
GREATEST = 2**62
# Checks by the link of an empty program, and its arguments.
OF_LINKS = {"has_link_argument": ("-Wl,--fatal-warnings", "{a}"), "find_library": ("-l{a}", "-Wl,--allow-shlib-undefined")}
OF_TWO = ("has_member", "has_header_symbol")  # arguments
# Checks of arguments of the compiler and the linker, which get no other arguments of the project.
OF_WORDS = ("has_argument", "has_link_argument", "find_library")
METHODS = (*SOURCES, *NUMBERS, *OF_WORDS, "has_function")


def arguments_of(key: str) -> tuple[str, list[str]]:
    """Returns the method and the arguments of a key of `[checks]`."""
    method, _, rest = key.partition(" ")
    return method, rest.rsplit(" ", 1) if method in OF_TWO else [rest]


def answer(compiler: Compiler, key: str, prefix: str = "", flags: Flags = Flags()) -> bool | int:
    method, arguments = arguments_of(key)
    a, b = (*arguments, "")[:2]
    if method == "has_argument":
        done = compiler.attempt("compile", OF_ARGUMENT, Flags(tuple(words_to_try(a))), hears=True)
        return done.is_good and "is valid for C++/ObjC++" not in done.said
    if method in OF_LINKS:
        return compiler.takes("link", MAIN, flags_of_link(method, a))
    if method == "has_function":
        return has_function(compiler, a, prefix, flags)
    if method in NUMBERS:
        expression, before, kind = (it.format(prefix=prefix, a=a, tmp="tmp") for it in NUMBERS[method])
        return number(compiler, f"(long)({expression})", before + kind, flags)
    mode, source = SOURCES[method]
    return compiler.takes(mode, source.format(prefix=prefix, a=a, b=b), flags)


def flags_of_link(method: str, word: str) -> Flags:
    """Returns the arguments with which an empty program is linked to answer a check."""
    return Flags(tuple(it.format(a=word) for it in OF_LINKS[method]))


def words_to_try(word: str) -> list[str]:
    """Returns the arguments to try for one: GCC accepts an unknown -Wno-NAME without an error, so -WNAME comes before it."""
    if not word.startswith("-Wno-") or word.startswith("-Wno-attributes="):
        return [word]
    return ["-W" + word[5:], word]


def has_function(compiler: Compiler, name: str, prefix: str, flags: Flags) -> bool:
    """Returns whether it can be linked or, as a builtin, needn't be."""
    names = names_of_function(name, prefix)
    return any(compiler.takes("link", it.format(**names), flags) for it in (DECLARED if "#include" in prefix else UNDECLARED, BUILTIN))


def names_of_function(name: str, prefix: str) -> dict[str, object]:
    """Returns what is in the sources that ask for a function."""
    is_builtin = name.startswith("__builtin_")
    return {"prefix": prefix, "a": name, "builtin": "__builtin_" + name.removeprefix("__builtin_"),
            "needs_macro": "#include" in prefix and not is_builtin}


def number(compiler: Compiler, expression: str, before: str, flags: Flags) -> int:
    """Returns the value of a constant, or -1 if the compiler knows none: found by halves, with a compilation for each question."""
    # A program that shows it has to be linked, as in the real Meson, and is not run.
    if not compiler.takes("link", f'{before}\nint main(void) {{ printf("%ld", {expression}); return 0; }}', flags):
        return -1
    quiet = Flags(("-w", *flags.args), flags.compile_args)
    holds = lambda condition: compiler.takes("compile", HOLDS % (before, f"{expression} {condition}"), quiet)
    if not holds(">= 0"):
        return -1
    low, high = -1, 16
    while not holds(f"<= {high}L"):
        low, high = high, high * 8
        if high > GREATEST:
            return -1
    while high - low > 1:
        middle = (low + high) // 2
        low, high = (low, middle) if holds(f"<= {middle}L") else (middle, high)
    return high
