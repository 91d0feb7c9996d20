"""Finds which package has what is missing, by pkg-config and the tools of the distribution."""
import re

from tools.asking.allowed import is_package
from tools.asking.compiler import Compiler
from tools.asking.processes import run
from tools.variables import found_program, pkg_config

# The end of the path of what is missing, by its kind.
FILES = {"dependency": "/{}.pc", "program": "/bin/{}", "find_library": "/lib{}.so", "has_header": "/include/{}",
         "check_header": "/include/{}"}
# Commands that are tried one after the other, the form of a package's name in their output, and the message about it.
TOOLS = (
    (("apt-file", "--package-only", "search", "--regexp", "{pattern}$"), r"^(\S+)$", "{} of the distribution has it"),
    (("dpkg", "-S", "*{path}"), r"^([^\s:,]+).*: /", "the package {} has it, in a folder that is not searched"),
    (("apt-cache", "search", "--names-only", "^(lib)?{stem}[0-9.+]*[a-z]?(-[0-9.]+)?-dev$"), r"^(\S+) - ",
     "perhaps {} of the distribution has it"))
SHOWN = 3  # packages


def lacks(compiler: Compiler, name: str) -> str:
    """Returns the missing dependency of a dependency, as pkg-config reports it."""
    said = compiler.ask([*pkg_config(), "--print-errors", "--exists", "--", name]).said if is_package(name) else ""
    match = re.search(r"Package '?([^\s']+)'?, required by '([^']+)', not found", said)
    return match[1] if match and match[2] != "virtual:world" else ""


def of_file(path: str, stem: str) -> str:
    for words, form, text in TOOLS:
        # By its name a package is guessed for a .pc file alone.
        if found_program(words[0]) and (words[0] != "apt-cache" or path.endswith(".pc")):
            asked = [it.format(path=path, pattern=re.escape(path), stem=re.escape(stem)) for it in words]
            # At the root: scripts among these commands could be made to look in the present folder for modules.
            printed = run(asked, "/").printed
            names = list(dict.fromkeys(re.findall(form, printed, re.M)))
            if names:
                others = f" (or {len(names) - SHOWN} more)" if len(names) > SHOWN else ""
                return text.format(" or ".join(names[:SHOWN]) + others)
    return "no package is known that has it"


def who_has(compiler: Compiler, name: str) -> str:
    """Says what is known of a missing thing."""
    kind, _, plain = name.partition(" ")
    other = lacks(compiler, plain) if kind == "dependency" else ""
    wanted = other or plain
    said = of_file(FILES[kind].format(wanted), wanted.removeprefix("lib").partition("-")[0].rstrip("+")) if kind in FILES else ""
    return f"its package requires {other}, and {said}" if other else said
