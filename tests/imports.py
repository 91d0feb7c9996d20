"""Tests that tools/ and tests/ are packages with one import root, the checkout; tests/scripts runs this too."""
import ast
import glob
import os
import sys

from tests.workshop import CHECKOUT, check

# The line by which a script adds the root.
ADDS_ROOT = "sys.path.insert(0, os.path.dirname(os.path.dirname(os.path.realpath(__file__))))"
PACKAGES = ("tools", "tests", "python")


def python_files() -> list[str]:
    """Returns the modules and the scripts of both packages."""
    paths = [it for package in ("tools", "tests") for it in glob.glob(f"{CHECKOUT}/{package}/**", recursive=True) if os.path.isfile(it)]
    return sorted(it for it in paths if it.endswith(".py") or "." not in os.path.basename(it) and "python3" in first_line(it))


def first_line(path: str) -> str:
    with open(path, encoding="utf-8", errors="replace") as it:
        return it.readline()


def imported(tree: ast.Module) -> set[str]:
    """Returns the first part of each name that a file imports."""
    nodes = list(ast.walk(tree))
    names = {name.name for it in nodes if isinstance(it, ast.Import) for name in it.names}
    names |= {it.module or "." for it in nodes if isinstance(it, ast.ImportFrom)}
    return {it.partition(".")[0] for it in names}


def path_lines(tree: ast.Module) -> list[str]:
    """Returns the statements that use the path."""
    simple = [it for it in ast.walk(tree) if isinstance(it, ast.stmt) and not hasattr(it, "body")]
    return [ast.unparse(it) for it in simple if any(map(is_path, ast.walk(it)))]


def is_path(node: ast.AST) -> bool:
    return isinstance(node, ast.Attribute) and node.attr == "path" and isinstance(node.value, ast.Name) and node.value.id == "sys"


def faults_of(source: str, is_script: bool) -> list[str]:
    """Returns what a file imports by another root, and how it changes the path other than by the line of scripts."""
    tree = ast.parse(source)
    names, lines = imported(tree), path_lines(tree)
    found = [f"imports {it}" for it in sorted(names - sys.stdlib_module_names - {*PACKAGES})]
    wanted = [ADDS_ROOT] if is_script and names & {*PACKAGES} else []
    return found + ([] if lines == wanted else [f"has {lines or 'no line'} for the path"])


def test_counting() -> None:
    sources = {"import os\nfrom tools.porting import tree\n": (True, False), f"import tools.files\n{ADDS_ROOT}\n": (False, True),
               "from porting import tree\n": (False, False), "from . import tree\n": (False, False), "import json\n": (True, True),
               "import sys\nimport tools.files\nsys.path.append('x')\n": (False, False)}
    found = {it: (not faults_of(it, False), not faults_of(it, True)) for it in sources}
    check("imports: another root is found", found == sources, found)


def test_imports() -> None:
    found = {}
    for path in python_files():
        with open(path, encoding="utf-8") as it:
            faults = faults_of(it.read(), os.access(path, os.X_OK))
        if faults:
            found[os.path.relpath(path, CHECKOUT)] = faults
    check("imports: each module has one name, and each script adds the root by one line", not found, found)


TESTS = (test_counting, test_imports)
