"""Tests that comments are plain English. In the crates each public item and each module says in its first sentence what it does or holds,
with the verb first, and no sentence is too long. In the scripts each module, class and function begins with a verb, and no comment has a
word of the house. tests/scripts runs this too; `python3 -B -m tests.comments` prints what it finds."""
import ast
import glob
import inspect
import io
import os
import re
import tokenize
from collections.abc import Callable, Iterator

from tests.documents import HOUSE, LONGEST, NEVER, house_words, long_sentences
from tests.workshop import CHECKOUT, check

# What begins a comment in code and in a definition.
MARKS = {".rt": r"//[/!]?", ".antt": "--"}
ITEM = re.compile(r"""\s*pub (?:(?:const|unsafe|async|extern "C") )*(?:fn|struct|enum|trait|type|const)\b""")
# A first word such as "Returns".
VERB = re.compile(r"(?:[A-Z][a-z]*s|Does)\b")
# A first word that ends as a verb does and is none: any before "of" or a colon, and these.
NOUN = re.compile(r"\w+s(?: of\b|:)|(?:Arguments|Assignments|Cases|Classes|Commands|Edits|Events|Files|Functions|Generators|Headers|Inputs|"
                  r"Its|Keywords|Libraries|Lines|Methods|Modules|Objects|Options|Outputs|Parts|Paths|Programs|Scripts|Sources|Statements|"
                  r"Status|This|Threads|Values|Variables|Words)\b")
# The library for Python raises these classes, with their documentation as the message.
MESSAGES = ("OutOfMemory", "BadSettings", "BadSlices")
# A rule of `meson port` has a sentence about the project in place of that, as does a test about the command.
RULE = "Iterator[Change]"


def sources() -> list[str]:
    """Returns the paths of the code and of the definitions, below the checkout."""
    return sorted(it for suffix in ("src/**/*.rt", "specs/**/*.antt") for it in glob.glob(f"crates/*/{suffix}", root_dir=CHECKOUT,
                                                                                           recursive=True))


def blocks(text: str, mark: str) -> list[str]:
    """Returns the comments that have lines of their own: consecutive lines are one comment."""
    lines = [re.fullmatch(rf"\s*{mark} ?(.*)", line) for line in text.split("\n")]
    return "\n".join("" if line is None else line[1] or "\n" for line in lines).split("\n\n")


def undocumented(text: str) -> list[str]:
    """Returns the public items whose comment is missing or begins with no verb."""
    lines, found = text.split("\n"), []
    for number, line in enumerate(lines):
        if not ITEM.match(line):
            continue
        first = number - 1
        # Attributes, perhaps of several lines, may come after the comment.
        while first >= 0 and lines[first].strip() and not lines[first].strip().startswith("//") and lines[first].strip()[-1] not in ";{},":
            first -= 1
        last = first
        while first >= 0 and lines[first].strip().startswith("///"):
            first -= 1
        if first == last or not VERB.match(lines[first + 1].strip().removeprefix("///").strip()):
            found.append(line.strip())
    return found


def misfits(name: str, text: str) -> list[str]:
    """Returns what is wrong with the comments of a file."""
    suffix = os.path.splitext(name)[1]
    head = text.lstrip().partition("\n")[0]
    is_list = suffix == ".antt" and head.startswith("pub mod ")
    found = [] if is_list or re.match(rf"{'//!' if suffix == '.rt' else '--'} {VERB.pattern}", head) else ["it begins with no sentence"]
    found += [f"no sentence with a verb: {it}" for it in undocumented(text)] if suffix == ".rt" else []
    found += [f"over {LONGEST} words: {it}" for block in blocks(text, MARKS[suffix]) for it in long_sentences(block)]
    return [f"{name}: {it}" for it in found]


def all_misfits(names: list[str], misfits_of: Callable[[str, str], list[str]]) -> list[str]:
    """Returns what is wrong with the comments of these files, of which each is judged by its name and its text."""
    found = []
    for name in names:
        with open(os.path.join(CHECKOUT, name), encoding="utf-8") as it:
            found += misfits_of(name, it.read())
    return found


def scripts() -> list[str]:
    """Returns the paths of the scripts in Python and in the language of the shell, below the checkout."""
    places = ("meson", "test", "tools/**", "tests/**", "bench/*", "python/*", "examples/**", "packaging/**")
    paths = [it for where in places for it in glob.glob(where, root_dir=CHECKOUT, recursive=True)]
    return sorted(it for it in paths if os.path.isfile(os.path.join(CHECKOUT, it)) and is_script(it))


def is_script(path: str) -> bool:
    with open(os.path.join(CHECKOUT, path), "rb") as it:
        return path.endswith(".py") or re.match(rb"#!.*(python|sh\b)", it.readline()) is not None


def is_of_shell(text: str) -> bool:
    return re.match(r"#!.*sh\b", text) is not None


def remarks(text: str) -> Iterator[str]:
    """Yields the comments and the documentation of a script, each line of a comment by itself."""
    if is_of_shell(text):
        yield from re.findall(r"^ *(#.*)", text, re.M)
        return
    for node in ast.walk(ast.parse(text)):
        if isinstance(node, (ast.Module, ast.ClassDef, ast.FunctionDef)):
            yield inspect.cleandoc(ast.get_docstring(node) or "")
    yield from (it.string for it in tokenize.generate_tokens(io.StringIO(text).readline) if it.type == tokenize.COMMENT)


def verbless(text: str) -> list[str]:
    """Returns the modules, classes and functions of a Python script whose documentation does not begin with a verb, by their names."""
    found = []
    for node in ast.walk(ast.parse(text)):
        said = ast.get_docstring(node) if isinstance(node, (ast.Module, ast.ClassDef, ast.FunctionDef)) else None
        if said is not None and not is_free(node) and (not VERB.match(said) or NOUN.match(said)):
            found.append(getattr(node, "name", "the module"))
    return found


def is_free(node: ast.AST) -> bool:
    """Returns whether the documentation of a function or a class may begin otherwise: a test, a rule of `meson port`, or a message."""
    if isinstance(node, ast.FunctionDef):
        return node.name.startswith("test_") or node.returns is not None and ast.unparse(node.returns) == RULE
    return isinstance(node, ast.ClassDef) and node.name in MESSAGES


def misfits_of_script(name: str, text: str) -> list[str]:
    """Returns what is wrong with the comments of a script."""
    found = [] if is_of_shell(text) else [f"no verb first: {it}" for it in verbless(text)]
    for remark in remarks(text):
        words = [word for word, count in house_words(remark, {**HOUSE, **NEVER}).items() if count]
        found += [f"{' and '.join(words)}: {' '.join(remark.split())}"] if words else []
    return [f"{name}: {it}" for it in found]


def test_finding() -> None:
    """What is found, in files of a few lines."""
    long = " ".join(["word"] * 31)
    code = "//! Tests this.\n\n/// Returns it.\n#[inline]\npub fn a() {}\n\n/// The b.\npub struct B;\n\npub enum C {}\n"
    code += f"\n// {long}.\nfn d() {{}}\n"
    wanted = ["no sentence with a verb: pub struct B;", "no sentence with a verb: pub enum C {}", f"over {LONGEST} words: {long}."]
    check("comments: what is wrong in code is found", misfits("a.rt", code) == [f"a.rt: {it}" for it in wanted], misfits("a.rt", code))
    found = [misfits("a.antt", it) for it in ("pub mod B\n", "-- Defines it.\nb : ℕ\n", "b : ℕ\n")]
    check("comments: a definition without a sentence is found", found == [[], [], ["a.antt: it begins with no sentence"]], found)


def test_finding_in_scripts() -> None:
    """A script in the house's words is refused: its module, classes and functions without a verb, and its comments with such words."""
    code = '"""Tests it.\n\n    told  a word\n\nIt ends.\n"""\n\ndef a(told):\n    """A path behind `it`."""\n    return "beside"  # stands here\n'
    code += '\n\ndef b() -> Iterator[Change]:\n    """A call stays."""\n\n\ndef test_c():\n    """A file that is asked for."""\n'
    code += '\n\ndef d():\n    """Returns it."""\n    # `stands`, unasked\n'
    wanted = ["no verb first: a", "behind: A path behind `it`.", "is asked: A file that is asked for.", "stand: # stands here"]
    found = misfits_of_script("a.py", code)
    check("comments: what is wrong in a script is found", found == [f"a.py: {it}" for it in wanted], found)
    code = '"""What it has in common."""\n\n\nclass A:\n    """A compiler and its answers."""\n\n\nclass B:\n    """Holds it."""\n'
    code += '\n\nclass C:\n    """Answers of a compiler."""\n\n    def d(self):\n        """Words as they are given."""\n'
    code += '\n\nclass BadSlices(ValueError):\n    """A path has no end."""\n'
    wanted = [f"a.py: no verb first: {it}" for it in ("the module", "A", "C", "d")]
    found = misfits_of_script("a.py", code)
    check("comments: modules and classes that begin with no verb are found", found == wanted, found)
    found = misfits_of_script("b", "#!/bin/sh\n# Is `told`.\nf() {\n    # It stands here.\n    echo behind\n}\n")
    check("comments: what is wrong in a script of the shell is found", found == ["b: stand: # It stands here."], found)


def test_comments_of_scripts() -> None:
    names = scripts()
    found = all_misfits(names, misfits_of_script)
    is_plain = len(names) > 150 and not found
    check("comments: of the scripts, each module, class and function begins with a verb, and no comment has a word of the house", is_plain,
          "\n".join(found))


def test_comments() -> None:
    names = sources()
    found = all_misfits(names, misfits)
    check("comments: of the crates, each item and module says what it does, in short sentences", bool(names) and not found,
          "\n".join(found))


TESTS = (test_finding, test_comments, test_finding_in_scripts, test_comments_of_scripts)


if __name__ == "__main__":
    print("\n".join([*all_misfits(sources(), misfits), *all_misfits(scripts(), misfits_of_script)]))
