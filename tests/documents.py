"""Tests that the documents are plain English: no sentence is too long or turned around, and house words are rare or absent. Also tests that
their links lead somewhere, that they name the logic of the toolchain, and that crates/library_tests calls each call of docs/LIBRARY.md. The
help texts and messages of the commands have no house words at all. tests/scripts runs this too; `python3 -B -m tests.documents` in the
checkout prints the counts."""
import ast
import glob
import itertools
import os
import re
import shutil

from tests.workshop import CHECKOUT, check, run

# A sentence has at most so many words.
LONGEST = 30
# What ends a sentence of a document. In a help text it is also what ends a part of a list, as that of the exit statuses.
ENDS, ENDS_OF_PARTS = ".!?", ".!?:;"
# Each house word, with its forms, is in a document less often than this in a thousand words.
OFTEN = 2
HOUSE = {"tell": r"tell|tells|telling|told", "stand": r"stand|stands|standing|stood", "beside": r"beside|besides", "behind": r"behind"}
# English has plain words in place of these, so no document has them: *before*, *out of memory*, *similar*, *run*, *build directory*.
NEVER = {
    "in front of": r"in front of", "want of": r"want of", "its like": r"(?:its|their) like|(?:and|or) the like", "at work": r"at work",
    "as far as": r"(?:as|so) far as", "is asked": r"(?:is|are|was|were|be|been|being|not) asked", "in vain": r"in vain",
    "build folder": r"build folders?|folder of (?:the|a) build", "source folder": r"source folders?|folder of (?:the )?sources",
}
# These words hide the name of a thing. They are needed at times, so each has a bound of its own, for a thousand words.
VAGUE = {"of it": (r"of it", 2), "that of": (r"(?:that|those) of", 4), "what": (r"what", 26), "where": (r"where", 4)}
# Such a sentence is turned around: its first words name nothing. A question may begin so.
TURNED = re.compile(r"[*_(]*(?:What|Of|Whether|Where|None of it)\b.*[^?]", re.S)
# README has at most so many lines, so that it can be read at once.
README_LINES = 150
# An entry of docs/DECISIONS.md has so many sentences, so that it says the decision and why, and no more than one.
ENTRY_SENTENCES = range(3, 9)
# The tables of docs/LIBRARY.md for Rattle end here.
LIBRARY_END = "## From C and Python"


def documents() -> list[str]:
    docs = sorted(os.path.relpath(it, CHECKOUT) for it in glob.glob(f"{CHECKOUT}/docs/*.md"))
    return ["README.md", *docs, "tests/README.md", "tests/cases/README.md", "bench/README.md"]


def text_of(name: str) -> str:
    with open(os.path.join(CHECKOUT, name), encoding="utf-8") as it:
        return it.read()


def without_code(text: str) -> str:
    """Returns a document without its blocks of code, with `x` in place of code inside of a sentence."""
    kept, is_code = [], False
    for line in text.split("\n"):
        if line.lstrip().startswith("```"):
            is_code = not is_code
        elif not is_code and not line.startswith("    "):
            kept.append(line)
    return re.sub(r"`[^`]*`", "x", "\n".join(kept))


def sentences(text: str, ends: str = ENDS) -> list[str]:
    """Returns the sentences of a document; each item of a list is one of its own, and tables and headings have none."""
    lines = ["" if line.startswith(("|", "#")) else re.sub(r"^ *([-*]|\d+\.) ", "\n\n", line) for line in without_code(text).split("\n")]
    paragraphs = re.split(r"\n\s*\n", "\n".join(lines))
    return [it for part in paragraphs for it in re.split(rf"(?<=[{ends}])[*_)]*\s+", " ".join(part.split())) if it]


def long_sentences(text: str, ends: str = ENDS) -> list[str]:
    return [it for it in sentences(text, ends) if len(it.split()) > LONGEST]


def uneven_entries(text: str) -> dict[str, int]:
    """Returns the entries of docs/DECISIONS.md that have too few or too many sentences, and how many."""
    entries = re.split(r"^### (.*)$", re.sub(r"^## .*$", "", text, flags=re.M), flags=re.M)[1:]
    counts = {title: len(sentences(entry)) for title, entry in zip(entries[::2], entries[1::2])}
    return {title: count for title, count in counts.items() if count not in ENTRY_SENTENCES}


def turned_sentences(text: str) -> list[str]:
    return [it for it in sentences(text) if TURNED.fullmatch(it)]


def house_words(text: str, words: dict[str, str] = HOUSE) -> dict[str, float]:
    """Returns how often each of these words is in a thousand words, tables and headings too."""
    plain = without_code(text)
    count = max(len(re.findall(r"[\w']+", plain)), 1)
    return {word: 1000 * len(re.findall(rf"\b(?:{forms})\b", plain, re.I)) / count for word, forms in words.items()}


def too_often(text: str) -> dict[str, float]:
    """Returns the words that a document has too often, and how often it has them in a thousand words."""
    rare, vague = house_words(text), house_words(text, {word: forms for word, (forms, _) in VAGUE.items()})
    found = {word: it for word, it in rare.items() if it >= OFTEN}
    found |= {word: it for word, it in vague.items() if it >= VAGUE[word][1]}
    found |= {word: it for word, it in house_words(text, NEVER).items() if it}
    return {word: round(it, 1) for word, it in found.items()}


def has_house_words(text: str) -> bool:
    return any(house_words(text, {**HOUSE, **NEVER}).values())


def anchors(text: str) -> set[str]:
    """Returns the names by which links lead to the headings of a document."""
    titles = re.findall(r"^#+ (.*)$", text, re.M)
    return {re.sub(r"[^\w -]", "", it.lower()).replace(" ", "-") for it in titles}


def broken_links(name: str) -> list[str]:
    broken = []
    for link in re.findall(r"\]\(([^)\s]+)\)", text_of(name)):
        path, _, anchor = link.partition("#")
        target = os.path.normpath(os.path.join(os.path.dirname(name), path)) if path else name
        if "://" in link or "`" in link:
            continue
        if not os.path.exists(os.path.join(CHECKOUT, target)) or anchor and anchor not in anchors(text_of(target)):
            broken.append(link)
    return broken


def used_paths(source: str) -> set[str]:
    """Returns the paths below `meson` that Rattle sources name, those of `use` lists too."""
    lists = re.findall(r"\buse (meson[\w:]*)::\{([^}]*)\}", source)
    listed = {f"{module}::{name}" for module, names in lists for name in re.findall(r"\w+", names)}
    return listed | set(re.findall(r"\bmeson(?:::\w+)+", source))


def uncalled(page: str, source: str) -> list[str]:
    """Returns the calls in the tables of docs/LIBRARY.md that Rattle sources don't use: methods by name, all others by their path."""
    missing, used = [], used_paths(source)
    for calls, place in re.findall(r"^\| (`.*?) \| (.*?) \|", page.partition(LIBRARY_END)[0], re.M):
        path = re.search(r"[\w:]+::\w+", place)
        for call in re.findall(r"`([\w:]+)`", calls):
            name = call.rpartition("::")[2]
            is_called = re.search(rf"(?:\.|::){name}\(", source) if path is None or "::" in call else True
            needed = path and (path[0] if "::" in call else path[0].rpartition("::")[0] + f"::{name}")
            if not is_called or needed and needed not in used:
                missing.append(call)
    return missing


def test_counting() -> None:
    """What is counted, in a document of a few lines."""
    long = " ".join(["word"] * 31)
    page = f"# {long}\n\n| {long} |\n\n{long}.\n\n- {long} `a b`; more. Short.\n\n```\n{long}\n```\n\n    {long}\n"
    check("documents: long sentences are found", [len(it.split()) for it in long_sentences(page)] == [31, 33], long_sentences(page))
    page = "# Title\n\n## Layer\n\n### Short\n\nOne: `a.b`; one.\nTwo.\n\n### Good\n\nOne. Two.\n\n- Three.\n\n## Next\n\n"
    page += "### Long\n\n" + "One. " * 9
    check("documents: uneven entries are found", uneven_entries(page) == {"Short": 2, "Long": 9}, uneven_entries(page))
    found = house_words("It stands `behind` it.\nHe told her; | beside | Tell |\n```\ntells\n```\n" + "word " * 91)
    wanted = {"tell": 20.0, "stand": 10.0, "beside": 10.0, "behind": 0.0}
    check("documents: house words are found", found == wanted, found)


def test_refusing() -> None:
    """A document in the house's words is refused, and the same text in plain English is accepted."""
    page = "Of lines that say the same the first alone stands here. What is indented is called. What is it? *None of it* is asked.\n\n"
    page += "- Where it fails, a run at work in its build folder is told.\n\nWhat `it`\nsays.\n"
    wanted = ["Of lines that say the same the first alone stands here.", "What is indented is called.", "*None of it* is asked.",
              "Where it fails, a run at work in its build folder is told.", "What x says."]
    check("documents: turned sentences are found", turned_sentences(page) == wanted, turned_sentences(page))
    found = too_often(page)
    wanted = {"tell", "stand", "of it", "what", "where", "at work", "is asked", "build folder"}
    check("documents: words of the house are found", set(found) == wanted, found)
    page = "It is in front of\nit, for want of memory, as far as known. He and the like look in vain in the folder of the sources. "
    page += "Unasked, no question is\n`asked`. That of one. Those of two. " + "word " * 300
    found = too_often(page)
    wanted = {"in front of", "want of", "as far as", "its like", "in vain", "source folder", "that of"}
    check("documents: words that no document may have are found", set(found) == wanted, found)
    page = "Lines that differ only in place appear once. Each function calls the functions indented below it, in its build directory. "
    page += "What is a case? If a call fails, the run reports it. Its work is here.\n\n```\nWhat stands behind it\n```\n"
    check("documents: plain English is accepted", (turned_sentences(page), too_often(page + "word " * 100)) == ([], {}),
          (turned_sentences(page), too_often(page + "word " * 100)))


def test_documents() -> None:
    for name in documents():
        text = text_of(name)
        found = long_sentences(text)
        check(f"documents: {name}: no sentence over {LONGEST} words", not found, "\n".join(found))
        turned = turned_sentences(text)
        check(f"documents: {name}: no sentence is turned around", not turned, "\n".join(turned))
        often = too_often(text)
        check(f"documents: {name}: house words", not often, often)
        broken = broken_links(name)
        check(f"documents: {name}: links", not broken, broken)
    lines = text_of("README.md").count("\n")
    uneven = uneven_entries(text_of("docs/DECISIONS.md"))
    check("documents: docs/DECISIONS.md: an entry has three to eight sentences", not uneven, uneven)
    check("documents: README.md is short", lines <= README_LINES, lines)
    licences = set(re.findall(r"^License: *(.*)$", text_of("docs/PACKAGING.md"), re.M))
    check("documents: docs/PACKAGING.md: packages leave the licence to be filled in", licences == {"to be filled in"}, licences)


COMMANDS = ("configure", "explain", "compile", "test", "install", "introspect", "machine-file", "port", "self-install")


def test_helps() -> None:
    """The help of each command begins with a sentence whose verb comes first, as "Builds a folder."."""
    for command in COMMANDS:
        text = run(["meson", command, "--help"]).stdout
        usage, first, *rest = text.partition("\npositional arguments:\n")[0].partition("\noptions:\n")[0].split("\n\n")
        is_sentence = re.fullmatch(r"[A-Z][a-z]+s [^.]*[.:]", " ".join(first.split()))
        check(f"meson {command} --help: begins with a sentence", usage.lower().startswith("usage: ") and is_sentence, first)
        found = long_sentences("\n\n".join([first, *rest]), ENDS_OF_PARTS)
        check(f"meson {command} --help: no part of a sentence over {LONGEST} words", not found, "\n".join(found))
        often = {word for word, count in house_words(text, {**HOUSE, **NEVER}).items() if count}
        check(f"meson {command} --help: no house words", not often, often)


def help_of(path: str) -> str:
    """Returns the help of a script that nobody calls by `meson`: its documentation, or the comment at the head of a shell script."""
    text = text_of(path)
    if "python" in text.partition("\n")[0]:
        return ast.get_docstring(ast.parse(text)) or ""
    lines = itertools.takewhile(lambda line: line.startswith("#"), text.split("\n")[1:])
    return "\n".join(line.removeprefix("#").removeprefix(" ") for line in lines)


def test_helps_of_tests() -> None:
    """The help of the tests, of the benchmark and of what builds: its first word is a verb, and it has no house words."""
    paths = sorted(it for where in ("tests/*", "bench/*", "tools/build-*", "test") for it in glob.glob(where, root_dir=CHECKOUT)
                   if os.path.isfile(os.path.join(CHECKOUT, it)) and os.access(os.path.join(CHECKOUT, it), os.X_OK))
    wrong = [it for it in paths if not re.match(r"[A-Z][a-z]+s\b", help_of(it)) or has_house_words(help_of(it))]
    check("the help of each test: a verb first, no house words", len(paths) > 20 and not wrong, f"{len(paths)} scripts: {wrong}")


def messages(path: str) -> list[str]:
    """Returns the texts in a script that have a blank, without those that document it."""
    with open(path, encoding="utf-8") as it:
        nodes = list(ast.walk(ast.parse(it.read())))
    bodies = [it.body for it in nodes if isinstance(it, (ast.Module, ast.ClassDef, ast.FunctionDef)) and it.body]
    documenting = {it[0].value for it in bodies if isinstance(it[0], ast.Expr)}
    texts = [it for it in nodes if isinstance(it, ast.Constant) and isinstance(it.value, str) and it not in documenting]
    return [it.value for it in texts if " " in it.value]


def test_messages() -> None:
    tools = os.path.join(CHECKOUT, "tools")
    scripts = [*sorted(glob.glob(f"{tools}/**/*.py", recursive=True)), *(f"{tools}/{it}" for it in ("explain", "machine-file", "port"))]
    found = [f"{os.path.relpath(path, CHECKOUT)}: {text}" for path in scripts for text in messages(path)
             if any(house_words(text.replace("`", "")).values())]
    check("the messages of the scripts: no house words", not found, "\n".join(found))


def test_calls() -> None:
    """Which calls of a table count as called, then those of docs/LIBRARY.md."""
    page = f"""| Call | Path | Gives |
|---|---|---|
| `a` `b` | `meson::a` .. | 1 |
| `C::new` `C::get` | `meson::d::C` | 2 |
| `E::new` | `meson::e::E` | 3 |
| `put` `set` | the same | `lost` |

{LIBRARY_END}

| `f` | `meson.f` | 4 |
"""
    source = "use meson::d::{\n    C, D,\n};\nuse meson::f::E;\nfn g() {\n    meson::a();\n    C::new();\n    E::new().put(set);\n}\n"
    check("documents: calls that nothing uses are found", uncalled(page, source) == ["b", "C::get", "E::new", "set"], uncalled(page, source))
    source = "".join(text_of(it) for it in sorted(glob.glob("crates/library_tests/src/*.rt", root_dir=CHECKOUT)))
    missing = uncalled(text_of("docs/LIBRARY.md"), source)
    check("documents: crates/library_tests calls each call of docs/LIBRARY.md", bool(source) and not missing, missing)


def shown_caller(page: str) -> list[str]:
    """Returns the lines of the first program in Rattle of a page, without its head and its `main`."""
    code = page.partition("```rust\n")[2].partition("```")[0].partition("fn main(")[0]
    return [it for it in code.splitlines() if it and not it.startswith(("//!", "#![", "use std::process::"))]


def tested_caller(source: str) -> list[str]:
    """Returns the lines of a file of tests before its first test, without its head."""
    return [it for it in source.partition("#[test]")[0].splitlines() if it and not it.startswith(("//!", "use std::test::"))]


def test_caller() -> None:
    page = "```rust\n//! A\n#![b]\n\nuse c;\nuse std::process::E;\n\nfn d() {}\n\nfn main() {}\n```\n```rust\nuse f;\n```\n"
    source = "//! A\nuse c;\nuse std::test::Fail;\n\nfn d() {}\n\n#[test]\nfn e() {}\n"
    check("documents: the lines of a caller are found", shown_caller(page) == tested_caller(source) == ["use c;", "fn d() {}"])
    shown, tested = shown_caller(text_of("docs/LIBRARY.md")), tested_caller(text_of("crates/library_tests/src/memory_caller.rt"))
    check("documents: docs/LIBRARY.md shows the caller in Rattle that is tested", bool(shown) and shown == tested, f"{shown}\n{tested}")


def test_toolchain() -> None:
    """The logic that the documents name is that of the toolchain, whatever kit has it."""
    named = {name: set(re.findall(r"`rattle-kit-\w+\s+logic\s+(\w+)`", text_of(name))) for name in ("README.md", "docs/PROVED.md")}
    wanted = set(run(["rt", "version"]).stdout.split()[-1:]) if shutil.which("rt") else named["README.md"]
    is_good = len(wanted) == 1 and all(it == wanted for it in named.values())
    check("documents: the logic of the toolchain", is_good, f"{named} {wanted}")


TESTS = [test_counting, test_refusing, test_calls, test_caller, test_documents, test_toolchain, test_helps, test_helps_of_tests, test_messages]


if __name__ == "__main__":
    for document in documents():
        page = text_of(document)
        counts = {**house_words(page), **house_words(page, {word: forms for word, (forms, _) in VAGUE.items()})}
        words = " ".join(f"{word} {it:.1f}" for word, it in counts.items())
        print(f"{document}: {len(long_sentences(page))} long sentences, {len(turned_sentences(page))} turned, in a thousand words {words}")
