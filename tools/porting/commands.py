"""Runs the commands that a project runs while configuring, once and only with --run, and writes their results down."""
from __future__ import annotations

import os
import re
from collections.abc import Iterator

from tools import files
from tools.porting import tree
from tools.porting.checks_in_loops import known_parts
from tools.porting.edits import Change
from tools.porting.lexer import escaped
from tools.porting.options import declared, option_name, with_option
from tools.porting.project import Project, Site
from tools.porting.rule import assigned_name, identifier, replaced, text_of, texts_at, uses_of
from tools.porting.scripts import interpreter_of
from tools.porting.values import ROOT, Item, Thing, choices_of, flat, kind_of
from tools.variables import pkg_config

TYPE_CHECKING = False
if TYPE_CHECKING:
    import subprocess

# How long a command may run, in seconds.
LONGEST = 60
# A text of more bytes than this is not written into a definition file.
LARGEST = 1 << 20
# In a loop of more rounds than these no command is run.
MOST_ROUNDS = 64
MARK = "/value-of-the-project"  # with a number: a value that a project gives to a variable of a .pc file
QUESTIONS = {"exists": os.path.exists, "is_file": os.path.isfile, "is_dir": os.path.isdir, "is_symlink": os.path.islink}
NOT_ASKED = "needs to be run once: --run does that, and writes down what it prints"


class NotRun(Exception):
    """Says why a command can't be run or written down here."""


def words_of(project: Project, site: Site, values: list[object]) -> list[str] | None:
    """Returns the words of a run_command with these arguments, or None if one is not known here."""
    words: list[str] = []
    for number, value in enumerate(values):
        for item in flat(value):
            word = word_of(project, site, item, number == 0 and not words)
            if word is None:
                return None
            words.append(word)
    return by_interpreter(words) if words else None


def by_interpreter(words: list[str]) -> list[str]:
    """Returns a command whose first word is a script without its exec bit, run by what its first line names, as the real Meson does it."""
    program = interpreter_of(words[0]) if os.path.isfile(words[0]) and not os.access(words[0], os.X_OK) else None
    return [which(program) or program, *words] if program else words


def which(program: str) -> str | None:
    """Returns the path of a program that PATH has."""
    import shutil
    return shutil.which(program)


def word_of(project: Project, site: Site, item: Item, is_first: bool) -> str | None:
    value = item.value
    if not item.is_sure:
        return None
    if isinstance(value, str):
        value = value.replace(ROOT, os.path.abspath(project.root))
        beside = os.path.join(project.root, site.folder, value)
        return os.path.abspath(beside) if is_first and os.path.isfile(beside) else value
    if isinstance(value, Thing) and value.kind == "file":
        return os.path.abspath(os.path.join(project.root, value.path))
    if isinstance(value, Thing) and value.kind == "program":
        name = value.name or ("python3" if value.function.startswith("find_") else None)
        beside = os.path.join(project.root, os.path.dirname(value.path), name) if name else ""
        return os.path.abspath(beside) if name and os.path.isfile(beside) else which(name) if name else None
    return None


def run(project: Project, words: list[str], folder: str) -> subprocess.CompletedProcess[str] | None:
    """Returns what a command comes to. The result is kept for the next call."""
    import shlex
    import subprocess

    from tools.asking import processes
    key = tuple(words)
    if key not in project.runs:
        project.said.append(f"ran: {shlex.join(words)}")
        variables = dict(os.environ, MESON_SOURCE_ROOT=os.path.abspath(project.root), MESON_SUBDIR=os.path.relpath(folder, project.root))
        project.runs[key] = None
        try:
            done = processes.run(words, folder, seconds=LONGEST, variables=variables, errors="strict")
        except (processes.NoAnswer, UnicodeDecodeError) as error:
            project.said.append(f"ran: {words[0]}: {error}")
            return None
        if done.status is None:
            project.said.append(f"ran: {done.said}")
        else:
            project.runs[key] = subprocess.CompletedProcess(words, done.status, in_lines(done.printed), in_lines(done.said))
    return project.runs[key]


def in_lines(text: str) -> str:
    """Returns a text whose lines end as those of Linux do, as the real Meson reads it."""
    return text.replace("\r\n", "\n").replace("\r", "\n")


def run_command(project: Project) -> Iterator[Change]:
    """Replaces a result by a dictionary with its status and its texts, or by the one that the project uses."""
    for site in project.functions("run_command"):
        if not project.is_asked_to_run:
            project.doubt(site, f"run_command {NOT_ASKED}")
            continue
        try:
            change = answered(project, site, answers_of(project, site))
        except NotRun as why:
            project.doubt(site, f"run_command: {why}")
            continue
        if change is not None:
            yield change


def answers_of(project: Project, site: Site) -> dict[str, str]:
    """Returns what the methods of a result give, by their names; in a loop by what is another text in each round."""
    rounds = project.known.things[site.call]
    commands = [words_of(project, site, it.arguments) for it in rounds[:MOST_ROUNDS]]
    if "env" in site.call.keywords or len(rounds) > MOST_ROUNDS or None in commands:
        missing = missing_program(project, site, rounds)
        raise NotRun(f"it runs {missing}, which is not installed here" if missing else "its arguments can't be followed")
    done = [outcome(project, site, it) for it in commands if it]
    texts = {"returncode": [str(it.returncode) for it in done], "stdout": [escaped(it.stdout) for it in done],
             "stderr": [escaped(it.stderr) for it in done]}
    return {name: by_round(site, rounds, it) for name, it in texts.items()}


def missing_program(project: Project, site: Site, rounds: list[Thing]) -> str:
    """Returns the program that a command is to run and this machine doesn't have; empty if there is no such program."""
    first = [it for thing in rounds for it in flat(thing.arguments[0] if thing.arguments else "")[:1]]
    programs = [it for it in first if it.is_sure and isinstance(it.value, Thing) and it.value.kind == "program"]
    return next((it.value.name for it in programs if it.value.name and word_of(project, site, it, True) is None), "")


def outcome(project: Project, site: Site, words: list[str]) -> subprocess.CompletedProcess[str]:
    """Returns what a command comes to, if that can be written down."""
    done = run(project, words, os.path.join(project.root, site.folder))
    if done is None or len(done.stdout) + len(done.stderr) > LARGEST:
        raise NotRun("it can't be run here")
    check = site.call.keywords.get("check")
    if done.returncode != 0 and check is not None and project.known.value(check.value) is True:
        raise NotRun(f"it fails here, with status {done.returncode}: {done.stderr.strip()[:200]!r}")
    return done


def by_round(site: Site, rounds: list[Thing], texts: list[str]) -> str:
    """Returns the expression that is each of these texts in its round."""
    if len(set(texts)) == 1:
        return texts[0]
    for source, values in known_parts(site, rounds):
        table = dict(zip(values, texts))
        if [table[it] for it in values] == texts:
            return f"{{{', '.join(f'{escaped(key)}: {text}' for key, text in table.items())}}}[{source}]"
    raise NotRun("its command differs from round to round, and no text says in which round it is")


def answered(project: Project, site: Site, answers: dict[str, str]) -> Change | None:
    """Returns the call, and the methods of its result, as what they come to."""
    outer = next((it for it in project.methods(*answers) if it.call.receiver and tree.plain(it.call.receiver) is site.call), None)
    what = "run_command becomes what it printed"
    if outer is not None:
        return site.change(what, replaced(site, outer.call, answers[outer.call.name]))
    if not isinstance(site.statement, tree.Assignment) or tree.plain(site.statement.value) is not site.call:
        project.doubt(site, "run_command: its result is used in a way that can't be followed")
        return None
    name = site.statement.name
    edits = []
    for other in project.methods(*answers):
        receiver = tree.plain(other.call.receiver) if other.call.receiver else None
        things = [it.value for it in flat(project.known.value(receiver))] if receiver else []
        if isinstance(receiver, tree.Name) and receiver.text == name and any(getattr(it, "call", None) is site.call for it in things):
            edits += other.change("", replaced(other, other.call, f"{name}['{other.call.name}']")).edits
    used = {it.text.rsplit("'", 2)[1] for it in edits}
    shown = ", ".join(f"'{key}': {value}" for key, value in answers.items() if key in used or key == "returncode")
    change = site.change(what, replaced(site, site.call, f"{{{shown}}}"))
    change.edits += edits
    return change


def module_sites(project: Project, module: str, *names: str) -> Iterator[Site]:
    for site in project.methods(*names):
        known = project.known.value(site.call.receiver) if site.call.receiver else None
        if isinstance(known, Thing) and known.kind == "module" and known.name == module:
            yield site


def path_at(project: Project, site: Site, node: tree.Node) -> str | None:
    """Returns the place on the disk of a path that a call is given."""
    items = flat(project.known.placed(node))
    if len(items) != 1 or not items[0].is_sure:
        return None
    value = items[0].value
    if isinstance(value, str) and value.startswith(ROOT):
        return os.path.join(project.root, value.removeprefix(ROOT).lstrip("/"))
    if isinstance(value, Thing) and value.kind == "file" and value.function == "files":
        return os.path.join(project.root, value.path)
    return os.path.join(project.root, site.folder, value) if isinstance(value, str) else None


def read_files(project: Project) -> Iterator[Change]:
    """`fs.read` becomes the text of the file, and `version: files()` too."""
    for site in module_sites(project, "fs", "read"):
        text = read_text(project, site, site.call.arguments[0]) if site.call.arguments else None
        if text is not None:
            yield site.change("fs.read becomes the text that it reads", replaced(site, site.call, escaped(text)))
    for site in project.functions("project"):
        word = site.call.keywords.get("version")
        value = tree.plain(word.value) if word else None
        if isinstance(value, tree.Call) and value.name == "files" and value.arguments:
            text = read_text(project, site, value)
            if text is not None:
                yield site.change("project: the version is the text of its file", replaced(site, value, escaped(text.strip())))


def read_text(project: Project, site: Site, node: tree.Node) -> str | None:
    path = path_at(project, site, node)
    if not project.is_asked_to_run:
        project.doubt(site, f"the text of a file is needed here, which {NOT_ASKED}")
        return None
    try:
        text = files.read_text(path or "", LARGEST)
    except OSError as error:
        project.doubt(site, f"the text of a file is needed here, which can't be read: {error}")
        return None
    project.said.append(f"read: {os.path.relpath(path or '', project.root)}")
    return text


def asked_files(project: Project) -> Iterator[Change]:
    """Whether a path is there, what it holds: the answers of now."""
    for site in module_sites(project, "fs", "exists", "is_file", "is_dir", "is_symlink", "size", "hash"):
        path = path_at(project, site, site.call.arguments[0]) if site.call.arguments else None
        several = texts_of_rounds(project, site) if path is None and site.call.name in QUESTIONS else []
        if not project.is_asked_to_run or (path is None and not several):
            project.doubt(site, f"fs.{site.call.name} {NOT_ASKED if not project.is_asked_to_run else 'of a path that is not known'}")
            continue
        answer = answer_of(project, site, path) if path is not None else answer_of_several(project, site, several)
        if answer is not None:
            project.said.append(f"asked: {site.call.name} of {', '.join(several) or os.path.relpath(path or '', project.root)}: {answer}")
            yield site.change(f"fs.{site.call.name} becomes its answer", replaced(site, site.call, answer))


def texts_of_rounds(project: Project, site: Site) -> list[str]:
    """Returns the paths of which a call is given one in each round of a loop; none if not all are known."""
    texts = choices_of(project.known.value(site.call.arguments[0])) if site.call.arguments else ()
    return [str(it) for it in texts] if all(isinstance(it, str) for it in texts) else []


def answer_of_several(project: Project, site: Site, texts: list[str]) -> str:
    """Returns whether the path of a round is one of those that are there."""
    there = [it for it in texts if QUESTIONS[site.call.name](os.path.join(project.root, site.folder, it))]
    if len(there) in (0, len(texts)):
        return str(bool(there)).lower()
    return f"({grouped(site)} in [{', '.join(map(escaped, there))}])"


def answer_of(project: Project, site: Site, path: str) -> str | None:
    if site.call.name in QUESTIONS:
        return str(QUESTIONS[site.call.name](path)).lower()
    import hashlib
    try:
        if site.call.name == "size":
            return str(os.path.getsize(path))
        kind = text_of(project, site.call.arguments[1]) if len(site.call.arguments) > 1 else None
        return escaped(hashlib.new(kind or "", files.read_bytes(path)).hexdigest())
    except (OSError, ValueError):
        return None


def path_methods(project: Project) -> Iterator[Change]:
    """What the fs module makes of a path's text alone."""
    for site in module_sites(project, "fs", "name", "stem", "parent", "replace_suffix", "is_absolute", "as_posix", "suffix"):
        arguments = [project.known.value(it) for it in site.call.arguments]
        name = site.call.name
        if len(arguments) != 1 + (name == "replace_suffix"):
            continue
        if all(isinstance(it, str) for it in arguments):
            yield site.change(f"fs.{name} becomes its text", replaced(site, site.call, text_answer(name, *arguments)))
        elif name in ("name", "stem") and kind_of(arguments[0]) == "text":
            text = grouped(site)
            base = f"{text}.split('/')[-1]"
            if name == "name":
                yield site.change("fs.name becomes a part of a text", replaced(site, site.call, base))
            elif all(isinstance(it, str) and os.path.basename(it).count(".") <= 1 for it in choices(arguments[0])):
                yield site.change("fs.stem becomes a part of a text", replaced(site, site.call, f"{base}.split('.')[0]"))


def choices(value: object) -> list:
    return [it.value for it in flat(value)]


def grouped(site: Site) -> str:
    node = site.call.arguments[0]
    text = site.file.source(node)
    return text if isinstance(node, (tree.Name, tree.Call, tree.Index, tree.Text)) else f"({text})"


def text_answer(name: str, path: str, suffix: str = "") -> str:
    if name == "is_absolute":
        return str(path.startswith("/")).lower()
    answers = {"name": os.path.basename(path), "stem": os.path.splitext(os.path.basename(path))[0], "as_posix": path.replace("\\", "/"),
               "parent": os.path.dirname(path) or ".", "replace_suffix": os.path.splitext(path)[0] + suffix,
               "suffix": os.path.splitext(path)[1]}
    return escaped(answers[name])


def variables(project: Project) -> Iterator[Change]:
    """A variable of a dependency's .pc file becomes an option with the present value."""
    for site in project.methods("get_variable", "get_pkgconfig_variable"):
        receiver = project.known.value(site.call.receiver) if site.call.receiver else None
        if kind_of(receiver) != "dependency":
            continue
        name = variable_name(project, site)
        things = [it.value for it in flat(receiver)]
        package = things[0].name if things and all(getattr(it, "name", None) == things[0].name for it in things) else None
        if not project.is_asked_to_run or name is None or package is None:
            project.doubt(site, f"{site.call.name} of a dependency {NOT_ASKED if not project.is_asked_to_run else 'can not be followed'}")
            continue
        if definition_of(site) is not None and texts_at(project, definition_of(site)) is None:
            change = variable_below(project, site, package, name)
            if change is not None:
                yield change
            continue
        program = program_of_variable(project, site, package, name)
        if program is not None:
            yield site.change(f"{site.call.name} of a program that PATH has becomes its name", replaced(site, site.call, escaped(program)))
            continue
        description = f"The variable {name} of {package}"
        option = option_name(project, f"{identifier(package)}_{identifier(name)}", description)
        change = site.change(f"{site.call.name} becomes the option {option}", replaced(site, site.call, f"get_option('{option}')"))
        if declared(project, option) is None:
            value = variable_value(project, site, package, name)
            if value is None:
                project.doubt(site, lack_of_variable(project, package, name))
                continue
            text = f"option('{option}', type: 'string', value: {escaped(value)}, description: {escaped(description)})\n"
            change.edits.append(with_option(project, text))
        yield change


def definition_of(site: Site) -> tree.Node | None:
    """Returns the list of a keyword that gives variables other values."""
    word = site.call.keywords.get("pkgconfig_define") or site.call.keywords.get("define_variable")
    return word.value if word else None


def variable_below(project: Project, site: Site, package: str, name: str) -> Change | None:
    """Returns a variable whose text begins with another one, to which the project gives a value: that value, and an option for the rest."""
    given = definitions_at(project, site)
    if not given:
        project.doubt(site, f"{site.call.name}: `pkgconfig_define:` can not be followed: an option")
        return None
    defined = [f"--define-variable={key}={MARK}-{number}" for number, (key, _) in enumerate(given)]
    done = run(project, [*pkg_config(), f"--variable={name}", *defined, package], project.root)
    if done is None or done.returncode != 0:
        project.doubt(site, lack_of_variable(project, package, name))
        return None
    found = re.fullmatch(rf"{MARK}-(\d+)/+([^/].*)", done.stdout.strip())
    if found is None or MARK in found[2]:
        keys = " or ".join(key for key, _ in given)
        project.doubt(site, f"{site.call.name}: the variable {name} of {package} is none below {keys}: an option")
        return None
    key, value = given[int(found[1])]
    description = f"The variable {name} of {package}, below its {key}"
    option = option_name(project, f"{identifier(package)}_{identifier(name)}", description)
    text = f"({site.file.source(value)}) / get_option('{option}')"
    change = site.change(f"{site.call.name} becomes the option {option}", replaced(site, site.call, f"({text})"))
    if declared(project, option) is None:
        line = f"option('{option}', type: 'string', value: {escaped(found[2])}, description: {escaped(description)})\n"
        change.edits.append(with_option(project, line))
    return change


def definitions_at(project: Project, site: Site) -> list[tuple[str, tree.Node]]:
    """Returns the variables to which a call gives values, and these; none if a name is not known."""
    word = definition_of(site)
    node = tree.plain(word) if word else None
    items = node.items if isinstance(node, tree.List) else []
    keys = [text_of(project, it) for it in items[::2]]
    pairs = [(key, value) for key, value in zip(keys, items[1::2]) if key is not None]
    return pairs if 2 * len(pairs) == len(items) else []


def program_of_variable(project: Project, site: Site, package: str, name: str) -> str | None:
    """Returns the name of the program whose path a variable is, where `find_program` alone is given it and finds that very program by
    its name."""
    asked = [tree.plain(it.call.arguments[0]) for it in project.functions("find_program") if len(it.call.arguments) == 1]
    variable = assigned_name(site)
    uses = [node for _, statement in uses_of(project, variable) for expression in statement.expressions()
            for node in tree.inside(expression) if isinstance(node, tree.Name) and node.text == variable] if variable else []
    if not any(it is site.call for it in asked) and not (uses and all(any(it is use for it in asked) for use in uses)):
        return None
    value = variable_value(project, site, package, name) or ""
    found = which(os.path.basename(value)) if value.startswith("/") else None
    return os.path.basename(value) if found and os.path.realpath(found) == os.path.realpath(value) else None


def lack_of_variable(project: Project, package: str, name: str) -> str:
    done = run(project, [*pkg_config(), "--exists", package], project.root)
    if done is not None and done.returncode == 0:
        return f"pkg-config has no variable {name} of {package}"
    return (f"the variable {name} of {package} is not known, as pkg-config has no {package}: install it and run this again, "
            "or write an option")


def variable_name(project: Project, site: Site) -> str | None:
    word = site.call.keywords.get("pkgconfig")
    node = word.value if word else site.call.arguments[0] if site.call.arguments else None
    return text_of(project, node)


def variable_value(project: Project, site: Site, package: str, name: str) -> str | None:
    defined = site.call.keywords.get("pkgconfig_define") or site.call.keywords.get("define_variable")
    pairs = texts_at(project, defined.value) if defined else []
    words = [*pkg_config(), f"--variable={name}"]
    words += [f"--define-variable={key}={value}" for key, value in zip((pairs or [])[::2], (pairs or [])[1::2])]
    done = run(project, [*words, package], project.root)
    value = done.stdout.strip() if done is not None and done.returncode == 0 else ""
    default = next((site.call.keywords[it] for it in ("default_value", "default") if it in site.call.keywords), None)
    return value or (text_of(project, default.value) if default else None)
