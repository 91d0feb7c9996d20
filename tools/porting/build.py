"""Builds what `meson port` has made, in a temporary folder.

If a build only compiles and links, by arguments that a compiler may get for a project (tools/asking/allowed.py), this module runs each
step in the sandbox of `meson machine-file`. Any other build is run by Ninja, and only with --run.

Objects are made without optimization, which takes a fraction of the time. What fails then is made again as the project has it.
"""
from __future__ import annotations

import os
import re
import shlex
import tempfile
import time

from tools import records as dataclasses
from tools.asking.allowed import Allowed
from tools.asking.compiler import Compiler
from tools.asking.processes import Done, NoAnswer, end_all, run
from tools.asking.programs import programs_of
from tools.document import read_document
from tools.ending import Stop
from tools.files import read_text
from tools.linked_copy import linked_copy
from tools.ninja import find_ninja, paths_in, plain
from tools.parallel import side_by_side

BUILD, ALL = "build-of-the-trial", "all"
LONGEST = 1800  # seconds of a build
SHOWN = 100  # characters of a command that would be run
EDGE = re.compile(r"^build (.+?): (\w+)(.*)\n(?: COMMAND = (.*)\n)?", re.M)
# What has a compiler make an object quickly, after the arguments of the project; and the beginning of a build file's rule for that.
QUICK, COMPILES = ["-O0", "-g0"], "rule c_compile\n command = $COMMAND"
SUMMARY = "collect2: "  # begins a line that says nothing else
ERROR = re.compile(r"(fatal )?error: |undefined reference|No such file|multiple definition")


@dataclasses.dataclass(frozen=True)
class Edge:
    """Holds a step of a build: its rule, its outputs, its inputs, what else is made before it, and the arguments of its command."""
    rule: str
    outputs: list[str]
    inputs: list[str]
    before: list[str]
    words: list[str]


def edges_of(text: str) -> list[Edge]:
    """Returns the edges of a build file that are needed for `all`, in its order, in which each comes after what it is made from."""
    found = []
    for outputs, rule, rest, command in EDGE.findall(text):
        inputs, before = rest.partition(" || ")[::2]
        made_from = [it for it in paths_in(inputs) if it != "|"]
        found.append(Edge(rule, paths_in(outputs), made_from, paths_in(before), shlex.split(plain(command))))
    needed = {ALL}
    for edge in reversed(found):
        if not needed.isdisjoint(edge.outputs):
            needed.update(edge.inputs + edge.before)
    return [it for it in found if it.words and not needed.isdisjoint(it.outputs)]


class Trial:
    """Builds the copy in `folder` of a project that is in `root`."""

    def __init__(self, root: str, folder: str, scratch: str) -> None:
        self.folder, self.begun, self.failed = os.path.join(folder, BUILD), time.monotonic(), ""
        # The absolute paths of the archives that the build makes: a link command may name them.
        self.archives: set[str] = set()
        self.compiler, self.allowed = Compiler(scratch, root), Allowed((root, folder))
        fault = self.compiler.choose_sandbox()
        if fault:
            raise Stop(fault)
        if self.compiler.sandbox.programs is not None:
            with tempfile.TemporaryDirectory(dir=scratch) as empty:
                archiver = programs_of(self.compiler.own, [*self.compiler.ar, "ar"], empty)
            self.compiler.sandbox = dataclasses.replace(self.compiler.sandbox, programs=archiver)

    def doubt(self, edges: list[Edge]) -> str:
        """Returns what one of these edges would run that is the project's, or might be; empty if there is none."""
        place = os.path.realpath(self.folder)
        self.archives = {os.path.join(place, it.outputs[0]) for it in edges if it.rule == "ar"}
        return next(filter(None, map(self.doubt_of, edges)), "")

    def doubt_of(self, edge: Edge) -> str:
        """Returns what an edge would run that is the project's, or might be; empty if it runs the compiler or the archiver alone."""
        words, output, compiler = edge.words, edge.outputs[0], self.compiler
        if any(it.startswith(("-", "@")) for it in edge.outputs + edge.inputs):
            return shlex.join(words)
        if edge.rule == "symlink" and words == ["ln", "-f", "-s", os.path.basename(edge.inputs[0]), output]:
            return ""
        if edge.rule == "ar" and words == [*compiler.ar, "csr", output, *edge.inputs]:
            return ""
        flags = self.flags_of(edge) if words[:len(compiler.c)] == compiler.c else None
        if flags is None:
            return shlex.join(words)
        own = compiler.c_args if edge.rule == "c_compile" else compiler.c_link_args
        refused = next((it for it in map(self.allowed.refused, parts_round(flags, own)) if it is not None), None)
        return "" if refused is None else f"the compiler with {refused}"

    def flags_of(self, edge: Edge) -> list[str] | None:
        """Returns the arguments of a compiler or a linker apart from its inputs and its output; None if it isn't called as `setup`
        writes it."""
        output, words = edge.outputs[0], edge.words[len(self.compiler.c):]
        if edge.rule == "c_compile":
            last = ["-MD", "-MQ", output, "-MF", output + ".d", "-o", output, "-c", edge.inputs[0]]
            return words[:-len(last)] if words[-len(last):] == last else None
        if edge.rule != "c_link" or "-o" not in words or words[words.index("-o"):][:2] != ["-o", output]:
            return None
        at = words.index("-o")
        return [it for it in words[:at] + words[at + 2:] if it not in edge.inputs and it not in self.archives]

    def carry_out(self, edges: list[Edge]) -> str:
        """Compiles side by side, then archives and links one by one: the first step that fails, and why; empty if none does."""
        objects = [it for it in edges if it.rule == "c_compile"]
        others = [it for it in edges if it.rule != "c_compile"]
        for beside in (QUICK, []):
            side_by_side(lambda it: self.step(it, beside), objects, None, end_all)
            # A source that fails was compiled as the project has it, too.
            if self.failed:
                return self.failed
            for edge in others:
                self.step(edge, [])
            if not self.failed or not beside:
                break
            self.failed = ""
        return self.failed

    def step(self, edge: Edge, beside: list[str]) -> None:
        """Makes a step with these further arguments, and if it fails without them."""
        if self.failed:
            return
        os.makedirs(os.path.join(self.folder, os.path.dirname(edge.outputs[0])), exist_ok=True)
        if edge.rule == "symlink":
            link = os.path.join(self.folder, edge.outputs[0])
            if not os.path.islink(link):
                os.symlink(os.path.basename(edge.inputs[0]), link)
            return
        own = self.compiler.own + edge.words[len(self.compiler.c):] if edge.rule != "ar" else edge.words
        done = self.run([*own, *beside])
        if not done.is_good and beside:
            done = self.run(own)
        if not done.is_good:
            self.failed = self.failed or f"{edge.outputs[0]}: {reason_of(done.printed + done.said)}"

    def run(self, words: list[str]) -> Done:
        """Runs the command of a step, if there is time for it."""
        if time.monotonic() > self.begun + LONGEST:
            return Done(1, "", f"error: nothing more was built after {LONGEST} seconds")
        try:
            return self.compiler.in_sandbox(words, self.folder)
        except NoAnswer as late:
            return Done(1, "", late.why)


def parts_round(words: list[str], own: list[str]) -> list[list[str]]:
    """Returns the arguments before the user's own, and those after them: none of the one is the value of one of the other."""
    at = next((it for it in range(len(words) - len(own) + 1) if words[it:it + len(own)] == own), 0)
    return [words[:at], words[at + len(own) if words[at:at + len(own)] == own else at:]]


def reason_of(output: str) -> str:
    """Returns the first line that says why a step has failed, and not merely that it has."""
    lines = output.strip().split("\n")
    return next((it for it in lines if ERROR.search(it) and not it.startswith(SUMMARY)), lines[0]).strip()


def advice(why: str) -> str:
    """Returns the rule, or what else would help."""
    if "undefined reference" in why:
        return "; `--also link-order` names static libraries that use one another once more"
    header = re.search(r"fatal error: ([^:]+): No such file", why)
    if header:
        return (f"; where a custom target makes {header[1]}, name that target among the sources: the rule made-headers has its folder "
                "looked through then")
    if "No such file" in why or "not found" in why:
        return "; where another target makes it, name that target in `depends:`"
    return ""


def first_failure(program: str, root: str, changed: dict[str, str], words: list[str], machine: bytes, may_run: bool) -> tuple[str, bool]:
    """Returns what came of a build of the sources, in which these files are others, and whether it was good or not made."""
    with tempfile.TemporaryDirectory(prefix="meson-port-") as scratch:
        folder, path = os.path.join(scratch, "sources"), os.path.join(scratch, "native.ini")
        linked_copy(root, folder, changed)
        with open(path, "wb") as it:
            it.write(machine)
        try:
            done = run([program, "setup", *words, "--native-file", path, BUILD], folder, variables=dict(os.environ))
            if not done.is_good:
                return f"the result was not built: {done.why}", False
            return outcome(Trial(root, folder, scratch), may_run)
        except Stop as stop:
            return f"the result was not built: {stop.why}", True


def outcome(trial: Trial, may_run: bool) -> tuple[str, bool]:
    """Returns what came of a build of what is set up, and whether it was good or not made."""
    edges = edges_of(read_text(os.path.join(trial.folder, "build.ninja")))
    doubt = trial.doubt(edges)
    if doubt and not may_run:
        return f"the result was not built: that would run commands of the project, as `{doubt[:SHOWN]}`: --run allows that", True
    failed = failure_of_ninja(trial.folder, trial.compiler.scratch) if doubt else trial.carry_out(edges)
    if failed:
        return f"the build fails: {failed}{advice(failed)}", False
    lack = lack_of_tests(trial.folder)
    return (lack, False) if lack else ("the result was built", True)


def failure_of_ninja(build: str, scratch: str) -> str:
    """Returns the target that Ninja can't make, and why; empty if it makes all. Temporary files of compilers lie in the second folder."""
    path = os.path.join(build, "build.ninja")
    text = read_text(path)
    for it in dict.fromkeys([text.replace(COMPILES, " ".join([COMPILES, *QUICK]), 1), text]):
        with open(path, "w", encoding="utf-8", newline="") as file:
            file.write(it)
        done = run([*find_ninja(), "-C", build], seconds=LONGEST, variables={**os.environ, "TMPDIR": scratch}, is_asked_first=True)
        if done.is_good:
            return ""
    said = done.printed + done.said
    failed = next((it for it in said.split("\n") if it.startswith("FAILED: ")), "").removeprefix("FAILED: ").strip()
    return f"{failed}: {reason_of(said)}".removeprefix(": ")


def lack_of_tests(build: str) -> str:
    """Returns what the variables of a test name and is not there after a build, though a target makes it; empty if there is none."""
    document = read_document(build)
    outputs = [os.path.join(os.path.realpath(build), it) for target in document.targets for it in target["filename"]]
    for test in document.tests:
        for path in outputs:
            if any(path in it for it in test["env"]) and not os.path.exists(path):
                place = os.path.relpath(path, os.path.realpath(build))
                return (f"the test {test['name']} needs {place}, which is not built by default: name its target in `depends:` of the test, "
                        "and the rule depends has it built")
    return ""
