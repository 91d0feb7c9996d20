"""Builds a configured folder and runs its tests.

The folder is configured again first, as by `meson compile`. Then the default targets are built, and what the commands of
the tests name. The tests are those of BUILDDIR/meson-info/introspect.json. They run side by side in BUILDDIR, each with
its own environment and timeout; tests of a suite `serial` run alone, after the others. On a terminal a line below the
results says which tests are running. A test that ends with status 0 has passed, with 77 it was skipped, with 99 it could
not be run; any other status, a signal and a timeout are failures. A test that should fail passes if it ends with any
status but 0, 77 and 99. Tests of the suite `benchmark`, which `meson port` makes of benchmarks, run if they or a suite
of theirs are named. BUILDDIR/meson-logs/testlog.txt has what the tests print.

Exit status: 0 if no test failed, else the number of those that did (at most 124); 125 if the build failed; 126 if the
command line, the folder or its document is bad, or the output or the log can't be written; 130 if it was interrupted. In
the last two cases the tests that still run are ended. If the reader of a pipe has gone, the tests are ended without a
message.
"""
from __future__ import annotations

import math
import os
import re
import signal
import subprocess
import sys
import threading
import time

from tools import records as dataclasses
from tools.command_line import Parser, check_folder, meant
from tools.document import Document, read_document
from tools.ending import Stop, one_line, run_script, show, write
from tools.files import LOGS, log_path, new_log, unnamed_file
from tools.ninja import build, call, is_on_path
from tools.parallel import side_by_side
from tools.setup_arguments import check_is_new, configure_again, has_words
from tools.variables import words_in

TYPE_CHECKING = False
if TYPE_CHECKING:
    from typing import BinaryIO

    from tools.command_line import Given
    from tools.document import Test

SCRIPT, AT_FAULT, NOT_BUILT = "meson test", 126, 125
BENCHMARK = "benchmark"  # the suite whose tests run only if they, or a suite of theirs, are named
COUNTED = {"OK": "Ok", "EXPECTEDFAIL": "Expected Fail", "FAIL": "Fail", "ERROR": "Error", "UNEXPECTEDPASS": "Unexpected Pass",
           "SKIP": "Skipped", "TIMEOUT": "Timeout", "INTERRUPT": "Interrupted"}
BAD = ("FAIL", "ERROR", "UNEXPECTEDPASS", "TIMEOUT", "INTERRUPT")
# How many bytes of a test's output are shown at most, and how many are copied to the log at once. No more are in memory.
SHOWN, PIECE = 1 << 20, 1 << 16
# The suite whose tests run alone.
SERIAL = "serial"


@dataclasses.dataclass(frozen=True)
class Result:
    """Holds how a test has ended, why, and after how many seconds."""
    test: Test
    verdict: str
    why: str
    seconds: float


def arguments() -> Given:
    parser = Parser(SCRIPT, __doc__ or "", AT_FAULT)
    parser.add_folder()
    parser.add_argument("names", metavar="NAME", nargs="*", help="run only these tests; * and ? match any characters")
    parser.add_argument("--suite", action="append", default=[], help="run only the tests of this suite")
    parser.add_argument("--no-suite", action="append", default=[], help="skip the tests of this suite")
    parser.add_argument("--list", action="store_true", help="list the tests, and run none")
    parser.add_argument("--no-rebuild", action="store_true", help="don't configure and build first; stop if a file has changed since")
    parser.add_argument("--print-errorlogs", action="store_true", help="show what the tests that failed have printed, or the end of it")
    parser.add_argument("-v", "--verbose", action="store_true", help="show what each test has printed")
    parser.add_argument("--repeat", type=int, default=1, metavar="N", help="run the tests N times")
    parser.add_argument("--wrap", "--wrapper", metavar="WORDS", default="",
                        help="arguments to put before each test's command, as a shell splits them: 'valgrind --error-exitcode=1'")
    parser.add_argument("--gdb", action="store_true", help="run each test in gdb, on this terminal, without a timeout")
    parser.add_argument("-j", "--jobs", "--num-processes", type=int, default=len(os.sched_getaffinity(0)), help="how many run at once")
    parser.add_argument("-t", "--timeout-multiplier", type=float, default=1,
                        help="multiply each timeout by this number; 0 or less is no timeout")
    words = parser.parse_args()
    for name in ("jobs", "repeat"):
        if getattr(words, name) < 1:
            parser.error(f"--{name} takes a number above 0")
    if math.isnan(words.timeout_multiplier):
        parser.error("--timeout-multiplier takes a number")
    words.wrap = words_in(words.wrap, "--wrap")
    return words


def title(test: Test) -> str:
    return "+".join(test["suite"]) + " / " + test["name"] if test["suite"] else test["name"]


def suites_of(test: Test, project: str) -> set[str]:
    return {*test["suite"], project, *(f"{project}:{it}" for it in test["suite"])}


def fits(name: str, pattern: str) -> bool:
    """Returns whether a name matches a pattern, in which `*` and `?` match any characters."""
    parts = (".*" if it == "*" else "." if it == "?" else re.escape(it) for it in re.split(r"([*?])", pattern))
    return re.fullmatch("".join(parts), name, re.S) is not None


def choose(words: Given, document: Document) -> list[Test]:
    suites = lambda test: suites_of(test, document.project)
    for name in words.names:
        if not any(fits(test["name"], name) for test in document.tests):
            raise Stop(f"there is no test {name!r}{meant(SCRIPT, name)}")
    for name in words.suite + words.no_suite:
        if not any(name in suites(test) for test in document.tests):
            raise Stop(f"there is no suite {name!r}")
    is_named = lambda test: not words.names or any(fits(test["name"], it) for it in words.names)
    is_wanted = lambda test: suites(test) & set(words.suite) if words.suite else words.names or BENCHMARK not in test["suite"]
    return [test for test in document.tests if is_named(test) and is_wanted(test) and not suites(test) & set(words.no_suite)]


def build_for(tests: list[Test], document: Document, folder: str) -> None:
    """Builds the default targets, and the outputs that the tests' commands name."""
    root = os.path.realpath(folder)
    named = {os.path.relpath(os.path.realpath(word), root) for test in tests for word in test["cmd"] if os.path.isabs(word)}
    outputs = [output for target in document.targets for output in target["filename"] if output in named]
    try:
        build(folder, ["all", *outputs], [], "no test was run")
    except Stop as stop:
        raise Stop(stop.why, NOT_BUILT) from stop


class Progress:
    """Shows which tests are running, in a line below the results. It is shown only on a terminal."""

    def __init__(self, total: int) -> None:
        self.total, self.done, self.running = total, 0, []
        self.is_shown = sys.stdout.isatty() and os.environ.get("TERM") != "dumb"

    def begin(self, name: str) -> None:
        self.running.append(name)
        self.show()

    def end(self, name: str) -> None:
        self.done += 1
        self.running.remove(name)
        self.take_away()

    def take_away(self) -> None:
        """Clears the line, for what is shown next."""
        if self.is_shown:
            write(b"\r\x1b[K")

    def show(self) -> None:
        if self.is_shown and self.running:
            line = one_line(f"[{self.done}/{self.total}] {', '.join(self.running)}")
            room = columns() - 1
            write(("\r\x1b[K" + line[:room]).encode(sys.stdout.encoding, "backslashreplace"))


def columns() -> int:
    try:
        return os.get_terminal_size(sys.stdout.fileno()).columns or 80
    except OSError:
        return 80


class Report:
    """Shows each result, and writes the log."""

    def __init__(self, folder: str, tests: list[Test], rounds: int, shown: tuple[str, ...]) -> None:
        self.total, self.done, self.counts = len(tests) * rounds, 0, dict.fromkeys(COUNTED, 0)
        self.width = max((len(title(test)) for test in tests), default=0)
        self.shown, self.lock = shown, threading.Lock()
        self.path, self.log = log_path(folder, "testlog.txt"), new_log(folder, "testlog.txt")
        self.progress = Progress(self.total)

    def begin(self, test: Test) -> None:
        with self.lock:
            self.progress.begin(title(test))

    def add(self, result: Result, output: BinaryIO) -> None:
        with self.lock:
            self.done += 1
            self.progress.end(title(result.test))
            self.counts[result.verdict] += 1
            number = f"{self.done:{len(str(self.total))}}/{self.total}"
            line = f"{number} {title(result.test):{self.width}}  {result.verdict:14} {result.seconds:7.2f}s   {result.why}".rstrip()
            line, command = map(one_line, (line, joined([*result.test["env"], *result.test["cmd"]])))
            show(line)
            head = f"{line}\ncommand: {command}\n".encode(errors="backslashreplace")
            size = output.seek(0, os.SEEK_END)
            self.keep(head, output, size)
            if result.verdict in self.shown:
                output.seek(max(size - SHOWN, 0))
                more = f"[the first {size - SHOWN} bytes are in {self.path}]\n" if size > SHOWN else ""
                write(head + more.encode(errors="backslashreplace") + output.read(SHOWN) + b"\n")
            self.progress.show()

    def keep(self, head: bytes, output: BinaryIO, size: int) -> None:
        """Copies what a test has printed to the log, piece by piece, but not what its children print later."""
        output.seek(0)
        last = head
        try:
            self.log.write(head)
            while size > 0 and (data := output.read(min(size, PIECE))):
                self.log.write(data)
                size, last = size - len(data), data
            self.log.write(b"\n" if last.endswith(b"\n") else b"\n\n")
            self.log.flush()
        except OSError as error:
            raise Stop(f"{self.path}: {error.strerror}") from error

    def end(self) -> int:
        """Shows the summary, and returns the exit status."""
        self.log.close()
        show()
        for verdict, words in COUNTED.items():
            if self.counts[verdict] or verdict in ("OK", "FAIL", "SKIP", "TIMEOUT"):
                show(f"{words + ':':17} {self.counts[verdict]}")
        show(f"\nFull log written to {self.path}")
        return min(sum(self.counts[it] for it in BAD), 124)


def joined(words: list[str]) -> str:
    """Returns words as a shell reads them."""
    return " ".join(it if re.fullmatch(r"[\w@%+=:,./-]+", it, re.A) else "'" + it.replace("'", "'\"'\"'") + "'" for it in words)


def environment_of(test: Test) -> dict[str, str]:
    return dict(os.environ, **dict(it.split("=", 1) for it in test["env"]))


class Runner:
    """Runs tests side by side, and reports each. Those that are running can be ended."""

    def __init__(self, folder: str, words: Given, report: Report) -> None:
        self.folder, self.factor, self.wrap, self.report = folder, words.timeout_multiplier, words.wrap, report
        self.running, self.lock, self.is_ended = set(), threading.Lock(), False

    def end(self) -> None:
        with self.lock:
            self.is_ended = True
            for process in self.running:
                kill(process, signal.SIGKILL)

    def start(self, test: Test, output: BinaryIO) -> subprocess.Popen | None:
        with self.lock:
            if self.is_ended:
                return None
            process = subprocess.Popen([*self.wrap, *test["cmd"]], cwd=self.folder, env=environment_of(test), stdin=subprocess.DEVNULL,
                                       stdout=output, stderr=subprocess.STDOUT, start_new_session=True)
            self.running.add(process)
        return process

    def run(self, test: Test) -> None:
        start = time.monotonic()
        # A file, not a pipe: a child that outlives the test may hold its output open for ever.
        with unnamed_file(os.path.join(self.folder, LOGS)) as output:
            self.report.begin(test)
            verdict, why = self.verdict_of(test, output)
            if not self.is_ended:
                self.report.add(Result(test, verdict, why, time.monotonic() - start), output)

    def verdict_of(self, test: Test, output: BinaryIO) -> tuple[str, str]:
        limit = test["timeout"] * self.factor
        try:
            process = self.start(test, output)
        except (OSError, ValueError) as error:
            return "ERROR", f"{getattr(error, 'filename', test['cmd'][0])}: {getattr(error, 'strerror', error)}"
        if process is None:
            return "INTERRUPT", ""
        try:
            status = process.wait(limit if limit > 0 else None)
        except subprocess.TimeoutExpired:
            end_of(process)
            return "TIMEOUT", f"after {limit:g} seconds"
        finally:
            with self.lock:
                self.running.discard(process)
        return ("INTERRUPT", "") if self.is_ended else verdict_of_status(status, test["should_fail"])


def kill(process: subprocess.Popen, number: int) -> None:
    """Sends a signal to a test and to its children."""
    try:
        os.killpg(process.pid, number)
    except OSError:
        pass  # it has ended


def end_of(process: subprocess.Popen) -> None:
    kill(process, signal.SIGTERM)
    try:
        process.wait(1)
    except subprocess.TimeoutExpired:
        kill(process, signal.SIGKILL)
        process.wait()


def verdict_of_status(status: int, should_fail: bool) -> tuple[str, str]:
    if status == 77:
        return "SKIP", ""
    if status == 99:
        return "ERROR", "exit status 99"
    if status == 0:
        return ("UNEXPECTEDPASS" if should_fail else "OK"), ""
    why = f"exit status {status}" if status > 0 else f"killed by signal {-status} {signal_name(-status)}"
    return ("EXPECTEDFAIL" if should_fail else "FAIL"), why


def signal_name(number: int) -> str:
    try:
        return signal.Signals(number).name
    except ValueError:
        return ""


def run_all(runner: Runner, tests: list[Test], jobs: int) -> None:
    """Runs the tests. If this ends early, so do the tests that still run."""
    try:
        side_by_side(runner.run, tests, min(jobs, len(tests)), runner.end)
    except BaseException as error:
        runner.report.progress.take_away()
        if not isinstance(error, RuntimeError) or "thread" not in str(error):
            raise
        raise Stop(f"{error}; take fewer with --jobs") from error


def run_rounds(runner: Runner, tests: list[Test], words: Given) -> None:
    """Runs the tests as many times as --repeat says: those of the suite `serial` alone, after the others."""
    for _ in range(words.repeat):
        run_all(runner, [it for it in tests if SERIAL not in it["suite"]], words.jobs)
        run_all(runner, [it for it in tests if SERIAL in it["suite"]], 1)


def run_in_gdb(tests: list[Test], words: Given) -> int:
    """Runs each test in gdb, and returns how many times gdb failed."""
    if not is_on_path("gdb"):
        raise Stop("there is no gdb on PATH (Debian's package gdb has it)")
    run = lambda test: call([*words.wrap, "gdb", "--args", *test["cmd"]], environment_of(test), cwd=words.folder)
    return min(sum(run(test) != 0 for test in tests), 124)


def make_ready(words: Given) -> Document:
    """Configures the folder again. With --no-rebuild it stops if that would be needed."""
    is_known = has_words(words.folder)
    if is_known and not words.no_rebuild:
        configure_again(words.folder, "no test was run", NOT_BUILT, shows_log=not words.list)
    document = read_document(words.folder)
    if is_known and words.no_rebuild:
        check_is_new(words.folder, document.made_from)
    return document


def main() -> int:
    words = arguments()
    check_folder(SCRIPT, words.folder, words.names)
    document = make_ready(words)
    tests = choose(words, document)
    if words.list:
        for test in tests:
            show(one_line(title(test)))
        return 0
    if not words.no_rebuild:
        build_for(tests, document, words.folder)
    if not tests:
        show("No tests are defined.")
        return 0
    if words.gdb:
        return run_in_gdb(tests, words)
    report = Report(words.folder, tests, words.repeat, tuple(COUNTED) if words.verbose else BAD if words.print_errorlogs else ())
    run_rounds(Runner(words.folder, words, report), tests, words)
    return report.end()


def run() -> None:
    run_script(SCRIPT, main, failed=AT_FAULT)
