"""Writes the machine file of a project: what this machine answers to the questions of its `setup`.

    meson machine-file [-DNAME=VALUE].. [SOURCE-DIR] > native.ini
    meson setup [-DNAME=VALUE].. --native-file native.ini build
    meson machine-file --check native.ini [SOURCE-DIR]
    meson machine-file --ask 'has_function strlcat'

It runs `meson questions` in SOURCE-DIR, and answers the questions by the C compiler, pkg-config and PATH. It repeats
both until there is no new question. Other options may lead to other questions, so give the same options here as to
`setup`. CC, AR and PKG_CONFIG name other tools; CFLAGS, CPPFLAGS and LDFLAGS become c_args and c_link_args.

With --check it compares a machine file with this machine, prints what would change, and writes no file. With --ask it
answers one question: a check as a machine file has it, 'dependency NAME' or 'program NAME'.

Nothing of the project is run. The compiler gets the prefixes of checks, and those of their arguments that only describe
code. It runs in a sandbox: it can execute only its own programs, and write only in a temporary folder. Checks with other
arguments are left for you to fill in. If this system can't sandbox the compiler, standard error says so once; with
--require-sandbox the command stops.

One compilation answers all checks that have the same arguments and the same prefix. If its result leaves a doubt, each
check is compiled by itself; --alone always does that. If no link of a check shows that the compiler works, it is tried
on an empty program.

Standard error lists each question without an answer, with file and line and the line to add, and each check with two
answers. If the run ends in a fault, it has the fault, and the package that is missing, if that is known. What is known
by then is printed all the same.

Exit status: 0 if all went well; 1 if the run ends in a fault, there are no sources, no compiler works, the output can't
be written, or --check finds a difference; 2 for a bad command line; 130 if it was interrupted.
"""
from __future__ import annotations

import gc
import os
import sys

from tools.asking.cache import Cache, cache_path
from tools.asking.early import begin_compiler, end_early
from tools.asking.last_output import LastOutput
from tools.command_line import Parser
from tools.ending import run_script, write
from tools.scratch import ScratchFolder

SCRIPT, FAILED, BAD_WORDS = "meson machine-file", 1, 2


def parser() -> Parser:
    """Returns what reads the arguments."""
    made = Parser(SCRIPT, __doc__, BAD_WORDS)
    made.add_argument("-D", dest="words", metavar="NAME=VALUE", action="append", default=[], help="an option, as for `meson setup`")
    made.add_argument("--check", metavar="FILE", help="compare this machine file with the machine, and say what would change")
    made.add_argument("--ask", metavar="QUESTION", help="answer this one question")
    made.add_argument("--prefix", metavar="TEXT", default="", help="the text before the source of --ask, as '#include <fcntl.h>'")
    made.add_argument("--alone", action="store_true", help="compile each check by itself, as the real Meson does")
    made.add_argument("--no-cache", action="store_true", help="use no answer that was saved, and save none")
    made.add_argument("--require-sandbox", action="store_true", help="stop with status 1 if the compiler can't be sandboxed")
    made.add_argument("source", metavar="SOURCE-DIR", nargs="?", default=".",
                      help="the folder of the project's meson.build (default: the present one)")
    return made


def main() -> int:
    given = parser().parse_args(sys.argv[3:])
    path = None if given.no_cache else cache_path()
    last = LastOutput(path, sys.argv[1], given.source, ["-D" + it for it in given.words])
    is_plain = given.ask is None and given.check is None and not given.require_sandbox
    with ScratchFolder() as scratch:
        try:
            printed = last.printed(scratch) if is_plain else None
            if printed is not None:
                write(printed)
                return 0
            begin_compiler(scratch, path)
            from tools.asking.answers import answer
            return answer(given, last, scratch, Cache(path))
        finally:
            end_early()


def run() -> None:
    """Runs the command, and ends at once: all is written, and what the interpreter would do at its end takes a tenth of the time."""
    gc.disable()
    try:
        run_script(SCRIPT, main, FAILED)
    except SystemExit as end:
        os._exit(int(end.code or 0))
