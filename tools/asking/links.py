"""Links an empty program once for many checks: libraries, arguments of the linker, threads, and whether the compiler works at all.

The link has the arguments of all. What it shows is noted only if a link for one check alone would surely end the same way:

- it is good, if the link with all arguments is good: each of these words can only add a reason to fail;
- it fails, if the linker names its library as missing, and says nothing else.

Each other check is linked by itself.
"""
from __future__ import annotations

import re

from tools.asking.checks import OF_LINKS, arguments_of, flags_of_link
from tools.asking.compiler import MAIN, Compiler, Flags
from tools.asking.evidence import gathered
from tools.asking.processes import NoAnswer

ROUNDS = 3  # links: each leaves out the libraries that the one before has missed
LENIENT = "-Wl,--allow-shlib-undefined"  # without it a link accepts less
LIBRARY = r"[A-Za-z0-9_][\w.+-]*"
# Arguments of the linker that make no link good that is bad without them.
STRICT = (r"-Wl,(?:-Bsymbolic(?:-functions)?|--(?:no-)?as-needed|--no-undefined|--(?:no-)?gc-sections|-O\d?"
          r"|-z,(?:relro|norelro|now|lazy|defs)|--hash-style=(?:gnu|sysv|both)|--build-id|--enable-new-dtags|--?version-script[,=][^,]+)")
MISSING = r"[^:]+: (?:error: )?(?:cannot find|unable to find library) -l([^\s:]+)(?:: No such file or directory)?"
ENDS = r"collect2: error: ld returned \d+ exit status|.*error: linker command failed .*"


def flags_to_link(key: str) -> Flags | None:
    """Returns the arguments of a check that can be linked together with others; none if it can't."""
    method, arguments = arguments_of(key)
    forms = {"find_library": LIBRARY, "has_link_argument": STRICT}
    return flags_of_link(method, arguments[0]) if method in OF_LINKS and re.fullmatch(forms[method], arguments[0]) else None


def link_together(compiler: Compiler, wanted: list[Flags]) -> None:
    """Notes which of these links are good. A good link also shows that the compiler works."""
    left = list(wanted)
    with gathered() as evidence:
        for _ in range(ROUNDS):
            words = dict.fromkeys(word for it in left for word in it.args if word != LENIENT)
            try:
                done = compiler.attempt("link", MAIN, Flags((*compiler.standard, *words)), hears=True)
            except NoAnswer:
                return
            if done.is_good:
                compiler.note_links(left, True, evidence)
                compiler.note_trial(evidence)
                return
            missing = missing_libraries(done.said)
            gone = [it for it in left if any(word in missing for word in it.args)]
            if not gone:
                return
            compiler.note_links(gone, False, evidence)
            left = [it for it in left if it not in gone]


def missing_libraries(said: str) -> set[str]:
    """Returns the arguments of the libraries that a link has missed; nothing if it says something else too."""
    lines = [it for it in said.split("\n") if it and not re.fullmatch(ENDS, it)]
    matches = [re.fullmatch(MISSING, it) for it in lines]
    return {"-l" + match[1] for match in matches if match} if all(matches) else set()
