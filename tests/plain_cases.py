"""Reads the plain-text cases of tests/porting and tests/explained: `== TITLE`, then directives with the lines below them."""
import dataclasses
import os
import sys

# The directives of tests/porting.
PORTING = ("in", "out", "file", "script", "becomes", "files", "words", "says", "fails", "real", "taken", "machine", "ends")


@dataclasses.dataclass
class Case:
    """Yields the word of each directive, the rest of its line, and the lines that are indented below it."""
    title: str
    place: str
    directives: list[tuple[str, str, str]]

    def all(self, word: str) -> list[tuple[str, str]]:
        return [(rest, lines) for name, rest, lines in self.directives if name == word]


def cases_of(path: str, words: tuple[str, ...]) -> list[Case]:
    """Returns the cases of a file, whose directives have these words."""
    cases: list[Case] = []
    shown = os.path.relpath(path)
    with open(path, encoding="utf-8") as it:
        for number, line in enumerate(it, 1):
            if line.startswith("== "):
                cases.append(Case(line[3:].strip(), f"{shown}:{number}", []))
            elif line.startswith("  ") or (line.strip() == "" and cases and cases[-1].directives):
                word, rest, lines = cases[-1].directives[-1]
                cases[-1].directives[-1] = word, rest, lines + line[2:].rstrip("\n") + "\n"
            elif line.strip() and not line.startswith("#"):
                word, _, rest = line.strip().partition(" ")
                if word not in words or not cases:
                    sys.exit(f"{shown}:{number}: there is no directive {word!r}")
                cases[-1].directives.append((word, rest, ""))
    for case in cases:
        case.directives = [(word, rest, lines.rstrip("\n") + "\n" if lines.strip() else "") for word, rest, lines in case.directives]
    return cases
