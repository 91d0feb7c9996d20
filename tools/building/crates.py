"""Lists the crates of the program and of the library for C. Says what each is made from and where, and how much time and memory its check
takes."""
import dataclasses
import functools
import hashlib
import pathlib

CHECKOUT = pathlib.Path(__file__).resolve().parents[2]
PROGRAM, LIBRARY = "hawkottoman", "hawkottoman_c"
OUT = CHECKOUT / "crates" / PROGRAM / "out"
LIBRARIES = OUT / "libraries"
# What is made of the crates that no other crate uses: the program, and the library for C without the toolchain's part.
MADE = {PROGRAM: OUT / PROGRAM, LIBRARY: CHECKOUT / "crates" / LIBRARY / "out" / f"lib{LIBRARY}.a"}
MEASURED = pathlib.Path(__file__).resolve().with_name("measured.txt")
CODE, DEFINITIONS = ".rt", ".antt"
SOURCES = ("src", "specs", "proofs")
# How the heading of a group in crates.txt begins of which only tests and measures make use.
TESTS = "# Tests"
MIB = 1 << 20
# What a check takes that nobody has measured, about: seconds and MiB of any, and of each line of code.
SECONDS, SECONDS_A_LINE = 60, 0.13
SIZE, SIZE_A_LINE = 1300, 0.5
# The share of the memory at its end that a check takes from the begin on, by what is loaded. The rest comes evenly.
FIRST_SHARE = 0.6
# What several processors do to a check: its seconds of loading stay, and this share of the others, if no share was measured. With MOST
# of them interp took 379 seconds where it took 900 with one. Each further one takes some of the memory again.
LOADING, ALONE, MOST = 20, 0.2, 4
SIZE_A_PROCESSOR = 0.25


@dataclasses.dataclass(eq=False)
class Crate:
    """Holds a crate: the libraries that crates.txt lists for it, the crates below it, and a digest of its files. Also holds what its check
    is guessed to take on one processor: seconds, if that was measured, and MiB at its end. `shared` is the share of these seconds that it
    took on MOST processors, if that was measured."""
    name: str
    listed: list[str]
    below: set[str]
    digest: str
    work: float
    size: float
    shared: float | None = None

    @property
    def folder(self) -> pathlib.Path:
        return CHECKOUT / "crates" / self.name

    @property
    def made(self) -> pathlib.Path:
        """Returns what is made of it: a folder with its statements, or the program, or the library for C."""
        return MADE.get(self.name, LIBRARIES / f"{self.name}.rlib")

    @property
    def checked(self) -> pathlib.Path:
        """Returns the library that `rt ci` makes of it, as `rt check` makes those of the crates below."""
        return self.folder / "out" / "rlib" / f"{self.name}.rlib"

    @property
    def stamp(self) -> pathlib.Path:
        """Returns the file that says what that was made from."""
        return LIBRARIES / f"{self.name}.stamp"

    @property
    def log(self) -> pathlib.Path:
        return OUT / f"build-{self.name}.log"

    def seconds(self, processors: int) -> float:
        """Returns how long its check is guessed to take by the clock with so many processors."""
        loading = min(LOADING, self.work)
        rest = self.work - loading
        if self.shared is None or not rest:
            alone = ALONE
        else:
            of_rest = (self.shared * self.work - loading) / rest
            alone = min(1, max(0, (of_rest - 1 / MOST) / (1 - 1 / MOST)))
        return loading + rest * (alone + (1 - alone) / processors)

    def bytes_at(self, share: float, processors: int = 1) -> float:
        """Returns the memory that its check is guessed to take once this share of it is done."""
        return self.size * (1 + SIZE_A_PROCESSOR * (processors - 1)) * MIB * (FIRST_SHARE + (1 - FIRST_SHARE) * min(share, 1))


def files_of(folder: pathlib.Path) -> list[pathlib.Path]:
    return sorted(path for part in SOURCES for path in (folder / part).rglob("*") if path.suffix in (CODE, DEFINITIONS))


def crates_below(name: str, listed: dict[str, list[str]]) -> set[str]:
    """Returns the crates of this repository that a crate uses."""
    found, waiting = set(), list(listed[name])
    while waiting:
        it = waiting.pop()
        if it in listed and it not in found:
            found.add(it)
            waiting += listed[it]
    return found


def crate_of(name: str, listed: dict[str, list[str]], measured: dict[str, list[float]]) -> Crate:
    folder, lines, digest = CHECKOUT / "crates" / name, 0, hashlib.sha256(" ".join(listed[name]).encode())
    for path in files_of(folder):
        content = path.read_bytes()
        lines += content.count(b"\n") if path.suffix == CODE else 0
        digest.update(f"\n{path.relative_to(folder)} {len(content)}\n".encode() + content)
    taken = measured.get(name, [SECONDS + SECONDS_A_LINE * lines, SIZE + SIZE_A_LINE * lines])
    return Crate(name, listed[name], crates_below(name, listed), digest.hexdigest(), *taken)


def rows_of(text: str) -> list[str]:
    """Returns the lines of a table that are no comments."""
    return [line for line in text.splitlines() if line.strip() and not line.startswith("#")]


def crates_listed() -> dict[str, list[str]]:
    """Returns the libraries that crates.txt lists for each crate, without what only tests make use of: its groups are set apart by empty
    lines."""
    groups = (CHECKOUT / "crates.txt").read_text().split("\n\n")
    # The product of a crate may follow its name.
    uses_of = [{name.split()[0]: uses.split() for name, _, uses in (row.partition(":") for row in rows_of(it))} for it in groups]
    of_tests = {name for group, uses in zip(groups, uses_of) if group.startswith(TESTS) for name in uses}
    return {name: [it for it in uses if it not in of_tests] for group in uses_of for name, uses in group.items() if name not in of_tests}


def crates_of(root: str = PROGRAM) -> dict[str, Crate]:
    """Returns the crate of the program, or that of the library, and those that it uses, by their names, as crates.txt lists them."""
    listed = crates_listed()
    measured = {name: [*map(float, numbers)] for name, *numbers in map(str.split, rows_of(MEASURED.read_text()))}
    needed = {root, *crates_below(root, listed)}
    return {name: crate_of(name, listed, measured) for name in listed if name in needed}


def checked_below(crates: dict[str, Crate], root: str) -> dict[str, pathlib.Path]:
    """Returns the libraries that checks have made of the crates below one, by their names; none unless all are there, and each is newer
    than what it is made from: its files, and the libraries below it."""
    def is_new(crate: Crate) -> bool:
        made_from = [*files_of(crate.folder), *(crates[it].checked for it in crate.listed if it in crates)]
        return all(it.exists() and it.stat().st_mtime <= crate.checked.stat().st_mtime for it in [crate.checked, *made_from])

    below = [crates[it] for it in sorted(crates[root].below)]
    return {it.name: it.checked for it in below} if all(it.checked.exists() and is_new(it) for it in below) else {}


def longest_way_first(crates: dict[str, Crate]) -> list[Crate]:
    """Returns the crates in the order of the work of the longest chain from each to the last, so each before those that use it."""
    @functools.cache
    def chain(name: str) -> float:
        return crates[name].work + max((chain(it.name) for it in crates.values() if name in it.listed), default=0)

    return sorted(crates.values(), key=lambda it: -chain(it.name))
