"""Builds a configured folder and installs its files.

BUILDDIR/meson-info/introspect.json says what is installed, and where. DESTDIR, given by --destdir or in the environment,
is put before every path, as for a package. Programs and shared libraries get the mode 755, other files 644. The names by
which a shared library is found (libNAME.so, libNAME.so.1) are installed next to it as links. Folders of the build are
taken out of the places where a program looks for its libraries. If a custom target makes a folder, all that is below it
is installed; a link that leads out of the folder stays a link. Each file is written next to its place and renamed. The
folder is configured again first, as by `meson compile`. BUILDDIR/meson-logs/install-log.txt lists what was installed.

No file is installed outside of DESTDIR, or of `/` without one. Each `..` of a destination removes the part before it, as
text, and may not climb above the root. A link to a folder is followed if it leads to a place below DESTDIR, and refused
otherwise. All destinations are checked before anything is built or written.

Exit status: 0 if all was installed, 1 if something failed, 2 for a bad command line and for a destination outside of
DESTDIR, 130 if it was interrupted.
"""
from __future__ import annotations

import contextlib
import itertools
import os
import posixpath
from collections.abc import Callable, Iterator

from tools import elf
from tools.command_line import Parser
from tools.document import Document, read_document
from tools.ending import Stop, one_line, run_script, show
from tools.files import new_log, open_file, read_bytes
from tools.ninja import build, with_links
from tools.root import Outside, Root, write_file, write_link, write_pieces
from tools.setup_arguments import check_is_new, configure_again, has_words
from tools.variables import words_of

TYPE_CHECKING = False
if TYPE_CHECKING:
    from tools.command_line import Given

BAD_WORDS = 2
PIECE = 1 << 20  # bytes of a file that are copied at once
LINKED = ("executable", "shared library")


def arguments() -> Given:
    parser = Parser("meson install", __doc__ or "", BAD_WORDS)
    parser.add_folder()
    parser.add_argument("--destdir", metavar="DIR", default=os.environ.get("DESTDIR", ""),
                        help="a folder that is put before every path; a relative one is below the present folder (default: $DESTDIR)")
    parser.add_argument("--no-rebuild", action="store_true", help="don't configure and build first; stop if a file has changed since")
    parser.add_argument("--strip", action="store_true", help="strip programs and shared libraries")
    parser.add_argument("-n", "--dry-run", action="store_true", help="show what would be done, and do nothing")
    parser.add_argument("-q", "--quiet", action="store_true", help="don't list what is installed")
    return parser.parse_args()


def real_path(path: str) -> str:
    """Returns a path whose folder has no links."""
    return os.path.join(os.path.realpath(os.path.dirname(path)), os.path.basename(path))


def stripped(path: str, data: bytes | bytearray) -> bytes:
    import subprocess
    import tempfile
    with tempfile.TemporaryDirectory() as scratch:
        copy = os.path.join(scratch, "it")
        with open(copy, "wb") as it:
            it.write(data)
        if subprocess.run([*(words_of("STRIP") or ["strip"]), copy]).returncode != 0:
            raise Stop(f"{path}: was not stripped")
        with open(copy, "rb") as it:
            return it.read()


class Installation:
    """Installs the outputs and files of a build directory at their destinations."""

    def __init__(self, words: Given, document: Document) -> None:
        self.words, self.folder, self.root, self.log = words, os.path.realpath(words.folder), Root(words.destdir), []
        self.targets = {os.path.join(self.folder, output): it for it in document.targets for output in it["filename"]}
        self.library_folders = {posixpath.dirname(it["filename"][0]) for it in document.targets if it["type"] == "shared library"}
        self.installed = [(real_path(path), destination) for path, destination in document.installed.items()]

    def outputs(self) -> list[str]:
        """Returns the outputs of the build that are installed, and the links to them, as Ninja names them."""
        outputs = [os.path.relpath(path, self.folder) for path, _ in self.installed if path in self.targets]
        return with_links(self.folder, outputs)

    def type_of(self, path: str) -> str | None:
        return self.targets[path]["type"] if path in self.targets else None

    def name_of(self, path: str) -> str:
        return os.path.relpath(path, self.folder) if path.startswith(self.folder + os.sep) else path

    def link_names(self, path: str) -> list[str]:
        """Returns the names in the build that are links to a shared library, the shortest last."""
        folder = os.path.dirname(path)
        leads_there = lambda it: os.path.islink(it) and os.path.realpath(it) == os.path.realpath(path)
        names = (it for it in os.listdir(folder) if it.startswith(f"lib{self.targets[path]['name']}.so"))
        return sorted((it for it in names if leads_there(os.path.join(folder, it))), reverse=True)

    def links(self) -> Iterator[tuple[str, str, str]]:
        """Yields the links to installed shared libraries: for each the library, its destination, and the name that it leads to."""
        for path, destination in self.installed:
            before = os.path.basename(self.root.place(destination))
            # libX.so leads to libX.so.1, and that to the library.
            for name in self.link_names(path) if self.type_of(path) == "shared library" else []:
                yield path, os.path.join(os.path.dirname(destination), name), before
                before = name

    def check(self) -> None:
        """Stops if a destination is not below the root, before anything is written."""
        for path, destination in self.installed:
            with self.refusing(path, destination):
                self.root.check(destination)

    def run(self) -> None:
        absent = next((path for path, _ in self.installed if not os.path.isfile(path) and not os.path.isdir(path)), None)
        if absent and not self.words.dry_run:
            raise Stop(f"{absent}: there is no such file; it was not built, or moved since `meson setup`")
        self.check()
        try:
            for path, destination in self.installed:
                if os.path.isdir(path):
                    self.install_tree(path, destination)
                else:
                    self.install_file(path, destination)
            for path, destination, name in self.links() if not self.words.dry_run else []:
                self.say(f"Installing symlink pointing to {name} to {self.root.place(destination)}")
                self.put(path, destination, write_link(name))
        finally:
            self.write_log()

    def say(self, line: str) -> None:
        if not self.words.quiet:
            show(one_line(line))

    def install_tree(self, top: str, destination: str) -> None:
        """Installs a folder that a custom target makes, with all that is below it. A link out of the folder stays a link."""
        for folder, folders, names in os.walk(top):
            below = os.path.normpath(os.path.join(destination, os.path.relpath(folder, top)))
            self.put_folder(folder, below)
            folders.sort()
            for name in sorted(names + [it for it in folders if os.path.islink(os.path.join(folder, it))]):
                path, place = os.path.join(folder, name), os.path.join(below, name)
                is_inside = os.path.realpath(path).startswith(os.path.realpath(top) + os.sep)
                if os.path.isfile(path) and is_inside:
                    self.install_file(path, place)
                elif os.path.islink(path):
                    self.install_link(path, place)

    def put_folder(self, path: str, destination: str) -> None:
        if not self.words.dry_run:
            with self.refusing(path, destination):
                self.root.make_folder(destination)

    def install_link(self, path: str, destination: str) -> None:
        self.say(f"Installing {self.name_of(path)} to {os.path.dirname(self.root.place(destination))}")
        if not self.words.dry_run:
            self.put(path, destination, write_link(os.readlink(path)))

    def install_file(self, path: str, destination: str) -> None:
        self.say(f"Installing {self.name_of(path)} to {os.path.dirname(self.root.place(destination))}")
        if self.words.dry_run:
            return
        with open_file(path) as it:
            old = os.fstat(it.fileno())
            mode, times = 0o755 if old.st_mode & 0o111 else 0o644, (old.st_atime_ns, old.st_mtime_ns)
            first = it.read(len(elf.MAGIC))
            if self.type_of(path) in LINKED and first == elf.MAGIC:
                make = write_file(self.linked(path), mode, times)
            else:
                make = write_pieces(itertools.chain([first], iter(lambda: it.read(PIECE), b"")), mode, times)
            self.put(path, destination, make)

    def linked(self, path: str) -> bytes | bytearray:
        """Returns the bytes of a program or a shared library as it is installed."""
        data = bytearray(read_bytes(path))
        try:
            elf.drop_search(data, self.search_folders(path))
        except elf.NoElf:
            raise Stop(f"{path}: is an incomplete ELF file") from None
        return stripped(path, data) if self.words.strip else data

    def search_folders(self, path: str) -> set[str]:
        folder = posixpath.dirname(os.path.relpath(path, self.folder))
        relative = (posixpath.relpath(it or ".", folder or ".") for it in self.library_folders)
        return {"$ORIGIN" if it == "." else "$ORIGIN/" + it for it in relative}

    def put(self, path: str, destination: str, make: Callable[[int, str], None]) -> None:
        with self.refusing(path, destination):
            self.root.put(destination, make)
        self.log.append(self.root.place(destination))

    @contextlib.contextmanager
    def refusing(self, path: str, destination: str) -> Iterator[None]:
        """Names the file whose destination is refused or can't be written."""
        try:
            yield
        except Outside as error:
            raise Stop(f"{destination}: {error}; {self.name_of(path)} can't be installed there", BAD_WORDS) from None
        except OSError as error:
            raise Stop(f"{self.root.place(destination)}: {error.strerror}") from error

    def write_log(self) -> None:
        if self.words.dry_run:
            return
        with new_log(self.words.folder, "install-log.txt") as it:
            it.write(os.fsencode("# What was installed last.\n" + "".join(place + "\n" for place in self.log)))


def main() -> int:
    words = arguments()
    is_known, is_run = has_words(words.folder), not words.no_rebuild and not words.dry_run
    if is_known and is_run:
        configure_again(words.folder, "nothing was installed", 1)
    document = read_document(words.folder)
    if is_known and not is_run:
        check_is_new(words.folder, document.made_from, "--dry-run" if words.dry_run else "--no-rebuild")
    it = Installation(words, document)
    it.check()
    os.umask(0o022)
    if is_run:
        build(words.folder, ["all", *it.outputs()], [], "nothing was installed")
    it.run()
    return 0


def run() -> None:
    run_script("meson install", main, failed=1)
