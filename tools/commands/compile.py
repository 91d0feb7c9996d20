"""Configures a folder again, as its last `meson setup` did, and builds it.

The arguments and the machine file are those of the last `meson setup` of the folder that succeeded; it has saved them in
BUILDDIR/meson-private/words. Outputs that stay the same keep their time, so nothing is built twice. Then Ninja builds
the default targets, or those that are named: by name, by folder and name, or by an output. If several have one name, add
`:executable`, `:shared_library`, `:static_library` or `:custom` to it.

Exit status: 0 if all was built; that of Ninja if it failed or was interrupted; 1 if the folder is not configured; 4 for
a bad command line; 130 if the command was interrupted before; the status of `meson setup` if that is not 0, and then
nothing is built.
"""
from __future__ import annotations

import posixpath

from tools.command_line import Parser, check_folder, meant
from tools.document import Document, read_document
from tools.ending import Stop, run_script
from tools.ninja import build, call, find_ninja, with_links
from tools.setup_arguments import configure_again
from tools.variables import words_in

TYPE_CHECKING = False
if TYPE_CHECKING:
    from tools.command_line import Given
    from tools.document import Target

SCRIPT, FAILED, BAD_WORDS = "meson compile", 1, 4


def arguments() -> Given:
    parser = Parser(SCRIPT, __doc__ or "", BAD_WORDS)
    parser.add_folder()
    parser.add_argument("targets", metavar="TARGET", nargs="*", help="build only these")
    parser.add_argument("-j", "--jobs", type=int, help="how many commands run at once (default: that of Ninja)")
    parser.add_argument("-v", "--verbose", action="store_true", help="show whole commands")
    parser.add_argument("--clean", action="store_true", help="remove what was built, and build nothing")
    parser.add_argument("--ninja-args", metavar="WORDS", default="", help="further arguments for Ninja, with blanks or commas between them")
    words = parser.parse_args()
    if words.jobs is not None and words.jobs < 1:
        parser.error("--jobs takes a number above 0")
    if words.clean and words.targets:
        parser.error("--clean takes no targets")
    words.ninja_args = words_in(without_commas(words.ninja_args), "--ninja-args")
    return words


def without_commas(given: str) -> str:
    """Returns the arguments for Ninja with blanks between them. The real Meson takes -n,-v and ['-k', '0'] too."""
    has_commas = given.startswith("[") or " " not in given
    return given.strip("[]").replace(",", " ") if has_commas else given


def kind_of(target: Target) -> str:
    return target["type"].replace(" ", "_")


def outputs_of(word: str, document: Document) -> list[str]:
    """Returns the outputs that a word names."""
    if any(word in target["filename"] for target in document.targets):
        return [word]
    folder_and_name = lambda target: posixpath.join(posixpath.dirname(target["defined_in"]), target["name"])
    named = lambda name: [it for it in document.targets if name in (it["name"], folder_and_name(it))]
    name, _, kind = word.rpartition(":")
    found = named(word) or [it for it in named(name) if kind_of(it) == kind]
    if not found:
        raise Stop(f"there is no target {word!r}" + (meant(SCRIPT, word) or "; `meson introspect --targets` shows them"))
    if len(found) > 1:
        which = " or ".join(sorted({it["filename"][0] for it in found}))
        raise Stop(f"the name {word!r} has more than one target: say {which}")
    return found[0]["filename"]


def main() -> int:
    words = arguments()
    check_folder(SCRIPT, words.folder, words.targets)
    if words.clean:
        return call([*find_ninja(), "-C", words.folder, *words.ninja_args, "-t", "clean"])
    configure_again(words.folder, "nothing was built")
    options = [*(["-j", str(words.jobs)] if words.jobs else []), *(["-v"] if words.verbose else []), *words.ninja_args]
    outputs = ["all"]
    if words.targets:
        document = read_document(words.folder)
        outputs = with_links(words.folder, [output for word in words.targets for output in outputs_of(word, document)])
    build(words.folder, outputs, options)
    return 0


def run() -> None:
    run_script(SCRIPT, main, failed=FAILED)
