"""Prints the targets, tests, options and other parts of a configured folder as JSON, for other programs.

It reads BUILDDIR/meson-info/introspect.json. If you name one part, it prints that part. If you name several, it prints
an object with these keys, and without a name all of it. The folder is configured again first, as by `meson compile`.

Exit status: 0; 1 if the folder is not configured or the output can't be written; 4 for a bad command line; 130 if it was
interrupted.
"""
from __future__ import annotations

from tools.command_line import Parser
from tools.document import PARTS, read_content
from tools.ending import run_script, write
from tools.light_json import dumps
from tools.setup_arguments import check_is_new, configure_again, has_words

FAILED, BAD_WORDS = 1, 4


def text_of(value: object, indent: int | None) -> str:
    """Returns a value as JSON: in one line, or in lines that are indented by so many blanks for each level."""
    if indent is None:
        return dumps(value, has_blanks=True)
    import json
    return json.dumps(value, indent=indent)


def main() -> int:
    parser = Parser("meson introspect", __doc__ or "", BAD_WORDS)
    parser.add_argument("folder", metavar="BUILDDIR", nargs="?", default=".",
                        help="the folder that `meson setup` configured (default: the present one)")
    for part in PARTS:
        parser.add_argument("--" + part.replace("_", "-"), action="append_const", dest="parts", const=part,
                            help=f"print only the part {part}")
    parser.add_argument("-i", "--indent", type=int, metavar="N", help="one line for each value, indented by N blanks for each level")
    parser.add_argument("--no-rebuild", action="store_true", help="don't configure again; stop if a file has changed since")
    words = parser.parse_args()
    if not words.no_rebuild and has_words(words.folder):
        configure_again(words.folder, "nothing is printed", FAILED, shows_log=False)
    content = read_content(words.folder)
    if words.no_rebuild and has_words(words.folder):
        check_is_new(words.folder, content["buildsystem_files"])
    parts = list(dict.fromkeys(words.parts or content))
    shown = content[parts[0]] if words.parts and len(parts) == 1 else {part: content[part] for part in parts}
    write((text_of(shown, words.indent) + "\n").encode())
    return 0


def run() -> None:
    run_script("meson introspect", main, failed=FAILED)
