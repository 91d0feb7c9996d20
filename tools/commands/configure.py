"""Shows the options of a configured folder, or configures one with other options.

    meson configure [BUILDDIR]
    meson configure [BUILDDIR] -Dname=value ..

Without options it shows all options of a configured folder: their values, defaults and choices, and what set them. With
options it changes what was given before, and sets up the folder again. If the folder is not configured yet, it is made:
then run this in the source directory, as `setup`.

It makes the machine file too, in BUILDDIR/meson-private/machine.ini, and makes it again each time: it answers only
what is new or has changed. What you filled in there stays if this machine has no answer. If another compiler or other flags
would be used than before, and CC, AR, CFLAGS, CPPFLAGS or LDFLAGS doesn't ask for that, it stops. With --native-file it
takes your machine file. It takes arguments of the real Meson too: --prefix=/usr is -Dprefix=/usr, and so on.

Exit status: that of `meson setup`; 1 if the machine file can't be made, 4 for a bad command line, 130 if it was
interrupted.
"""
from __future__ import annotations

import os

from tools.command_line import Parser
from tools.ending import CALLED, Stop, run_script, say
from tools.meson_arguments import FLAGS, NO_EFFECT, NO_EFFECT_FLAGS, OPTIONS
from tools.ninja import call
from tools.saved_machine_file import SavedMachineFile
from tools.setup_arguments import MACHINE_FILE, MESON, build_folder_of, has_words, is_pipe, machine_path, read_setup, settings_of

TYPE_CHECKING = False
if TYPE_CHECKING:
    from tools.command_line import Given

FAILED, BAD_WORDS = 1, 4
# The document of a configured folder.
DOCUMENT = "meson-info/introspect.json"
# The command `meson` names the program.
PROGRAM = os.environ.pop("HAWKOTTOMAN_PROGRAM", "")


def arguments() -> Given:
    parser = Parser("meson configure", __doc__ or "", BAD_WORDS)
    parser.add_argument("folder", metavar="BUILDDIR", nargs="?", default=".", help="the build directory (default: the present one)")
    parser.add_argument("-D", dest="words", metavar="NAME=VALUE", action="append", default=[], help="give an option this value")
    parser.add_argument("--native-file", metavar="FILE", help="a machine file of your own")
    for name in OPTIONS:
        parser.add_argument(f"--{name}", metavar="VALUE", help=f"-D{OPTIONS[name]}=VALUE")
    for name, word in FLAGS.items():
        parser.add_argument(f"--{name}", action="store_true", help=word)
    for name, why in NO_EFFECT.items():
        parser.add_argument(f"--{name}", metavar="VALUE", help=f"has no effect: {why}")
    for name, why in NO_EFFECT_FLAGS.items():
        parser.add_argument(f"--{name}", action="store_true", help=f"has no effect: {why}")
    given = parser.parse_args()
    value_of = lambda name: getattr(given, name.replace("-", "_"))
    for name, why in {**NO_EFFECT, **NO_EFFECT_FLAGS}.items():
        if value_of(name):
            say("meson configure", f"note: --{name} has no effect here: {why}")
    given.words = [f"-D{it}" for it in given.words]
    given.words += [f"-D{option}={value_of(name)}" for name, option in OPTIONS.items() if value_of(name) is not None]
    given.words += [word for name, word in FLAGS.items() if value_of(name)]
    return given


def merged(before: list[str], new: list[str]) -> list[str]:
    """Returns the settings of both; a new one replaces an old one of the same name."""
    name_of = lambda word: word.removeprefix("-D").removeprefix("=").partition("=")[0]
    names = {name_of(it) for it in new}
    return [*(it for it in before if name_of(it) not in names), *new]


def still_known(sources: str, settings: list[str]) -> list[str]:
    """Returns the saved settings without those of options that the project has no more, and says which these are."""
    from tools.option_table import BUILT_IN, declared
    own = declared(sources) if settings else None
    if own is None:
        return settings
    gone = [it for it in settings if it.partition("=")[0] not in {**BUILT_IN, **own}]
    for it in gone:
        say("meson configure", f"note: -D{it} of an earlier setup is left out: there is no such option now")
    return [it for it in settings if it not in gone]


def take_away(sources: str, folder: str) -> None:
    """Removes a folder that was made for a setup that failed."""
    try:
        os.unlink(os.path.join(sources, folder, MACHINE_FILE))
        os.rmdir(os.path.join(sources, folder, os.path.dirname(MACHINE_FILE)))
        os.rmdir(os.path.join(sources, folder))
    except OSError:
        pass  # something else is there


def check_folder(folder: str) -> None:
    """Stops before a file is written, if `setup` would refuse the folder."""
    parts = [it for it in folder.split("/") if it not in ("", ".")]
    if os.path.isabs(folder) or ".." in parts or not parts:
        where = " and name a folder below it" if os.path.exists("meson.build") else ""
        raise Stop(f"{folder}: is no configured folder, and no folder of a build can be made there: call this in the folder of the "
                   f"sources{where}: `meson configure build`", BAD_WORDS)
    if not os.path.exists("meson.build"):
        above = "; did you mean to run from ..?" if os.path.exists("../meson.build") else ""
        raise Stop(f"there is no meson.build here{above}")
    for name, why in (("meson.build", "holds a meson.build, so it is a folder of sources"),
                      ("meson-private/coredata.dat", "is a build folder of another Meson: take another folder")):
        if os.path.lexists(os.path.join(folder, name)):
            raise Stop(f"{folder}: {why}", 2)


def configure(given: Given) -> int:
    """Sets up the folder with the options that were given, now and before; returns the status."""
    is_known = has_words(given.folder)
    if not is_known:
        check_folder(given.folder)
    # A configured folder without the arguments of its setup is refused: else its options would be lost in silence.
    if is_known or os.path.exists(os.path.join(given.folder, DOCUMENT)):
        setup = read_setup(given.folder)
        sources, before, folder = setup.sources, setup.words, build_folder_of(setup.words) or ""
    else:
        sources, before, folder = os.getcwd(), [], given.folder
    is_new = not os.path.lexists(os.path.join(sources, folder))
    settings = merged([f"-D{it}" for it in still_known(sources, settings_of(before))], given.words)
    kept = SavedMachineFile(PROGRAM, sources, folder, settings)
    path = os.path.relpath(given.native_file, sources) if given.native_file else machine_path(before)
    if not path or not given.native_file and is_pipe(os.path.join(sources, path)):
        path = kept.path
    is_there = kept.refresh() if path == kept.path else True
    of_machine = ["--native-file", path] if is_there else []
    status = call([MESON, "setup", *settings, *of_machine, "--", folder], {**os.environ, "HAWKOTTOMAN_CALLED": CALLED}, cwd=sources)
    if status != 0 and is_new:
        take_away(sources, folder)
    return status


def main() -> int:
    given = arguments()
    if has_words(given.folder) and not given.words and given.native_file is None:
        from tools.option_table import show_options
        show_options(given.folder)
        return 0
    return configure(given)


def run() -> None:
    run_script("meson configure", main, failed=FAILED)
