"""Lists arguments of the real Meson for `setup` and `configure`, and the right ones here in their place."""
from __future__ import annotations

# Options here, by their names there; and those that take no value.
OPTIONS = {it: it.replace("-", "_") for it in ("prefix", "bindir", "libdir", "includedir", "datadir", "mandir", "sysconfdir", "buildtype",
                                               "default-library", "auto-features", "optimization")}
OPTIONS["warnlevel"] = "warning_level"
FLAGS = {"debug": "-Ddebug=true", "werror": "-Dwerror=true"}
# Folders that are options of projects only.
OTHER_FOLDERS = ("localstatedir", "sharedstatedir", "libexecdir", "sbindir", "localedir", "infodir", "licensedir")
# The options that have no effect here, and why; then those of them that take no value.
NO_EFFECT = {**{it: f"only a project that has such an option takes it, as -D{it}=.." for it in OTHER_FOLDERS},
             "wrap-mode": "there are no subprojects", "backend": "Ninja is the only backend"}
NO_EFFECT_FLAGS = {"reconfigure": "a second setup of a folder configures it again", "wipe": "nothing in a build directory is needed again",
                   "fatal-meson-warnings": "there are no such warnings"}
LEFT_OUT = {"cross-file": "cross builds are left out; the machine file of this machine is --native-file"}


def named_in(words: list[str]) -> tuple[str, str, list[str]]:
    """Returns the first argument of the real Meson among words of `setup`, without its dashes, its value, and the words that are none."""
    takes_value, rest = {**OPTIONS, **NO_EFFECT, **LEFT_OUT}, []
    found, waiting = ("", ""), iter(words)
    for word in waiting:
        name, sign, value = word.removeprefix("--").partition("=")
        if not word.startswith("--") or name not in {**takes_value, **FLAGS, **NO_EFFECT_FLAGS}:
            rest.append(word)
            continue
        if name in takes_value and not sign:
            value = next(waiting, "")
        found = found if found[0] else (name, value)
    return *found, rest
