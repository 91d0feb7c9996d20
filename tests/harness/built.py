"""Builds the program and the library for C and Python of this checkout, if needed."""
import os
import pathlib
import subprocess
import sys

CHECKOUT = pathlib.Path(__file__).resolve().parents[2]


def built_by(command: str, *words: str) -> str:
    """Returns what a command of the checkout prints that builds something."""
    done = subprocess.run([CHECKOUT / command, *words], stdout=subprocess.PIPE, text=True)
    if done.returncode != 0:
        sys.exit(f"{command}: nothing was built")
    return done.stdout


def program_of_checkout() -> pathlib.Path:
    """Returns the path of the program."""
    built_by("meson", "--help")
    return CHECKOUT / "crates/hawkottoman/out/hawkottoman"


def library_of_checkout() -> pathlib.Path:
    """Returns the path of libhawkottoman.so: the one that HAWKOTTOMAN_LIBRARY names, or that of this checkout."""
    return pathlib.Path(os.environ.get("HAWKOTTOMAN_LIBRARY") or built_by("tools/build-library").split()[-1]).resolve()
