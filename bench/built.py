"""Builds the C programs of this folder with the system's compiler, into a temporary folder and each once in a run."""
import atexit
import functools
import os
import subprocess
import tempfile

HERE = os.path.dirname(os.path.realpath(__file__))


@functools.cache
def folder_of_programs() -> str:
    """Returns the folder, which goes when the run ends."""
    folder = tempfile.TemporaryDirectory()
    atexit.register(folder.cleanup)
    return folder.name


@functools.cache
def built(name: str) -> str:
    """Returns the path of the program whose source is NAME.c."""
    program = os.path.join(folder_of_programs(), name)
    compiler = os.environ.get("CC", "cc")
    subprocess.run([compiler, "-std=c11", "-O2", "-o", program, os.path.join(HERE, f"{name}.c")], check=True)
    return program
