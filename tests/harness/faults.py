"""Builds the library faults.c with the system's C compiler; it makes calls of a program fail."""
import os
import subprocess


def faults_library(folder: str) -> str:
    """Returns the path of the library, built into this folder."""
    library = os.path.join(folder, "faults.so")
    source = os.path.join(os.path.dirname(os.path.realpath(__file__)), "faults.c")
    subprocess.run([os.environ.get("CC", "cc"), "-O1", "-shared", "-fPIC", "-o", library, source, "-ldl"], check=True)
    return library
