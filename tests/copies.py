"""Copies the checkout's examples, for tests that work in them."""
import os
import shutil

CHECKOUT = os.path.dirname(os.path.dirname(os.path.realpath(__file__)))


def copy_of_example(name: str, place: str, checkout: str = CHECKOUT) -> None:
    """Copies the sources of an example, without what a session in the checkout has left there."""
    shutil.copytree(os.path.join(checkout, "examples", name), place, ignore=shutil.ignore_patterns("build", "native.ini"))
