"""Tests that each wrong body still fits the file that it changes, which a check shows only after minutes; tests/scripts runs this too."""
import glob
from importlib.machinery import SourceFileLoader
from importlib.util import module_from_spec, spec_from_loader
from types import ModuleType

from tests.workshop import CHECKOUT, check


def wrong_bodies() -> ModuleType:
    """Returns the command that tries them, which has no ending."""
    loader = SourceFileLoader("wrong_bodies", f"{CHECKOUT}/tests/wrong_bodies")
    made = module_from_spec(spec_from_loader(loader.name, loader))
    loader.exec_module(made)
    return made


def test_edits() -> None:
    edited = wrong_bodies().edited
    edits = sorted(glob.glob(f"{CHECKOUT}/crates/*/must-fail/*.edit") + glob.glob(f"{CHECKOUT}/crates/*/wrong/*.edit"))
    misfits = []
    for edit in edits:
        try:
            edited(edit.rsplit("/", 2)[0], edit)
        except (OSError, ValueError) as error:
            misfits.append(f"{edit}: {error}")
    check("wrong bodies: each names a text that stands once in its file", edits and not misfits, "\n".join(misfits))


TESTS = (test_edits,)
