"""Makes folders for temporary files, as `tempfile` does in ten times the time."""
from __future__ import annotations

import errno
import os

TYPE_CHECKING = False
if TYPE_CHECKING:
    from types import TracebackType

VARIABLES, PLACES = ("TMPDIR", "TEMP", "TMP"), ("/tmp", "/var/tmp", "/usr/tmp", ".")


class ScratchFolder:
    """Makes a folder of this user in another one, and removes it at the end of a block with all that is in it."""

    def __init__(self, above: str | None = None) -> None:
        self.path = os.path.join(place_of_folders() if above is None else above, "tmp" + os.urandom(8).hex())

    def __enter__(self) -> str:
        try:
            os.mkdir(self.path, 0o700)
            return self.path
        except OSError:
            raise
        except BaseException:  # of a signal that came since it was made
            self.remove()
            raise

    def __exit__(self, kind: type[BaseException] | None, fault: BaseException | None, trace: TracebackType | None) -> None:
        try:
            remove_folder(self.path)
        except OSError:
            self.remove()
        except BaseException:  # of a signal; no second one is heeded
            self.remove()
            raise

    def remove(self) -> None:
        """Removes what can be removed."""
        import shutil
        shutil.rmtree(self.path, ignore_errors=True)


def place_of_folders() -> str:
    """Returns the folder in which temporary files are made."""
    named = [os.environ[it] for it in VARIABLES if os.environ.get(it)]
    for it in map(os.path.abspath, [*named, *PLACES]):
        if os.path.isdir(it) and os.access(it, os.W_OK | os.X_OK):
            return it
    raise FileNotFoundError(errno.ENOENT, "there is no folder for temporary files", "TMPDIR")


def remove_folder(path: str) -> None:
    """Removes a folder with all that is in it, and follows no link."""
    with os.scandir(path) as found:
        for it in found:
            if it.is_dir(follow_symlinks=False):
                remove_folder(it.path)
            else:
                os.unlink(it.path)
    os.rmdir(path)
