"""The lock of a store's file: as long as a run has it nobody else reads it, and as long as a tool reads it no run begins."""
import contextlib
import pathlib
import stat
import time

from .reading import BLOCKS, NoStore
from .stores import BLOCK

try:
    import fcntl
except ImportError:  # a system without such locks
    fcntl = None

PATIENCE = 1.0


class Busy(Exception):
    """Another one has the file."""


def lock(file, how):
    """Locks a file, with some patience for those who have it for a moment."""
    until = time.monotonic() + PATIENCE
    while fcntl is not None:
        try:
            fcntl.flock(file, how | fcntl.LOCK_NB)
            return
        except BlockingIOError:
            if time.monotonic() > until:
                raise Busy from None
            time.sleep(0.05)
        except OSError:
            return  # no locks on this file system, where the program holds nothing either


@contextlib.contextmanager
def held(path, alone=False):
    """A store's file open for reading, locked as long as it is; alone, so that no other tool reads it."""
    with open(path, "rb") as file:
        if not stat.S_ISREG(pathlib.Path(path).stat().st_mode):
            raise NoStore("DISK FAULT", f"{path} is no regular file")
        lock(file, fcntl.LOCK_EX if alone and fcntl else fcntl.LOCK_SH if fcntl else 0)
        yield file


def bytes_held(path):
    """The bytes of a store's file, read while no run has it."""
    with held(path) as file:
        return file.read(BLOCKS * BLOCK)
