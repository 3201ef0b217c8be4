"""Calls of the program by the tools: over a copy of a store that goes with the call."""
import contextlib
import os
import pathlib
import subprocess
import tempfile

from .program import PROGRAM

SECONDS = 3600


class NotBuilt(Exception):
    """There is no program to call."""


def program():
    """The program to call."""
    if not os.access(PROGRAM, os.X_OK):
        raise NotBuilt(f"the program is not built ({PROGRAM}); ./s38 builds it, or S38_PROGRAM names another one")
    return PROGRAM


def call(path, words, deck=b""):
    """The status of a call, and what it wrote."""
    done = subprocess.run([program(), str(path), *words], input=deck, stdout=subprocess.PIPE, timeout=SECONDS)
    return done.returncode, done.stdout.decode("utf-8", "replace")


@contextlib.contextmanager
def copy_of(data):
    """A file with the bytes of a store, which goes when it is done."""
    with tempfile.TemporaryDirectory(prefix="s38-copy-") as room:
        path = pathlib.Path(room) / "store"
        path.write_bytes(data)
        yield path
