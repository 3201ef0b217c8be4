"""Shims over the calls of the C library that the program makes, which are preloaded: tools/shims/ has their sources. `memory`
refuses requests for memory, `watch` notes which files are opened, locked, read and written, and `slips` makes the program wrong
in the way that the environment variable S38_SLIP names, so that a test is seen to catch it."""
import os
import pathlib
import shutil
import subprocess

SOURCES = pathlib.Path(__file__).resolve().parent.parent / "shims"
COMPILERS = ("gcc", "cc", "clang")
SLIP = "S38_SLIP"


def compiler():
    """A compiler of C, or nothing."""
    return next((path for path in map(shutil.which, COMPILERS) if path), None)


def slipped():
    """The shim that makes the program wrong, if it is to be."""
    return ["slips"] if os.environ.get(SLIP) else []


def made(room, *names):
    """What is preloaded: these shims, compiled into a folder; a call goes to the first of them first."""
    for name in names:
        if not (room / f"{name}.so").exists():
            command = [compiler(), "-O2", "-shared", "-fPIC", "-o", room / f"{name}.so", SOURCES / f"{name}.c", "-ldl"]
            subprocess.run(command, check=True, stdin=subprocess.DEVNULL)
    return ":".join(str(room / f"{name}.so") for name in names)
