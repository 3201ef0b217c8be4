"""The program that the tools and the gate's scripts try: the one that the gate built, or, while one tries what is not proved
yet, the file that the environment variable S38_PROGRAM names."""
import os
import pathlib
import subprocess

TOP = pathlib.Path(__file__).resolve().parent.parent.parent
BUILT = TOP / "crates" / "s38" / "out" / "s38"
NAMED = "S38_PROGRAM" in os.environ
PROGRAM = pathlib.Path(os.environ["S38_PROGRAM"]).resolve() if NAMED else BUILT


def built():
    """The status of a build by the script ./s38, which shows how where there is no program yet; 0 where another is named."""
    if NAMED:
        return 0
    build = subprocess.run([TOP / "s38", "/dev/null", "check"], stdin=subprocess.DEVNULL, stdout=subprocess.DEVNULL, timeout=7200)
    return build.returncode
