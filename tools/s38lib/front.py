"""What is said in front of the program and after it, on standard error, for the script ./s38:
front.py install STORE, front.py missing STORE, front.py ended STATUS STORE WORDS.., front.py version PROGRAM."""
import hashlib
import pathlib
import re
import signal
import subprocess
import sys
import time

sys.dont_write_bytecode = True
sys.path.insert(0, str(pathlib.Path(__file__).resolve().parent.parent))
from s38lib import ends, looks  # noqa: E402

TOP = pathlib.Path(__file__).resolve().parent.parent.parent
REFUSED = 73


def said(*sentences):
    for sentence in sentences:
        print(f"s38: {sentence}", file=sys.stderr)


def install(store):
    """Whether `install` may write the file: 0 where nothing in it would be lost, or it has a store, which is refused."""
    path = pathlib.Path(store)
    try:
        if not path.exists() or not path.is_file() or looks.has_label(path) or looks.is_zeros(path):
            return 0
        how = looks.looks(path)
    except OSError as fault:
        said(f"{store}: {fault.strerror}")
        return 4
    said(f"{store} is no store, and is not empty: it looks like {how}. It stays as it is",
         f"next: name another file for the new store; or, to write over this one, ./s38 {store} install --over")
    return REFUSED


def missing(store):
    """A file that is not there, and what may have been meant."""
    folder = pathlib.Path(store).parent
    first = "" if folder.is_dir() else f"mkdir -p {folder}, and then "
    said(looks.missing(store), f"next: {first}./s38 {store} install makes a store there, and tools/first-store {store} one for the decks of the pages")
    return 0


def ended(status, store, words):
    said(*ends.status_said(int(status), store, words))
    return 0


# ---- the version

def asked(words, folder=None):
    """What a command prints, or nothing."""
    try:
        done = subprocess.run(words, stdin=subprocess.DEVNULL, capture_output=True, encoding="utf-8", cwd=folder, timeout=30)
    except (OSError, subprocess.TimeoutExpired):
        return None
    return done.stdout.strip() if done.returncode == 0 else None


def commit():
    """The commit of the repository, or that of which a package was made."""
    noted = TOP / "VERSION"
    if noted.is_file():
        return noted.read_text(encoding="utf-8").strip()
    if not (TOP / ".git").exists():
        return "commit unknown (no .git here)"
    found = asked(["git", "log", "-1", "--format=commit %h of %cs"], TOP)
    changed = asked(["git", "status", "--porcelain", "--untracked-files=no"], TOP)
    return (found or "commit unknown (no git here)") + (", and changes since" if changed else "")


def kit():
    """The kit and its logic: those that rt tells, and else those that README.md names."""
    noted = TOP / "KIT"
    found = noted.read_text(encoding="utf-8").strip() if noted.is_file() else asked(["rt", "version"])
    if found:
        return found
    page = TOP / "README.md"
    named = re.search(r"`(rattle-kit-\w+)`, whose logic is `(\w+)`", page.read_text(encoding="utf-8")) if page.is_file() else None
    return f"{named[1]} logic {named[2]} (by README.md; no rt here)" if named else "unknown (no rt here)"


def program(path):
    """The program, when it was built, and its checksum."""
    path = pathlib.Path(path)
    if not path.is_file():
        return f"not built yet ({path})"
    when = time.strftime("%Y-%m-%d %H:%M", time.localtime(path.stat().st_mtime))
    return f"{path}, of {when}, SHA-256 {hashlib.sha256(path.read_bytes()).hexdigest()}"


def version(path):
    print(f"s38, {commit()}\nprogram: {program(path)}\nkit: {kit()}")
    return 0


def main(words):
    calls = {"install": install, "missing": missing, "version": version, "ended": lambda status, store, *rest: ended(status, store, rest)}
    return calls[words[0]](*words[1:])


if __name__ == "__main__":
    if hasattr(signal, "SIGPIPE"):
        signal.signal(signal.SIGPIPE, signal.SIG_DFL)
    sys.stderr.reconfigure(encoding="utf-8", errors="replace")
    try:
        sys.exit(main(sys.argv[1:]))
    except KeyboardInterrupt:
        sys.exit(130)
