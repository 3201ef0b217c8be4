"""What the tools share at a terminal: its width, a pager for what is long, files that are written whole or not at all, and how
a tool ends where it is interrupted or what reads it has gone."""
import os
import pathlib
import shutil
import subprocess
import sys
import tempfile

INTERRUPTED, NO_OUTPUT, NO_READER = 130, 74, 141


def width():
    """How wide the terminal is; nothing where it is none."""
    return shutil.get_terminal_size((0, 0)).columns if sys.stdout.isatty() else None


def fitted(line, most):
    """A line cut to the terminal."""
    return line if not most or len(line) <= most else line[:most - 2] + ".."


def pager():
    words = os.environ.get("PAGER", "less").split()
    found = bool(words) and shutil.which(words[0])
    if not found or words[0] == "cat":
        return None
    return [*words, "-FRX"] if words == ["less"] else words


def show(lines):
    """Prints lines; by a pager where there is a terminal that is too low for them."""
    text = "".join(line + "\n" for line in lines)
    if sys.stdout.isatty() and text.count("\n") >= shutil.get_terminal_size().lines and pager():
        with subprocess.Popen(pager(), stdin=subprocess.PIPE) as shown:
            try:
                shown.communicate(text.encode("utf-8"))
            except (BrokenPipeError, KeyboardInterrupt):
                pass
        return
    sys.stdout.write(text)
    sys.stdout.flush()


# ---- whole files

def whole_file(path, write):
    """Writes a new file beside a path by a function that is given it open, and puts it in the path's place when it is whole."""
    path = pathlib.Path(path)
    handle, name = tempfile.mkstemp(prefix=f".{path.name}.", dir=path.parent)
    try:
        with os.fdopen(handle, "wb") as file:
            write(file)
            file.flush()
            os.fsync(file.fileno())
        os.chmod(name, path.stat().st_mode & 0o777 if path.exists() else 0o666 & ~umask())
        os.replace(name, path)
    except BaseException:
        pathlib.Path(name).unlink(missing_ok=True)
        raise
    synced(path.parent)


def synced(folder):
    """Syncs a folder, where that can be done."""
    try:
        handle = os.open(folder, os.O_RDONLY)
        try:
            os.fsync(handle)
        finally:
            os.close(handle)
    except OSError:
        pass


def umask():
    now = os.umask(0)
    os.umask(now)
    return now


# ---- the end of a tool

def fault_said(fault):
    """An error of a file in words."""
    return f"{fault.filename}: {fault.strerror}" if fault.filename is not None else fault.strerror or str(fault)


def ended(name, main, words):
    """The status of a tool: one sentence and no traceback where a file fails, where it is interrupted, and where its output
    can't be written; nothing where what reads it has gone."""
    for stream in (sys.stdout, sys.stderr):
        if stream is not None and hasattr(stream, "reconfigure"):
            stream.reconfigure(encoding="utf-8", errors="replace", newline="\n")
    try:
        status = main(words)
        sys.stdout.flush()
        return status
    except KeyboardInterrupt:
        print(f"\n{name}: interrupted", file=sys.stderr)
        return silent(INTERRUPTED)
    except BrokenPipeError:
        return silent(NO_READER)
    except MemoryError:
        print(f"{name}: memory was refused", file=sys.stderr)
        return silent(71)
    except OSError as fault:
        print(f"{name}: {fault_said(fault)}", file=sys.stderr)
        return silent(NO_OUTPUT if fault.filename is None else 66)


def silent(status):
    """A status, where nothing more may be written to the standard output."""
    try:
        sys.stdout.flush()
    except (OSError, ValueError):
        os.dup2(os.open(os.devnull, os.O_WRONLY), 1)
    return status
