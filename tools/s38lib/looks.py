"""What a file looks like, in words, for those who named it where a store is wanted."""
import difflib
import os
import pathlib
import re
import stat

from .reading import NoStore, read_store
from .stores import BLOCK, FIRST_HOME, HEADER, LABEL

PIECE = 1 << 20
# How some files begin.
MARKS = ((b"\x7fELF", "a program"), (b"#!", "a script"), (b"\x1f\x8b", "a gzip file"), (b"PK\x03\x04", "a zip file"), (b"%PDF", "a PDF"),
         (b"\x89PNG", "a picture (PNG)"), (b"\xff\xd8\xff", "a picture (JPEG)"), (b"SQLite format 3", "a database of SQLite"),
         (b"\xfd7zXZ", "an xz file"), (b"BZh", "a bzip2 file"), (b"!<arch>", "an archive"), (b"\x28\xb5\x2f\xfd", "a zstd file"))


def is_zeros(path):
    """Whether a file has zeros alone, or nothing."""
    with open(path, "rb") as file:
        while True:
            data = file.read(PIECE)
            if not data:
                return True
            if data.count(0) != len(data):
                return False


def of_kind(mode):
    """What a file is that is no regular one, or nothing."""
    kinds = ((stat.S_ISDIR, "a folder"), (stat.S_ISFIFO, "a pipe"), (stat.S_ISSOCK, "a socket"), (stat.S_ISCHR, "a device"),
             (stat.S_ISBLK, "a block device, which tells no length"))
    return next((said for holds, said in kinds if holds(mode)), None)


def text_looks(data):
    """What a text is, by the line with which it begins: a deck, after its comments, a log, or another one."""
    lines = [line.strip() for line in data.decode("utf-8").split("\n") if line.strip()]
    line = next((line for line in lines if line[0] not in "*;"), "")
    if re.fullmatch(r"PROGRAM [A-Z][A-Z0-9]*.*|STAGE|JOB \S+ USER \S+ RUN .*", line, re.I):
        return "a deck"
    if re.fullmatch(r"JOB [0-9]+ \S+ USER \S+|DONE [0-9]+|BAD DECK [0-9]+ [0-9]|[0-9]+ [A-Z]+/[0-9A-F]{2}/\S+ IN [0-9]+ OWNER .*", line):
        return "a log"
    first = lines[0] if lines else ""
    return f"a text that begins with \"{first[:40]}{'..' if first[40:] else ''}\"" if first else "a text of blanks"


def data_looks(data):
    """What bytes look like that are no store."""
    if data[FIRST_HOME * BLOCK + 16:FIRST_HOME * BLOCK + 20] == HEADER:
        return "a store whose label is damaged, with its objects still there"
    found = next((said for mark, said in MARKS if data.startswith(mark)), None)
    if found:
        return found
    try:
        if not re.search(rb"[\x00-\x08\x0e-\x1f]", data[:65536]):
            return text_looks(data[:65536].decode("utf-8", "ignore").encode())
    except UnicodeDecodeError:
        pass
    return "a file of other bytes"


def looks(path):
    """What a file looks like, in words: 'a deck of 316 bytes'."""
    mode = os.stat(path).st_mode
    said = of_kind(mode)
    if said:
        return said
    size = os.stat(path).st_size
    if size == 0:
        return "empty"
    with open(path, "rb") as file:
        data = file.read((FIRST_HOME + 1) * BLOCK)
    if data.startswith(LABEL):
        return store_looks(path)
    if is_zeros(path):
        return f"a file of {size:,} zeros"
    return f"{data_looks(data)} ({size:,} bytes)"


def store_looks(path):
    try:
        store = read_store(path)
    except NoStore as fault:
        return f"a damaged store ({fault.line})"
    many = len(store.headers)
    return f"a store of {many} object{'s' * (many != 1)}" + (", and a damaged one" if store.fault else "")


# ---- names

def near_files(path):
    """Files whose names are near to one that is not there; those that have a store come first."""
    path = pathlib.Path(path)
    folder = path.parent
    try:
        names = [one.name for one in folder.iterdir() if one.is_file()]
    except OSError:
        return []
    found = difflib.get_close_matches(path.name, names, 5, 0.7)
    found += [name for name in names if name not in found and path.stem == pathlib.Path(name).stem]
    full = [str(folder / name) if str(folder) != "." or str(path).startswith("./") else name for name in found]
    return sorted(full, key=lambda name: not has_label(name))


def has_label(path):
    """Whether a file begins as a store does; not so where it can't be read."""
    try:
        with open(path, "rb") as file:
            return file.read(len(LABEL)) == LABEL
    except OSError:
        return False


def missing(path):
    """What is said of a file of a store that is not there."""
    path = pathlib.Path(path)
    if path.is_symlink():
        return f"the link {path} leads to no file"
    if not path.parent.is_dir():
        return f"there is no folder {path.parent}"
    near = near_files(path)
    return f"there is no file {path}" + (f"; did you mean {near[0]}?" if near else "")
