"""The house as data: its crates by groups, the functions that a crate offers with their clauses, and the definitions of a
file of specs/ with the names that each uses."""
import functools
import os
import pathlib
import re

TOP = pathlib.Path(__file__).resolve().parent.parent.parent
CRATES = TOP / "crates"
TESTS = re.compile(r"s38_tests_\w+")


# ---- crates

@functools.lru_cache(None)
def groups():
    """The groups of crates.txt in order: each head, and its crates with what they use."""
    found = [("", {})]
    for line in (TOP / "crates.txt").read_text(encoding="utf-8").splitlines():
        if line.startswith("#"):
            found.append((line[1:].strip(), {}))
        elif line.strip():
            name, _, uses = line.partition(":")
            found[-1][1][name.strip()] = uses.split()
    return [group for group in found if group[1]]


def uses():
    """Each crate with what it uses."""
    return {name: others for _, members in groups() for name, others in members.items()}


def is_tests(crate):
    """Whether a crate is tests alone."""
    return bool(TESTS.fullmatch(crate))


def pages():
    """The pages: README.md, those of docs/, and those for developers in docs/internals/."""
    return [TOP / "README.md", *sorted(TOP.glob("docs/*.md")), *sorted(TOP.glob("docs/internals/*.md"))]


@functools.lru_cache(None)
def text(path):
    return path.read_text(encoding="utf-8")


@functools.lru_cache(None)
def sources(crate, kind):
    """The files of a crate's src/, specs/ or proofs/, in order."""
    ending = ".rt" if kind == "src" else ".antt"
    found = [pathlib.Path(folder, name) for folder, _, names in os.walk(CRATES / crate / kind) for name in names]
    return sorted(path for path in found if path.suffix == ending)


@functools.lru_cache(None)
def words_of(path):
    """The words of a file."""
    return frozenset(re.findall(r"[\w']+", text(path)))


def full_lines(path):
    """How many lines of a file are not blank."""
    return sum(bool(line.strip()) for line in text(path).splitlines())


# ---- functions

CLAUSE = re.compile(r"\s*(?:(requires|ensures|decreases|invariant)\*?(?:[ \t]+([\w-]+))?\s*)?([{;])")
HEAD = re.compile(r"^((?:[ \t]*(?:///.*|#\[.*\])\n)*)([ \t]*)(pub(?:\([^)]*\))? )?(?:const )?(?:unsafe )?fn (\w+)", re.M)
BLOCK = re.compile(r"^(pub )?(trait|impl)\b([^{;]*)\{\n(.*?)^\}", re.M | re.S)
TESTED = re.compile(r"^#\[cfg\(test\)\]\n(?:pub )?mod \w+ \{\n.*?^\}\n", re.M | re.S)


def without_comments(code):
    """Code in which each comment, but for docstrings, is blank."""
    return re.sub(r"(?<!/)//(?![/!]).*", lambda found: " " * len(found[0]), code)


def end_of(code, at):
    """Where the braces end that begin here."""
    depth = 0
    for place in range(at, len(code)):
        depth += {"{": 1, "}": -1}.get(code[place], 0)
        if depth == 0:
            return place + 1
    return len(code)


def clauses(code, at):
    """The clauses that follow a function's signature, which goes on here: of each its word, its label or '', and its text."""
    found = []
    at = re.compile(r"\{|;|(?=\b(?:requires|ensures|decreases)\b)").search(code, at)
    at = at.start() if at else len(code)
    while True:
        clause = CLAUSE.match(code, at)
        if not clause or not clause[1]:
            return found
        begin = clause.end() - 1
        at = end_of(code, begin)
        found.append((clause[1], clause[2] or "", code[begin + 1:at - 1].strip()))


def first_sentence(doc):
    """The first sentence of the lines of a docstring."""
    words = " ".join(line.strip().removeprefix("///").removeprefix("//!").strip() for line in doc)
    ended = re.match(r"(.+?[.:])(?= [A-Z`]|$)", words)
    return (ended[1] if ended else words).rstrip(":.").strip()


def functions(path):
    """The functions of a file: of each the type or trait in whose block it is or '', the trait that the block meets or '',
    its name, whether others see it, its docstring's first sentence, and its clauses."""
    code = TESTED.sub("", without_comments(text(path)))
    blocks = [(block.start(4), block.end(4), block) for block in BLOCK.finditer(code)]
    for head in HEAD.finditer(code):
        owner, met, seen = "", "", head[3] == "pub "
        for begin, end, block in blocks:
            if begin <= head.start(4) < end:
                owner, met = owner_of(block)
                seen = seen or (block[2] == "trait" and bool(block[1])) or bool(met)
        doc = [line for line in head[1].splitlines() if line.strip().startswith("///")]
        if "#[test]" not in head[1]:
            yield owner, met, head[4], seen, first_sentence(doc), clauses(code, head.end())


def bare_name(words):
    """The name of a type or trait without its parameters and its path."""
    return re.split(r"[<:\s]", words.strip().removeprefix("dyn ").split("::")[-1].strip() or " ", maxsplit=1)[0]


def owner_of(block):
    """The type or trait of a block, and the trait that it meets."""
    words = re.sub(r"\bwhere\b.*", "", block[3], flags=re.S).strip()
    while words.startswith("<"):
        depth = 0
        for place, sign in enumerate(words):
            depth += {"<": 1, ">": -1}.get(sign, 0)
            if depth == 0:
                break
        words = words[place + 1:].strip()
    met, found, owner = words.partition(" for ")
    return (bare_name(owner), bare_name(met)) if found else (bare_name(met), "")


@functools.lru_cache(None)
def offered(crate):
    """The names that a crate offers, by the `pub use` lines of its lib.rt and of the modules that are public there; of a
    program all that its modules offer one another."""
    if not (CRATES / crate / "src" / "lib.rt").is_file():
        return {name for path in sources(crate, "src") for name in re.findall(r"^pub (?:fn|struct|enum|trait) (\w+)", text(path), re.M)}
    names, waiting = set(), ["lib"]
    while waiting:
        module = waiting.pop()
        path = CRATES / crate / "src" / f"{module}.rt"
        if not path.is_file():
            continue
        for used in re.findall(r"^pub use ([^;]*);", text(path), re.M):
            names |= set(re.findall(r"\w+", used.split("::", 1)[1] if "::" in used else used))
        folder = "" if module == "lib" else f"{module}/"
        public = re.findall(r"^pub mod (\w+);", text(path), re.M)
        waiting += [folder + one for one in public]
        if module != "lib":
            names |= set(re.findall(r"^pub (?:fn|struct|enum|trait) (\w+)", text(path), re.M))
        else:
            names |= set(re.findall(r"^pub fn (\w+)", text(path), re.M))
    return names


# ---- definitions

SIGNATURE = re.compile(r"(?:unfoldable |abbrev )*(?:pub )?([\w'◌>=<+*∷≡-]+) : ")
TYPE = re.compile(r"(?:unfoldable |abbrev )*(?:pub )?(record|data) ([\w'-]+)")
WORD = re.compile(r"(?<![\w'.◌-])[\w'◌][\w'◌>=<-]*(?:\.[\w'-]+)*")
USE = re.compile(r"^(?:ghost )?use Rattle\.(s38\w*)\.specs\.([\w.]+?)(?:\.\{([^}]*)\}| as ([\w-]+))?;?$", re.M)


@functools.lru_cache(None)
def items(path):
    """The definitions of a file: each name with the lines of its definition, also by the names of what a type of data is
    made by."""
    found, lines, names = {}, [], []
    for line in text(path).splitlines():
        if line.startswith("use ") or not line.strip() or line.lstrip().startswith("--"):
            continue
        signed, typed = SIGNATURE.match(line), TYPE.match(line)
        if signed or typed:
            lines = []
            names = [typed[2] if typed else signed[1]]
            found[names[0]] = lines
        elif typed_here(names, found) and (made := re.match(r"\s+([\w'-]+) : ", line)):
            found[made[1]] = lines
        lines.append(line)
    return found


def typed_here(names, found):
    """Whether the definition that goes on is a type of data."""
    return bool(names) and bool(found[names[0]]) and re.match(r"(?:unfoldable |abbrev )*(?:pub )?data ", found[names[0]][0]) is not None


def file_of(crate, module):
    """The file of a module of specs/, if there is one."""
    path = CRATES / crate / "specs" / (module.replace(".", "/") + ".antt")
    return path if path.is_file() else None


@functools.lru_cache(None)
def imports(path):
    """What a file imports from the house: its names, each with a file or None and the name there; and its other names of
    modules, each with its file or None. What is declared in src/ has no file."""
    names, modules = {}, {}
    for crate, module, listed, alias in USE.findall(text(path)):
        file = file_of(crate, module)
        if alias:
            modules[alias] = (file, f"{crate}.{module}")
        for one in filter(None, map(str.strip, listed.split(","))):
            there, _, here = one.partition(" as ")
            names[here.strip() or there] = (file, there, f"{crate}.{module}")
    return names, modules


def bound(line):
    """The names that a line binds: those left of its '=', those of its λ and those in (x : T)."""
    left, sign, _ = line.partition(" = ")
    names = set(re.findall(r"[\w'-]+", left)[1:]) if sign and not line.startswith(" ") else set()
    for group in re.findall(r"λ ([^.]*)\.", line) + re.findall(r"[({]((?:[\w'-]+ )+): ", line):
        names |= set(re.findall(r"[\w'-]+", group))
    return {name for name in names if not name[0].isupper()}


def named(lines):
    """The words of a definition that may be names of others."""
    words, held = set(), set()
    for line in lines:
        line = re.sub(r"^\s+(?:pub )?[\w'-]+ : ", " ", line)
        line = re.sub(r"([{;] *)[\w'-]+ = ", r"\1", line)
        here = bound(line)
        held = (here if not line.startswith(" ") else held | here)
        words |= {word for word in WORD.findall(line) if word.split(".")[0] not in held}
    return words
