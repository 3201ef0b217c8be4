"""What a store says of its objects, in words: for tools/show, and to compare two stores object by object."""
import difflib

from . import bodies
from .values import rights_of, scalar, text_of

SPECIALS = {0: "NONE", 0x80: "ALLOBJ", 0x40: "PROFILE", 0xC0: "ALLOBJ+PROFILE"}
ALLOBJ = 0x80
MOST_NEW = 12  # how many facts of a new object a difference has


def letters(data):
    """Bytes as text where they are text in EBCDIC, and else in hexadecimal, with their letters beside them where there are some."""
    if not data:
        return "''"
    text = text_of(data)
    if text is not None:
        return f"'{text}'"
    seen = "".join(char if " " <= char <= "~" else "." for char in data.decode("cp037"))
    return f"X'{data.hex().upper()}'" + (f" |{seen}|" if len(seen.replace(".", "")) * 2 >= len(seen) else "")


class Facts:
    """What is said of an object: facts by their label, and lists by the name of what they list."""

    def __init__(self):
        self.said, self.lists = {}, {}


def entry_told(fields, data):
    """An entry of a data space by its fields."""
    return ", ".join(map(scalar, bodies.fields_of(fields, data), fields))


def pointer_told(store, one):
    name = store.name(one.number) if one.number in store.headers else f"object {one.number}, which is not there"
    if one.kind == "system":
        return f"pointer to {name}" + (f" that carries {rights_of(one.rights)}" if one.rights else "")
    return f"{one.kind} pointer to byte {one.offset} of {name}" + (f" as {one.attribute}" if one.kind == "data" else "")


def journal_told(store, entry):
    """An entry of a journal in words."""
    said = f"{entry.kind} by job {entry.process}, " + (f"unit {entry.unit}" if entry.unit else "no unit")
    if entry.kind in ("commit", "decommit"):
        return said
    space = store.objects.get(entry.object)
    fields = space.body.fields if space and space.kind == "DATASPACE" else None
    size = sum(map(bodies.length_of, fields)) if fields else None
    shown = [entry_told(fields, data) if len(data) == size else letters(data) if data else "nothing" for data in (entry.before, entry.after)]
    return f"{said}, entry {entry.ordinal} of {store.name(entry.object)}: {shown[0]} -> {shown[1]}"


# ---- each kind

def of_program(store, one, facts):
    facts.said["adopts"] = "its owner's rights" if one.body.template.adopts else "nothing"
    if one.body.template.propagates:
        facts.said["propagates"] = "these rights to the programs that it calls"
    facts.lists["line"] = one.body.text.rstrip("\n").split("\n")


def of_profile(store, one, facts):
    facts.said["special authorities"] = SPECIALS[one.body.specials]
    facts.said["page limit"] = f"{one.body.limit:,}"


def of_space(store, one, facts):
    data = one.body.data
    facts.said["length"] = f"{len(data):,} bytes"
    for at in range(0, len(data), bodies.CELL):
        cell = data[at:at + bodies.CELL]
        if at in one.body.pointers:
            facts.said[f"byte {at}"] = pointer_told(store, one.body.pointers[at])
        elif any(cell):
            seen = "".join(char if " " <= char <= "~" else "." for char in cell.decode("cp037"))
            facts.said[f"byte {at}"] = f"{cell.hex().upper()} |{seen}|"


def of_queue(store, one, facts):
    key = f", keys of {one.body.key} bytes" if one.body.key else ""
    facts.said["order"] = f"{one.body.order}{key}, messages to {one.body.longest:,} bytes"
    facts.lists["message"] = [(f"key {letters(key)}: " if one.body.key else "") + letters(text) for key, text in one.body.messages]


def of_index(store, one, facts):
    facts.said["longest entry"] = f"{one.body.longest} bytes"
    facts.lists["entry"] = [letters(entry) for entry in one.body.entries]


def of_dataspace(store, one, facts):
    facts.said["fields"] = "+".join(one.body.fields)
    journal = store.journal_of(one)
    if one.body.port:
        facts.said["journal port"] = store.name(one.body.port)
        facts.said["journal entries counted in"] = f"{one.body.sequence:,}"
    if journal and len(journal.body.entries) > one.body.sequence:
        facts.said["journal entries after these"] = f"{len(journal.body.entries) - one.body.sequence:,}; what is committed of them is shown as done"
    for ordinal, entry in enumerate(store.entries_now(one), 1):
        facts.said[f"entry {ordinal}"] = entry_told(one.body.fields, entry) if entry is not None else "deleted"


def of_cursor(store, one, facts):
    facts.said["data space"] = store.name(one.body.space)
    facts.said["commit block"] = store.name(one.body.block) if one.body.block else "none"
    facts.said["position"] = f"{one.body.position:,}"


def of_port(store, one, facts):
    facts.said["journal space"] = store.name(one.body.journal)


def of_journal(store, one, facts):
    for entry in one.body.entries:
        facts.said[f"journal entry {entry.sequence}"] = journal_told(store, entry)


def of_block(store, one, facts):
    facts.said["journal port"] = store.name(one.body.port)


KINDS = {"PROGRAM": of_program, "PROFILE": of_profile, "SPACE": of_space, "QUEUE": of_queue, "INDEX": of_index, "DATASPACE": of_dataspace,
         "CURSOR": of_cursor, "JPORT": of_port, "JSPACE": of_journal, "CBLOCK": of_block}


def place_told(store, one):
    """The context of an object."""
    return store.name(one.context) if one.context else "no context"


def facts_of(store, at):
    """What a store says of an object."""
    facts, one = Facts(), store.objects.get(at) or store.headers[at]
    facts.said["name"], facts.said["in"] = one.identification, place_told(store, one)
    facts.said["owner"], facts.said["public"] = store.name(one.owner), rights_of(one.public)
    for user, rights in one.rows.items():
        facts.said[f"rights of {store.name(user)}"] = rights_of(rights)
    if one.body is not None and one.kind in KINDS:
        KINDS[one.kind](store, one, facts)
    return facts


def size_told(store, one):
    """How much an object holds, in a word or two."""
    body, kind = one.body, one.kind
    if body is None:
        return "damaged"
    many = {"QUEUE": ("message", "messages"), "INDEX": ("entries",) * 2, "DATASPACE": ("entries",) * 2, "JSPACE": ("entries",) * 2}
    if kind in many:
        words = {"QUEUE": "message", "INDEX": "entry", "DATASPACE": "entry", "JSPACE": "journal entry"}[kind]
        entries = store.entries_now(one) if kind == "DATASPACE" else body.messages if kind == "QUEUE" else body.entries
        count = len([entry for entry in entries if entry is not None])
        return f"{count:,} {words if count == 1 else words[:-1] + 'ies' if words.endswith('y') else words + 's'}"
    return {"PROGRAM": lambda: f"{len(body.template.instructions):,} instructions", "SPACE": lambda: f"{len(body.data):,} bytes"}.get(kind, lambda: "-")()


# ---- differences

def of_lists(noun, before, after):
    """What differs in two lists."""
    for how, first, last, begin, end in difflib.SequenceMatcher(None, before, after, False).get_opcodes():
        if how != "equal":
            yield from (f"- {noun} {place + 1}: {before[place]}" for place in range(first, last))
            yield from (f"+ {noun} {place + 1}: {after[place]}" for place in range(begin, end))


def changes(before, after):
    """What differs in the facts of an object."""
    for label in [*before.said, *(label for label in after.said if label not in before.said)]:
        old, new = before.said.get(label), after.said.get(label)
        if old is None:
            yield f"+ {label}: {new}"
        elif new is None:
            yield f"- {label}: {old}"
        elif old != new:
            yield f"{label}: {old} -> {new}"
    for noun in {**before.lists, **after.lists}:
        yield from of_lists(noun, before.lists.get(noun, []), after.lists.get(noun, []))


def new_told(facts):
    """What is said of an object that is new: its facts, and the first of each list."""
    said = [f"{label}: {text}" for label, text in facts.said.items() if label not in ("name", "in", "owner")]
    yield from said[:MOST_NEW]
    if said[MOST_NEW:]:
        yield f".. and {len(said) - MOST_NEW:,} more"
    for noun, many in facts.lists.items():
        shown = many[:MOST_NEW] if noun != "line" else []
        yield from (f"{noun} {place}: {text}" for place, text in enumerate(shown, 1))
        if len(shown) < len(many):
            yield f"{'.. and ' if shown else ''}{len(many) - len(shown):,} {'more' if shown else noun + 's'}"


def difference(old, new):
    """What is other in a second store, object by object: a head and its lines."""
    if old.ceiling != new.ceiling:
        yield f"the ceiling of numbers: {old.ceiling} -> {new.ceiling}", []
    for at in sorted({*old.headers, *new.headers}):
        if at not in new.headers:
            yield f"- {told(old, at)}", []
        elif at not in old.headers:
            yield f"+ {told(new, at)}", list(new_told(facts_of(new, at)))
        elif bodies_differ(old, new, at):
            lines = list(changes(facts_of(old, at), facts_of(new, at)))
            if lines or (at in old.faults) != (at in new.faults):
                yield f"~ {told(new, at)}", lines or ["it is damaged in one of the stores"]


def bodies_differ(old, new, at):
    """Whether the pages of an object differ, or those of what it names may."""
    mine, others = old.pages[at], new.pages[at]
    return {part: (page.tags, page.page) for part, page in mine.items()} != {part: (page.tags, page.page) for part, page in others.items()}


def told(store, at):
    one = store.headers[at]
    return f"{at} {one.identification} in {place_told(store, one)}, owner {store.name(one.owner)}"


# ---- rights

def is_all(store, user):
    one = store.objects.get(user)
    return bool(one and one.kind == "PROFILE" and one.body.specials & ALLOBJ)


def ways(store, one, user):
    """The rights that a user has on an object, and whence: the bits of each way."""
    found = {}
    if is_all(store, user):
        found["ALLOBJ"] = 0xFF
    if one.rows.get(user):
        found["its row"] = one.rows[user]
    if one.public:
        found["public"] = one.public
    return found


def available(store, one, user):
    bits = 0
    for more in ways(store, one, user).values():
        bits |= more
    return bits


def pages_owned(store, user):
    """How many pages a user owns: one for each object, and for a space one more for each 512 bytes begun."""
    owned = [one for one in store.objects.values() if one.owner == user]
    return sum(1 + (-(-len(one.body.data) // 512) if one.kind == "SPACE" else 0) for one in owned)
