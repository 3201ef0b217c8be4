"""Why an entry of a log was permitted or refused: the rights that it needed, and whence they came."""
from . import pages
from .authority import OWNING, SPECIAL, Authority, bits_of, needs_of, of_store
from .deck import split_act
from .reading import Store
from .stores import first_store
from .values import rights_of


def authorities(story, store=None):
    """The rights before the run: those of a store, or of the first store."""
    return Authority(story, of_store(store or Store(first_store())))


def need_told(authority, step, place, right):
    """What is said of one right that was needed."""
    mnemonic, _, operands = split_act(step.text)
    at = authority.object_at(step, place)
    where = f"operand {place}, {operands[place - 1]}" if place else "which no operand names"
    if not authority.is_known(at):
        in_space = place and authority.story.is_based(step, operands[place - 1])
        why = "whose pointer is in a space, and which the log does not tell" if in_space else "that the log does not tell"
        return f"needs {right} on an object {why} ({where})"
    ways, missing = authority.ways(step, at, bits_of(right))
    head = f"needs {right} on {authority.story.name(int(at))} ({where})"
    if missing:
        one = authority.rights[int(at)]
        rows = ", ".join(f"{authority.story.name(user).rpartition('/')[2]} {rights_of(bits)}" for user, bits in one.rows.items() if bits)
        who = " and ".join(step.acting)
        return f"{head}: not there: the pointer carries {rights_of(getattr(at, 'rights', 0))}, public is {rights_of(one.public)}, " \
               f"private rows are {rows or 'none'}, and {who} act{'s' * (len(step.acting) == 1)}"
    return f"{head}: there: {'; '.join(ways)}"


def owning_told(authority, step):
    """What is said of an instruction that the owner of an object may do."""
    at = step.objects.get(1)
    if not authority.is_known(at):
        return f"{step.entry.name} is for the owner of an object that is not known here, for ALLOBJ, or for who has OBJMGT"
    owner = authority.rights[int(at)].owner
    name = authority.story.name(owner).rpartition("/")[2]
    if name in step.acting:
        return f"{name}, the owner of {authority.story.name(int(at))}, acts{authority.adopted(step, name)}"
    ways, _ = authority.ways(step, at, bits_of("ALL"))
    allobj = next((way for way in ways if "ALLOBJ" in way), None)
    return allobj or f"the owner of {authority.story.name(int(at))} is {name}, who does not act; {'; '.join(ways) or 'no right is there'}"


def special_told(authority, step):
    """What is said of an instruction that needs the special authority PROFILE."""
    for user in step.acting:
        number = authority.number_of(user)
        if number is not None and authority.rights[number].specials & 0x40:
            return f"needs the special authority PROFILE: {user} has it{authority.adopted(step, user)}"
    return f"needs the special authority PROFILE: {' and '.join(step.acting)} {'has' if not step.acting[1:] else 'have'} it not"


def resolved_told(authority, step):
    """What is said of RSLVSP: RETRIEVE on the context where it is found by *LIST, and AUTPTR and the named rights on what is found."""
    operands, told = split_act(step.text)[2], []
    at = authority.resolved(step, operands[2])
    if at is None:
        return ["what it names is not known here"] if not step.entry.code else []
    context = authority.rights[at].context
    if operands[1] == "*LIST" and authority.is_known(context):
        ways, missing = authority.ways(step, context, bits_of("RETRIEVE"))
        told.append(f"needs RETRIEVE on {authority.story.name(context)}, in which it is: {'not there' if missing else 'there: ' + '; '.join(ways)}")
    if operands[3] != "NONE":
        wanted = bits_of(operands[3]) | bits_of("AUTPTR")
        ways, missing = authority.ways(step, at, wanted)
        said = f"missing {rights_of(missing)}; {'; '.join(ways) or 'none of them is there'}" if missing else "there: " + "; ".join(ways)
        told.append(f"needs {rights_of(wanted)} on {authority.story.name(at)}, which it finds: {said}")
    return told


def acting_told(step):
    if not step.acting[1:]:
        return f"{step.acting[0]} acts"
    return f"{step.acting[0]} acts, and {' and '.join(step.acting[1:])}, as the owner of a program that adopts"


def refused_told(step):
    """What the pages say of the code of an entry."""
    entry = pages.codes().get(step.entry.code)
    if entry is None:
        return ["its code is one of the program's own"]
    return [f"{entry.name}: {entry.meaning}", f"usual cause: {entry.usual}", f"cure: {entry.cure}"]


def reasons(authority, step):
    """Why an entry is what it is, line by line."""
    told = [f"entry {step.entry.position}, job {step.job.name}" + (f", line {', '.join(step.places)}" if step.lines else "")
            + f": {step.text or step.entry.name} -> {step.said}"]
    if step.text:
        told.append(acting_told(step))
        told += [need_told(authority, step, place, right) for place, right in needs_of(step.text)]
        if step.entry.name in OWNING:
            told.append(owning_told(authority, step))
        if step.entry.name in SPECIAL:
            told.append(special_told(authority, step))
        if step.entry.name == "RSLVSP":
            told += resolved_told(authority, step)
        if len(told) == 2:
            told.append("it needs no right")
    if step.waited:
        told.append(f"it waited from entry {step.waited} on")
    if step.ended_by:
        told.append(f"its wait ended by entry {step.ended_by.entry.position}: {step.ended_by.job.name} {step.ended_by.text or step.ended_by.entry.name}")
    return [told[0], *(f"  {line}" for line in [*told[1:], *(refused_told(step) if step.entry.code else [])])]


def every(story, store=None):
    """The reasons of each entry, in the order of the history."""
    authority = authorities(story, store)
    for step in story.steps:
        yield step, reasons(authority, step)
        authority.take(step)


def of_entry(story, position, store=None):
    """The reasons of the entry of a position, or nothing where there is none."""
    return next((lines for step, lines in every(story, store) if step.entry.position == position), None)
