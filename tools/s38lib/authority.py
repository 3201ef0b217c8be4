"""Who may do what at each entry of a history: owners, public rights and private rows from the store before the run on, as the
instructions of the log change them; and which rights each instruction needs."""
from . import pages
from .deck import MADE, split_act
from .reading import MACHINE
from .values import rights_of
from .walk import object_in

ALL, ALLOBJ, PROFILE = 0xFF, 0x80, 0x40
SPECIALS = {"NONE": 0, "ALLOBJ": ALLOBJ, "PROFILE": PROFILE, "ALLOBJ+PROFILE": ALLOBJ | PROFILE}
SPACE_ROWS = {"SETCR": "RETRIEVE", "INSDSEN": "INSERT", "RETDSEN": "RETRIEVE", "UPDSEN": "UPDATE", "DELDSEN": "DELETE"}

# The rights that rows need, by operand; 0 is the object that no operand names: the cursor's data space, the machine context, or
# the context in which the object is.
NEEDS = {
    **{name: ((2 if name == "RETDSEN" else 1, "RETRIEVE"), (0, right)) for name, right in SPACE_ROWS.items()},
    **{name: ((1, "OBJCTL"),) for name in ("DESCTX", "DESUP", "DESPG", "DESS", "DESQ", "DESINX", "DESDS", "DESCR", "DESJS", "DESJP", "DESCB")},
    **{name: ((2, "INSERT"),) for name in ("CRTPG", "CRTS", "CRTQ", "CRTINX", "CRTDS", "CRTJS")},
    "CRTCR": ((2, "INSERT"), (5, "RETRIEVE"), (6, "UPDATE")), "CRTJP": ((2, "INSERT"), (5, "INSERT")),
    "CRTCB": ((2, "INSERT"), (5, "INSERT")), "CRTCTX": ((0, "INSERT"),), "CRTUP": ((0, "INSERT"),),
    "RSLVSP": ((2, "RETRIEVE"),), "SETSPPFP": ((2, "SPACE"),), "MODADR": ((1, "OBJMGT"), (2, "INSERT"), (0, "DELETE")),
    "RENAME": ((1, "OBJMGT"), (0, "UPDATE")), "MATCTX": ((2, "RETRIEVE"),), "MATAU": ((2, "OBJMGT"),), "CALLX": ((1, "RETRIEVE"),),
    "XCTL": ((1, "RETRIEVE"),), "MATOBJLK": ((2, "RETRIEVE"),), "MODS": ((1, "OBJMGT"),), "ENQ": ((1, "INSERT"),), "DEQ": ((2, "DELETE"),),
    "INSINXEN": ((1, "INSERT"),), "FNDINXEN": ((2, "RETRIEVE"),), "RMVINXEN": ((1, "DELETE"),), "JRNLOBJ": ((1, "OBJMGT"), (2, "OBJMGT")),
    "RETJENT": ((2, "RETRIEVE"),), "COMMIT": ((1, "UPDATE"),), "DECOMMIT": ((1, "UPDATE"),), "ENSOBJ": ((1, "RETRIEVE"),)}
OWNING = ("GRANT", "RETRACT", "XFRO")  # permitted to the owner
SPECIAL = ("CRTUP", "MODUP", "DESUP")  # these need PROFILE


def bits_of(word):
    """A word of rights as bits."""
    return ALL if word == "ALL" else 0 if word == "NONE" else sum(pages.rights().get(name, 0) for name in word.split("+"))


def needs_of(text):
    """The rights that an instruction needs: the operand, or 0, and the right."""
    mnemonic, _, operands = split_act(text)
    if mnemonic == "LOCK" and len(operands) > 1:
        return ((1, "RETRIEVE" if operands[1] in ("LSRD", "LSRO") else "UPDATE"),)
    return tuple((place, right) for place, right in NEEDS.get(mnemonic, ())
                 if place == 0 or place <= len(operands) and operands[place - 1] not in ("*NONE", "*LIST"))


class Rights:
    """What is known of an object's rights."""

    def __init__(self, kind, owner, public, rows, specials=0):
        self.kind, self.owner, self.public, self.rows, self.specials = kind, owner, public, dict(rows), specials
        self.context, self.space = None, None


def of_store(store):
    """The rights of the objects of a store, by their numbers."""
    found = {}
    for at, one in store.objects.items():
        found[at] = Rights(one.kind, one.owner, one.public, one.rows, one.body.specials if one.kind == "PROFILE" else 0)
        found[at].context, found[at].space = one.context, one.body.space if one.kind == "CURSOR" else None
    return found


class Authority:
    """The rights of all objects as they are at each entry of a story, from those before the run on."""

    def __init__(self, story, rights):
        self.story, self.rights, self.users = story, rights, {}

    def number_of(self, user):
        """The number of a user by its name, the latest one."""
        if user not in self.users:
            found = [at for at, one in self.rights.items() if one.kind == "PROFILE" and self.story.names.get(at, "").rpartition("/")[2] == user]
            self.users[user] = max(found, default=None)
        return self.users[user]

    def take(self, step):
        """Takes what an entry did."""
        if not step.text or not step.entry.ok:
            return
        mnemonic, _, operands = split_act(step.text)
        one = self.rights.get(step.objects.get(1))
        if mnemonic in ("CRTUP", "DESUP", "RENAME"):
            self.users = {}
        if mnemonic in MADE and step.entry.value:
            self.make(step, mnemonic, operands)
        elif mnemonic in ("GRANT", "RETRACT") and one:
            self.grant(one, step.objects.get(2), operands, mnemonic == "GRANT")
        elif mnemonic == "XFRO" and one and 2 in step.objects:
            one.owner = int(step.objects[2])
            one.rows[one.owner] = ALL
        elif mnemonic == "MODUP" and one:
            one.specials = SPECIALS.get(operands[1], 0)
        elif mnemonic == "MODADR" and one:
            one.context = int(step.objects[2]) if 2 in step.objects else 0
        elif mnemonic.startswith("DES") and one:
            del self.rights[step.objects[1]]

    def make(self, step, mnemonic, operands):
        owner = self.number_of(step.entry.job.user)
        in_machine = mnemonic in ("CRTCTX", "CRTUP")
        public = "NONE" if mnemonic == "CRTUP" else operands[2 if in_machine else 3]
        made = Rights(MADE[mnemonic], owner, bits_of(public), {owner: ALL}, SPECIALS.get(operands[2], 0) if mnemonic == "CRTUP" else 0)
        made.context = MACHINE if in_machine else int(step.objects[2]) if 2 in step.objects else 0
        made.space = int(step.objects[5]) if mnemonic == "CRTCR" and 5 in step.objects else None
        at = object_in(step.entry.value or "")
        if at is not None:
            self.rights[int(at)] = made

    def grant(self, one, user, operands, gives):
        bits = bits_of(operands[2])
        if operands[1] == "*PUBLIC":
            one.public = one.public | bits if gives else one.public & ~bits
        elif user is not None:
            old = one.rows.get(int(user), 0)
            one.rows[int(user)] = old | bits if gives else old & ~bits

    # ---- what is asked of it

    def object_at(self, step, place):
        """The object of an operand, or the one that no operand names; nothing where it is not known."""
        mnemonic, _, operands = split_act(step.text)
        if place and operands[place - 1] == "*MACHINE" or not place and mnemonic in ("CRTCTX", "CRTUP"):
            return MACHINE
        if place:
            return step.objects.get(place)
        if mnemonic in SPACE_ROWS:
            cursor = self.rights.get(step.objects.get(2 if mnemonic == "RETDSEN" else 1))
            return cursor.space if cursor else None
        one = self.rights.get(step.objects.get(1))
        return one.context if one and mnemonic in ("MODADR", "RENAME") else None

    def ways(self, step, at, bits):
        """The ways by which acting users have rights on an object, as words, and the bits that are still missing."""
        one, found, have = self.rights.get(at), [], 0
        carried = getattr(at, "rights", 0)
        if carried & bits:
            found.append(f"the pointer carries {rights_of(carried & bits)}")
        if one and one.public & bits:
            found.append(f"public {rights_of(one.public & bits)}")
        have |= carried | (one.public if one else 0)
        for user in step.acting:
            number = self.number_of(user)
            row = one.rows.get(number, 0) if one else 0
            if number is not None and self.rights[number].specials & ALLOBJ:
                found.append(f"{user} has ALLOBJ{self.adopted(step, user)}")
                have = ALL
            if row & bits:
                found.append(f"the private row of {user} has {rights_of(row & bits)}{self.adopted(step, user)}")
            have |= row
        return found, bits & ~have

    def adopted(self, step, user):
        return "" if user == step.acting[0] else ", which a program that adopts lends"

    def is_known(self, at):
        return at is not None and int(at) in self.rights

    def resolved(self, step, name):
        """The object that RSLVSP found, or that it would have found, by its name; nothing where it is not known."""
        if step.entry.value and step.entry.value.startswith("S"):
            at = object_in(step.entry.value)
            return int(at) if at is not None and int(at) in self.rights else None
        found = [at for at in self.rights if self.story.names.get(at) == name]
        return found[0] if len(found) == 1 else None
