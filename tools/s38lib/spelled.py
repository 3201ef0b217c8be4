"""The operands of each instruction in words, made of the letters of its row."""
from . import pages
from .deck import MADE

# Where an operand's place says more than its letter: by mnemonic and place, counted from 1.
SAID = {
    "SCALE": {3: "power"}, "CPYBLAP": {3: "byte that fills"}, "XLATE": {3: "from bytes", 4: "to bytes"},
    "CPYBWP": {1: "receiver", 2: "source"}, "RSLVSP": {2: "context | *MACHINE | *LIST"},
    "SETSPPFP": {2: "space"}, "SETSPFP": {2: "any pointer"}, "SETDP": {2: "space pointer"},
    "ADDSPP": {2: "space pointer", 3: "bytes to go"}, "SUBSPP": {2: "space pointer", 3: "bytes to go"},
    "MODS": {1: "space", 2: "length"}, "CRTQ": {6: "key length", 7: "message length"}, "CRTINX": {5: "entry length"},
    "CRTDS": {5: "fields"}, "CRTCR": {5: "data space", 6: "commit block | *NONE"}, "CRTS": {5: "length"},
    "CRTJP": {5: "journal space"}, "CRTCB": {5: "journal port"},
    "ENQ": {1: "queue", 3: "message"}, "DEQ": {2: "queue"}, "INSINXEN": {1: "index", 2: "entry"},
    "FNDINXEN": {2: "index", 4: "key"}, "RMVINXEN": {1: "index", 2: "entry"}, "SETCR": {1: "cursor", 3: "ordinal"},
    "INSDSEN": {1: "cursor", 2: "entry"}, "RETDSEN": {2: "cursor"}, "UPDSEN": {1: "cursor", 2: "entry"},
    "DELDSEN": {1: "cursor"}, "JRNLOBJ": {1: "data space", 2: "journal port"},
    "RETJENT": {2: "journal space", 3: "sequence"}, "COMMIT": {1: "commit block"}, "DECOMMIT": {1: "commit block"},
    "ENSOBJ": {1: "object"}, "CALLX": {1: "program"}, "XCTL": {1: "program"}, "MODADR": {1: "object"},
    "RENAME": {1: "object"}, "CRTUP": {4: "page limit"}, "MODUP": {1: "profile", 3: "page limit"},
    "GRANT": {1: "object"}, "RETRACT": {1: "object"}, "XFRO": {1: "object", 2: "profile"}, "TESTAU": {2: "object"},
    "MATAU": {2: "object"}, "MATAUOBJ": {2: "profile"}, "LOCK": {1: "object"}, "UNLOCK": {1: "object"},
    "XFRLOCK": {1: "object"}, "MATOBJLK": {2: "object"},
    "DESQ": {1: "queue"}, "DESINX": {1: "index"}, "DESDS": {1: "data space"}, "DESCR": {1: "cursor"},
    "DESS": {1: "space"}, "DESPG": {1: "program"}, "DESJS": {1: "journal space"}, "DESJP": {1: "journal port"},
    "DESCB": {1: "commit block"}, "DESCTX": {1: "context"}, "DESUP": {1: "profile"},
}


def spelled(mnemonic, letters):
    """The operands in words, parted by commas."""
    said = []
    for place, letter in enumerate(letters.replace(",..", "").split(",") if letters else [], 1):
        word = SAID.get(mnemonic, {}).get(place) or pages.letters()[letter][0]
        said.append(f"{MADE[mnemonic]}/ss/NAME" if letter == "I" and mnemonic in MADE else word)
    return ", ".join(said) + (", .." if letters.endswith("..") else "")
