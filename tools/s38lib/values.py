"""Values of a log in words: text, numbers, pointers, rights, and what is listed."""
import re

from . import pages


def text_of(data):
    """Bytes as text in EBCDIC; None if one of them is no character that is printed."""
    text = data.decode("cp037")
    return text if all(" " <= char <= "~" for char in text) else None


def raw(word):
    """The bytes of a word in hexadecimal; None if it is none."""
    return bytes.fromhex(word) if re.fullmatch("([0-9A-F]{2})*", word) else None


def packed(data, fraction):
    digits = data.hex()
    if not digits or not digits[:-1].isdigit() or digits[-1] not in "abcdef":
        return None
    return number(digits[:-1], fraction, digits[-1] in "bd")


def zoned(data, fraction):
    digits = "".join(f"{byte & 15:x}" for byte in data)
    if not digits.isdigit() or data[-1] >> 4 < 10:
        return None
    return number(digits, fraction, data[-1] >> 4 in (11, 13))


def number(digits, fraction, minus):
    """Digits as a number with a point."""
    whole, part = digits[:len(digits) - fraction].lstrip("0") or "0", digits[len(digits) - fraction:]
    return ("-" if minus and digits.strip("0") else "") + whole + ("." + part if fraction else "")


def rights_of(bits):
    """A byte of rights in words."""
    if bits == 0xFF:
        return "ALL"
    return "+".join(name for name, bit in pages.rights().items() if bits & bit) or "NONE"


def scalar(data, attribute):
    """The value of bytes by their attribute; the bytes themselves if they have none."""
    kind, *size = (attribute or "CHAR").split(":")
    value = None
    if kind == "PKD":
        value = packed(data, int(size[1]))
    elif kind == "ZND":
        value = zoned(data, int(size[1]))
    elif kind == "BIN":
        value = str(int.from_bytes(data, "big", signed=True))
    elif data:
        text = text_of(data)
        value = f"'{text}'" if text is not None else None
    return value if value is not None else f"X'{data.hex().upper()}'"


# ---- what is listed

def names_listed(data):
    """MATCTX: kinds, subtypes and names."""
    found = []
    for at in range(4, len(data) - 31, 32):
        kind = pages.kinds().get(data[at])
        if kind:
            found.append(f"{kind}/{data[at + 1]:02X}/{data[at + 2:at + 32].decode('cp037').rstrip()}")
    return counted(data, found, "object")


def counted(data, found, what):
    count = int.from_bytes(data[:4], "big")
    said = f"{count} {what}{'' if count == 1 else 's'}"
    return said + (": " + ", ".join(found) if found else "")


def rights_told(data, name):
    """MATAU: the owner, the public rights and those of a row."""
    if len(data) < 10:
        return None
    owner = name(int.from_bytes(data[:8], "big"))
    return f"owner {owner}, public {rights_of(data[8])}, row {rights_of(data[9])}"


def objects_listed(data, name):
    """MATAUOBJ: what a user owns or has a row on."""
    found = []
    for at in range(4, len(data) - 9, 10):
        number_of = int.from_bytes(data[at:at + 8], "big")
        if number_of:
            owned = "owns " if data[at + 8] else ""
            found.append(f"{owned}{name(number_of)} ({rights_of(data[at + 9])})")
    return counted(data, found, "object")


def locks_listed(data, job):
    """MATOBJLK: the locks of an object."""
    found = []
    for at in range(4, len(data) - 4, 5):
        holder = int.from_bytes(data[at:at + 4], "big")
        if holder:
            found.append(f"{pages.lock_states().get(data[at + 4], data[at + 4])} of {job(holder)}")
    return counted(data, found, "lock")


def journal_entry(data, name, job):
    """RETJENT: a journal entry, as far as its receiver goes."""
    if len(data) < 25:
        return None
    sequence, unit, process = (int.from_bytes(data[first:last], "big") for first, last in ((4, 12), (12, 20), (20, 24)))
    kind = {1: "insert", 2: "update", 3: "delete", 4: "commit", 5: "decommit"}.get(data[24], f"kind {data[24]}")
    said = f"{sequence}: {kind} by {job(process)}, " + (f"unit {unit}" if unit else "no unit")
    if len(data) < 41 or kind in ("commit", "decommit"):
        return said
    said += f", {name(int.from_bytes(data[25:33], 'big'))} ordinal {int.from_bytes(data[33:37], 'big')}"
    before = int.from_bytes(data[37:39], "big")
    after = int.from_bytes(data[39:41], "big")
    if len(data) < 41 + before + after:
        return said
    return said + f", {data[41:41 + before].hex().upper() or '-'} to {data[41 + before:41 + before + after].hex().upper() or '-'}"
