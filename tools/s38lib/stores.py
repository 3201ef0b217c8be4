"""The first store: the bytes of a store file with the five objects with which the decks of the pages and of rows/ begin,
by the formats of docs/FORMATS.md (Images, Stores on a disk). Numbers stand with their highest byte first."""
BLOCK, PAGE, FIRST_HOME = 528, 512, 2306
LABEL, HEADER, CEILING = b"S38STOR1", b"S38H", b"S38C"
CONTEXT, PROFILE, QUEUE = 1, 3, 5
ROWS_PART, BODY_PART, CEILING_NUMBER = 1, 128, 2 ** 64 - 1
ALL, RETRIEVE, INSERT = 0xFF, 0x08, 0x04
OFFICER = 2


def number(value, size):
    return value.to_bytes(size, "big")


def filled(data, size):
    """Some bytes with zeros behind them."""
    return data + bytes(size - len(data))


class Object:
    """An object of the security officer, who has all rights on it by the one private row."""

    def __init__(self, at, kind, name, context, public, body=b""):
        self.at, self.kind, self.name, self.context, self.public, self.body = at, kind, name, context, public, body

    def header(self):
        """Its first page."""
        name = number(len(self.name), 2) + filled(self.name.encode("ascii"), 30)
        places = number(self.context, 8) + number(OFFICER, 8) + bytes([self.public, 0])
        return HEADER + bytes([self.kind, 0]) + name + places + number(1, 4) + number(len(self.body), 4)

    def parts(self):
        """Its pages by object and part. Rows and body have one page each, a body without bytes none."""
        yield (self.at, 0), self.header()
        yield (self.at, ROWS_PART), number(OFFICER, 8) + bytes([ALL])
        if self.body:
            yield (self.at, BODY_PART), self.body


def profile(specials, limit):
    return bytes([specials]) + number(limit, 4)


def queue(longest):
    """A queue without messages, from which the oldest one is taken."""
    return bytes([0, 0]) + number(longest, 2) + number(0, 4)


# What `install` makes, and what the decks of the pages begin with besides.
INSTALLED = [
    Object(1, CONTEXT, "QMACHINE", 1, RETRIEVE + INSERT),
    Object(2, PROFILE, "QSECOFR", 1, 0, profile(0xC0, 2 ** 32 - 1))]
FIRST = [
    *INSTALLED,
    Object(3, CONTEXT, "QGPL", 1, RETRIEVE + INSERT),
    Object(4, PROFILE, "QUSER", 1, 0, profile(0, 100)),
    Object(5, QUEUE, "QLOCKED", 3, RETRIEVE, queue(8))]


def home(key, page):
    """The block of a page: its object, its part, no tags, and its bytes."""
    return number(key[0], 8) + number(key[1], 4) + bytes(4) + filled(page, PAGE)


def homes(objects):
    """The blocks of some objects and of the ceiling, the number of the last one, in the order of their keys."""
    pages = [part for one in objects for part in one.parts()]
    ceiling = CEILING + bytes(4) + number(objects[-1].at, 8)
    return [home(*part) for part in sorted([*pages, ((CEILING_NUMBER, 0), ceiling)])]


def first_store():
    """The bytes of the first store, up to its last home that is used: a file reads as zeros behind its end."""
    return filled(LABEL, FIRST_HOME * BLOCK) + b"".join(homes(FIRST))


def put_first(file):
    """Writes the first store to a file that is open and empty. The gate and the log are left out, and read as zeros too."""
    data = first_store()
    file.write(data[:BLOCK])
    file.seek(FIRST_HOME * BLOCK)
    file.write(data[FIRST_HOME * BLOCK:])


def write_first(path):
    """Writes the first store as a new file."""
    with open(path, "xb") as file:
        put_first(file)
