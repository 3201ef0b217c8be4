"""From comfortable text to an exact deck, line for line."""
import re
import unicodedata

from .words import TEXT, is_a

# A piece of a line: a literal, which may have a quote as two, a comment to the end of the line, blanks, a comma, or a word.
PIECE = re.compile(r"([xX]?)'((?:[^']|'')*)'|(;.*)|([ \t\u00a0]+)|(,)|([^ \t\u00a0,;']+|')")


def lines_of(text):
    """The lines of a text."""
    lines = text.removeprefix("\ufeff").replace("\r\n", "\n").split("\n")
    return lines[:-1] if lines[-1] == "" else lines


def exact(text):
    """The exact deck of a text, line for line, and what stays wrong with it is a matter of tools/lint."""
    return "".join(line_of(line) + "\n" for line in lines_of(text))


def exact_whole(text):
    """The same with nothing left out: a comment at the end of a line comes to a line above it."""
    made = []
    for line in lines_of(text):
        comment = comment_of(line)
        made += [plain("* " + comment)] if comment else []
        made.append(line_of(line))
    return "".join(line + "\n" for line in made)


def comment_of(line):
    """The comment at the end of a line, or nothing; that of a line of its own is none."""
    bare = line.strip(" \t\u00a0\r")
    if bare.startswith(("*", ";")):
        return ""
    found = next((piece[3] for piece in PIECE.finditer(bare) if piece[3] is not None), "")
    return found.lstrip("; \t").rstrip()


def unwritable(text):
    """The first line of a text with a comment that a deck can't have as it is, or nothing."""
    for number, line in enumerate(lines_of(text), 1):
        bare = line.strip(" \t\u00a0\r")
        comment = bare if bare.startswith(("*", ";")) else comment_of(line)
        if plain(comment).count("?") != comment.count("?"):
            return number
    return None


def line_of(line):
    bare = line.strip(" \t\u00a0\r")
    if bare.startswith("*"):
        return plain(line if line.startswith("*") else bare)
    if bare.startswith(";"):
        return plain("* " + bare.lstrip("; \t")).rstrip() if bare.lstrip("; \t") else "*"
    return joined(pieces(bare))


def plain(comment):
    """A comment with characters of a line alone."""
    if all(" " <= char <= "~" for char in comment):
        return comment
    text = unicodedata.normalize("NFKD", comment.replace("\t", " "))
    for odd, even in ("\u2018'", "\u2019'", '\u201c"', '\u201d"', "\u2013-", "\u2014-", "\u00a0 "):
        text = text.replace(odd, even)
    text = "".join(char for char in text if not unicodedata.combining(char))
    return "".join(char if " " <= char <= "~" else "?" for char in text).rstrip()


def pieces(line):
    """The words, commas and literals of a line; blanks part words, and none is next to a comma."""
    for mark, quoted, comment, blanks, comma, word in (found.groups() for found in PIECE.finditer(line)):
        if comment is not None:
            return
        if blanks is not None:
            yield " "
        elif quoted is not None:
            yield literal(mark, quoted)
        else:
            yield comma or upper(word)


def upper(word):
    """A word in capitals, and (R) as a word of its own."""
    word = "".join(char.upper() if "a" <= char <= "z" else char for char in word)
    return word[:-3] + " (R)" if word.endswith("(R)") and len(word) > 3 else word


def literal(mark, quoted):
    """A literal as a deck writes it: 'ABC', or the bytes of any other text in EBCDIC."""
    if mark:
        return f"X'{quoted.replace(' ', '').upper()}'" if re.fullmatch("[0-9A-Fa-f ]*", quoted) else f"X'{quoted}'"
    if is_a(TEXT, f"'{quoted}'"):
        return f"'{quoted}'"
    try:
        return f"X'{quoted.replace(2 * chr(39), chr(39)).encode('cp037').hex().upper()}'"
    except UnicodeEncodeError:
        return f"'{quoted}'"


def joined(parts):
    """The pieces as a line."""
    text = ""
    for part in parts:
        if part == " " and (not text or text.endswith((" ", ","))):
            continue
        if part == ",":
            text = text.rstrip(" ")
        text += part
    return text.rstrip(" ")
