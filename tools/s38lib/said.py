"""What docs/REFERENCE.md says of an instruction, as plain text."""
import re

from . import pages


def plain(text):
    """A piece of a page without its marks."""
    text = re.sub(r"\[([^]]+)\]\([^)]*\)", r"\1", text)
    return text.replace("\\|", "|").replace("**", "").replace("`", "")


def cells(line):
    return [cell.strip() for cell in re.split(r"(?<!\\)\|", line)[1:-1]]


def instruction(mnemonic):
    """The lines of the entry of a mnemonic, with those that its section has for all of its entries."""
    for part in re.split(r"^## ", pages.prose(pages.page("REFERENCE.md")), flags=re.M)[1:]:
        head, _, text = part.partition("\n")
        blocks = text.strip("\n").split("\n\n")
        for block in blocks:
            found = in_table(block, mnemonic) or in_paragraph(block, mnemonic)
            if found:
                shared = in_table(block, mnemonic) and [plain(line) for line in text.split("\n\n|")[0].split("\n") if line.startswith("- **")]
                return [*found, *(shared or []), f"(docs/REFERENCE.md, {head})"]
    return None


def is_of(text, mnemonic):
    return any(name == mnemonic for name, _, _ in pages.HEAD.findall(text))


def in_table(block, mnemonic):
    lines = block.split("\n")
    for line in lines[2:] if block.startswith("|") else []:
        row = cells(line)
        if row and is_of(row[0], mnemonic):
            rest = [f"{plain(name).lower()}: {plain(cell)}" for name, cell in zip(cells(lines[0])[1:], row[1:]) if cell]
            return [plain(row[0]), *rest]
    return None


def in_paragraph(block, mnemonic):
    lines = block.split("\n")
    return [plain(line) for line in lines] if lines[0].startswith("**`") and is_of(lines[0], mnemonic) else None
