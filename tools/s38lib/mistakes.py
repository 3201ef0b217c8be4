"""Decks and logs with mistakes, and how many of what is drawn."""
import random
import re


def drawn_by(words, count):
    """The count and the seed that the words `--count N` and `--seed N` say, and without them this count and any seed; nothing
    where they are other words."""
    said = {"--count": count, "--seed": random.randrange(1_000_000)}
    for word, number in zip(words[::2], words[1::2]):
        if word not in said or not re.fullmatch("[0-9]{1,9}", number):
            return None
        said[word] = int(number)
    return None if len(words) % 2 else (said["--count"], said["--seed"])


def mutated(random_of, data):
    """Some bytes with a mistake."""
    lines = data.split(b"\n")
    at = random_of.randrange(len(lines))
    how = random_of.randrange(9)
    if how == 0:
        del lines[at]
    elif how == 1:
        lines.insert(at, lines[random_of.randrange(len(lines))])
    elif how == 2:
        lines[at] = lines[at][:random_of.randrange(len(lines[at]) + 1)]
    elif how == 3:
        return data[:random_of.randrange(len(data) + 1)]
    elif how == 4:
        words = lines[at].split(b" ")
        words[random_of.randrange(len(words))] = random_of.choice([b"", b"0", b"-1", b"99999999999999999999", b"*", b"OK", b"P", b"'"])
        lines[at] = b" ".join(words)
    elif how == 5:
        lines[at] = re.sub(rb"[0-9]+", lambda _: str(random_of.randrange(10 ** random_of.randrange(1, 20))).encode(), lines[at])
    elif how == 6:
        words = lines[at].split(b",")
        random_of.shuffle(words)
        lines[at] = b",".join(words)
    else:
        place = random_of.randrange(len(data) + 1)
        return data[:place] + bytes(random_of.randrange(256) for _ in range(random_of.randrange(1, 5))) + data[place + how - 7:]
    return b"\n".join(lines)
