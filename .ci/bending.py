"""Bends texts and words by chance: bytes, lines, numbers and names are dropped, doubled, exchanged and replaced."""
import random
import re

draw = random.Random()
BYTES = b'\0\t\n\r "#(),-.:019<[\\]_{}\x7f\x80\xff'
NUMBERS = (0, 1, 2, 3, 63, 64, 65, 127, 255, 256, 257, 4095, 4096, 4097, 10_000, 10_001, 100_000_000, 100_000_001, 2 ** 31,
           2 ** 32 - 1, 2 ** 32, 2 ** 53 + 1, 2 ** 63, 2 ** 64 - 1, 2 ** 64, 10 ** 18 - 1, 10 ** 18, 10 ** 400)
WORDS_TO_TAKE = b"-1 +1 -0 00 1.0 1.5 1e9 . .. : :: , ( ) # \\ -- - null nodes names identity commit POLYGON EMPTY".split()
WORDS_TO_TAKE += [b"empty", b"sweep", b"yes", b"no", b"NTPP", b"eq", b'""', b"( )", b"x" * 64, b"x" * 65, b"\xc3\xa4", b"\xff"]
WORDS_TO_TAKE.append(b"")


def replaced(data, pattern, other):
    """The bytes with one of the places where a pattern fits replaced by what is made of it."""
    places = list(re.finditer(pattern, data))
    if not places:
        return data
    place = draw.choice(places)
    return data[:place.start()] + other(place[0]) + data[place.end():]


def byte_replaced(data):
    at = draw.randrange(len(data))
    return data[:at] + bytes([draw.choice(BYTES)]) + data[at + 1:]


def byte_added(data):
    at = draw.randrange(len(data))
    return data[:at] + bytes([draw.choice(BYTES)]) + data[at:]


def stretch_dropped(data):
    at = draw.randrange(len(data))
    return data[:at] + data[at + draw.choice((1, 1, 2, 5, 40)):]


def stretch_doubled(data):
    at, size = draw.randrange(len(data)), draw.choice((1, 1, 2, 5, 40))
    return data[:at + size] + data[at:]


def bytes_swapped(data):
    at = draw.randrange(len(data))
    return data[:at] + data[at:at + 2][::-1] + data[at + 2:]


def cut_short(data):
    return data[:draw.randrange(len(data))]


def line_dropped(data):
    found = data.split(b"\n")
    found.pop(draw.randrange(len(found)))
    return b"\n".join(found)


def line_doubled(data):
    found = data.split(b"\n")
    found.insert(draw.randrange(len(found)), draw.choice(found))
    return b"\n".join(found)


def lines_swapped(data):
    found = data.split(b"\n")
    i, j = draw.randrange(len(found)), draw.randrange(len(found))
    found[i], found[j] = found[j], found[i]
    return b"\n".join(found)


def number_changed(data):
    return replaced(data, rb"[0-9]{1,400}", lambda number: str(draw.choice(
        (int(number) + 1, abs(int(number) - 1), draw.choice(NUMBERS), draw.choice(NUMBERS)))).encode())


def word_changed(data):
    word = rb"[^\s(),:#\[\]{}\"]+"
    others = [*dict.fromkeys(re.findall(word, data))] + WORDS_TO_TAKE
    return replaced(data, word, lambda _: draw.choice(others))


def name_changed(data):
    """One word, wherever it stands."""
    names = re.findall(rb"[A-Za-z_][A-Za-z_0-9]*", data)
    if not names:
        return data
    one, other = draw.choice(names), draw.choice(names + WORDS_TO_TAKE)
    return re.sub(rb"\b" + one + rb"\b", lambda _: other, data)


BENDS = [byte_replaced, byte_added, stretch_dropped, stretch_doubled, bytes_swapped, cut_short, line_dropped, line_doubled,
         lines_swapped, number_changed, number_changed, number_changed, word_changed, word_changed, name_changed]
BENDS_OF_A_WORD = [byte_replaced, byte_added, stretch_dropped, stretch_doubled, number_changed, word_changed]


def bent(data):
    for _ in range(draw.choice((1, 1, 1, 2, 3, 6))):
        if data:
            data = draw.choice(BENDS)(data)
    return data


def bent_words(words, commands):
    """The words of a command with some of them bent, or taken from others."""
    words = [word.encode() for word in words]
    for _ in range(draw.choice((1, 1, 2, 3))):
        i, j = draw.randrange(len(words)), draw.randrange(len(words))
        kind = draw.randrange(6)
        if kind == 0 and len(words) > 1:
            words.pop(i)
        elif kind == 1:
            words.insert(i, words[j])
        elif kind == 2:
            words[i], words[j] = words[j], words[i]
        elif kind == 3:
            words[i] = draw.choice(draw.choice(commands).split()).encode()
        elif words[i]:
            words[i] = draw.choice(BENDS_OF_A_WORD)(words[i])
    return [word.replace(b"\0", b"") for word in words]
