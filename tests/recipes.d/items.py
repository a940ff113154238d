"""Instructions as the board reads them, how far they move, their words, and the items of a frame: docs/MACHINE.md has the fields.

An item is a tuple: ("vctr", scale, x, y, bright), ("svec", code, x, y, bright) with sizes of -3 to 3, ("labs", x, y, scale),
("jsrl", address), ("jmpl", address), ("halt",), ("rtsl",), or ("missing",) where there are no words for one.
"""

MISSING = ("missing",)
LONG = ("vctr", "labs")
FIXED = (*LONG, "svec", "jsrl")     # what a line `words` may have


def moved(size, scale):
    """How far a draw of this size goes at an effective scale: rounded half up, and nowhere from 10 on."""
    distance = (abs(size) << scale) + 256 >> 9 if scale <= 9 else 0
    return -distance if size < 0 else distance


def length(item):
    return 2 if item[0] in LONG else 1


def as_long(item):
    """For an SVEC the VCTR that moves the beam as far."""
    if item[0] != "svec":
        return item
    code, x, y, bright = item[1:]
    return ("vctr", 2 + code, 256 * x, 256 * y, bright)


# ---- to words

def sized(size, bits):
    """A size of so many bits, and its sign above them."""
    return abs(size) | (size < 0) << bits


def vctr_words(scale, x, y, bright):
    return [scale << 12 | sized(y, 10), bright << 12 | sized(x, 10)]


def svec_words(code, x, y, bright):
    return [0xF000 | (code & 1) << 11 | sized(y, 2) << 8 | bright << 4 | code >> 1 << 3 | sized(x, 2)]


def labs_words(x, y, scale):
    return [0xA000 | y & 0xFFF, scale << 12 | x & 0xFFF]


WORDS = {
    "vctr": vctr_words,
    "svec": svec_words,
    "labs": labs_words,
    "halt": lambda: [0xB000],
    "jsrl": lambda address: [0xC000 | address],
    "rtsl": lambda: [0xD000],
    "jmpl": lambda address: [0xE000 | address],
}


def words_of(item):
    return WORDS[item[0]](*item[1:])


# ---- from words

def size_of(field, bits):
    size = field & (1 << bits) - 1
    return -size if field >> bits & 1 else size


def twelve(field):
    """The low twelve bits, as two's complement."""
    return (field & 0xFFF ^ 0x800) - 0x800


def item_of(first, second):
    """What two words are; a short instruction has nothing of the second."""
    opcode, low = first >> 12, first & 0xFFF
    if opcode <= 9:
        return ("vctr", opcode, size_of(second, 10), size_of(first, 10), second >> 12)
    if opcode == 10:
        return ("labs", twelve(second), twelve(first), second >> 12)
    if opcode == 15:
        return ("svec", low >> 11 | (low >> 3 & 1) << 1, size_of(low, 2), size_of(low >> 8, 2), low >> 4 & 15)
    return {11: ("halt",), 12: ("jsrl", low), 13: ("rtsl",), 14: ("jmpl", low)}[opcode]


def item_at(words, index):
    """The item whose first word has this index."""
    if index >= len(words):
        return MISSING
    is_last = index + 1 == len(words)
    item = item_of(words[index], 0 if is_last else words[index + 1])
    return MISSING if is_last and length(item) == 2 else item


def fixed(words):
    """The items of these words, each of four hexadecimal digits."""
    numbers, at, items = [int(word, 16) for word in words], 0, []
    while at < len(numbers):
        items.append(item_at(numbers, at))
        at += length(items[-1])
    return items


def frame_items(words):
    """The items of a frame from word 000 on, over forward jumps, each with its word address; the last one leads no further."""
    items, at = [], 0
    while True:
        item = item_at(words, at)
        items.append((at, item))
        is_forward = item[0] == "jmpl" and item[1] > at
        if item[0] in ("halt", "rtsl", "missing") or item[0] == "jmpl" and not is_forward:
            return items
        at = item[1] if is_forward else at + length(item)


def as_bytes(words):
    return b"".join(word.to_bytes(2, "little") for word in words)


def as_words(content):
    return [low | high << 8 for low, high in zip(content[::2], content[1::2])]
