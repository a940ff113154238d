"""Texts of recipes, changed by chance: most changes leave a text of the right form, or nearly so."""

import re

from chances import SCREEN, Author, small_rom
from grammar import MOST_BLOCKS, MOST_BYTES, MOST_LINES, MOST_LISTS, MOST_PIECES

# ---- texts at a limit, or a few above it or below it

def of_lines(*lines):
    return "".join(line + "\n" for line in ("dvgrecipe 1", *lines, "halt"))


def in_blocks(depth, line):
    return of_lines("list 001 3FF", *["either", "repeat 0 1"][:depth], *["repeat 1 2"] * (depth - 2), line, *["end"] * depth)


def of_name(name):
    return of_lines("list 000 3FF", f"shapes {name} 800 801", f"call {name}", *CALLS)


CALLS = ["call 800"] * 12     # for changes to fall on
LIMITS = (
    lambda few, depth: of_lines("list 000 3FF", *["; x"] * (MOST_LINES - 3 + few)),
    lambda few, depth: of_lines("list 000 3FF", *["words" + " F000" * 35] * 116, "words 9000" + " F000" * (MOST_PIECES - 35 * 116 + few)),
    lambda few, depth: of_lines(*(f"list {at:03X} {at:03X}" for at in range(1, 1 + MOST_LISTS + few)), *CALLS, "jump 200 3FF"),
    lambda few, depth: of_name(("N" * (80 + few), "BAD", "bad", "_1A")[depth]),
    lambda few, depth: of_lines("list 000 3FF", "shapes OWN A SHIP", "shapes SHIP SAME _b", "call OWN LOW SHIP _b BAD", *CALLS),
    lambda few, depth: in_blocks(MOST_BLOCKS + few, ("call 800", "repeat 2 1", "either 1", "either")[depth]),
    lambda few, depth: in_blocks(depth, " " * (MOST_BYTES - 196 + few) + "call" + " 800" * 48),
    # it comes to have more bytes when it is printed
    lambda few, depth: in_blocks(depth, "call" + " 800" * 46 + " A" * (3 + few)),
)
SHEET = of_lines(
    "list 001 1FF", "list 201 2FF", "shapes ROCK 800 A", "shapes BOTH ROCK LOW", "place -2048 2047 -2048 2047 scale 0 15", "call BOTH 801",
    "vctr 9 x -1023 1023 y -1023 1023 bright 0 15", "vctr 0 x 0 9 y -1 1 bright 7 7 to -2048 2047 0 1023",
    "svec 3 x -3 3 y -3 3 bright 0 15", "words A000 0000 F000 9000 7000 C800",
    "either", "  call 800", "or", "  repeat 0 1023", "    words F000", "  end", "end", "jump 300 3FF")


def unchanged(chance, recipes):
    """One of these recipes, a small random one, or a text at a limit."""
    if chance.one_in(8):
        return chance.one_of(LIMITS)(chance.between(-2, 1), chance.between(0, 3)).encode()
    if chance.one_in(2):
        return chance.one_of(recipes)
    return Author(chance, small_rom(chance), SCREEN).recipe().encode()


# ---- changes

OTHER_BYTES = [bytes([byte]) for byte in b"\n\n  ;019-ABCFafx_ehlorw\t\r\x00\x1f\x7e\x7f\xe9"]
OTHER_WORDS = (
    b"-0 00 01 +1 4096 80 1ff c800 10000 A-B 1A ; ;x "
    b"list shapes place scale call vctr svec x y bright to words either or end repeat jump halt dvgrecipe").split() + [b""]
ADDRESSES = b"000 001 1FF 200 3FE 3FF 400 800 BFF FFF"
TARGETS = ADDRESSES + b" OWN NONE lower _ LOW A _b SHIP BAD SAME TWICE ODD FAR"
# what may stand in a line, by its first word: numbers at a limit, a few past it, and others
LIKELY = {line: words.split() for line, words in {
    b"place": b"-2049 -2048 -1 -0 0 00 1 14 15 16 1023 2047 2048",
    b"vctr": b"-2049 -2048 -1024 -1023 -1 -0 0 1 9 10 15 16 1023 1024 2047 2048",
    b"svec": b"-4 -3 -1 0 1 2 3 4 15 16",
    b"repeat": b"-1 0 1 2 1022 1023 1024",
    b"words": b"B000 B0B0 CFFF D000 E001 F000 9000 A000 1234",
    b"call": TARGETS, b"shapes": TARGETS, b"list": ADDRESSES, b"jump": ADDRESSES}.items()}
OTHER_LINES = (
    b"|   |;|  ; x|; \t|;\x7f|; \x1f|either|either |or|end|repeat 0 1|  repeat 3 1023|repeat 0 0|halt| halt|dvgrecipe 1|list 000 3FF|"
    b"list 3FF 3FF|shapes OWN 800 A|shapes NEW 800 801|shapes BAD 800|call OWN A|call NONE 80|call 80 NONE|call NONE \t|call 800|"
    b"call 8ff|words A000 0000|words c800|place -2048 2047 0 1023 scale 0 15|svec 3 x -3 3 y 0 0 bright 0 7|"
    b"vctr 9 x -1023 1023 y 0 0 bright 0 15|vctr 9 x 0 1 y 0 0 bright 0 0 to -2048 2047 0 1023|vctr 9 x 0 1 y 0 0 bright 0 0 to 0 9 0|"
    b"svec 3 x 0 1 y 0 0 bright 0 0 to 0 1023 0 1023|jump 3FE 3FF|jump 200 200").split(b"|")
OTHER_LINES += [b";" * 200, b"\t" * 200]
KEYWORD = re.compile(rb"[a-z;]*")


def is_keyword(word):
    return KEYWORD.fullmatch(word) is not None


def likely(lines, at):
    """What may stand in a line in place of a word that is no keyword, such as words of lines near it that begin as it does."""
    first = lines[at].split()[:1]
    near = [line.split() for line in lines[max(0, at - 8):at + 8]]
    words = [word for words in near if words[:1] == first for word in words if not is_keyword(word)]
    return LIKELY.get(b"".join(first), OTHER_WORDS) + words


def word_replaced(chance, text):
    """The text with another word in place of one, which mostly is no keyword."""
    lines = text.split(b"\n")
    at = chance.between(0, max(0, len(lines) - 2))
    words = lines[at].split(b" ")
    index = min((chance.between(0, len(words) - 1) for _ in range(4)), key=lambda index: is_keyword(words[index]))
    words[index] = chance.one_of(OTHER_WORDS if chance.one_in(8) else likely(lines, at))
    lines[at] = b" ".join(words)
    return b"\n".join(lines)


def edited(chance, parts, others):
    """These parts with one of them changed, put in, dropped, doubled, or swapped with the next."""
    at = chance.between(0, max(0, len(parts) - 1))
    part, other = parts[at:at + 1], chance.one_of(parts if parts and chance.one_in(3) else others)
    first, behind, put = chance.one_of(((at, at + 1, [other]), (at, at, [other]), (at, at + 1, []), (at, at, part),
                                        (at, at + 2, [*parts[at + 1:at + 2], *part])))
    return [*parts[:first], *put, *parts[behind:]]


def byte_edited(chance, text):
    return b"".join(edited(chance, [bytes([byte]) for byte in text], OTHER_BYTES))


def line_edited(chance, text):
    return b"\n".join(edited(chance, text.split(b"\n"), OTHER_LINES))


def word_edited(chance, text):
    lines = text.split(b"\n")
    at = chance.between(0, len(lines) - 1)
    lines[at] = b" ".join(edited(chance, lines[at].split(b" "), OTHER_WORDS))
    return b"\n".join(lines)


def put_in_block(chance, text):
    """The text with a line or some more in a block, or in several ones."""
    lines, opening = text.split(b"\n"), chance.one_of(([b"either"], [b"repeat 0 2"], [b"either", b"call 800", b"or"]))
    first, depth = chance.between(2, max(2, len(lines) - 2)), chance.one_of((1, 1, 1, 2, 14, 15, 16))
    behind = first + chance.one_of((1, 1, 1, 2, 4))
    return b"\n".join([*lines[:first], *opening * depth, *lines[first:behind], *[b"end"] * depth, *lines[behind:]])


CHANGES = (word_replaced, word_replaced, word_replaced, byte_edited, word_edited, line_edited, put_in_block)


def changed_texts(chance, recipes, count):
    for _ in range(count):
        text = unchanged(chance, recipes)
        for _ in range(chance.one_of((1, 1, 1, 2, 3))):
            text = chance.one_of(CHANGES)(chance, text)
        yield text


def each_word():
    """A text of all forms of lines, with each word changed to each that is likely in its line."""
    lines = SHEET.encode().split(b"\n")
    for at, line in enumerate(lines[:-1]):
        words = line.split(b" ")
        for index in range(len(words)):
            for other in dict.fromkeys(likely(lines, at)):
                yield b"\n".join([*lines[:at], b" ".join([*words[:index], other, *words[index + 1:]]), *lines[at + 1:]])


def each_byte(chance, text):
    """The text cut before each byte, and with each byte changed to another one."""
    for at in range(len(text)):
        yield text[:at]
        other = chance.one_of([byte for byte in OTHER_BYTES if byte != text[at:at + 1]])
        yield text[:at] + other + text[at + 1:]
