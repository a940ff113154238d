"""What `picture` is given: values of the command line, files, and certificates, each spelled as `dvgcheck` has it."""

import re
from typing import NamedTuple, Optional

from machine import FINE, Entry

SCREEN_END, FIRST_OF_ROMS, LAST_OF_ROMS = 1023, 0x400, 0xBFF
NUMBER = "(?:0|-?[1-9][0-9]*)"
KEY = "any|1[0-5]|[0-9]"
SHAPE = re.compile(rf"shape ([0-9A-F]{{3}}) ({KEY}) end (?:rel|abs) {NUMBER} {NUMBER} box (none|{NUMBER}(?: {NUMBER}){{3}}) .*"
                   rf"|shape ([0-9A-F]{{3}}) ({KEY}) end lost box (none|{NUMBER}(?: {NUMBER}){{3}}) .*")


class Failure(Exception):
    """Why there is no picture."""


class Box(NamedTuple):
    """In 1/1024 of a place, as all coordinates."""
    left: int
    right: int
    bottom: int
    top: int


ZONE = Box(-1024 * FINE, 2047 * FINE, -1024 * FINE, 2047 * FINE)     # what the board clips


class Map(NamedTuple):
    first: int
    last: int


class Claim(NamedTuple):
    entry: Entry
    box: Optional[Box]      # None where the certificate says `none`


def address_of(text):
    if not re.fullmatch("[0-9A-F]{3}", text):
        raise Failure(f"bad address: {text}")
    return int(text, 16)


def map_of(text):
    if not re.fullmatch("[0-9A-F]{3}/[0-9A-F]{3}", text):
        raise Failure(f"bad map: {text}")
    where = Map(int(text[:3], 16), int(text[4:], 16))
    if not FIRST_OF_ROMS <= where.first <= where.last <= LAST_OF_ROMS:
        raise Failure(f"bad map: {text}")
    return where


def window_of(text):
    if not re.fullmatch("(0|[1-9][0-9]{0,3})(,(0|[1-9][0-9]{0,3})){3}", text):
        raise Failure(f"bad window: {text}")
    ends = Box(*map(int, text.split(",")))
    if not (ends.left <= ends.right <= SCREEN_END and ends.bottom <= ends.top <= SCREEN_END):
        raise Failure(f"bad window: {text}")
    return Box(*(FINE * end for end in ends))


def budget_of(text):
    if not re.fullmatch("[1-9][0-9]{0,6}", text) or int(text) > 1000000:
        raise Failure(f"bad budget: {text}")
    return int(text)


def read(name, what):
    try:
        with open(name, "rb") as file:
            return file.read()
    except OSError as why:
        raise Failure(f"cannot read the {what}: {why.strerror}") from why


def words_of(content):
    return [low | high << 8 for low, high in zip(content[::2], content[1::2])]


def read_rom(name, where):
    content = read(name, "ROM")
    if len(content) != 2 * (where.last - where.first + 1):
        raise Failure(f"the ROM has not two bytes for each word of {where.first:03X}/{where.last:03X}")
    return words_of(content)


def read_frame(name):
    content = read(name, "frame")
    if len(content) % 2 or not 2 <= len(content) <= 2048:
        raise Failure("the frame is not 2 to 2048 bytes, or an odd number")
    return words_of(content)


def entry_of(address, key):
    return Entry(int(address, 16), None if key == "any" else int(key))


def claim_of(line):
    parts = SHAPE.fullmatch(line)
    if not parts:
        raise Failure(f"not a line of a certificate: {line[:60]}")
    address, key, box = (part for part in parts.groups() if part)
    return Claim(entry_of(address, key), None if box == "none" else Box(*map(int, box.split())))


def read_certificate(name):
    """Where the ROM lies, and the claims. Whether they hold is for `dvgcheck check` to say."""
    lines = read(name, "certificate").decode("ascii", "replace").splitlines()
    if lines[:1] == ["dvgcert 1"]:
        where, lines = Map(0x800, 0xBFF), lines[1:]
    elif lines[:1] == ["dvgcert 2"] and len(lines) > 1 and lines[1].startswith("rom "):
        where, lines = map_of(lines[1][4:].replace(" ", "/")), lines[2:]
    else:
        raise Failure("not a certificate")
    if not lines or lines[-1] != f"done {len(lines) - 1}":
        raise Failure("not a whole certificate")
    return where, [claim_of(line) for line in lines[:-1]]
