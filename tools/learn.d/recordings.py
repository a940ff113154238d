"""Recordings: files of records, one frame behind another, and the list that each frame shows, item by item."""

from typing import NamedTuple

from inputs import Failure, read, words_of
from machine import HALT, JMPL, JSRL, LABS, RTSL, SVEC, Board, Draw, draw_of

MOST_BYTES = 2048


class Place(NamedTuple):
    """A LABS."""
    x: int
    y: int
    scale: int


class Call(NamedTuple):
    """A JSRL."""
    address: int


class Stroke(NamedTuple):
    """A VCTR or an SVEC, lit or dark."""
    opcode: int
    draw: Draw


class List(NamedTuple):
    """What a frame shows: where its list begins, and its items but HALT."""
    start: int
    items: tuple


class NoList(Exception):
    """Why a frame shows no list that a draft can have."""


def item_at(words, at):
    """The item at an address, and how many words it has; no item at HALT."""
    first = words[at]
    opcode = first >> 12
    size = 2 if opcode <= LABS else 1
    if at + size > len(words):
        raise NoList(f"runs past its end at {at:03X}")
    second = words[at + 1] if size == 2 else 0
    if opcode == LABS:
        y, x = (Board.coordinate(word & 0xFFF) // 1024 for word in (first, second))
        return Place(x, y, second >> 12), size
    if opcode in (JMPL, RTSL):
        raise NoList(f"has a {'jump' if opcode == JMPL else 'return'} at {at:03X}")
    if opcode == JSRL:
        return Call(first & 0xFFF), size
    return (None if opcode == HALT else Stroke(min(opcode, SVEC), draw_of(first, second))), size


def list_of(frame):
    """A frame's list. It begins at word 000, or where a jump there leads."""
    words, items = words_of(frame), []
    at = start = words[0] & 0xFFF if words[0] >> 12 == JMPL else 0
    while at < len(words):
        item, size = item_at(words, at)
        if item is None:
            return List(start, tuple(items))
        items.append(item)
        at += size
    raise NoList(f"runs past its end at {at:03X}")


def read_records(name, size):
    """The frames of a file. A last one that is cut short is left out; `dvgcheck` says that it can't be read."""
    content = read(name, "recording")
    if len(content) < size:
        raise Failure(f"no record in {name}")
    return [content[at:at + size] for at in range(0, len(content) - size + 1, size)]
