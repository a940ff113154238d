#!/usr/bin/env python3
"""What `explain diff` with the same words is to print, with labels of an ld65 file. It works as a repairer with a table would: it makes
each dump that a single fault gives, as far as its bytes are known, and lays it beside the other one."""
import argparse
import sys
from itertools import combinations
from pathlib import Path


def bytes_of(count):
    return f"{count} byte" if count == 1 else f"{count} bytes"


def level_of(line, number):
    return "high" if number & 1 << line else "low"


def exchanged(number, one, other):
    """The number with two of its binary digits exchanged."""
    return number & ~(1 << one | 1 << other) | (number >> one & 1) << other | (number >> other & 1) << one


def data_faults():
    """The faults of data lines, each with what it makes of a byte."""
    for line in range(8):
        yield f"data line D{line} is low", lambda byte, bit=1 << line: byte & 255 - bit
        yield f"data line D{line} is high", lambda byte, bit=1 << line: byte | bit
    for one, other in combinations(range(8), 2):
        yield f"data lines D{one} and D{other} are crossed", lambda byte, one=one, other=other: exchanged(byte, one, other)
    yield "all data lines are inverted", lambda byte: byte ^ 255
    yield "all bytes are 00", lambda byte: 0
    yield "all bytes are FF", lambda byte: 255


def inverted_line(line, whole):
    """What comes of an inverted line in a dump of so many bytes, of which it may pick the half."""
    if line == 0:
        return "the bytes of each word are exchanged"
    return "the halves are exchanged" if 2 << line == whole else f"address line A{line} is inverted"


def address_faults(lines, whole):
    """Those of address lines, each with the place from which it reads."""
    for line in lines:
        yield f"address line A{line} is low", lambda at, bit=1 << line: at & ~bit
        yield f"address line A{line} is high", lambda at, bit=1 << line: at | bit
    for one, other in combinations(lines, 2):
        yield f"address lines A{one} and A{other} are crossed", lambda at, one=one, other=other: exchanged(at, one, other)
    for line in lines:
        yield inverted_line(line, whole), lambda at, bit=1 << line: at ^ bit
    for step, name in (1, "byte"), (2, "word"):
        yield f"each byte is that of one {name} further on", lambda at, step=step: at + step
        yield f"each byte is that of one {name} before", lambda at, step=step: at - step


def dead_parts(lines):
    """Those of a part that isn't driven, each with the line and the level where that is, and what is read there."""
    for line in lines:
        for level in ("high", "low"):
            for name, value in (("FF", 255), ("00", 0)):
                yield f"where A{line} is {level} all bytes are {name}", line, level, value


def faults(good):
    """All faults of a good dump, each with what it reads at a place: None where that is outside the dump."""
    lines = [line for line in range(12) if 1 << line < len(good)]
    for name, seen in data_faults():
        yield name, lambda at, seen=seen: seen(good[at])
    for name, source in address_faults(lines, len(good)):
        yield name, lambda at, source=source: good[source(at)] if 0 <= source(at) < len(good) else None
    for name, line, level, value in dead_parts(lines):
        yield name, lambda at, line=line, level=level, value=value: value if level_of(line, at) == level else good[at]


def told_faults(good, other, places):
    """The names of the faults that give the other dump, as far as both go, and one at least of the bytes that differ from within the dump."""
    for name, read in faults(good):
        given = [read(at) for at in range(min(len(good), len(other)))]
        if all(byte in (None, other[at]) for at, byte in enumerate(given)) and any(given[at] is not None for at in places):
            yield name


def changed_lines(pairs, before, verb):
    """How many bytes lost or gained each data line, which had this level before."""
    for line in range(8):
        count = sum(1 for old, new in pairs if level_of(line, old) == before and level_of(line, old) != level_of(line, new))
        if count:
            yield f"{verb}: D{line} in {bytes_of(count)}"


def same_levels(places, size):
    """The address lines that have one level at all these places, from the last one down."""
    for line in reversed(range(12)):
        levels = {level_of(line, at) for at in places}
        if 1 << line < size and len(levels) == 1:
            yield f"A{line} {levels.pop()}"


def named(address, labels):
    """An address as accounts spell it: by the nearest label at it or below it, where there is one that may name it."""
    below = [(at, -number, name) for number, (at, name) in enumerate(labels) if at == address or 0x400 <= at < address]
    if not below:
        return f"{address:03X}"
    at, _, name = max(below)
    return f"{name} ({address:03X})" if at == address else f"{name}+{address - at} ({address:03X})"


def changed_words(good, other, first, labels):
    for index in range(min(len(good), len(other)) // 2):
        old, new = (dump[2 * index] + 256 * dump[2 * index + 1] for dump in (good, other))
        if old != new:
            address = first + index
            place = f"{named(address, labels)} holds" if address <= 0xBFF else f"bytes {2 * index} and {2 * index + 1} hold"
            yield f"word: {place} {old:04X}, in the other {new:04X}"


def compared(good, other, first, labels):
    """The lines of the answer, and its status."""
    if good == other:
        return ["equal"], 0
    size = min(len(good), len(other))
    places = [at for at in range(size) if good[at] != other[at]]
    pairs = [(good[at], other[at]) for at in places]
    bits = sum(bin(old ^ new).count("1") for old, new in pairs)
    lines = [f"differ bytes={len(places)} words={len({at // 2 for at in places})} bits={bits}"]
    if len(good) != len(other):
        lines.append(f"lengths: the ROM has {bytes_of(len(good))}, the other {len(other)}: the first {size} are compared")
    lines += [*changed_lines(pairs, "high", "lost"), *changed_lines(pairs, "low", "gained")]
    if places:
        same = list(same_levels(places, size))
        lines += ["addresses: " + ", ".join(same)] if same else []
        told = [f"fault: {name}" for name in told_faults(good, other, places)]
        lines += told or [f"not explained: {bytes_of(len(places))}"]
    else:
        lines.append("equal as far as both go")
    return [*lines, *changed_words(good, other, first, labels)], 1


def labels_of(path):
    """The labels of an ld65 file, as words, in its order."""
    values = (line.split()[1:] for line in Path(path).read_text().splitlines() if line.startswith("al "))
    return [((int(value, 16) - 0x4000) // 2, name[1:]) for value, name in values if int(value, 16) % 2 == 0 and 0x4000 <= int(value, 16) < 0x5800]


def main():
    words = argparse.ArgumentParser()
    words.add_argument("rom", type=Path)
    words.add_argument("other", type=Path)
    words.add_argument("--rom", dest="map", default="800/BFF")
    words.add_argument("--labels", type=labels_of, default=[])
    given = words.parse_args()
    lines, status = compared(given.rom.read_bytes(), given.other.read_bytes(), int(given.map[:3], 16), given.labels)
    print("\n".join(lines))
    return status


if __name__ == "__main__":
    sys.exit(main())
