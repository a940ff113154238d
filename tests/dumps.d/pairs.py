#!/usr/bin/env python3
"""Random pairs of dumps: pairs.py COUNT FOLDER writes of each pair the files N.rom, N.other and N.told, what `explain diff` is to print,
and prints N, the status and where the ROM lies. The seed is fixed."""
import random
import sys
from pathlib import Path

from compared import compared, faults

FIRST = 0x400


def some_rom(chance):
    """Of few bytes or many, which are any, or few, or only these two; mostly of a size that a chip has."""
    size = chance.choice([2, 4, 16, 32, 1024, 2048, 4096, 2 * chance.randint(1, 2048)])
    values = chance.choice([range(256), range(16), [0, 255], [0, 0, 0, chance.randrange(256)], [0]])
    return bytes(chance.choice(values) for _ in range(size))


def with_a_fault(good, chance):
    """What is read by one of the faults; a byte from outside the dump is any."""
    _, read = chance.choice(list(faults(good)))
    given = [read(at) for at in range(len(good))]
    return bytes(chance.randrange(256) if byte is None else byte for byte in given)


def with_wrong_bits(good, chance):
    read = bytearray(good)
    for _ in range(chance.randint(1, 5)):
        read[chance.randrange(len(read))] ^= 1 << chance.randrange(8)
    return bytes(read)


def of_another_length(good, chance):
    return good[: chance.randint(1, len(good))] if chance.random() < 0.5 else good + bytes(chance.randint(1, 4096 - len(good) + 1))[:-1]


def some_other(good, chance):
    """By a fault, by two, by wrong bits, by both, or as it is; sometimes of another length."""
    changes = chance.choice([[], [with_a_fault], [with_a_fault], [with_a_fault] * 2, [with_wrong_bits], [with_a_fault, with_wrong_bits]])
    if chance.random() < 0.2:
        changes = [*changes, of_another_length]
    for change in changes:
        good = change(good, chance)
    return good


def main():
    count, folder = int(sys.argv[1]), Path(sys.argv[2])
    chance = random.Random(63)
    for number in range(count):
        good = some_rom(chance)
        other = some_other(good, chance)
        lines, status = compared(good, other, FIRST, [])
        (folder / f"{number}.rom").write_bytes(good)
        (folder / f"{number}.other").write_bytes(other)
        (folder / f"{number}.told").write_text("".join(f"{line}\n" for line in lines))
        print(number, status, f"{FIRST:03X}/{FIRST + len(good) // 2 - 1:03X}")


main()
