#!/usr/bin/env python3
"""What is read of a good ROM where its chip, its socket, the board or the reader has a fault: faults.py ROM OLDER FOLDER writes into the
folder a file 01, 02, .. for each fault, and the file names, whose lines name them. OLDER is another ROM, on which one fault burns ROM."""
import sys
from pathlib import Path

FIRST = 0x800  # the word address of the ROM's first word


def elsewhere(source):
    """The fault by which the byte of another place is read; None where nothing is there, which reads FF."""

    def read(rom):
        places = [source(at) for at in range(len(rom))]
        return bytes(rom[place] if place is not None and 0 <= place < len(rom) else 0xFF for place in places)

    return read


def otherwise(seen):
    """The fault by which each byte is read as another."""
    return lambda rom: bytes(seen(byte) for byte in rom)


def low(line):
    return lambda number: number & ~(1 << line)


def high(line):
    return lambda number: number | 1 << line


def flipped(line):
    return lambda number: number ^ 1 << line


def crossed(one, other):
    """Two lines exchanged, in the binary digits of the number, of which the last is line 0."""

    def exchanged(number):
        digits = list(f"{number:012b}"[::-1])
        digits[one], digits[other] = digits[other], digits[one]
        return int("".join(digits)[::-1], 2)

    return exchanged


def bridged(one, other):
    """Two lines that touch, each of which pulls the other down."""
    both = 1 << one | 1 << other
    return lambda byte: byte if byte & both == both else byte & ~both


def wrong_bit(word, bit):
    """The fault of a bit of the word at an address."""

    def read(rom):
        at = 2 * (word - FIRST) + bit // 8
        return rom[:at] + bytes([rom[at] ^ 1 << bit % 8]) + rom[at + 1 :]

    return read


def half_dead(rom):
    """The upper half, with its last address line high, isn't driven: a bus with pull-ups reads FF there."""
    return rom[:1024] + b"\xff" * 1024


def dead_row(rom):
    """Sixteen bytes of a row of cells, from byte 300 hexadecimal on."""
    return rom[:0x300] + b"\xff" * 16 + rom[0x310:]


def worn(rom):
    """Cells of an EPROM that lost their charge: twelve of its zeros, as far from one another as they can be, read as ones."""
    zeros = [(at, bit) for at in range(len(rom)) for bit in range(8) if not rom[at] >> bit & 1]
    apart = len(zeros) // 12
    read = bytearray(rom)
    for at, bit in zeros[apart // 2 :: apart][:12]:
        read[at] |= 1 << bit
    return bytes(read)


def burnt_over(older):
    """An EPROM that was burnt without erasing the ROM that it held: burning makes zeros only."""
    return lambda rom: bytes(byte & before for byte, before in zip(rom, older))


def all_faults(older):
    return [
        ("bit 0 of 999, a size in the second rock", wrong_bit(0x999, 0)),
        ("bit 12 of 9A3, its RTSL", wrong_bit(0x9A3, 12)),
        ("bit 4 of 999, an intensity in it", wrong_bit(0x999, 4)),
        ("bit 0 of A80, which nothing uses", wrong_bit(0xA80, 0)),
        ("the halves exchanged", lambda rom: rom[1024:] + rom[:1024]),
        ("the bytes of each word swapped", lambda rom: bytes(rom[at] for low_byte in range(0, len(rom), 2) for at in (low_byte + 1, low_byte))),
        ("A0 low", elsewhere(low(0))),
        ("A1 low", elsewhere(low(1))),
        ("A5 low", elsewhere(low(5))),
        ("A10 low", elsewhere(low(10))),
        ("the upper half dead", half_dead),
        ("D0 low", otherwise(low(0))),
        ("D4 low", otherwise(low(4))),
        ("D4 high", otherwise(high(4))),
        ("D7 low", otherwise(low(7))),
        ("D7 high", otherwise(high(7))),
        ("D2 and D3 crossed", otherwise(crossed(2, 3))),
        ("A3 and A4 crossed", elsewhere(crossed(3, 4))),
        ("blank, 00", otherwise(lambda byte: 0)),
        ("blank, FF", otherwise(lambda byte: 0xFF)),
        ("inverted", otherwise(lambda byte: 255 - byte)),
        ("shifted by a byte", elsewhere(lambda at: at - 1)),
        ("shifted by a word", elsewhere(lambda at: at + 2)),
        ("D2 and D3 bridged", otherwise(bridged(2, 3))),
        ("a row of 16 bytes dead", dead_row),
        ("12 bits of an EPROM worn", worn),
        ("burnt over another ROM", burnt_over(older)),
    ]


def main():
    rom, older, folder = Path(sys.argv[1]).read_bytes(), Path(sys.argv[2]).read_bytes(), Path(sys.argv[3])
    faults = all_faults(older)
    for number, (_, read) in enumerate(faults, 1):
        (folder / f"{number:02}").write_bytes(read(rom))
    (folder / "names").write_text("".join(f"{name}\n" for name, _ in faults))


main()
