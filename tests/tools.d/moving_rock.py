"""A set of ROMs for MAME's machine `asteroid` whose program has two lists in turn: moving_rock.py FOLDER VECTOR_ROM

Word 000 jumps to the list at 001 in one frame, and to that at 201 in the next. Each puts the rock of examples/homebrew.rom at X, 640 at
global scale 2: the first at X 255, the second at X 126, then 124, and so on down to 0, then at 254 and on down to 224. After 160 frames
the program says GO no more. A frame takes four of the processor's interrupts, 16 milliseconds.
"""

import os
import sys

sys.path.insert(0, os.path.join(os.path.dirname(os.path.realpath(__file__)), "..", "emulator.d"))
sys.dont_write_bytecode = True
from emulator import state_rom      # noqa: E402

PROGRAM = bytes([
    0x78, 0xD8, 0xA2, 0xFF, 0x9A,           # 6800: SEI, CLD, LDX #FF, TXS
    0xA9, 0x00, 0x85, 0x00,                 # 6805: LDA #0, STA 00: no interrupt so far
    0xA2, 0x07, 0xBD, 0x60, 0x68,           # 6809: LDX #7, LDA 6860,X
    0x9D, 0x02, 0x40, 0x9D, 0x02, 0x44,     # 680E: STA 4002,X, STA 4402,X: the list into words 001 on, and 201 on
    0xCA, 0x10, 0xF4,                       # 6814: DEX, BPL 680B
    0xA9, 0x01, 0x8D, 0x00, 0x40,           # 6817: LDA #1, STA 4000: the low byte of both jumps
    0xA0, 0x7F,                             # 681C: LDY #127
    0x98, 0x4A, 0xA9, 0xE0, 0xB0, 0x05,     # 681E: TYA, LSR, LDA #E0, BCS 6829: where Y is odd, to the list at 001
    0x8C, 0x04, 0x44, 0xA9, 0xE2,           # 6824: STY 4404, LDA #E2: else Y into word 202 as the rock's X, and to the list at 201
    0x8D, 0x01, 0x40, 0x8D, 0x00, 0x30,     # 6829: STA 4001, STA 3000: the jump at word 000, and GO
    0x8D, 0x00, 0x34, 0xA5, 0x00,           # 682F: STA 3400, LDA 00: the watchdog, and wait
    0xC9, 0x04, 0x90, 0xF7,                 # 6834: CMP #4, BCC 682F: for four interrupts
    0xA9, 0x00, 0x85, 0x00,                 # 6838: LDA #0, STA 00
    0x88, 0xC0, 0xDF, 0xD0, 0xDD,           # 683C: DEY, CPY #223, BNE 681E
    0x8D, 0x00, 0x34, 0x4C, 0x41, 0x68,     # 6841: STA 3400, JMP 6841
])
INTERRUPT = bytes([0xE6, 0x00, 0x40])       # 6850: INC 00, RTI
LIST = bytes([0x80, 0xA2, 0xFF, 0x20, 0x16, 0xC8, 0x00, 0xB0])      # 6860: A280 20FF, C816, B000
VECTORS = bytes([0x50, 0x68, 0x00, 0x68, 0x50, 0x68])               # 7FFA: NMI, reset, IRQ


def filled(parts):
    chip = bytearray(2048)
    for at, content in parts.items():
        chip[at:at + len(content)] = content
    return chip


def main(folder, vector_rom):
    with open(vector_rom, "rb") as file:
        shapes = file.read()
    roms = {"035145-04e.ef2": filled({0: PROGRAM, 0x50: INTERRUPT, 0x60: LIST}), "035144-04e.h2": filled({}),
            "035143-02.j2": filled({0x7FA: VECTORS}), "035127-02.np3": shapes, "034602-01.c8": state_rom()}
    os.makedirs(folder)
    for name, content in roms.items():
        with open(os.path.join(folder, name), "wb") as file:
            file.write(content)


main(*sys.argv[1:])
