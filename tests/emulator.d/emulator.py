"""Runs display lists on the DVG of MAME's machine `asteroid`, with a set of ROMs of our own: no game's ROM is needed.

MAME is started once for all runs. runs.lua, inside it, writes the vector ROM, vector RAM and the registers, and says GO, as the
game's program would by writing to 3000; and it notes what the registers are before each instruction.
"""

import os
import subprocess
from typing import NamedTuple

from words import HALT, as_bytes

HERE = os.path.dirname(os.path.abspath(__file__))
ROM_WORDS, RAM_WORDS = 1024, 1024


class Run(NamedTuple):
    frame: list         # words; the rest of vector RAM is filled with HALT
    x: int = 0          # the counters before GO
    y: int = 0
    scale: int = 0
    pointer: int = 0
    places: tuple = (0, 0, 0, 0)    # the stored ones
    most: int = 1 << 20             # after so many instructions the generator is halted


class Timed(NamedTuple):
    run: Run
    clocks: int         # after GO; then it is to halt


class Item(NamedTuple):
    """The registers before an instruction, or after the last."""
    address: int
    x: int
    y: int
    pointer: int
    places: tuple       # the stored ones
    scale: int
    opcode: int         # of the instruction to come
    intensity: int      # of the last draw
    words: int          # fetched so far
    points: int         # in the picture so far


class Seen(NamedTuple):
    items: list
    points: list        # (x, y, intensity)


# ---- the stand-in for the game's ROMs

def processor_roms():
    """A program at 6800 that keeps the watchdog quiet for ever, and answers each interrupt by a return."""
    low, high = bytearray(2048), bytearray(2048)
    #               SEI   CLD   LDX #FF     TXS   STA 3400          JMP 6805
    program = bytes([0x78, 0xD8, 0xA2, 0xFF, 0x9A, 0x8D, 0x00, 0x34, 0x4C, 0x05, 0x68])
    low[:len(program)] = program
    low[0x40] = 0x40                                                    # 6840: RTI
    high[0x7FA:] = bytes([0x40, 0x68, 0x00, 0x68, 0x40, 0x68])          # NMI, reset, IRQ
    return {"035145-04e.ef2": low, "035144-04e.h2": bytearray(2048), "035143-02.j2": high}


# The states by which the generator goes through an instruction, for each group of opcodes. A state from 8 on does something: 8
# moves the stack pointer for a store or a return, 9 loads the PC, A starts a draw or a LABS, B halts, and C, D, E and F take the low
# and the high byte of the first word (C, D) and of the second (E, F).
DRAW = {0xD: 0xC, 0xC: 0xF, 0xF: 0xE, 0xE: 0xA, 0xA: 0xD}
STATES = [
    {0x0: 0x9, 0xB: 0x9, 0x9: 0xD, **DRAW},             # GO, and opcodes 0 to 7, which are one group with 8
    DRAW,                                               # 9
    {0xD: 0xC, 0xC: 0xF, 0xF: 0xE, 0xE: 0xB, 0xB: 0xD}, # A: LABS
    {0xD: 0xC, 0xC: 0xB, 0xB: 0x0},                     # B: HALT
    {0xD: 0xC, 0xC: 0x8, 0x8: 0x9, 0x9: 0xD},           # C: JSRL
    {0xD: 0xC, 0xC: 0x9, 0x9: 0xD},                     # D: RTSL
    {0xD: 0xC, 0xC: 0x9, 0x9: 0xD},                     # E: JMPL
    {0xD: 0xC, 0xC: 0xA, 0xA: 0xD},                     # F: SVEC
]


def state_rom():
    """The PROM of states: bit 7 of an address is 1 while the generator runs, then come the group and the state before."""
    rom = bytearray(256)
    for group, following in enumerate(STATES):
        for state, then in following.items():
            rom[0x80 | group << 4 | state] = then
    return rom


def write_roms(folder):
    os.makedirs(folder)
    roms = {**processor_roms(), "035127-02.np3": bytearray(2048), "034602-01.c8": state_rom()}
    for name, content in roms.items():
        with open(os.path.join(folder, name), "wb") as file:
            file.write(content)


# ---- runs

def filled(words, length, word=0):
    return as_bytes(words + [word] * (length - len(words)))


def spelled(what, run, number):
    ram = filled(run.frame, RAM_WORDS, HALT).hex()
    places = ",".join(map(str, run.places))
    return f"{what} {run.x & 0xFFF} {run.y & 0xFFF} {run.scale} {run.pointer} {places} {number} {ram}"


def write_batches(path, batches, spell):
    with open(path, "w", encoding="ascii") as file:
        for rom, runs in batches:
            print("rom", filled(rom, ROM_WORDS).hex(), file=file)
            for run in runs:
                print(spell(run), file=file)


def start(folder):
    """Starts MAME, and waits for its end."""
    quiet = ["-video", "none", "-sound", "none", "-nothrottle", "-skip_gameinfo", "-nonvram_save", "-samplerate", "1000"]
    folders = ["-rompath", "roms", "-homepath", ".", "-cfg_directory", ".", "-nvram_directory", "."]
    script = ["-autoboot_delay", "0", "-autoboot_script", os.path.join(HERE, "runs.lua")]
    environment = dict(os.environ, HOME=folder, SDL_VIDEODRIVER="dummy", EMULATOR_RUNS="runs", EMULATOR_SEEN="seen")
    done = subprocess.run(["mame", "asteroid", *quiet, *folders, *script], cwd=folder, env=environment, check=False,
                          stdin=subprocess.DEVNULL, stdout=subprocess.PIPE, stderr=subprocess.STDOUT)
    return done.stdout.decode(errors="replace")


def item_of(spelled):
    address, x, y, pointer, first, second, third, fourth, *others = map(int, spelled.split(","))
    return Item(address, x, y, pointer, (first, second, third, fourth), *others)


def seen_of(line):
    items, points = line.split(" /")
    return Seen([item_of(item) for item in items.split()], [tuple(map(int, point.split(","))) for point in points.split()])


def do_all(folder, batches, spell):
    os.makedirs(folder)
    write_roms(os.path.join(folder, "roms", "asteroid"))
    write_batches(os.path.join(folder, "runs"), batches, spell)
    said = start(folder)
    path = os.path.join(folder, "seen")
    with open(path, "a+", encoding="ascii") as file:
        file.seek(max(0, os.path.getsize(path) - 4))
        if file.read() != "end\n":
            raise SystemExit("FAILED: MAME did not come to the end:\n" + said[-2000:])


def told_in(folder):
    with open(os.path.join(folder, "seen"), encoding="ascii") as file:
        for line in file:
            if line != "end\n":
                yield line


def emulate(folder, batches):
    """For each run of these batches, a batch being a vector ROM's words and its Runs, what was seen, one after another."""
    do_all(folder, batches, lambda run: spelled("run", run, run.most))
    yield from seen_before(folder)


def seen_before(folder):
    """What was seen of the runs that were emulated in this folder, once more."""
    return map(seen_of, told_in(folder))


def lateness(folder, batches):
    """For each run of these batches, which has its Timed here, how many clocks later than that it halted, as runs.lua has it."""
    do_all(folder, batches, lambda timed: spelled("time", timed.run, timed.clocks))
    yield from map(int, told_in(folder))
