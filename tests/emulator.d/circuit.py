"""Runs the circuit of crates/dvg_circuit, by `dvg_bench trace`."""

import os
import subprocess
from typing import NamedTuple

from words import HALT, as_bytes

ROM_AT, RAM_WORDS, WORDS = 0x800, 0x400, 0x1000


class Line(NamedTuple):
    """The registers after an instruction, and the counters wherever it had the beam lit: x, y, x, y and so on."""
    address: int
    x: int
    y: int
    scale: int
    pointer: int
    places: tuple
    lit: list


def memory(rom, frame):
    """The words 000 to FFF as MAME's machine has them: 0 is read where there is no chip."""
    ram = frame + [HALT] * (RAM_WORDS - len(frame))
    low = ram + [0] * (ROM_AT - RAM_WORDS) + rom
    return low + [0] * (WORDS - len(low))


def line_of(line):
    registers, lit = line.split(" ", 9)[:9], line.split(" ", 9)[9:]
    address, x, y, scale, pointer, *places = map(int, registers)
    return Line(address, x, y, scale, pointer, tuple(places), list(map(int, lit[0].replace(",", " ").split())) if lit else [])


def told(bench, folder, rom, run, most):
    """The lines about this run, of so many instructions at most."""
    path = os.path.join(folder, "memory")
    with open(path, "wb") as file:
        file.write(as_bytes(memory(rom, run.frame)))
    words = map(str, (most, run.x, run.y, run.scale, run.pointer, *run.places))
    done = subprocess.run([bench, "trace", path, *words], capture_output=True, text=True, check=False)
    if done.returncode:
        raise SystemExit(f"FAILED: dvg_bench trace: status {done.returncode}: {done.stderr[:300]}")
    return done.stdout.splitlines()


def traced(bench, folder, rom, run, most):
    """What the circuit does in this run, instruction by instruction; the last line has the clocks."""
    return [line_of(line) for line in told(bench, folder, rom, run, most)[:-1]]


def traced_clocks(bench, folder, rom, run):
    """The clocks of this run until it halts."""
    name, clocks = told(bench, folder, rom, run, run.most)[-1].split()
    if name != "clocks":
        raise SystemExit("FAILED: dvg_bench trace: no clocks")
    return int(clocks)
