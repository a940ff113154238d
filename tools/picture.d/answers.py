"""What `dvgcheck` says of the files, and which strokes are refused."""

import os
import re
import subprocess
import tempfile
from typing import NamedTuple, Optional, Union

from geometry import leave
from inputs import KEY, Box, Failure, entry_of
from machine import Entry, Step

SECONDS = 60


class Nothing:
    """An answer about no item."""
    at = None

    @staticmethod
    def is_about(_stroke):
        return False


class FrameItem(NamedTuple):
    at: int

    def is_about(self, stroke):
        return stroke.path[0] == Step(None, self.at)


class ShapeItem(NamedTuple):
    shape: Entry
    at: int

    def is_about(self, stroke):
        return Step(self.shape, self.at) in stroke.path


class Refused(NamedTuple):
    """What is red of a frame: the item of an answer, and with a window whatever lights outside it."""
    first: Union[Nothing, FrameItem, ShapeItem]
    window: Optional[Box] = None
    others: tuple = ()      # the addresses of the frame's other items that light outside

    def is_about(self, stroke):
        outside = self.window and (stroke.path[0].at in self.others or leave([stroke], self.window))
        return bool(outside) or self.first.is_about(stroke)


def all_refused(first, run, window):
    """This item, and the others of a frame that light outside the window. What a called shape lights after a LABS counts by itself."""
    leaving = [item.at for item in run.items if leave(item.before_labs(), window)]
    return Refused(first, window, tuple(at for at in dict.fromkeys(leaving) if first != FrameItem(at)))


def item_of(answer):
    """The item that a line's answer is about."""
    shape = re.fullmatch(f"refused [0-9]+ shape ([0-9A-F]{{3}})/({KEY}) at ([0-9A-F]{{3}})", answer)
    if shape:
        return ShapeItem(entry_of(shape[1], shape[2]), int(shape[3], 16))
    frame = re.fullmatch("refused [0-9]+ (?:.* )?frame at ([0-9A-F]{3})", answer)
    return FrameItem(int(frame[1], 16)) if frame else Nothing()


class Account(NamedTuple):
    answer: str
    why: str            # empty where the account has none


def account_of(lines):
    """The answer is what follows the last colon and space of the first line, whatever is in a frame's name."""
    first, *others = lines.split("\n")
    reasons = [line[len("why: "):] for line in others if line.startswith("why: ")]
    return Account(first.rsplit(": ", 1)[-1], reasons[0] if reasons else "")


def file_word(name):
    """A name as a word that is a file to `dvgcheck`, whatever it begins with."""
    return os.path.join(".", name) if name.startswith("-") else name


def explain(program, command, options, *files):
    words = [program, "explain", command, *options, "--", *map(file_word, files)]
    try:
        done = subprocess.run(words, stdin=subprocess.DEVNULL, stdout=subprocess.PIPE, stderr=subprocess.PIPE, check=False,
                              timeout=SECONDS)
    except OSError as why:
        raise Failure(f"cannot run {program}: {why.strerror}") from why
    except subprocess.TimeoutExpired as why:
        raise Failure(f"{program} took over {SECONDS} seconds") from why
    said = done.stdout.decode(errors="replace")
    if done.returncode not in (0, 1) or not said.endswith("\n"):
        said = (done.stderr.decode(errors="replace") or said).strip()
        raise Failure(f"{program} judged nothing, status {done.returncode}: {said}")
    return account_of(said)


def explain_frame(program, options, rom, frame):
    return explain(program, "frames", options, rom, frame)


def explain_shapes(program, options, rom, certificate):
    """The account of `check` for a frame that is HALT alone: it is about the certificate and its shapes."""
    with tempfile.NamedTemporaryFile() as halt:
        halt.write(bytes([0x00, 0xB0]))
        halt.flush()
        return explain(program, "check", options, rom, certificate, halt.name)
