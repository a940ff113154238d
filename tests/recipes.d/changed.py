"""Holds what `recipe` says of a text, and what it prints of a right one, to grammar.py: changed.py PROGRAM RECIPE.. [--count TEXTS]

Each recipe is cut before each of its bytes, and each of its bytes is changed to another one; each word of a text of all forms is changed
to others. And 4,000 texts are tried that are these recipes, small random ones, and texts at a limit, with one to three changes. The ROM
has a wrong length, which is asked only behind the text: so a text that is right has the answer `refused 1`, and nothing is judged.
Printing what was printed is to change nothing.
"""

import argparse
import os
import subprocess
import sys
import tempfile
from typing import NamedTuple

from chances import Chance
from edits import changed_texts, each_byte, each_word
from grammar import Refused, read, spelling

SEED = 60
RIGHT = "refused 1"

# ---- labels, by byte addresses of the processor: one in vector RAM, of two characters at most, at one word twice, at two words, at none

LABELS = (("LOW", 0x4000), ("A", 0x5000), ("_b", 0x57FE), ("SHIP", 0x5002), ("BAD", 0x5004), ("SAME", 0x5006), ("SAME", 0x5006),
          ("TWICE", 0x5008), ("TWICE", 0x500A), ("ODD", 0x500B), ("FAR", 0x5800))


def label_words():
    """The word address of each label that has one."""
    words = {}
    for name, value in LABELS:
        if value % 2 == 0 and 0x4000 <= value < 0x5800:
            words.setdefault(name, set()).add((value - 0x4000) // 2)
    return {name: min(found) for name, found in words.items() if len(found) == 1}


# ---- what is wanted, and what is found

class Said(NamedTuple):
    answer: str
    printed: str        # of a right text, on both outputs


def wanted(name, text, labels):
    try:
        lines = read(text, labels)
    except Refused as refused:
        return Said(str(refused), "")
    try:
        return Said(RIGHT, spelling(lines))
    except Refused as refused:
        return Said(RIGHT, f"{name}: {refused}\n")


class Program:
    """The program, run in a folder that has the files."""

    def __init__(self, path, folder):
        self.path, self.folder = path, folder
        self.write("rom", b"\0")
        self.write("labels", "".join(f"{name} = ${value:04x}\n" for name, value in LABELS).encode())

    def write(self, name, content):
        with open(os.path.join(self.folder, name), "wb") as file:
            file.write(content)

    def run(self, *words):
        return subprocess.run([self.path, "recipe", *words, "--labels", "labels"], cwd=self.folder, capture_output=True, check=False)

    def answers(self, names):
        """What it says of each of these texts."""
        done = self.run("rom", *names)
        told = done.stdout.decode().splitlines()
        if [line.partition(": ")[0] for line in told] != names:
            raise SystemExit(f"FAILED: {len(told)} lines for {len(names)} recipes, status {done.returncode}: {done.stderr[:300]}")
        return [line.partition(": ")[2] for line in told]

    def printed(self, name):
        done = self.run("--print", name)
        return (done.stdout + done.stderr).decode("latin-1")


def said(program, texts):
    """What the program says of each of these texts."""
    names = [str(number) for number in range(len(texts))]
    for name, text in zip(names, texts):
        program.write(name, text)
    return [Said(answer, program.printed(name) if answer == RIGHT else "") for name, answer in zip(names, program.answers(names))]


def differences(program, texts):
    """What is not as it should be of these texts, each with its number."""
    labels, spelled = label_words(), {}
    for number, (text, found) in enumerate(zip(texts, said(program, texts))):
        want = wanted(str(number), text, labels)
        spelled.setdefault(want.printed)
        if found != want:
            yield f"text {number}: {text}\nwanted: {want}\nfound:  {found}"
    for text in spelled:
        program.write("spelled", text.encode())
        if text.startswith("dvgrecipe") and program.printed("spelled") != text:
            yield f"printed again, another text:\n{text}"


def parser():
    given = argparse.ArgumentParser(description="Holds what `recipe` says of texts, and what it prints, to a model.")
    given.add_argument("program", type=os.path.abspath)
    given.add_argument("recipes", nargs="+")
    given.add_argument("--count", type=int, default=4000, help="how many changed texts")
    given.add_argument("--seed", default=SEED)
    return given


def main():
    given, recipes = parser().parse_args(), []
    for path in given.recipes:
        with open(path, "rb") as file:
            recipes.append(file.read())
    chance = Chance(given.seed)
    texts = [text for recipe in recipes for text in each_byte(chance, recipe)]
    texts += [*each_word(), *changed_texts(chance, recipes, given.count)]
    with tempfile.TemporaryDirectory() as folder:
        found = list(differences(Program(given.program, folder), texts))
    for what in found[:3]:
        print(f"FAILED: {what[:6000]}")
    print(f"texts: {len(texts)} cut or changed, {len(found)} not as they should be")
    return 1 if found else 0


if __name__ == "__main__":
    sys.exit(main())
