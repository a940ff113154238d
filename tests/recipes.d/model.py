"""Holds `dvgcheck recipe`, `explain recipe` and `dvgcheck belongs` to every member of small random recipes:
model.py --frames 'PROGRAM' [--recipe 'PROGRAM'] [--count RECIPES] [--seed SEED] [--first LOT]

Each list that a recipe spells is written out as a frame and judged by `frames --board`; the frame is a member where the list leads to
where its lines have to lead, by `to`. From these answers follow that of `recipe`, which is to be just that line, and whether there is a
witness; the witness is to be a member, refused with the same number at the same line. The account is to tell of all members what
accounts.py finds. What `belongs` says of these frames, and of such with one word changed, is to be what their items say. The first
difference ends the run; the lot that it names begins it again, by --first.
"""

import argparse
import os
import subprocess
import sys
import tempfile
from typing import NamedTuple

from accounts import account
from answers import Strange, answer, length_refusal, refusal
from chances import FIRST, Asked, Chance, Rom, some_question, some_recipe, some_rom
from items import as_bytes, as_long, as_words, frame_items
from leading import front_items, led
from members import every_list, frame_of, items_of
from shapes import Shapes
from texts import Recipe

LOT = 10                # recipes over one ROM
FEW = 12                # frames of each that `belongs` is asked of, and as many changed ones


class Difference(Exception):
    """Something is not as it should be."""


class Case(NamedTuple):
    name: str
    text: str
    recipe: Recipe
    lists: list         # all that it spells
    led: list           # how many items of each come before the first one that doesn't lead where it has to
    members: list       # the lists of which each item does
    frames: dict        # the words of a frame, for the items of each list
    chance: Chance


class Lot(NamedTuple):
    number: int
    rom: Rom
    shapes: Shapes
    asked: Asked
    cases: list


# ---- the lots

def some_case(chance, name, rom, shapes, window):
    text, recipe = some_recipe(chance, rom, window)
    lists = [] if length_refusal(recipe) else every_list(recipe)
    counts = [led(one, shapes) for one in lists]
    members = [one for one, count in zip(lists, counts) if count == len(one.spelled)]
    return Case(name, text, recipe, lists, counts, members, {items_of(one): frame_of(one, chance) for one in lists}, chance)


def some_lot(seed, number, count):
    chance = Chance(f"{seed} {number}")
    rom, asked = some_rom(chance), some_question(chance)
    shapes = Shapes(rom.words, FIRST)
    return Lot(number, rom, shapes, asked, [some_case(chance, str(index), rom, shapes, asked.window) for index in range(count)])


# ---- the program

def command_words(command):
    """The words of a command, whose program may be told by where it lies from here."""
    program, *words = command.split()
    return [os.path.abspath(program) if "/" in program else program, *words]


class Programs:
    """The commands, run in a folder that has the files."""

    def __init__(self, frames, recipe, folder):
        self.frames, self.recipe, self.folder = command_words(frames), command_words(recipe), folder

    def write(self, name, content):
        with open(os.path.join(self.folder, name), "wb") as file:
            file.write(content)

    def taken(self, name):
        """The words of a file that a command has written, if it has, and then the file is gone."""
        path = os.path.join(self.folder, name)
        if not os.path.exists(path):
            return None
        with open(path, "rb") as file:
            content = file.read()
        os.remove(path)
        return as_words(content)

    def run(self, words):
        return subprocess.run(words, cwd=self.folder, capture_output=True, text=True, check=False)

    def told(self, words, names, about):
        """What a command says of each of these files, which it is handed in a list."""
        self.write("list", "".join(name + "\n" for name in names).encode())
        done = self.run([*words, "--list", "list"]) if names else None
        lines = done.stdout.splitlines() if names else []
        if [line.partition(": ")[0] for line in lines] != names:
            raise Difference(f"not a line for each frame\n{about}{' '.join(words)}: status {done.returncode}\n{done.stdout}{done.stderr}")
        return [line.partition(": ")[2] for line in lines], done

    def judged(self, lot, names):
        """What `frames` says of each of these files."""
        words = [*self.frames, "frames", "--board", "--rom", lot.rom.map(), *lot.asked.options, "rom"]
        return self.told(words, names, shown_lot(lot))[0]


# ---- what is compared

def shown_words(words):
    return " ".join(f"{word:04X}" for word in words) + "\n"


def shown_lot(lot):
    return f"lot {lot.number}, options --rom {lot.rom.map()} {' '.join(lot.asked.options)}\nROM: {shown_words(lot.rom.words)}"


def shown(lot, case):
    """All that is needed to see a difference again."""
    return f"{shown_lot(lot)}recipe {case.name}:\n{case.text}"


def differs(lot, case, what, wanted, found, words=None):
    frame = "" if words is None else "frame: " + shown_words(words)
    raise Difference(f"{what}\n{shown(lot, case)}{frame}wanted: {wanted}\nfound:  {found}")


def frame_names(case):
    return [f"{case.name}-{index}.frame" for index in range(len(case.frames))]


def judged_lists(programs, lot):
    """What `frames` says of each list, by its items, for each recipe of the lot."""
    frames = [words for case in lot.cases for words in case.frames.values()]
    names = [name for case in lot.cases for name in frame_names(case)]
    for name, words in zip(names, frames):
        programs.write(name, as_bytes(words))
    told = iter(programs.judged(lot, names))
    return [dict(zip(case.frames, told)) for case in lot.cases]


def wanted_answer(lot, case, told):
    try:
        return length_refusal(case.recipe) or answer(case, told, lot.shapes)
    except Strange as strange:
        return differs(lot, case, "what `frames` says of a list", "an answer about an item of the recipe", strange)


def try_recipe(programs, lot, case, wanted):
    """Compares the line of `recipe`, and gives its witness."""
    name, witness = case.name + ".recipe", case.name + ".witness"
    programs.write(name, case.text.encode())
    done = programs.run([*programs.recipe, "recipe", "--rom", lot.rom.map(), *lot.asked.options, "rom", name, "-o", witness])
    words = programs.taken(witness)
    frame = words or case.frames.get(wanted.items)
    line, status = f"{name}: {wanted.told}\n", 1 if wanted.number else 0
    if (done.stdout, done.returncode) != (line, status):
        differs(lot, case, "the line of `recipe`", f"{line}with status {status}",
                f"{done.stdout}{done.stderr}with status {done.returncode}", frame)
    if wanted.has_witness not in (None, words is not None):
        which = ("no file", "a file")
        differs(lot, case, "the witness", f"{wanted.told}, {which[wanted.has_witness]}", which[words is not None], frame)
    return words


def try_account(programs, lot, case, wanted, witness):
    """Compares the account of `explain recipe`: all of it for an accepted recipe, else the lines that no other account has."""
    words = [*programs.recipe, "explain", "recipe", "--rom", lot.rom.map(), *lot.asked.options, "rom", case.name + ".recipe"]
    line, *found = programs.run(words).stdout.splitlines()
    told = account(case, lot.shapes, wanted, witness)
    if wanted.number:
        found = found[:len(told)]
    if line != f"{case.name}.recipe: {wanted.told}" or found != told:
        differs(lot, case, "the account of `explain recipe`", "\n".join([wanted.told, *told]), "\n".join([line, *found]))


def try_witness(lot, case, wanted, words, told):
    """Whether a witness, of which `frames` says this, is a member that is refused as the recipe is."""
    items = tuple(item for _, item in frame_items(words))
    same = [one for one in case.members if items_of(one) == items]
    if not same:
        differs(lot, case, "the witness", "a member", told, words)
    if told.startswith("accepted"):
        differs(lot, case, "the witness", wanted.told, told, words)
    refusals = {(one.number, one.line) for one in (refusal(member, told, lot.shapes) for member in same)}
    if (wanted.number, wanted.line) not in refusals or wanted.line is None and told != wanted.told:
        differs(lot, case, "the witness", wanted.told, told, words)


def try_witnesses(programs, lot, wanted, witnesses):
    some = [(case, one, words) for case, one, words in zip(lot.cases, wanted, witnesses) if words is not None]
    names = [case.name + ".shown" for case, _, _ in some]
    for name, (_, _, words) in zip(names, some):
        programs.write(name, as_bytes(words))
    for (case, one, words), line in zip(some, programs.judged(lot, names)):
        try_witness(lot, case, one, words, line)


# ---- which frames belong

def tree_of(case):
    """What items may be that lead where they have to, and behind each of them the next."""
    tree = {}
    for one, count in zip(case.lists, case.led):
        branch = tree
        for item in front_items(one, count):
            branch = branch.setdefault(item, {})
    return tree


def belonging(tree, words):
    """What `belongs` has to say of a frame: no longer front of its items is spelled than that up to the word that is told."""
    for at, item in frame_items(words):
        if item not in tree:
            return f"outside at {at:03X}"
        tree = tree[item]
    return "belongs"


def changed(chance, words, other):
    """A frame with one word changed, or without the last one."""
    at = chance.between(0, len(words) - 1)
    if at and chance.one_in(12):
        return words[:-1]
    word = words[at]
    new = chance.one_of((word ^ 1 << chance.between(0, 15), word ^ 1 << chance.between(0, 15), word & 0xF000 | word + 1 & 0xFFF,
                         word & 0xF000 | word - 1 & 0xFFF, chance.between(0, 0xFFFF), other[at % len(other)]))
    return [*words[:at], new, *words[at + 1:]]


def lengthened(chance, member):
    """The frame of a list with VCTRs for its SVECs."""
    return frame_of(member._replace(spelled=[one._replace(item=as_long(one.item)) for one in member.spelled]), chance)


def tried_frames(case):
    """Some frames, as many with a word changed, and one with longer draws."""
    every = list(case.frames.values())
    some = every if len(every) <= FEW else [case.chance.one_of(every) for _ in range(FEW)]
    others = [changed(case.chance, words, case.chance.one_of(every)) for words in some]
    return [*some, *others, lengthened(case.chance, case.chance.one_of(case.lists))]


def try_belongs(programs, lot, case):
    frames, tree = tried_frames(case), tree_of(case)
    names = [f"{case.name}-{index}.tried" for index in range(len(frames))]
    for name, words in zip(names, frames):
        programs.write(name, as_bytes(words))
    words = [*programs.recipe, "belongs", "--rom", lot.rom.map(), "rom", case.name + ".recipe"]
    told, done = programs.told(words, names, shown(lot, case))
    for frame, found in zip(frames, told):
        wanted = belonging(tree, frame)
        if found != wanted:
            differs(lot, case, "what `belongs` says", wanted, found, frame)
    status = 1 if any(found != "belongs" for found in told) else 0
    if done.returncode != status:
        differs(lot, case, "the status of `belongs`", status, done.returncode)


def try_too_long(programs, lot, case, wanted):
    """Of a recipe whose longest list doesn't fit, `belongs` says this once."""
    programs.write("tried", as_bytes([0xB000]))
    done = programs.run([*programs.recipe, "belongs", "--rom", lot.rom.map(), "rom", case.name + ".recipe", "tried"])
    if (done.stdout + done.stderr, done.returncode) != (wanted.told + "\n", 1):
        differs(lot, case, "what `belongs` says", wanted.told, f"{done.stdout}{done.stderr}with status {done.returncode}")


# ---- the whole

def try_lot(programs, lot):
    programs.write("rom", as_bytes(lot.rom.words))
    told = judged_lists(programs, lot)
    wanted = [wanted_answer(lot, case, lines) for case, lines in zip(lot.cases, told)]
    witnesses = [try_recipe(programs, lot, case, one) for case, one in zip(lot.cases, wanted)]
    try_witnesses(programs, lot, wanted, witnesses)
    for case, one, witness in zip(lot.cases, wanted, witnesses):
        try_account(programs, lot, case, one, witness)
    for case, one in zip(lot.cases, wanted):
        if one.number == 57:
            try_too_long(programs, lot, case, one)
        else:
            try_belongs(programs, lot, case)
    return wanted


def parser():
    given = argparse.ArgumentParser(description="Holds `recipe` and `belongs` to every member of small random recipes.")
    given.add_argument("--frames", required=True, metavar="CMD", help="the program whose `frames` judges the members")
    given.add_argument("--recipe", metavar="CMD", help="the program whose `recipe` and `belongs` are tried; else the same")
    given.add_argument("--count", type=int, default=500, help="how many recipes")
    given.add_argument("--seed", default="60")
    given.add_argument("--first", type=int, default=0, metavar="LOT", help="the number of the first lot of recipes")
    given.add_argument("--kinds", action="store_true", help="ends with how many recipes have each number")
    return given


def try_all(given, folder):
    """How many frames were tried, and the numbers of the recipes' answers."""
    programs, tried, numbers = Programs(given.frames, given.recipe or given.frames, folder), 0, []
    for done in range(0, given.count, LOT):
        lot = some_lot(given.seed, given.first + done // LOT, min(LOT, given.count - done))
        numbers += [one.number for one in try_lot(programs, lot)]
        tried += sum(len(case.frames) for case in lot.cases)
    return tried, numbers


def main():
    given = parser().parse_args()
    with tempfile.TemporaryDirectory() as folder:
        try:
            tried, numbers = try_all(given, folder)
        except Difference as difference:
            print(f"FAILED: {difference}")
            return 1
    print(f"model: {given.count} recipes, {tried} frames, all as it should be")
    if given.kinds:
        print(*(f"{number or 'accepted'}: {numbers.count(number)}" for number in sorted(set(numbers))), sep=", ")
    return 0


if __name__ == "__main__":
    sys.exit(main())
