"""Label files, read as docs/LABELS.md says."""

import re
from typing import NamedTuple

from inputs import Failure, read
from machine import JMPL, JSRL, NAMES

FIRST_BYTE, LAST_BYTE = 0x4000, 0x57FF      # vector RAM and the vector ROM, as the processor sees them
RAM_END = 0x400                             # no label of vector RAM names an address from this word on
NAME, DIGITS, SPACE = "(?P<name>[!-~]{1,80})", "(?P<value>[0-9A-Fa-f]+)", "[ \t]+"
TAGGED = f"(?:[^ \t]{{1,2}}:)?{DIGITS}"      # behind a memory space or a section
FORMS = [re.compile(form) for form in (
    rf"al{SPACE}{TAGGED}{SPACE}\.{NAME}",
    rf"(?:!addr{SPACE})?{NAME}{SPACE}={SPACE}(?:\${DIGITS}|[^ \t$]+)(?:{SPACE};.*)?",
    rf"(?:!addr{SPACE})?{NAME}{SPACE}(?:\?\?\?\?|{TAGGED})(?:{SPACE}(?:\(|str\b|eqm\b).*)?")]


class Label(NamedTuple):
    at: int
    name: str


def label_of(line, number):
    """The label of a line that is not empty, or none if it is at no word."""
    for form in FORMS:
        parts = form.fullmatch(line)
        if parts:
            value = int(parts["value"] or "0", 16)
            at_word = FIRST_BYTE <= value <= LAST_BYTE and value % 2 == 0
            return [Label((value - FIRST_BYTE) // 2, parts["name"])] if at_word else []
    raise Failure(f"bad labels: line {number} has none of the forms of labels")


def read_labels(name):
    lines = read(name, "labels").decode("ascii", "replace").splitlines()
    told = ((number, line.strip(" \t")) for number, line in enumerate(lines, 1))
    return [label for number, line in told if not re.match("$|;|---|Symbols", line) for label in label_of(line, number)]


def name_at(labels, address):
    """The nearest label at an address or below it, as `SHIP+3`; nothing if there is none."""
    near = [label for label in labels if label.at <= address and (address < RAM_END or label.at >= RAM_END)]
    if not near:
        return ""
    nearest = max(near, key=lambda label: label.at)
    return nearest.name if nearest.at == address else f"{nearest.name}+{address - nearest.at}"


def address_text(labels, address):
    """An address as accounts have it: `SHIP+3 (803)`, or by itself where no label is near."""
    name = name_at(labels, address)
    return f"{name} ({address:03X})" if name else f"{address:03X}"


def item_text(labels, at, first):
    """An item by its address and its first word: `LIST+7 (007) JSRL ROCK (816)`."""
    if first is None:
        return f"{address_text(labels, at)} missing"
    opcode, target = first >> 12, f" {address_text(labels, first & 0xFFF)}"
    return f"{address_text(labels, at)} {NAMES[opcode]}{target if opcode in (JSRL, JMPL) else ''}"


def start_of(labels, word):
    """Where a list begins: an address, or else a label that stands at one word."""
    if re.fullmatch("[0-9A-F]{3}", word):
        return int(word, 16)
    places = {label.at for label in labels if label.name == word}
    if len(places) != 1:
        raise Failure(f"bad start: {word}")
    return places.pop()
