"""Lines of text that fit the width they have."""

from html import escape
from unicodedata import east_asian_width

ADVANCE = 0.62      # how wide a monospaced letter of size 1 is, at the most
LEAST_SIZE = 9


def columns(content):
    return sum(2 if east_asian_width(letter) in "FW" else 1 for letter in content)


def room(width, size):
    """How many columns of this size fit."""
    return int(width / (ADVANCE * size))


def pieces(word, most):
    """A word cut after so many columns."""
    parts = [""]
    for letter in word:
        if columns(parts[-1] + letter) > most:
            parts.append("")
        parts[-1] += letter
    return parts


def wrapped(content, most):
    """Lines of at most so many columns, broken at spaces where that can be."""
    lines = []
    for part in (part for word in content.split(" ") for part in pieces(word, most)):
        if lines and columns(lines[-1]) + 1 + columns(part) <= most:
            lines[-1] += " " + part
        else:
            lines.append(part)
    return lines


def text(x, y, size, content):
    return f'<text x="{x}" y="{y}" font-size="{size}">{escape(content)}</text>'


def fitted(x, y, size, content, width):
    """A line in smaller letters, or with a part of its middle left out, where it would be wider than this."""
    while size > LEAST_SIZE and columns(content) > room(width, size):
        size -= 1
    most = room(width, size)
    if columns(content) > most:
        content = pieces(content, most // 2)[0] + "…" + pieces(content[::-1], most // 2 - 1)[0][::-1]
    return text(x, y, size, content)
