"""What a shape does that is called at a scale, as docs/RULES.md says of entries, drawn as docs/MACHINE.md says of the board."""

from itertools import islice
from typing import NamedTuple

from items import as_long, item_at, length, moved

UNKNOWN = 16
MOST_WORDS, MOST_DEPTH = 1_000_000, 3
MOVED, SET, LOST = range(3)     # what becomes of the place: it is moved, it is set by a LABS, it is lost


class Entry(NamedTuple):
    needs: frozenset    # the address and the scale of each entry that it needs, and its own
    scale: int          # behind it
    kind: int = MOVED
    at: tuple = (0, 0)  # by how much the place is moved, or to where it is set
    is_lit: bool = False        # whether it has a box
    words: int = 0
    depth: int = 0


def shifted(at, by):
    return at[0] + by[0], at[1] + by[1]


def move_of(item, scale):
    """How far a draw moves at a scale that is known."""
    _, local, x, y, _ = as_long(item)
    return tuple(moved(size, (local + scale) % 16) for size in (x, y))


def past_draw(now, item):
    is_lit = item[4] != 0
    if is_lit and (now.scale == UNKNOWN or now.kind == LOST):
        return None
    now = now._replace(is_lit=now.is_lit or is_lit and now.kind == MOVED)
    return now._replace(kind=LOST) if now.scale == UNKNOWN else now._replace(at=shifted(now.at, move_of(item, now.scale)))


def past_call(now, below, levels):
    if below is None or below.is_lit and now.kind == LOST:
        return None
    return Entry(now.needs | below.needs, below.scale, now.kind if below.kind == MOVED else below.kind,
                 shifted(now.at, below.at) if below.kind == MOVED else below.at,
                 now.is_lit or below.is_lit and now.kind == MOVED, now.words + below.words, max(now.depth, below.depth + levels))


class Shapes:
    """The entries of a ROM's shapes."""

    def __init__(self, words, first):
        self.words, self.first, self.kept, self.making = words, first, {}, set()

    def entry(self, address, scale):
        """The entry of the shape at an address, called at a scale; none if it can't be made."""
        key = address, scale
        if key in self.making:
            return None
        if key not in self.kept:
            self.making.add(key)
            self.kept[key] = self.made(address, scale)
            self.making.remove(key)
        return self.kept[key]

    def made(self, address, scale):
        now, index = Entry(frozenset([(address, scale)]), scale), address - self.first
        while now and index >= 0:
            item = item_at(self.words, index)
            now = self.past(now, item)
            if item[0] in ("rtsl", "jmpl"):
                return now
            index += length(item)
        return None

    def past(self, now, item):
        """Behind an item, as the shape would end there; none if there is no entry."""
        if item[0] in ("halt", "missing"):
            return None
        now = now._replace(words=now.words + length(item))
        if item[0] in ("vctr", "svec"):
            now = past_draw(now, item)
        elif item[0] == "labs":
            now = now._replace(scale=item[3], kind=SET, at=item[1:3])
        elif item[0] in ("jsrl", "jmpl"):
            now = past_call(now, self.entry(item[1], now.scale), 1 if item[0] == "jsrl" else 0)
        return now if now and now.words <= MOST_WORDS and now.depth <= MOST_DEPTH else None

    def scales(self, one):
        """The scale that is known before each item of a list; a call of what has no entry leaves it."""
        scale = UNKNOWN
        for item, _, _ in one:
            yield scale
            if item[0] == "labs":
                scale = item[3]
            elif item[0] == "jsrl" and self.entry(item[1], scale):
                scale = self.entry(item[1], scale).scale

    def scale_at(self, one, index):
        """The scale that is known before the item of this number."""
        return next(islice(self.scales(one), index, None))

    def needed(self, one):
        """The entries that the calls of a list need, all of which can be made."""
        calls = [(item[1], scale) for (item, _, _), scale in zip(one, self.scales(one)) if item[0] == "jsrl"]
        return frozenset().union(*(self.entry(*call).needs for call in calls))
