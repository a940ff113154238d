"""Drafts: from the lists of many frames to a recipe that has them all.

A list is cut into groups, each a LABS with what stands behind it. A group has a name: its place, if that is in more than half of the
lists, or else what it calls and draws. The names of all lists make a chain, and so do the items of all groups of a name.
"""

from collections import Counter, defaultdict
from typing import NamedTuple, Optional

from chains import chain, turns
from geometry import around
from inputs import Failure
from machine import JSRL, SVEC
from passing import Passed, moved
from recipes import Line, either, hexadecimal, most_words, repeat, spell
from recordings import Call, Place, Stroke
from widening import (MOST_SIZE, CallSets, Field, Range, Rectangle, Turns, cut_rectangle, range_of, rectangle_of, safe_places, spanning,
                      turns_of, wider)

MOST_LISTS, MOST_KINDS = 8, 3


class Group(NamedTuple):
    place: Optional[Place]      # none for what stands before the first LABS
    items: tuple                # each as it was passed


class Kind(NamedTuple):
    """What an item behind a LABS is: a call by the first address of its set, a draw by its scale, whatever its sizes."""
    opcode: int
    number: int
    is_lit: bool = True

    def sort(self):
        return self._replace(number=0) if self.opcode == JSRL else self


def kind_of(item, sets):
    if isinstance(item, Place):
        return None
    if isinstance(item, Call):
        return Kind(JSRL, min(sets.of(item.address)))
    return Kind(item.opcode, item.draw.scale, item.draw.intensity > 0)


class Fixed(NamedTuple):
    """The name of the groups at one place, or of those before any LABS."""
    place: Optional[Place]

    def sort(self):
        return self


class Moving(NamedTuple):
    """The name of groups that have many places."""
    kinds: tuple

    def sort(self):
        return tuple(kind.sort() for kind in self.kinds)


def sort_of(name):
    return name.sort()


def groups_of(passed):
    groups = []
    for item in passed:
        if isinstance(item.item, Place):
            groups.append(Group(item.item, ()))
        elif groups:
            groups[-1] = groups[-1]._replace(items=(*groups[-1].items, item))
        else:
            groups.append(Group(None, (item,)))
    return groups


def common_end(lists):
    """How many last items all lists have once each, behind items of several kinds: they are no part of the group before them."""
    least, count = min(map(len, lists)), 0
    while count < least and all(items[-count - 1] == lists[0][-count - 1] and items.count(items[-count - 1]) == 1 for items in lists):
        count += 1
    before = {kind_of(items[-count - 1], CallSets()) if count < len(items) else None for items in lists}
    return count if len(before) > 1 else 0


def by_name(names, things):
    """The things of each name, from one list of names for each list of things."""
    found = defaultdict(list)
    for some_names, some_things in zip(names, things):
        for name, thing in zip(some_names, some_things):
            found[name].append(thing)
    return found


def places_of(groups):
    return rectangle_of([group.place[:2] for group in groups])


def parts_of_link(samples, link):
    """A link's part of each sample."""
    return [[name for name in sample if name in link] for sample in samples]


class Drafter:
    """Drafts a recipe. `more` says whether counts are to be widened."""

    def __init__(self, lists, beam, window, sets, more):
        self.beam, self.window, self.sets, self.more = beam, window, sets, more
        self.seen_sets = []     # of this draft, for the next one
        self.starts = sorted({each.start for each in lists})
        end = common_end([each.items for each in lists])
        passed = [list(beam.passed(each.items)) for each in lists]
        self.end = [item.item for item in passed[0][len(passed[0]) - end:]]
        self.lists = [groups_of(items[:len(items) - end]) for items in passed]
        seen = Counter(place for groups in self.lists for place in {group.place for group in groups})
        self.fixed = {place for place, count in seen.items() if 2 * count > len(lists)} | {None}
        self.field = Field([group.place[:2] for groups in self.lists for group in groups if group.place not in self.fixed])

    # ---- names

    def group_name(self, group):
        if group.place in self.fixed:
            return Fixed(group.place)
        kinds = tuple(dict.fromkeys(kind_of(passed.item, self.sets) for passed in group.items))
        return Moving(kinds if len(kinds) <= MOST_KINDS else tuple(sorted({kind.sort() for kind in kinds})))

    def is_one_call(self, group):
        return group.place not in self.fixed and [type(passed.item) for passed in group.items] == [Call]

    # ---- items

    def call_line(self, addresses):
        return Line(f"call {hexadecimal(set().union(*map(self.sets.of, addresses)))}", 1)

    def draw_line(self, seen):
        first = seen[0].item
        across, up, bright = (range_of(numbers) for numbers in zip(*(each.item.draw[1:] for each in seen)))
        if first.opcode == SVEC:
            parts = (f"svec {first.draw.scale - 2} x {across.least // 256} {across.most // 256} y {up.least // 256} {up.most // 256}",
                     f"bright {bright}")
            return Line(" ".join(parts), 1)
        to = ""
        if leads(seen):
            places = rectangle_of([place for each in seen for place in (each.before, each.behind)])
            wide = Rectangle(*map(spanning, map(wider, places), self.field.widened(places)))
            to = f" to {cut_rectangle(places, wide, safe_places(self.window, None))}"
        across, up = (wider_size(sizes) if to else sizes for sizes in (across, up))
        return Line(f"vctr {first.draw.scale} x {across} y {up} bright {bright}{to}", 2)

    def item_line(self, seen):
        first = seen[0].item
        return self.call_line({each.item.address for each in seen}) if isinstance(first, Call) else self.draw_line(seen)

    def items(self, groups):
        """The lines of what stands behind the LABS of these groups."""
        samples = [[kind_of(passed.item, self.sets) for passed in group.items] for group in groups]
        found = by_name(samples, [group.items for group in groups])
        parts = []
        for link in chain(samples, sort_of):
            calls = {passed.item.address for name in link if name.opcode == JSRL for passed in found[name]}
            self.seen_sets.append(calls)
            parts += self.item_turns(parts_of_link(samples, link), {name: self.item_line(found[name]) for name in link}, calls)
        return parts

    def item_turns(self, samples, lines, calls):
        """How the lines of a link come, by what it has in each sample."""
        repeated = turns(samples)
        if repeated is None:
            one_call = [self.call_line(calls)] if calls else []
            branches = [[line] for line in (*one_call, *(line for name, line in lines.items() if name.opcode != JSRL))]
            return repeat(turns_of(list(map(len, samples)), self.more), either(branches))
        before, again = ([lines[name] for name in names] for names in repeated)
        counts = [len(sample) // len(again) for sample in samples if sample]
        parts = before + repeat(turns_of(counts, self.more), again) if max(counts) else before
        return parts if all(samples) or not before and turns_of(counts, self.more).least == 0 else repeat(Turns(0, 1), parts)

    # ---- groups

    def place_line(self, rectangle, scales):
        return Line(f"place {rectangle} scale {' '.join(map(str, sorted(scales)))}", 2)

    def places(self, groups):
        """The lines by which the places of groups of one name come: each scale has its own, if their ranges differ."""
        if groups[0].place in self.fixed:
            place = groups[0].place
            return [] if place is None else [self.place_line(rectangle_of([place[:2]]), [place.scale])]
        wide, scales = self.wide(groups), defaultdict(list)
        for scale in sorted({group.place.scale for group in groups}):
            here = [group for group in groups if group.place.scale == scale]
            scales[cut_rectangle(places_of(here), wide, safe_places(self.window, self.lit_at_place(here)))].append(scale)
        return either([[self.place_line(room, same)] for room, same in scales.items()])

    def wide(self, groups):
        return self.field.widened(places_of(groups))

    def lit_at_place(self, groups):
        """The least box of what these groups light before a draw that leads to a place, as seen from their own."""
        samples = [[kind_of(passed.item, self.sets) for passed in group.items] for group in groups]
        found = by_name(samples, [group.items for group in groups])
        leading = {kind for kind, seen in found.items() if leads(seen)}
        boxes = []
        for sample, group in zip(samples, groups):
            count = next((at for at, kind in enumerate(sample) if kind in leading), len(sample))
            boxes += [moved(passed.lit, (-group.place.x, -group.place.y)) for passed in group.items[:count] if passed.lit]
        return around(boxes) if boxes else None

    def rooms_of_calls(self, groups, scale, wide):
        """Where groups of one scale that are one call each may be: each shape keeps within the window."""
        rooms, called = defaultdict(list), {group.items[0].item.address for group in groups}
        for address in sorted(set().union(*map(self.sets.of, called))):
            own = [group for group in groups if group.items[0].item.address == address]
            safe = safe_places(self.window, self.beam.shape(address, scale).lit)
            rooms[cut_rectangle(places_of(own) if own else safe, wide, safe)].append(address)
        return {room: tuple(addresses) for room, addresses in rooms.items()}

    def calls(self, groups):
        """Branches of groups that are one call each: shapes that may be at the same places, at the same scales, share one."""
        self.seen_sets.append({group.items[0].item.address for group in groups})
        wide, scales = self.wide(groups), defaultdict(list)
        for scale in sorted({group.place.scale for group in groups}):
            here = [group for group in groups if group.place.scale == scale]
            for shared in self.rooms_of_calls(here, scale, wide).items():
                scales[shared].append(scale)
        return [[self.place_line(room, some), Line(f"call {hexadecimal(addresses)}", 1)] for (room, addresses), some in scales.items()]

    def branches(self, link, found):
        one_call = [group for name in link for group in found[name] if self.is_one_call(group)]
        branches = self.calls(one_call) if one_call else []
        others = [[group for group in found[name] if not self.is_one_call(group)] for name in link]
        return branches + [[*self.places(groups), *self.items(groups)] for groups in others if groups]

    def draft(self):
        names = [[self.group_name(group) for group in groups] for groups in self.lists]
        found, parts = by_name(names, self.lists), []
        for link in chain(names, sort_of):
            counts = turns_of([len(part) for part in parts_of_link(names, link)], self.more)
            parts += repeat(counts, either(self.branches(link, found)))
        return parts + [self.end_line(item) for item in self.end]

    def end_line(self, item):
        if isinstance(item, Place):
            return self.place_line(rectangle_of([item[:2]]), [item.scale])
        return Line(f"call {item.address:03X}", 1) if isinstance(item, Call) else self.draw_line([Passed(item, None, None, None)])


def leads(seen):
    """Whether these are VCTRs of several sizes, all between places that are known."""
    item = seen[0].item
    varies = isinstance(item, Stroke) and item.opcode != SVEC and len({each.item.draw[:3] for each in seen}) > 1
    return varies and all(each.before and each.behind for each in seen)


def wider_size(sizes):
    """Sizes of a draw that leads to a place, which keeps it within bounds: also none, and on both sides as much more as the longest."""
    if sizes.least == sizes.most:
        return sizes
    far = max(-sizes.least, sizes.most)
    return Range(max(-MOST_SIZE, min(0, sizes.least) - far), min(MOST_SIZE, max(0, sizes.most) + far))


def areas(starts, words):
    """The lines of the lists: each goes up to the next one, or to the frame's end."""
    if len(starts) > MOST_LISTS:
        raise Failure(f"lists begin at {len(starts)} words, and a recipe has eight at most")
    ends = [*(start - 1 for start in starts[1:]), min(words, 1024) - 1]
    return list(zip(starts, ends))


def text_of(parts, lists):
    lines = [f"list {first:03X} {last:03X}" for first, last in lists]
    return "\n".join(["dvgrecipe 1", *lines, *spell(parts), "halt", ""])


def draft_of(lists, words, beam, window):
    """The text of a draft: with counts that are widened, if its longest list has room in each area."""
    sets = CallSets()
    first = Drafter(lists, beam, window, sets, True)
    first.draft()
    sets = CallSets(seen for seen in first.seen_sets if len(seen) > 1)
    where = areas(first.starts, words)
    room = min(last - start + 1 for start, last in where)
    parts = Drafter(lists, beam, window, sets, True).draft()
    if most_words(parts) >= room:
        parts = Drafter(lists, beam, window, sets, False).draft()
    return text_of(parts, where)
