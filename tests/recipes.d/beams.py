"""What is known of the beam before each item of a list, and where it may have to lead."""

from typing import NamedTuple, Optional

from items import length
from shapes import LOST, MOVED, UNKNOWN, move_of, shifted


class Beam(NamedTuple):
    """What is known at a word of a list."""
    scale: int = UNKNOWN
    place: Optional[tuple] = None
    words: int = 0
    depth: int = 0      # the most return places so far


def past_draw(beam, item):
    is_known = beam.place is not None and beam.scale != UNKNOWN
    return beam._replace(place=shifted(beam.place, move_of(item, beam.scale)) if is_known else None)


def past_call(beam, entry):
    """Behind a call; if there is no entry for it, nothing has moved."""
    if entry is None:
        return beam
    place = entry.at
    if entry.kind == LOST or entry.kind == MOVED and beam.place is None:
        place = None
    elif entry.kind == MOVED:
        place = shifted(beam.place, entry.at)
    return Beam(entry.scale, place, beam.words + entry.words, max(beam.depth, 1 + entry.depth))


def past(beam, item, shapes):
    beam = beam._replace(words=beam.words + length(item))
    if item[0] in ("vctr", "svec"):
        return past_draw(beam, item)
    if item[0] == "labs":
        return beam._replace(place=item[1:3], scale=item[3])
    return past_call(beam, shapes.entry(item[1], beam.scale)) if item[0] == "jsrl" else beam


def beams(member, shapes):
    """What is known before each item that is spelled, and behind the last one."""
    beam = Beam(words=1 if member.first else 0)
    for one in member.spelled:
        yield beam
        beam = past(beam, one.item, shapes)
    yield beam


def is_in(place, to):
    return place is not None and to[0] <= place[0] <= to[1] and to[2] <= place[1] <= to[3]
