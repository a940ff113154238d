"""Boxes and strokes: what is in a box, and what of a stroke is."""

from fractions import Fraction

from inputs import Box
from machine import FINE

SCREEN = Box(0, 1023 * FINE, 0, 1023 * FINE)


def box_around(points):
    """The least box of these points; None if there are none."""
    if not points:
        return None
    across, up = zip(*points)
    return Box(min(across), max(across), min(up), max(up))


def around(boxes):
    """The least box of these boxes."""
    return Box(min(box.left for box in boxes), max(box.right for box in boxes),
               min(box.bottom for box in boxes), max(box.top for box in boxes))


def wider(box, by):
    return Box(box.left - by, box.right + by, box.bottom - by, box.top + by)


def ends(strokes):
    return [end for stroke in strokes for end in (stroke.start, stroke.end)]


def common(box, other):
    """What is in both of two boxes; where they don't meet, a box with an edge past the one across from it."""
    return Box(max(box.left, other.left), min(box.right, other.right), max(box.bottom, other.bottom), min(box.top, other.top))


def nearest(point, box):
    """The point of the box that is nearest to this one."""
    return min(max(point[0], box.left), box.right), min(max(point[1], box.bottom), box.top)


def past(point, box):
    """How far a point is past the box's edges, on the worse axis; 0 in the box."""
    return max(abs(end - near) for end, near in zip(point, nearest(point, box)))


def leave(strokes, box):
    """Whether one of these strokes starts or ends outside the box; each does if there is no box."""
    return any(box is None or past(end, box) for end in ends(strokes))


def inside(stroke, box):
    """Of the way along a stroke, 0 to 1, where it comes into the box and where it leaves it; None if it is never there."""
    first, last = Fraction(0), Fraction(1)
    for start, end, least, most in zip(stroke.start, stroke.end, (box.left, box.bottom), (box.right, box.top)):
        if start != end:
            enters, leaves = sorted(Fraction(edge - start, end - start) for edge in (least, most))
            first, last = max(first, enters), min(last, leaves)
        elif not least <= start <= most:
            return None
    return (first, last) if first <= last else None


def clipped(stroke, box):
    """The parts of a stroke in their order, each with whether it is outside the box."""
    way = inside(stroke, box)
    if way is None:
        return [(stroke, True)]
    met = [tuple(start + at * (end - start) for start, end in zip(stroke.start, stroke.end)) for at in way]
    points = [stroke.start, *met, stroke.end]
    parts = zip(points, points[1:], (True, False, True))
    return [(stroke._replace(start=start, end=end), outside) for start, end, outside in parts if start != end or not outside]
