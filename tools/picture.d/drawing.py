"""Drawings as SVG. In the file each stroke has the machine's own coordinates: screen places, exact, Y upwards."""

from html import escape

from geometry import SCREEN, clipped, common
from machine import FINE

STYLE = """<style>
.ground { fill: #101418 }
path, rect, line { fill: none; stroke-linecap: round; stroke-linejoin: round }
.lit, .dot { stroke: #f4f8ff }
.dot { stroke-width: 0.6% }
.blanked { opacity: 0.35 }
.refused { stroke: #ff3b30; stroke-opacity: 1 }
.refused.blanked { opacity: 0.6 }
.screen { stroke: #5a6672 }
.window { stroke: #4fc3f7; stroke-dasharray: 0.75% 0.75% }
.box { stroke: #26a69a; stroke-dasharray: 4% 2% }
.refused.box { stroke: #ff3b30; stroke-dasharray: 0.6% 0.6% }
.inset .dot { stroke-width: 4% }
.inset .window, .inset .box { stroke-dasharray: 3% 3% }
.origin, .spot { stroke: #ffb300 }
text { fill: #c9d1d9; font-family: monospace }
</style>"""


def places(fine):
    """A coordinate in places, exact to 1/1024, which has ten decimals."""
    whole, rest = divmod(abs(fine), FINE)
    text = f"{whole}.{rest * 10 ** 10 // FINE:010d}".rstrip("0").rstrip(".")
    return "-" + text if fine < 0 else text


def rectangle(kind, box):
    return (f'<rect class="{kind}" x="{places(box.left)}" y="{places(box.bottom)}"'
            f' width="{places(box.right - box.left)}" height="{places(box.top - box.bottom)}"/>')


def outline(kind, box, near=None):
    """A rectangle, or none without a box; what is far from `near` is cut off."""
    cut = common(box, near) if box and near else box
    return [rectangle(kind, cut)] if cut and cut.left <= cut.right and cut.bottom <= cut.top else []


def lines(strokes):
    """The path of these strokes; one that goes on where the one before ended has no M of its own, and a dot is a stroke of length 0."""
    path, at = "", None
    for stroke in strokes:
        if stroke.start != at:
            path += "M" + " ".join(map(places, stroke.start))
        path += "L" + " ".join(map(places, stroke.end))
        at = stroke.end
    return path


def parts(stroke, clip, near):
    """The parts of a stroke, each with whether it is blanked: with `clip` what is off the screen is. None is far from `near`."""
    shown = [part for part, far in clipped(stroke, near) if not far] if near else [stroke]
    return [cut for part in shown for cut in (clipped(part, SCREEN) if clip else [(part, False)])]


def groups(strokes, is_refused, clip=False, near=None):
    """Strokes that follow one another and look alike, as paths."""
    found = []
    for stroke in strokes:
        kind, refused = "dot" if stroke.start == stroke.end else "lit", " refused" if is_refused(stroke) else ""
        for part, blanked in parts(stroke, clip, near):
            look = (kind + (" blanked" if blanked else "") + refused, stroke.intensity)
            if not found or found[-1][0] != look:
                found.append((look, []))
            found[-1][1].append(part)
    for (kind, intensity), alike in found:
        yield f'<path class="{kind}" stroke-opacity="{0.4 + 0.04 * intensity:.2f}" d="{lines(alike)}"/>'


def drawing(view, attributes, width, content):
    """What is in a view, by strokes of this width in places. Y is turned by the group inside."""
    shown = f'viewBox="{places(view.left)} {places(-view.top)} {places(view.right - view.left)} {places(view.top - view.bottom)}"'
    return [f"<svg {shown} {attributes}>", f'<g transform="scale(1 -1)" stroke-width="{width}">', *content, "</g>", "</svg>"]


def sheet(width, height, title, content):
    return "\n".join([
        f'<svg xmlns="http://www.w3.org/2000/svg" viewBox="0 0 {width} {height}" width="{width}" height="{height}">',
        f"<title>{escape(title)}</title>", "<desc>drawn by tools/picture of dvgcheck, which is unproved</desc>", STYLE,
        f'<rect class="ground" width="{width}" height="{height}"/>', *content, "</svg>", ""])
