"""Draws times as an SVG: panels side by side, both axes of each logarithmic.

The same numbers give the same bytes. The picture has a ground of its own, which is dark where the
reader's screen is, and each curve has its name at its end.
"""

from math import ceil, floor, log10
from typing import NamedTuple

WIDTH, HEIGHT = 470, 400
# where the axes of a panel begin and end; the names of the curves stand right of them
LEFT, RIGHT, TOP, BOTTOM = 74, 350, 58, 340
# how far apart the names are at least
NAME_HEIGHT = 17
STYLE = """
text { font: 14px sans-serif; fill: #1f2328 }
.title { font-weight: bold }
.ground { fill: #ffffff; stroke: #d1d9e0 }
.grid { stroke: #d1d9e0 }
.line { fill: none; stroke-width: 2.5 }
.s0 { stroke: #59636e; stroke-dasharray: 7 4 } .f0 { fill: #59636e }
.s1 { stroke: #b04a00 } .f1 { fill: #b04a00 }
.s2 { stroke: #0b5cad } .f2 { fill: #0b5cad }
.s3 { stroke: #00704f } .f3 { fill: #00704f }
.s4 { stroke: #8a2b8f } .f4 { fill: #8a2b8f }
.s5 { stroke: #6e5600 } .f5 { fill: #6e5600 }
.beside { stroke-width: 1.5; stroke-dasharray: 2 4 }
@media (prefers-color-scheme: dark) {
text { fill: #f0f6fc }
.ground { fill: #0d1117; stroke: #3d444d }
.grid { stroke: #3d444d }
.s0 { stroke: #b1bac4 } .f0 { fill: #b1bac4 }
.s1 { stroke: #ffa657 } .f1 { fill: #ffa657 }
.s2 { stroke: #6cb6ff } .f2 { fill: #6cb6ff }
.s3 { stroke: #56d364 } .f3 { fill: #56d364 }
.s4 { stroke: #d2a8ff } .f4 { fill: #d2a8ff }
.s5 { stroke: #e3c55a } .f5 { fill: #e3c55a }
}
"""


class Panel(NamedTuple):
    """A title, what the amounts are, how some of them are called, and at most six curves.

    A curve has a name, and points of an amount and the seconds that it takes. Beside some curves
    stands a dotted one of the same colour, which has points alone: they are given by the curve's name.
    """

    title: str
    amount: str
    ticks: dict
    curves: list
    beside: dict = {}

    def points(self):
        """Those of all curves."""
        of_curves = [*(points for _, points in self.curves), *self.beside.values()]
        return [point for points in of_curves for point in points]


def text(x, y, words, anchor="middle", kind="plain"):
    return f'<text x="{x:.1f}" y="{y:.1f}" text-anchor="{anchor}" class="{kind}">{words}</text>'


def scale(least, greatest, start, end):
    """From an amount to its place, where the least has the place `start` and the greatest `end`."""
    width = log10(greatest / least)
    return lambda amount: start + log10(amount / least) / width * (end - start)


def powers_of(panel):
    """The exponents of the powers of ten, in seconds, between which the times are."""
    times = [log10(time) for _, time in panel.points()]
    least, greatest = floor(min(times)), ceil(max(times))
    return range(least, max(greatest, least + 1) + 1)


def duration(power):
    """A power of ten in seconds, as it stands at the axis."""
    return f"{10**power:,} s" if power >= 0 else f"{10.0 ** (power + 3):g} ms"


def spread(heights):
    """These heights from the top to the bottom, moved down where a name would stand on another."""
    lowest = -NAME_HEIGHT
    for height in heights:
        lowest = max(height, lowest + NAME_HEIGHT)
        yield lowest


def axes(panel, powers, across, down):
    """Title, grid and numbers."""
    middle = (LEFT + RIGHT) / 2
    yield text(middle, TOP - 26, panel.title, kind="title")
    yield text(middle, BOTTOM + 42, panel.amount)
    for amount, name in panel.ticks.items():
        yield f'<path class="grid" d="M{across(amount):.1f} {TOP}V{BOTTOM}"/>'
        yield text(across(amount), BOTTOM + 20, name)
    for power in powers:
        yield f'<path class="grid" d="M{LEFT} {down(10**power):.1f}H{RIGHT}"/>'
        yield text(LEFT - 8, down(10**power) + 5, duration(power), "end")


def line(number, places, kind=""):
    points = " ".join(f"{x:.1f},{y:.1f}" for x, y in places)
    return f'<polyline class="line s{number}{kind}" points="{points}"/>'


def drawn(number, places):
    """The line and the dots of a curve."""
    yield line(number, places)
    for x, y in places:
        yield f'<circle class="f{number}" cx="{x:.1f}" cy="{y:.1f}" r="3.5"/>'


def inside(panel):
    """What a panel holds: its axes, its curves, and their names, the highest first."""
    powers = powers_of(panel)
    across = scale(min(panel.ticks), max(panel.ticks), LEFT + 12, RIGHT - 12)
    down = scale(10.0 ** powers[0], 10.0 ** powers[-1], BOTTOM, TOP)
    yield from axes(panel, powers, across, down)

    def places_of(points):
        return [(across(amount), down(time)) for amount, time in points]

    ends = []
    for number, (name, points) in enumerate(panel.curves):
        places = places_of(points)
        if name in panel.beside:
            yield line(number, places_of(panel.beside[name]), " beside")
        yield from drawn(number, places)
        ends.append((places[-1][1], number, name))
    ends.sort()
    for y, (_, number, name) in zip(spread(height for height, _, _ in ends), ends):
        yield text(RIGHT + 8, y + 5, name, "start", f"f{number}")


def picture(title, panels, columns=2):
    """The lines of the SVG, with so many panels side by side."""
    width, height = WIDTH * columns, HEIGHT * ceil(len(panels) / columns)
    size = f'width="{width}" height="{height}" viewBox="0 0 {width} {height}"'
    yield f'<svg xmlns="http://www.w3.org/2000/svg" {size} role="img">'
    yield f"<title>{title}</title><style>{STYLE}</style>"
    yield f'<rect class="ground" x="1" y="1" width="{width - 2}" height="{height - 2}" rx="8"/>'
    for number, panel in enumerate(panels):
        below, right = divmod(number, columns)
        yield f'<g transform="translate({right * WIDTH} {below * HEIGHT})">'
        yield from inside(panel)
        yield "</g>"
    yield "</svg>"
