"""A chart of lines as SVG, which reads alike on a light page and on a dark one."""
import math
from html import escape

WIDTH, HEIGHT = 760, 420
LEFT, RIGHT, TOP, BOTTOM = 84, 210, 52, 52
COLORS = ["#2f81f7", "#e5534b", "#2da44e", "#bf8700", "#a371f7", "#c96198"]
DASHED = "#768390"
STYLE = """
text { font: 13px system-ui, "Segoe UI", Helvetica, Arial, sans-serif; fill: #24292f }
.title { font-size: 15px; font-weight: 600 }
.ground { fill: #ffffff; stroke: #d0d7de }
.grid { stroke: #e2e6ea }
.line { fill: none; stroke-width: 2 }
@media (prefers-color-scheme: dark) {
text { fill: #d0d7de }
.ground { fill: #161b22; stroke: #30363d }
.grid { stroke: #2b323b }
}
"""


def number(value):
    return f"{value:,.9g}"


def decades(values):
    least, most = (math.log10(end(values)) for end in (min, max))
    low = math.floor(least + 1e-9)
    return [10.0**power for power in range(low, max(math.ceil(most - 1e-9), low + 1) + 1)]


def steps(values):
    """Zero and up to six round steps above it, the last at or above all values."""
    most = max(values)
    power = 10.0 ** math.floor(math.log10(most))
    step = next(step for step in (power / 10 * k for k in (2, 2.5, 5, 10, 20)) if step * 6 >= most)
    return [step * at for at in range(math.ceil(most / step - 1e-9) + 1)]


class Axis:
    """Values between its first and its last mark, spread between two places of the picture."""

    def __init__(self, values, log, start, end):
        self.marks = decades(values) if log else steps(values)
        self.scale = math.log10 if log else float
        self.start, self.end = start, end

    def place(self, value):
        low, high = self.scale(self.marks[0]), self.scale(self.marks[-1])
        return self.start + (self.scale(value) - low) / (high - low) * (self.end - self.start)


def spread(places):
    """The places of labels, in order, moved down until none hides another."""
    moved = []
    for place in places:
        moved.append(max(place, moved[-1] + 17) if moved else place)
    over = max(0, moved[-1] - (HEIGHT - BOTTOM - 6))
    return [place - over for place in moved]


def grid(x, y, unit):
    """The marks of both axes; the unit of the second stands at its last mark."""
    right, bottom = WIDTH - RIGHT, HEIGHT - BOTTOM
    for mark in x.marks:
        at = x.place(mark)
        yield f'<line class="grid" x1="{at:.1f}" y1="{TOP}" x2="{at:.1f}" y2="{bottom}"/>'
        yield f'<text x="{at:.1f}" y="{bottom + 18}" text-anchor="middle">{number(mark)}</text>'
    for mark in y.marks:
        at = y.place(mark)
        yield f'<line class="grid" x1="{LEFT}" y1="{at:.1f}" x2="{right}" y2="{at:.1f}"/>'
        text = f"{number(mark)} {unit}" if mark == y.marks[-1] else number(mark)
        yield f'<text x="{LEFT - 8}" y="{at + 4:.1f}" text-anchor="end">{escape(text)}</text>'


def line(points, color, dashed):
    dash = ' stroke-dasharray="5 4"' if dashed else ""
    path = " ".join(f"{across:.1f},{down:.1f}" for across, down in points)
    yield f'<polyline class="line" points="{path}" stroke="{color}"{dash}/>'
    for across, down in points:
        yield f'<circle cx="{across:.1f}" cy="{down:.1f}" r="3" fill="{color}"/>'


def chart(title, across, down, lines, log):
    """The text of a chart. A line is its name, its points, and whether it is a limit, which is dashed."""
    x = Axis([point[0] for _, points, _ in lines for point in points], log, LEFT, WIDTH - RIGHT)
    y = Axis([point[1] for _, points, _ in lines for point in points], log, HEIGHT - BOTTOM, TOP)
    out = [
        f'<svg xmlns="http://www.w3.org/2000/svg" width="{WIDTH}" height="{HEIGHT}" '
        f'viewBox="0 0 {WIDTH} {HEIGHT}" role="img">',
        f"<title>{escape(title)}</title>\n<style>{STYLE}</style>",
        f'<rect class="ground" x="0.5" y="0.5" width="{WIDTH - 1}" height="{HEIGHT - 1}" rx="8"/>',
        f'<text class="title" x="{LEFT}" y="28">{escape(title)}</text>',
        f'<text x="{(LEFT + WIDTH - RIGHT) / 2:.0f}" y="{HEIGHT - 14}" text-anchor="middle">{escape(across)}</text>',
        *grid(x, y, down),
    ]
    drawn = [(name, [(x.place(a), y.place(b)) for a, b in points], dashed) for name, points, dashed in lines]
    drawn.sort(key=lambda each: each[1][-1][1])
    colors = iter(COLORS)
    for (name, points, dashed), label in zip(drawn, spread([points[-1][1] for _, points, _ in drawn])):
        color = DASHED if dashed else next(colors)
        out += line(points, color, dashed)
        out.append(f'<circle cx="{WIDTH - RIGHT + 16}" cy="{label:.1f}" r="4" fill="{color}"/>')
        out.append(f'<text x="{WIDTH - RIGHT + 26}" y="{label + 4:.1f}">{escape(name)}</text>')
    return "\n".join([*out, "</svg>", ""])
