"""Draws the results of experiments as one picture: a panel for each number that was varied, with what peers played at each value.

A panel has a line of the base's version, with a band and dots. If another version is drawn beside it, this has a thin line. If some peers
withhold their keys, a dashed line of each version is what these played.
"""
import dataclasses
import html
from collections.abc import Iterable, Iterator, Mapping, Sequence

from gossip.measures.experiments import Point

# the sizes of the picture in its own units: a panel's plot, the space left of, below and above it, and the panels in a row
WIDTH, HEIGHT, LEFT, BELOW, TOP, ROW = 250, 150, 60, 52, 30, 3

STYLE = """
text { font: 11px sans-serif; fill: #333 } .title { font-weight: bold } .grid { stroke: #ddd } .band { fill: #2a7; fill-opacity: .18 }
.mean { fill: none; stroke: #275; stroke-width: 2 } .other { fill: none; stroke: #b4a; stroke-width: 1.2 }
.withheld { stroke-dasharray: 5 3 } .seed { fill: #275 } .base { stroke: #b60; stroke-dasharray: 3 3 }
@media (prefers-color-scheme: dark) { text { fill: #ddd } .grid { stroke: #444 } .mean { stroke: #6d9 } .seed { fill: #6d9 }\
 .other { stroke: #e8d } }
"""


def place(share: float) -> float:
    """Returns how far below the top of a plot a share of the stream is."""
    return HEIGHT * (1 - share)


def columns(count: int) -> list[float]:
    """Returns the positions of an axis's values, at equal distances."""
    return [WIDTH * (at + 0.5) / count for at in range(count)]


def joined(points: Iterable[tuple[float, float]]) -> str:
    return " ".join(f"{x:.1f},{y:.1f}" for x, y in points)


def text(x: float, y: float, said: str, **attributes: str) -> str:
    more = "".join(f' {name.rstrip("_").replace("_", "-")}="{value}"' for name, value in attributes.items())
    return f'<text x="{x:.1f}" y="{y:.1f}"{more}>{html.escape(said)}</text>'


def grid() -> Iterator[str]:
    """Yields the lines of a plot, with the share of the stream that each stands for, and the title of this axis."""
    yield text(-HEIGHT / 2, -46, "played of the stream", text_anchor="middle", transform="rotate(-90)")
    for percent in range(0, 101, 25):
        y = place(percent / 100)
        yield f'<line class="grid" x1="0" x2="{WIDTH}" y1="{y:.1f}" y2="{y:.1f}"/>'
        yield text(-6, y + 4, f"{percent}%", text_anchor="end")


def title_lines(told: str) -> list[str]:
    """Returns a panel's title in up to two lines."""
    head, colon, rest = told.partition(": ")
    return [head, rest] if colon else [head, ""]


def polyline(xs: Sequence[float], shares: Sequence[float | None], names: str) -> str:
    """Returns a line through shares of the stream, or nothing if there are none."""
    points = [(x, place(share)) for x, share in zip(xs, shares) if share is not None]
    return f'<polyline class="{names}" points="{joined(points)}"/>' if points else ""


def version_lines(xs: list[float], lines: Mapping[int, list[Point]]) -> Iterator[str]:
    """Yields the lines of each version. If there are several, each has a label, which is moved down if it overlaps the one before it."""
    told_at: list[float] = []
    for at, (version, points) in enumerate(lines.items()):
        names = "other" if at else "mean"
        yield polyline(xs, [point.mean for point in points], names)
        yield polyline(xs, [point.withheld for point in points], f"{names} withheld")
        if len(lines) > 1:
            y = place(points[-1].mean) + 4
            told_at.append(max(y, told_at[-1] + 11) if told_at and abs(y - told_at[-1]) < 11 else y)
            yield text(xs[-1] + 6, told_at[-1], f"v{version}")


@dataclasses.dataclass(frozen=True)
class Panel:
    """The plot of one number: its title, its points in each version, the base's first, and the base's value.

    It has a band from the least to the most of a peer, lines through the means, and a dot for each seed.
    """

    told: str
    lines: Mapping[int, list[Point]]
    base: float

    def drawn(self) -> Iterator[str]:
        """Yields the elements of the panel."""
        points = next(iter(self.lines.values()))
        xs = columns(len(points))
        head, rest = title_lines(self.told)
        yield text(0, -14, head, class_="title")
        yield from grid()
        edge = [*zip(xs, (place(point.most) for point in points))], [*zip(xs, (place(point.least) for point in points))]
        yield f'<polygon class="band" points="{joined([*edge[0], *reversed(edge[1])])}"/>'
        for x, point in zip(xs, points):
            if point.value == self.base:
                yield f'<line class="base" x1="{x:.1f}" x2="{x:.1f}" y1="0" y2="{HEIGHT}"/>'
        yield from version_lines(xs, self.lines)
        for x, point in zip(xs, points):
            told_of = f"{point.value:g}: mean {point.mean:.1%}, peers {point.least:.1%} to {point.most:.1%}"
            dots = "".join(f'<circle class="seed" cx="{x:.1f}" cy="{place(mean):.1f}" r="2.5"/>' for mean in point.means)
            yield f"<g><title>{html.escape(told_of)}</title>{dots}</g>"
            yield text(x, HEIGHT + 16, f"{point.value:g}", text_anchor="middle")
        yield text(WIDTH / 2, HEIGHT + 34, rest, text_anchor="middle")


def picture(panels: Sequence[Panel]) -> str:
    """Returns the picture of panels."""
    rows = -(-len(panels) // ROW)
    width, height = ROW * (LEFT + WIDTH) + 12, rows * (TOP + HEIGHT + BELOW)
    parts = [f'<svg xmlns="http://www.w3.org/2000/svg" viewBox="0 0 {width} {height}" role="img">', f"<style>{STYLE}</style>"]
    parts.append("<title>What honest peers played of the stream, against each number</title>")
    for at, panel in enumerate(panels):
        x, y = LEFT + at % ROW * (LEFT + WIDTH), TOP + at // ROW * (TOP + HEIGHT + BELOW)
        parts += [f'<g transform="translate({x} {y})">', *panel.drawn(), "</g>"]
    return "\n".join([*parts, "</svg>", ""])
