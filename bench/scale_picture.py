"""A picture of what scale.py measured, as SVG: for each family, nodes by trains on a log scale. It is light or dark as its reader is."""
import math
from html import escape

WIDTH, HEIGHT, ACROSS = 250, 190, 3
LEFT, TOP, HEAD = 62, 24, 58
INNER = (WIDTH - LEFT - 14, HEIGHT - TOP - 30)
LEAST, MOST, TRAINS = 10, 1_000_000, 32
WAYS = [
    ("make", "ats make", "circle"), ("certify", "certify", "square"), ("order", "order, certify", "triangle"),
    ("of-run", "order --of-run 0, certify", "diamond"),
]
STYLE = """
svg{--paper:#fff;--ink:#222;--faint:#ddd;--make:#a03d00;--certify:#0b57c0;--order:#067a46;--of-run:#8a2da5}
@media (prefers-color-scheme:dark){svg{--paper:#0d1117;--ink:#e6e6e6;--faint:#333a44;--make:#ff9d5c;--certify:#79b0ff;--order:#56d39a;--of-run:#dd9bf0}}
.paper{fill:var(--paper)}text{font:11px sans-serif;fill:var(--ink)}.head{font-weight:bold}.end{text-anchor:end}.mid{text-anchor:middle}
.grid{stroke:var(--faint)}.axis{stroke:var(--ink)}polyline{fill:none;stroke-width:1.5}.hollow{fill:var(--paper)}
.make{stroke:var(--make)}.certify{stroke:var(--certify)}.order{stroke:var(--order)}.of-run{stroke:var(--of-run)}
.make.full{fill:var(--make)}.certify.full{fill:var(--certify)}.order.full{fill:var(--order)}
.of-run.full{fill:var(--of-run)}
"""


def mark(shape, x, y, names):
    if shape == "circle":
        return f'<circle class="{names}" cx="{x:.1f}" cy="{y:.1f}" r="3.5"/>'
    if shape == "square":
        return f'<rect class="{names}" x="{x - 3.2:.1f}" y="{y - 3.2:.1f}" width="6.4" height="6.4"/>'
    if shape == "diamond":
        return f'<path class="{names}" d="M{x:.1f} {y - 4.4:.1f}l4.4 4.4l-4.4 4.4l-4.4 -4.4z"/>'
    return f'<path class="{names}" d="M{x:.1f} {y - 4.2:.1f}l4 7.4h-8z"/>'


def cross(x, y, way):
    return f'<path class="{way}" style="stroke-width:2" d="M{x - 3.5:.1f} {y - 3.5:.1f}l7 7m0 -7l-7 7"/>'


def text(x, y, words, names=""):
    return f'<text x="{x:.1f}" y="{y:.1f}" class="{names}">{escape(words)}</text>'


def stroke(x, y, across, names):
    return f'<path class="{names}" d="M{x:.1f} {y:.1f}h{across:.1f}"/>'


class Panel:
    """The place of one family on the paper."""

    def __init__(self, number):
        self.x = number % ACROSS * WIDTH + LEFT
        self.y = HEAD + number // ACROSS * HEIGHT + TOP

    def across(self, trains):
        return self.x + INNER[0] * trains / TRAINS

    def down(self, nodes):
        """The height of a number of nodes; above the most there is room for answers without a certificate."""
        share = math.log(nodes / LEAST) / math.log(MOST / LEAST)
        return self.y + INNER[1] - (INNER[1] - 14) * share

    def frame(self, family):
        drawn = [text(self.x, self.y - 8, family, "head")]
        for power in range(1, 7):
            y = self.down(10**power)
            drawn.append(stroke(self.x, y, INNER[0], "grid"))
            drawn.append(text(self.x - 5, y + 4, f"{10**power:,}", "end") if power % 2 == 0 else "")
        drawn.append(stroke(self.x, self.y + INNER[1], INNER[0], "axis"))
        for trains in range(0, TRAINS + 1, 8):
            drawn.append(text(self.across(trains), self.y + INNER[1] + 14, str(trains), "mid"))
        return drawn

    def way(self, rows, way, shape):
        """The nodes of one way; a hollow mark above for no certificate in time, and a cross for a stuck state."""
        drawn, line, marks = [], [], []
        for row in sorted(rows, key=lambda row: row["trains"]):
            answer = row.get(way) or {}
            x, above = self.across(row["trains"]), self.y + {"make": 0, "certify": 4, "order": 8, "of-run": 12}[way]
            if "nodes" in answer:
                y = self.down(max(LEAST, answer["nodes"]))
                line.append(f"{x:.1f},{y:.1f}")
                marks.append(mark(shape, x, y, f"{way} full"))
            elif answer.get("said") == "stuck":
                marks.append(cross(x, above, way))
            elif answer:
                marks.append(mark(shape, x, above, f"{way} hollow"))
        if len(line) > 1:
            drawn.append(f'<polyline class="{way}" points="{" ".join(line)}"/>')
        return drawn + marks


def legend():
    left = 16
    drawn = [text(left, 18, "Nodes of a certificate (log scale) by trains", "head")]
    for number, (way, words, shape) in enumerate(WAYS):
        x = left + (0, 72, 130, 222)[number]
        drawn += [mark(shape, x + 4, 34, f"{way} full"), text(x + 12, 38, words)]
    drawn += [mark("circle", left + 386, 34, "axis hollow"), text(left + 394, 38, "hollow: none found"), cross(left + 510, 34, "axis")]
    return drawn + [text(left + 518, 38, "cross: a stuck state is named")]


def picture(rows):
    families = list(dict.fromkeys(row["family"] for row in rows))
    width, height = ACROSS * WIDTH, HEAD + -(-len(families) // ACROSS) * HEIGHT
    drawn = legend()
    for number, family in enumerate(families):
        panel = Panel(number)
        drawn += panel.frame(family)
        for way, _, shape in WAYS:
            drawn += panel.way([row for row in rows if row["family"] == family], way, shape)
    body = "\n".join(line for line in drawn if line)
    return (
        f'<svg xmlns="http://www.w3.org/2000/svg" viewBox="0 0 {width} {height}" role="img">'
        "<title>Nodes of certificates by trains, for each family of documents</title>\n"
        f'<style>{STYLE}</style>\n<rect class="paper" width="{width}" height="{height}"/>\n{body}\n</svg>\n'
    )
