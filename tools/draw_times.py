#!/usr/bin/env python3
"""Draws docs/times.svg from what `compare bench` prints: the ratio of the port's time to the Rust's for each line, and how the
time of each call grows. Usage: draw_times.py TIMES.tsv OUT.svg
"""

import math
import sys
from html import escape

WIDTH, BAR, LEFT = 860, 18, 250
# a colour and a mark for each curve, none twice
COLOURS = [
    "#1f6f8b", "#c05a2b", "#4f8a3c", "#7a4fa3", "#a33a4f", "#8a7a1f",
    "#3a5fa3", "#111111", "#d08bb8", "#5fb0a8", "#8c5a3c", "#999999",
]  # fmt: skip
MARKS = [  # drawn around the origin
    "M-4,0 A4,4 0 1,0 4,0 A4,4 0 1,0 -4,0 z", "M-4,-4 H4 V4 H-4 z", "M0,-5 L5,4 H-5 z", "M0,5 L5,-4 H-5 z",
    "M0,-5 L5,0 L0,5 L-5,0 z",
    "M-5,-1.5 H-1.5 V-5 H1.5 V-1.5 H5 V1.5 H1.5 V5 H-1.5 V1.5 H-5 z", "M-5,-3 L-3,-5 L5,3 L3,5 z", "M5,-3 L3,-5 L-5,3 L-3,5 z",
    "M-5,-2 H5 V2 H-5 z", "M-2,-5 H2 V5 H-2 z", "M-5,0 L5,-4 V4 z", "M5,0 L-5,-4 V4 z",
]  # fmt: skip


def read(path):
    with open(path, encoding="utf-8") as file:
        lines = [line.rstrip("\n").split("\t") for line in file]
    names = lines[0]
    return [dict(zip(names, line)) for line in lines[1:] if len(line) > 1]


def text(x, y, words, anchor="start", size=12, weight="normal"):
    return (
        f'<text x="{x:.1f}" y="{y:.1f}" text-anchor="{anchor}" font-size="{size}" font-weight="{weight}">'
        f"{escape(words)}</text>"
    )


def mark(i, x, y):
    return f'<path d="{MARKS[i]}" transform="translate({x:.1f},{y:.1f})" fill="{COLOURS[i]}"/>'


def ratios(rows, top):
    """A bar for each line: left of the line at 1 the port is faster."""
    out = [text(20, top, "port's time / Rust's time (least of 15 runs); below 1 the port is faster", size=14, weight="bold")]
    most = max(2.0, max(float(r["ratio"]) for r in rows))
    scale = (WIDTH - LEFT - 90) / most
    y = top + 14
    for r in rows:
        ratio = float(r["ratio"])
        colour = "#4f8a3c" if ratio <= 1.0 else "#c05a2b"
        out.append(text(LEFT - 8, y + 13, f"{r['what']}, {int(r['size']):,} {r['of']}", "end"))
        out.append(f'<rect x="{LEFT}" y="{y}" width="{max(ratio * scale, 1):.1f}" height="{BAR - 4}" fill="{colour}"/>')
        out.append(text(LEFT + ratio * scale + 6, y + 12, f"{ratio:.2f}"))
        y += BAR
    one = LEFT + scale
    out.append(f'<line x1="{one:.1f}" y1="{top + 8}" x2="{one:.1f}" y2="{y}" stroke="#333" stroke-dasharray="4 3"/>')
    return out, y + 40


def growth(rows, top):
    """For each call its time for one token, comment or line over the size, both axes by powers of ten."""
    series = {}
    for r in rows:
        series.setdefault((r["what"], r["of"]), []).append((int(r["size"]), float(r["port least"])))
    series = {k: sorted(v) for k, v in series.items() if len(v) > 1}
    points = [p for v in series.values() for p in v]
    x0, x1 = min(p[0] for p in points), max(p[0] for p in points)
    y0, y1 = min(p[1] for p in points), max(p[1] for p in points)
    height, width = 300, WIDTH - LEFT - 90
    at_x = lambda x: LEFT - 150 + (math.log(x) - math.log(x0)) / (math.log(x1) - math.log(x0)) * width
    at_y = lambda y: top + 20 + height - (math.log(y) - math.log(y0)) / (math.log(y1) - math.log(y0)) * height
    out = [text(20, top, "port: the time for one byte, token, comment or line as the size grows", size=14, weight="bold")]
    for k in range(math.ceil(math.log10(x0)), math.floor(math.log10(x1)) + 1):
        x = at_x(10**k)
        out.append(f'<line x1="{x:.1f}" y1="{top + 20}" x2="{x:.1f}" y2="{top + 20 + height}" stroke="#ddd"/>')
        out.append(text(x, top + height + 36, f"{10**k:,}", "middle"))
    for k in range(math.ceil(math.log10(y0)), math.floor(math.log10(y1)) + 1):
        y = at_y(10**k)
        out.append(f'<line x1="{LEFT - 150}" y1="{y:.1f}" x2="{LEFT - 150 + width}" y2="{y:.1f}" stroke="#ddd"/>')
        out.append(text(LEFT - 156, y + 4, f"{10**k:,}", "end"))
    for i, ((what, of), line) in enumerate(sorted(series.items())):
        colour = COLOURS[i]
        path = " ".join(f"{at_x(x):.1f},{at_y(y):.1f}" for x, y in line)
        out.append(f'<polyline points="{path}" fill="none" stroke="{colour}" stroke-width="2"/>')
        out += [mark(i, at_x(x), at_y(y)) for x, y in line]
        y = top + 34 + 18 * i
        out.append(mark(i, LEFT + width - 125, y - 4))
        out.append(text(LEFT + width - 112, y, f"{what} by {of}"))
    out.append(text(LEFT - 150 + width / 2, top + height + 58, "size: how many bytes, tokens, comments or lines", "middle"))
    x, y = 34, top + 20 + height / 2
    out.append(f'<g transform="rotate(-90 {x} {y})">' + text(x, y, "nanoseconds for each of them", "middle") + "</g>")
    return out, top + height + 76


def main():
    rows = read(sys.argv[1])
    compared = [r for r in rows if r.get("ratio")]
    bars, y = ratios(compared, 30)
    lines, y = growth(rows, y)
    svg = [
        f'<svg xmlns="http://www.w3.org/2000/svg" width="{WIDTH + 60}" height="{y}" font-family="sans-serif">',
        f'<rect width="{WIDTH + 60}" height="{y}" fill="white"/>',
        *bars,
        *lines,
        "</svg>",
    ]
    with open(sys.argv[2], "w", encoding="utf-8") as file:
        file.write("\n".join(svg) + "\n")


if __name__ == "__main__":
    main()
