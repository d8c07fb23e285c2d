#!/usr/bin/env python3
"""Draws docs/crates.svg from crates.txt: an arrow from each crate to each that rests on it and that rests on it through no
other. An arrow that passes a row of crates has a place of its own in the row, so that it crosses no box. Usage:
draw_crates.py crates.txt OUT.svg
"""

import sys

WIDE, HIGH, GAP_X, GAP_Y, LANE = 104, 34, 22, 44, 10


def read(path):
    needs = {}
    with open(path, encoding="utf-8") as file:
        for line in file:
            if line.strip() and not line.startswith("#"):
                name, _, rest = line.partition(":")
                needs[name.split()[0]] = rest.split()
    return needs


def direct_needs(needs):
    """Of each crate the needs that no other of its needs brings along."""
    below = {}
    for name, ns in needs.items():  # crates.txt stands in an order in which each needs only earlier ones
        below[name] = set(ns).union(*(below[n] for n in ns))
    return {name: [n for n in ns if not any(n in below[m] for m in ns if m != n)] for name, ns in needs.items()}


def layered(direct):
    """Rows of crates and of places for arrows that pass, and each arrow as the places that it goes through."""
    level = {}
    for name, ns in direct.items():
        level[name] = 1 + max((level[n] for n in ns), default=-1)
    rows = [[name for name in direct if level[name] == k] for k in range(max(level.values()) + 1)]
    arrows = []
    for name, ns in direct.items():
        for n in ns:
            way = [n] + [(n, name, k) for k in range(level[n] + 1, level[name])] + [name]
            for k, place in enumerate(way[1:-1], level[n] + 1):
                rows[k].append(place)
            arrows.append(way)
    return rows, arrows


def width(place):
    return WIDE if isinstance(place, str) else LANE


def placed(rows, arrows):
    """The middle of each place: a row is put in the order of the middles of what its places are joined to, some times over."""
    joined = {}
    for way in arrows:
        for a, b in zip(way, way[1:]):
            joined.setdefault(a, []).append(b)
            joined.setdefault(b, []).append(a)
    whole = max(sum(width(p) + GAP_X for p in row) for row in rows) + GAP_X
    at = {}

    def set_row(row):
        x = (whole - sum(width(p) + GAP_X for p in row) + GAP_X) / 2
        for place in row:
            at[place] = x + width(place) / 2
            x += width(place) + GAP_X

    for row in rows:
        set_row(row)
    for turn in range(24):
        for row in rows if turn % 2 == 0 else rows[::-1]:
            middle = lambda p: sum(at[q] for q in joined.get(p, [p])) / len(joined.get(p, [p]))
            row.sort(key=middle)
            set_row(row)
    return at, whole


def curve(x1, y1, x2, y2):
    mid = (y1 + y2) / 2
    return f"C{x1:.0f},{mid:.0f} {x2:.0f},{mid:.0f} {x2:.0f},{y2:.0f}"


def arrow(way, at, top):
    """Down from a box, straight through its places in the rows between, to the next box."""
    x, y = at[way[0]], top[way[0]] + HIGH
    path = f"M{x:.0f},{y:.0f}"
    for place in way[1:]:
        end = top[place] - (5 if isinstance(place, str) else 0)
        path += curve(x, y, at[place], end)
        x, y = at[place], end
        if not isinstance(place, str):
            y = top[place] + HIGH
            path += f"L{x:.0f},{y:.0f}"
    return f'<path d="{path}" fill="none" stroke="#777" marker-end="url(#tip)"/>'


def main():
    rows, arrows = layered(direct_needs(read(sys.argv[1])))
    at, whole = placed(rows, arrows)
    top = {place: 16 + k * (HIGH + GAP_Y) for k, row in enumerate(rows) for place in row}
    height = 16 + len(rows) * (HIGH + GAP_Y) - GAP_Y + 16
    out = [
        f'<svg xmlns="http://www.w3.org/2000/svg" width="{whole:.0f}" height="{height}" '
        'font-family="sans-serif" font-size="14">',
        '<defs><marker id="tip" viewBox="0 0 8 8" refX="4" refY="4" markerWidth="7" markerHeight="7" orient="auto">'
        '<path d="M0,0 L8,4 L0,8 z" fill="#777"/></marker></defs>',
        f'<rect width="{whole:.0f}" height="{height}" fill="white"/>',
        *(arrow(way, at, top) for way in arrows),
    ]
    for row in rows:
        for name in row:
            if isinstance(name, str):
                x, y = at[name] - WIDE / 2, top[name]
                out.append(
                    f'<rect x="{x:.0f}" y="{y}" width="{WIDE}" height="{HIGH}" rx="6" fill="#e8f1f5" stroke="#1f6f8b"/>'
                    f'<text x="{at[name]:.0f}" y="{y + 22}" text-anchor="middle">{name}</text>'
                )
    out.append("</svg>")
    with open(sys.argv[2], "w", encoding="utf-8") as file:
        file.write("\n".join(out) + "\n")


if __name__ == "__main__":
    main()
