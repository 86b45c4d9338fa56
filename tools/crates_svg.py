#!/usr/bin/env python3
"""crates_svg.py: a picture of the crates and what each needs directly, from crates.txt, on standard output.

    tools/crates_svg.py > docs/crates.svg

A row is a layer, by the prefix of the crates' names. An arrow stands where a crate needs another that does not already come through a third
one that it needs (so what crates.txt lists, less what is there twice). The kit's own libraries are left out.
"""
import sys

LAYERS = [
    ("types and definitions", ("def_",)),
    ("lists", ("list_",)),
    ("tables", ("table_",)),
    ("core", ("core_",)),
    ("split", ("split_",)),
    ("host", ("host_", "ashwoodrung")),
    ("theorems", ("theorem_",)),
    ("lesson, test", ("lesson", "test_")),
]
KIT = {"arrayvec", "bytes", "check", "io", "libc", "os"}
BOX_W, BOX_H, GAP_Y, LEFT, WIDTH, PER_ROW = 118, 24, 34, 150, 1200, 7
# where a row of one box stands, in turn, so that arrows do not run through boxes
ALONE = (0.3, 0.7, 0.45, 0.85, 0.15, 0.6)


def read(path):
    needs = {}
    for line in open(path):
        name, colon, rest = line.split("#")[0].partition(":")
        if colon:
            needs[name.split()[0]] = [d for d in rest.split() if d not in KIT]
    return needs


def direct(needs):
    """Without what comes through another crate that is needed too."""
    below = {}

    def reach(name):
        if name not in below:
            below[name] = set(needs[name]).union(*[reach(d) for d in needs[name]])
        return below[name]

    return {n: [d for d in ds if not any(d in reach(o) for o in ds if o != d)] for n, ds in needs.items()}


def layer_of(name):
    for at, (_, prefixes) in enumerate(LAYERS):
        if name.startswith(prefixes):
            return at
    sys.exit(f"crates_svg.py: no layer has a prefix for {name}")


def depth_in(name, edges, layer):
    inside = [d for d in edges[name] if layer_of(d) == layer]
    return 1 + max((depth_in(d, edges, layer) for d in inside), default=-1)


def spread(count, turn):
    """Where the boxes of a row begin."""
    if count == 1:
        shares = [ALONE[turn % len(ALONE)]]
    else:
        shares = [(k + 0.5 + 0.2 * (turn % 2)) / (count + 0.2) for k in range(count)]
    return [LEFT + share * (WIDTH - LEFT) - BOX_W / 2 for share in shares]


def place(edges):
    """Where each box lies: a layer has a row for each depth inside it, and a long row is broken; in a row, by what the boxes need."""
    spots, bands, y, turn = {}, [], 20, 0
    for layer, (title, _) in enumerate(LAYERS):
        names = [n for n in edges if layer_of(n) == layer]
        top, rows = y, {}
        for name in names:
            rows.setdefault(depth_in(name, edges, layer), []).append(name)
        for depth in sorted(rows):
            whole = sorted(rows[depth], key=lambda n: sum(spots.get(d, (0, 0))[0] for d in edges[n]) / max(1, len(edges[n])))
            for start in range(0, len(whole), PER_ROW):
                row = whole[start : start + PER_ROW]
                for name, x in zip(row, spread(len(row), turn)):
                    spots[name] = (round(x), y)
                y += BOX_H + GAP_Y
                turn += 1
        bands.append((title, top - 12, y - top + 2 - GAP_Y + 22))
        y += 14
    return spots, bands, y


def main():
    edges = direct(read("crates.txt"))
    spots, bands, height = place(edges)
    width = WIDTH
    out = [
        f'<svg xmlns="http://www.w3.org/2000/svg" viewBox="0 0 {width} {height}" font-family="sans-serif" font-size="11">',
        '<defs><marker id="to" viewBox="0 0 6 6" refX="6" refY="3" markerWidth="6" markerHeight="6" orient="auto">'
        '<path d="M0 0 6 3 0 6z" fill="#667"/></marker></defs>',
        f'<rect width="{width}" height="{height}" fill="white"/>',
    ]
    for title, top, tall in bands:
        out.append(f'<rect x="6" y="{top}" width="{width - 12}" height="{tall}" rx="6" fill="#eef1f6"/>')
        out.append(f'<text x="16" y="{top + 22}" font-weight="bold">{title}</text>')
    for name in edges:
        for need in edges[name]:
            (x, y), (u, v) = spots[name], spots[need]
            x, u = x + BOX_W / 2, u + BOX_W / 2
            if v < y:
                v += BOX_H
            else:
                y += BOX_H
            middle = (y + v) / 2
            out.append(
                f'<path d="M{x} {y} C{x} {middle} {u} {middle} {u} {v}" fill="none" stroke="#667" stroke-opacity=".55" marker-end="url(#to)"/>'
            )
    for name, (x, y) in spots.items():
        out.append(f'<rect x="{x}" y="{y}" width="{BOX_W}" height="{BOX_H}" rx="4" fill="white" stroke="#345"/>')
        out.append(f'<text x="{x + BOX_W / 2}" y="{y + 16}" text-anchor="middle">{name}</text>')
    print("\n".join(out + ["</svg>"]))


if __name__ == "__main__":
    main()
