#!/usr/bin/env python3
"""Draws what `all` took: the three passes as a share of `opt` by shape, by counted instructions and by processor time.

    plots.py FOLDER PICTURES     reads FOLDER/*.counts and FOLDER/*.times, writes PICTURES/shares.svg
"""
import os
import sys

import times

THREE = "sccp,dce,simplify-cfg"
OPT, MLIR = "sccp,dce,simplifycfg", "mlir:sccp,canonicalize"
# what is drawn: the file, LLVM's passes, the goal, the words, the colour
SERIES = (
    ("counts", OPT, 0.5, "instructions, of opt", "#1b6ca8"),
    ("times", OPT, 0.75, "processor time, of opt", "#e08e2b"),
    ("times", MLIR, 0.15, "processor time, of mlir-opt", "#8f8f8f"),
)
LEFT, TOP, ROW, WIDTH, MOST = 100, 60, 30, 560, 1.0


def shares(path, passes):
    """Ours as a share of theirs, by shape, where theirs ended."""
    found = {}
    for shape, cells in times.rows_of(path).items():
        if passes in cells:
            ours = cells[max((n for n in cells if n.isdigit()), key=int)]
            found[shape] = float(ours) / float(cells[passes])
    return found


def bars(y, values):
    """The bars of a shape, a third of a row each."""
    tall = (ROW - 6) / len(SERIES)
    for i, (value, (_, _, _, _, colour)) in enumerate(zip(values, SERIES)):
        if value is not None:
            long = min(value, MOST) * WIDTH
            top = y + i * tall
            yield f'<rect x="{LEFT}" y="{top:.1f}" width="{long:.1f}" height="{tall - 1:.1f}" fill="{colour}"/>'
            yield f'<text x="{LEFT + long + 4:.1f}" y="{top + tall - 1.5:.1f}" font-size="9">{value:.2f}</text>'


def drawn(table, height):
    """The lines of the picture."""
    yield f'<svg xmlns="http://www.w3.org/2000/svg" width="{LEFT + WIDTH + 60}" height="{height}" font-family="sans-serif" font-size="12">'
    yield '<rect width="100%" height="100%" fill="white"/>'
    yield f'<text x="{LEFT}" y="18" font-size="14">sccp, dce, simplify-cfg beside LLVM 22: a share of theirs, shorter is better</text>'
    for i, (_, _, goal, words, colour) in enumerate(SERIES):
        x = LEFT + 190 * i
        yield f'<rect x="{x}" y="30" width="12" height="12" fill="{colour}"/><text x="{x + 17}" y="40">{words}</text>'
        at = LEFT + goal * WIDTH
        yield f'<line x1="{at:.1f}" y1="{TOP - 8}" x2="{at:.1f}" y2="{height - 8}" stroke="{colour}" stroke-dasharray="4 3"/>'
    for row, (shape, values) in enumerate(table.items()):
        y = TOP + row * ROW
        yield f'<text x="{LEFT - 8}" y="{y + ROW / 2:.0f}" text-anchor="end">{shape}</text>'
        yield from bars(y, values)
    yield "</svg>"


def main():
    folder, pictures = sys.argv[1:]
    columns = [shares(os.path.join(folder, f"{THREE}.{kind}"), passes) for kind, passes, _, _, _ in SERIES]
    names = dict.fromkeys(name for column in columns for name in column)
    table = {name: [column.get(name) for column in columns] for name in names}
    with open(os.path.join(pictures, "shares.svg"), "w") as file:
        file.write("\n".join(drawn(table, TOP + ROW * len(table) + 10)) + "\n")


if __name__ == "__main__":
    main()
