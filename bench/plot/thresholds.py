#!/usr/bin/env python3
"""thresholds.py [OUT.svg] < LINES: draws what `rehearse` printed, for people: the highest sum of live objects and the number of collections, by threshold.

A line is `threshold,collections,highest,last,answer`. Rehearsals that ended early (an answer other than 0) are drawn hollow, with the answer beside them. Thresholds stand at even
distances, in rising order. Standard library only."""
import sys

WIDTH, HEIGHT, LEFT, RIGHT, TOP, BOTTOM = 720, 400, 80, 80, 40, 70
PEAK, COUNT = "#1f5fa8", "#b3541e"


def lines(text):
    rows = []
    for number, line in enumerate(text.splitlines(), 1):
        fields = line.split(",")
        if len(fields) != 5 or not all(f.isdigit() for f in fields):
            sys.exit(f"line {number}: five decimals between commas are asked for, not {line!r}")
        rows.append(tuple(map(int, fields)))
    return sorted(rows)


def scale(most):
    """A round number not below `most`."""
    top = 1
    while top < most:
        for k in (1, 2, 5):
            if top * k >= most:
                return top * k
        top *= 10
    return top


def svg(rows):
    most_bytes, most_count = scale(max(r[2] for r in rows)), scale(max(r[1] for r in rows))
    span = WIDTH - LEFT - RIGHT
    xs = [LEFT + (span // 2 if len(rows) == 1 else span * i // (len(rows) - 1)) for i in range(len(rows))]
    tall = HEIGHT - TOP - BOTTOM

    def y(value, most):
        return HEIGHT - BOTTOM - tall * value // most

    out = [f'<svg xmlns="http://www.w3.org/2000/svg" width="{WIDTH}" height="{HEIGHT}" font-family="sans-serif" font-size="12">',
           f'<rect width="{WIDTH}" height="{HEIGHT}" fill="white"/>',
           f'<text x="{LEFT}" y="{TOP - 16}" fill="{PEAK}">highest sum of live objects (length plus 32 each)</text>',
           f'<text x="{WIDTH - RIGHT}" y="{TOP - 16}" fill="{COUNT}" text-anchor="end">collections</text>']
    for k in range(5):
        h = HEIGHT - BOTTOM - tall * k // 4
        out.append(f'<line x1="{LEFT}" y1="{h}" x2="{WIDTH - RIGHT}" y2="{h}" stroke="#dddddd"/>')
        out.append(f'<text x="{LEFT - 8}" y="{h + 4}" fill="{PEAK}" text-anchor="end">{most_bytes * k // 4:,}</text>')
        out.append(f'<text x="{WIDTH - RIGHT + 8}" y="{h + 4}" fill="{COUNT}">{most_count * k / 4:g}</text>')
    for column, most, colour in ((2, most_bytes, PEAK), (1, most_count, COUNT)):
        points = [(x, y(r[column], most)) for x, r in zip(xs, rows)]
        out.append(f'<polyline fill="none" stroke="{colour}" stroke-width="2" points="{" ".join(f"{a},{b}" for a, b in points)}"/>')
        for (a, b), r in zip(points, rows):
            out.append(f'<circle cx="{a}" cy="{b}" r="4" stroke="{colour}" fill="{colour if r[4] == 0 else "white"}"/>')
            if r[4] != 0 and column == 2:
                out.append(f'<text x="{a + 6}" y="{b - 6}" fill="{colour}">ended by {r[4]}</text>')
    for x, r in zip(xs, rows):
        out.append(f'<text x="{x}" y="{HEIGHT - BOTTOM + 18}" text-anchor="middle">{r[0]:,}</text>')
    out.append(f'<text x="{LEFT + span // 2}" y="{HEIGHT - 20}" text-anchor="middle">threshold</text>')
    out.append("</svg>")
    return "\n".join(out) + "\n"


def main():
    rows = lines(sys.stdin.read())
    if not rows:
        sys.exit("no lines")
    picture = svg(rows)
    if len(sys.argv) > 1:
        with open(sys.argv[1], "w") as out:
            out.write(picture)
    else:
        sys.stdout.write(picture)


main()
