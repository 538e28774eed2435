#!/usr/bin/env python3
"""bench/plots.py: draws docs/speed.svg and docs/bytes.svg from bench/figures/speed.csv and bytes.csv, whose
numbers are those of bench/RESULTS.md and docs/MANUAL.md. With --check it writes nothing, and fails where a
plot is not that of its figures."""
import csv, os, sys
from xml.sax.saxutils import escape

top = os.path.realpath(os.path.join(os.path.dirname(__file__), ".."))
COLOURS = ["#2f5d8a", "#8ab4d8", "#c9c9c9"]
ROW, BAR, LEFT, WIDTH = 14, 12, 170, 420

def text(x, y, words, anchor="start", size=12):
    return f'<text x="{x}" y="{y}" font-size="{size}" text-anchor="{anchor}">{escape(words)}</text>'

def plot(name, title, unit):
    """Bars of a figure's rows, one for each column behind the first, with their numbers."""
    with open(os.path.join(top, "bench/figures", name + ".csv"), newline="") as file:
        head, *rows = list(csv.reader(file))
    most = max(float(value) for row in rows for value in row[1:])
    parts, y = [text(10, 22, title, size=15)], 40
    for colour, series in zip(COLOURS, head[1:]):
        parts.append(f'<rect x="{LEFT}" y="{y - 10}" width="10" height="10" fill="{colour}"/>')
        parts.append(text(LEFT + 16, y, series))
        y += 16
    y += 8
    for row in rows:
        parts.append(text(LEFT - 8, y + ROW * len(row[1:]) / 2 + 4, row[0], "end"))
        for colour, value in zip(COLOURS, row[1:]):
            long = round(WIDTH * float(value) / most, 1)
            parts += [f'<rect x="{LEFT}" y="{y}" width="{long}" height="{BAR}" fill="{colour}"/>',
                      text(LEFT + long + 5, y + 10, value, size=11)]
            y += ROW
        y += 8
    parts.append(text(LEFT, y + 10, unit))
    size = f'width="{LEFT + WIDTH + 60}" height="{y + 24}"'
    head = f'<svg xmlns="http://www.w3.org/2000/svg" {size} font-family="sans-serif">'
    return "\n".join([head, '<rect width="100%" height="100%" fill="white"/>', *parts, "</svg>", ""])

PLOTS = [
    ("speed", "Whole runs on a million lines of 16 numbers, 99 % new",
     "million lines a second, read and answered"),
    ("bytes", "Bytes of each different vector",
     "bytes, as occupied buckets and cells, or at 4 bytes a number"),
]
wrong = []
for name, title, unit in PLOTS:
    path, drawn = os.path.join(top, "docs", name + ".svg"), plot(name, title, unit)
    if "--check" in sys.argv[1:]:
        with open(path) as file:
            if file.read() != drawn:
                wrong.append(path)
    else:
        with open(path, "w") as file:
            file.write(drawn)
if wrong:
    sys.exit("not the plots of their figures: " + ", ".join(wrong))
