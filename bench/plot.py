#!/usr/bin/env python3
"""Plots of the last run, as SVG: bench/plot.py [FOLDER]. FOLDER has results.csv and openings.csv (bench/build)."""
import csv
import math
import os
import sys

WIDTH, HEIGHT, LEFT, TOP, RIGHT, BOTTOM = 660, 400, 90, 40, 170, 50
COLOURS = ["#c0392b", "#2471a3", "#7f8c8d", "#1e8449", "#8e44ad"]
SHOWN = ["ours", "tight nopop", "plain nopop", "sdsl wt_int nopop", "scan"]
SIZES = {"all": 65535, "1/16": 4095, "term": 16}


def powers(values, base):
    """The powers of the base from just below the values to just above them."""
    low = math.floor(math.log(min(values), base) + 1e-9)
    high = max(low + 1, math.ceil(math.log(max(values), base) - 1e-9))
    return [base**e for e in range(low, high + 1)]


def chart(path, title, across, up, series):
    """Lines of points (x, y) by name, both axes logarithmic."""
    xs = powers([x for points in series.values() for x, _ in points], 4)
    ys = powers([y for points in series.values() for _, y in points], 10)

    def place(x, y):
        right = (math.log(x) - math.log(xs[0])) / (math.log(xs[-1]) - math.log(xs[0]))
        above = (math.log(y) - math.log(ys[0])) / (math.log(ys[-1]) - math.log(ys[0]))
        return LEFT + right * (WIDTH - LEFT - RIGHT), HEIGHT - BOTTOM - above * (HEIGHT - TOP - BOTTOM)

    def text(x, y, words, more=""):
        return f'<text x="{x:.1f}" y="{y:.1f}" {more}>{words}</text>'

    out = [f'<svg xmlns="http://www.w3.org/2000/svg" width="{WIDTH}" height="{HEIGHT}" font-family="sans-serif" font-size="12">',
           f'<rect width="{WIDTH}" height="{HEIGHT}" fill="white"/>', text(LEFT, 20, title, 'font-size="14"'),
           text(LEFT, HEIGHT - 10, across), text(8, TOP - 8, up)]
    for x in xs:
        at, floor = place(x, ys[0])
        out += [f'<path d="M{at:.1f} {floor:.1f}V{TOP}" stroke="#ddd"/>', text(at, floor + 16, f"{x:,}", 'text-anchor="middle"')]
    for y in ys:
        side, at = place(xs[0], y)
        out += [f'<path d="M{side:.1f} {at:.1f}H{WIDTH - RIGHT}" stroke="#ddd"/>', text(side - 6, at + 4, f"{y:,}", 'text-anchor="end"')]
    # the first is drawn last, above the others
    for i, (name, points) in reversed(list(enumerate(series.items()))):
        colour = COLOURS[SHOWN.index(name) if name in SHOWN else i]
        line = " ".join("%.1f,%.1f" % place(x, y) for x, y in sorted(points))
        out.append(f'<polyline points="{line}" fill="none" stroke="{colour}" stroke-width="2"/>')
        out += ['<circle cx="%.1f" cy="%.1f" r="3" fill="%s"/>' % (*place(x, y), colour) for x, y in points]
        out.append(text(WIDTH - RIGHT + 12, TOP + 12 + 18 * i, name, f'fill="{colour}"'))
    with open(path, "w") as f:
        f.write("\n".join(out) + "\n</svg>\n")
    print(path)


def main():
    folder = sys.argv[1] if len(sys.argv) > 1 else os.path.join(os.path.dirname(os.path.abspath(__file__)), "build")
    with open(os.path.join(folder, "results.csv")) as f:
        results = list(csv.DictReader(f))
    with open(os.path.join(folder, "openings.csv")) as f:
        openings = list(csv.DictReader(f))

    def times(x, **wanted):
        series = {}
        for name in SHOWN:
            points = [(x(r), float(r["median_ns"])) for r in results if r["contender"] == name and all(r[key] == value for key, value in wanted.items())]
            if len(points) > 1:
                series[name] = points
        return series

    for data in sorted({r["data"] for r in openings}):
        charts = []
        for operation in ("greedy", "probing"):
            charts.append((f"{operation}_by_k_{data}", f"{operation} top-k of the whole, {data}", "k", "ns", times(lambda r: int(r["k"]), data=data, operation=operation, range="all")))
        for operation, k in (("quantile", "0"), ("list", "0"), ("greedy", "10"), ("probing", "10")):
            title = operation + (f", k = {k}" if k != "0" else "")
            charts.append((f"{operation}_by_range_{data}", f"{title}, {data}", "entries in the range", "ns", times(lambda r: SIZES[r["range"]], data=data, operation=operation, k=k)))
        for column in ("openings", "documents"):
            series = {}
            for r in openings:
                if r["data"] == data and int(r[column]):
                    series.setdefault("k = " + r["k"], []).append((int(r["allowance"]), int(r[column])))
            charts.append((f"{column}_by_allowance_{data}", f"greedy top-k of the whole: {column}, {data}", "allowance", column, series))
        for name, title, across, up, series in charts:
            if series:
                chart(os.path.join(folder, name + ".svg"), title, across, up, series)


if __name__ == "__main__":
    main()
