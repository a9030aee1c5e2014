#!/usr/bin/env python3
"""The last run in short, as Markdown: bench/summary.py [FOLDER]. FOLDER has results.csv (bench/build).
For each cell: our time, and our time as a ratio to each peer's, below 1 where we are faster."""
import csv
import os
import sys

PEERS = ["before", "tight nopop", "plain nopop", "tight", "sdsl wt_int nopop", "sdsl wt_int v5 nopop", "scan"]


def spoken(ns):
    """A time in the unit that keeps it short."""
    for unit, size in (("ms", 1e6), ("µs", 1e3)):
        if ns >= size:
            return f"{ns / size:.3g} {unit}"
    return f"{ns:.3g} ns"


def main():
    folder = sys.argv[1] if len(sys.argv) > 1 else os.path.join(os.path.dirname(os.path.abspath(__file__)), "build")
    with open(os.path.join(folder, "results.csv")) as f:
        rows = list(csv.DictReader(f))
    for data in dict.fromkeys(r["data"] for r in rows):
        cells, sizes = {}, {}
        for r in rows:
            if r["data"] == data:
                cells.setdefault(r["cell"], {})[r["contender"]] = r
                sizes[r["contender"]] = int(r["index_bytes"])
        peers = [p for p in PEERS if p in sizes]
        print(f"\n### {data.capitalize()}\n\n| | ours | ours checked | " + " | ".join(f"to {p}" for p in peers) + " |")
        print("|---|--:|--:|" + "--:|" * len(peers))
        print("| bytes of the index | " + f"{sizes['ours']:,} | | " + " | ".join(f"{sizes[p]:,}" for p in peers) + " |")
        for cell, of in cells.items():
            time = [spoken(float(of[c]["median_ns"])) for c in ("ours", "ours checked")]
            # medians of ratios within the rounds, which a busy machine disturbs less than times
            to_tight = {c: float(r["ratio_tight_nopop"]) for c, r in of.items()}
            ratios = [f"{to_tight['ours'] / to_tight[p]:.2f}" if p in to_tight else "" for p in peers]
            print(f"| {cell} | " + " | ".join(time + ratios) + " |")


if __name__ == "__main__":
    main()
