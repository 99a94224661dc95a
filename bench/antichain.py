#!/usr/bin/env python3
"""Shows how the time for the minimal rows grows, from 1,000 to 10,000 rows of two numbers, and of three.

    bench/antichain.py [ROWS ..]

Once all of the rows are minimal, on a curve on which the first number rises while the second falls, and once
only ten of them are. The rows come in a shuffled order, the same each time. Of rows of two numbers each is compared
with one other row. Of rows of three, of which the third is the same in all, each is compared with all minimal ones
that are printed before it, so that their times show what a comparison takes.

Each catalogue is asked for a functionality that each row provides, and for one that no row provides. The second
run reads the same file and compares no rows that are required, so that the difference of the two times is that
of sorting, of the minimal rows and of their report. The least times of five runs are taken.
"""

import os
import random
import sys
import tempfile

import catalogue as bench

SIZES = [1000, 2000, 5000, 10000]
RUNS = 5
FEW = 10
SAME = 7


def rows_of(count, minimal):
    """The required numbers of each row, and those of the minimal ones in order."""
    draw = random.Random(count)
    curve = [(bench.STEP * (at + 1), bench.STEP * (minimal - at)) for at in range(minimal)]
    rows = list(curve)
    while len(rows) < count:
        mass, cost = draw.choice(curve)
        rows.append((mass + draw.randint(1, 1000), cost + draw.randint(0, 1000)))
    draw.shuffle(rows)
    return rows, curve


def catalogue_of(rows, width):
    """The text of the catalogue, with one more required port where the rows are to have three numbers."""
    text = bench.catalogue(rows)
    if width == 2:
        return text
    parts = text.replace("requires cost [Nat];", "requires cost [Nat]; requires noise [Nat];", 1).split(";")
    return ";".join(part + f", {SAME}" if "->" in part else part for part in parts)


def least_time(folder, query, wants):
    """The least time of some runs, each of which writes this report."""
    times = []
    for _ in range(RUNS):
        status, report, seconds, _ = bench.measured([bench.MCDPL, "solve", folder, "bench", query])
        bench.expect(status == 0, f"status {status}")
        bench.expect(report == wants, f"the report is wrong, which begins '{report[:20]}'")
        times.append(seconds)
    return min(times)


def main():
    sizes = [int(word) for word in sys.argv[1:]] or SIZES
    bench.build()
    print(f"{'rows':>7} {'numbers':>8} {'minimal':>8} {'seconds':>8} {'of reading':>11} {'of the rest':>12}")
    for width, few in ((2, False), (3, False), (2, True), (3, True)):
        for size in sizes:
            rows, curve = rows_of(size, FEW if few else size)
            text = catalogue_of(rows, width)
            bench.expect(len(text) <= bench.MAX_FILE, f"a catalogue of {size} rows is longer than a file may be")
            end = "" if width == 2 else f", {SAME}"
            report = f"finished {len(curve)}\n" + "".join(f"{mass}, {cost}{end}\n" for mass, cost in curve)
            with tempfile.TemporaryDirectory() as folder:
                with open(os.path.join(folder, "bench.mcdp"), "w", encoding="ascii") as file:
                    file.write(text)
                whole = least_time(folder, "90", report)
                reading = least_time(folder, "1000", "infeasible\n")
            print(f"{size:>7} {width:>8} {len(curve):>8} {whole:>8.3f} {reading:>11.3f} {whole - reading:>12.3f}")


if __name__ == "__main__":
    main()
