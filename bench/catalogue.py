#!/usr/bin/env python3
"""Runs the program on large catalogues, and prints how long each run takes and how much memory.

    bench/catalogue.py [ROWS ..]

Each catalogue has two required ports. A tenth of its rows lie on a curve, on which the first number
rises while the second falls, so that they are the minimal ones. Each other row requires at least what
some row of the curve does, and more of one thing. The rows come in a shuffled order, the same each time.

Each catalogue is run three times. The least time of the three is printed, and the greatest peak. Where
there is a command `time` it is asked for the peak, and otherwise the system is.
"""

import os
import random
import shutil
import subprocess
import sys
import tempfile
import time

TOP = os.path.dirname(os.path.dirname(os.path.abspath(__file__)))
MCDPL = os.path.join(TOP, "mcdpl")
SIZES = [1250, 2500, 5000, 9990]
RUNS = 3
MAX_FILE = 1_048_576
STEP = 10
TIME = shutil.which("time")


def rows_of(count):
    """The required numbers of each row, in the order of the file, and how many of them are minimal."""
    draw = random.Random(count)
    minimal = count // 10
    curve = [(STEP * (at + 1), STEP * (minimal - at)) for at in range(minimal)]
    rows = list(curve)
    while len(rows) < count:
        mass, cost = draw.choice(curve)
        more = draw.choice([(0, 1), (1, 0), (1, 1)])
        by = draw.randint(1, 3 * STEP)
        rows.append((mass + by * more[0], cost + by * more[1]))
    draw.shuffle(rows)
    return rows, minimal


def catalogue(rows):
    """The text of a catalogue. Each row provides at least the 90 that is asked for."""
    parts = ["catalogue { provides lift [Nat]; requires mass [Nat]; requires cost [Nat];"]
    for at, (mass, cost) in enumerate(rows):
        parts.append(f" row r{at}: {90 + at % 10} -> {mass}, {cost};")
    parts.append(" }\n")
    return "".join(parts)


def measured(words):
    """Runs a command: its status, what it wrote, its seconds, and its peak memory in bytes."""
    with tempfile.TemporaryFile() as out, tempfile.NamedTemporaryFile() as note:
        if TIME:
            words = [TIME, "-f", "%M", "-o", note.name, *words]
        start = time.perf_counter()
        child = subprocess.Popen(words, stdin=subprocess.DEVNULL, stdout=out)
        _, status, used = os.wait4(child.pid, 0)
        seconds = time.perf_counter() - start
        child.returncode = os.waitstatus_to_exitcode(status)
        out.seek(0)
        peak = int(note.read().split()[-1]) if TIME else used.ru_maxrss
        return child.returncode, out.read().decode(), seconds, peak * 1024


def expect(is_so, what):
    if not is_so:
        sys.exit(f"bench: {what}")


def build():
    """Has the program built, before anything is measured."""
    done = subprocess.run([MCDPL, "solve", os.path.join(TOP, "examples", "motors"), "motors", "90"],
                          stdin=subprocess.DEVNULL, stdout=subprocess.PIPE, check=False)
    expect(done.returncode == 0, "the program doesn't run on examples/motors")
    expect(done.stdout == b"finished 2\n8, 7\n10, 5\n", "the report on examples/motors is wrong")


def main():
    sizes = [int(word) for word in sys.argv[1:]] or SIZES
    build()
    print(f"{'rows':>7} {'minimal':>8} {'file':>9} {'seconds':>8} {'peak':>9}")
    for size in sizes:
        rows, minimal = rows_of(size)
        text = catalogue(rows)
        expect(len(text) <= MAX_FILE, f"a catalogue of {size} rows is longer than a file may be")
        least = "".join(f"{STEP * (at + 1)}, {STEP * (minimal - at)}\n" for at in range(minimal))
        times, peaks = [], []
        with tempfile.TemporaryDirectory() as folder:
            with open(os.path.join(folder, "bench.mcdp"), "w", encoding="ascii") as file:
                file.write(text)
            for _ in range(RUNS):
                status, report, seconds, peak = measured([MCDPL, "solve", folder, "bench", "90"])
                expect(status == 0, f"status {status} at {size} rows")
                first, _, others = report.partition("\n")
                expect(first == f"finished {minimal}", f"the first line is '{first}' at {size} rows")
                expect(others == least, f"the rows of the report are wrong at {size} rows")
                times.append(seconds)
                peaks.append(peak)
        line = f"{size:>7} {minimal:>8} {len(text) / 1024:>6.0f} KB"
        print(f"{line} {min(times):>8.3f} {max(peaks) / 2**20:>6.1f} MB")

    # A peak counts from that of the process that starts the program.
    _, _, seconds, floor = measured(["true"])
    print(f"A program that does nothing shows {seconds:.3f} seconds and {floor / 2**20:.1f} MB here.")


if __name__ == "__main__":
    main()
