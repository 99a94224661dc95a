#!/usr/bin/env python3
"""Shows how the time for cutting a text into tokens and reading it as a design grows with its length.

    bench/parser.py [BYTES ..]

Three kinds of design are made, each of about so many bytes: a catalogue of rows, a net with many rules, and a net
whose rules have 64 brackets open. The last kind is one rule that never ends, which is
refused at its 1,001st sign. The small
program `parse_bench` reads each from standard input. The least time of five runs is taken, and the time for the
empty text is taken off.
"""

import os
import subprocess
import sys
import time

TOP = os.path.dirname(os.path.dirname(os.path.abspath(__file__)))
CRATE = os.path.join(TOP, "crates", "parse_bench")
PROGRAM = os.path.join(CRATE, "out", "parse_bench")
SIZES = [64 * 1024, 256 * 1024, 1024 * 1024]
RUNS = 5


def filled(front, piece, back, size):
    """The front, as many pieces as fit into the size, and the back."""
    text = [front]
    left = size - len(front) - len(back)
    at = 0
    while True:
        next_piece = piece(at)
        if len(next_piece) > left:
            return "".join(text) + back
        text.append(next_piece)
        left -= len(next_piece)
        at += 1


def catalogue(size):
    front = "catalogue { provides lift [g]; requires mass [kg]; requires cost [USD];"
    return filled(front, lambda at: f" row r{at}: {100 + at} g -> {at}/7 kg, 12.50 USD;", " }", size), "written"


def rules(size):
    front = "mcdp { requires mass [g]; instance m = motors;"
    return filled(front, lambda at: f" m.lift >= payload + {at} g * 2 + max(m.mass, 3 kg);", " }", size), "written"


def brackets(size):
    deep = "(" * 32 + "<" * 32 + "1" + ">" * 32 + ")" * 32
    return filled("mcdp {", lambda at: f" m.lift >= {deep};", " }", size), "written"


def endless(size):
    text = filled("mcdp { a >= b", lambda at: " + b", "", size)
    return text, f"syntax at {len('mcdp { a >= b') + 1000 * len(' + b') + 1}"


KINDS = [("rows", catalogue), ("rules", rules), ("brackets", brackets), ("endless", endless)]


def expect(is_so, what):
    if not is_so:
        sys.exit(f"bench: {what}")


def answer(text):
    """What the program prints for the text, and its seconds."""
    start = time.perf_counter()
    done = subprocess.run([PROGRAM], input=text.encode(), stdout=subprocess.PIPE, check=False)
    seconds = time.perf_counter() - start
    expect(done.returncode == 0, f"status {done.returncode}")
    return done.stdout.decode().strip(), seconds


def least(text, want):
    times = []
    for _ in range(RUNS):
        got, seconds = answer(text)
        expect(want is None or got == want, f"the answer is '{got}' and not '{want}'")
        times.append(seconds)
    return min(times)


def build():
    """Has the small program proved and built, before anything is measured."""
    if not os.path.exists(PROGRAM):
        subprocess.run(["rt", "run"], cwd=CRATE, stdin=subprocess.DEVNULL, stdout=subprocess.DEVNULL, check=False)
    expect(os.path.exists(PROGRAM), "the program parse_bench was not proved and built")


def main():
    sizes = [int(word) for word in sys.argv[1:]] or SIZES
    build()
    base = least("", "syntax at 0")
    print(f"{'kind':>9} {'bytes':>9} {'seconds':>8} {'ns a byte':>10}")
    for name, make in KINDS:
        for size in sizes:
            text, want = make(size)
            seconds = max(least(text, want) - base, 0.0)
            print(f"{name:>9} {len(text):>9} {seconds:>8.4f} {seconds / len(text) * 1e9:>10.1f}")


if __name__ == "__main__":
    main()
