#!/usr/bin/env python3
"""Shows how the time and the memory of `mcdpl solve` grow with the size of a library.

    bench/library.py [PERCENT ..]

Each library is made at a tenth of its full size and at the full one, which is within the limits of a library. The
program reads and checks all of it, and then answers for a small catalogue that stands beside it. In full they are

    rows        31 catalogues of 9,680 rows, 300,080 in all
    tables      31 tables of 9,680 records, and their catalogues
    files       1,000 catalogues of 16 KiB
    instances   a net of 20,000 instances in a chain, with a rule for each and one more: it is too large
    ports       a net of 100 instances of a catalogue with 200 ports, of which a quarter is ignored, and the others are
                constrained or read
    dense       999 files: each but the last is a choice between all files after it, 498,501 references in all: the first
                is too deep
    circular    the same, where the last one names the first, so that the first is refused
    doubling    forty designs, each a net of two of the one before it: the first that is too large is refused
    parameters  a template of 20,000 parameters and as many instances, each of which names the last parameter

A tenth has a tenth of the rows, instances or files. Each is run three times: the least time is printed, and the greatest
peak of memory, also as a multiple of the library's bytes.
"""

import os
import shutil
import subprocess
import sys
import tempfile
import time

TOP = os.path.dirname(os.path.dirname(os.path.abspath(__file__)))
MCDPL = os.path.join(TOP, "mcdpl")
PERCENTS = [10, 100]
RUNS = 3
MAX_FILES = 1000
MAX_FILE = 1_048_576
MAX_TEXT = 16_777_216
TIME = shutil.which("time")
CATALOGUE = "catalogue { provides x [Nat]; requires y [Nat]; row only: 1 -> 2; }"
ASKED = ("asked", "1", "finished 1\n2\n")


def instances(percent):
    """Each instance but the first carries what the one before it requires."""
    count = 200 * percent
    text = ["mcdp { provides y [Nat]; requires x [Nat];"]
    text += [f" instance p{at} = part;" for at in range(count)]
    text.append(" p0.x >= y;")
    text += [f" p{at}.x >= p{at - 1}.y;" for at in range(1, count)]
    text.append(f" x >= p{count - 1}.y; }}")
    return {"net.mcdp": "".join(text), "part.mcdp": CATALOGUE}, "net.mcdp: TooLarge at 0" if count > 3000 else None


def ports(percent):
    """Each instance carries what the one before it requires, port by port, and each fourth port is ignored."""
    sides = range(100)
    part = ["catalogue {"]
    part += [f" provides x{port} [Nat]; requires y{port} [Nat];" for port in sides]
    row = ", ".join("1" for _ in sides)
    part.append(f" row only: {row} -> {row}; }}")
    text = ["mcdp {"]
    for at in range(percent):
        text.append(f" instance p{at} = part;")
        for port in sides:
            if port % 4 == 0:
                text.append(f" ignore p{at}.x{port}; ignore p{at}.y{port};")
            else:
                text.append(f" p{at}.x{port} >= p{(at or percent) - 1}.y{port};")
    text.append(" }")
    return {"net.mcdp": "".join(text), "part.mcdp": "".join(part)}, None


def rows(percent):
    start = "catalogue { provides capacity [Wh]; requires mass [g]; requires cost [USD];"
    files = {}
    for number in range(31):
        text = [f" row r{at}: {at} Wh -> {at}00 g, {at}.50 USD;" for at in range(9680 * percent // 100)]
        files[f"c{number:02}.mcdp"] = start + "".join(text) + " }"
    return files, None


def tables(percent):
    start = "catalogue { provides capacity [Wh]; requires mass [g]; requires cost [USD]; table"
    files = {}
    for number in range(31):
        text = [f"r{at},{at} Wh,{at}00 g,{at}.50 USD\n" for at in range(9680 * percent // 100)]
        files[f"t{number:02}.csv"] = "name,capacity,mass,cost\n" + "".join(text)
        files[f"c{number:02}.mcdp"] = f"{start} t{number:02}; }}"
    return files, None


def many(percent):
    """Catalogues of nearly 16 KiB each."""
    start = "catalogue { provides x [Nat]; requires y [Nat];"
    text = start + "".join(f" row r{at:03}: {at:05} -> {at:05};" for at in range(620)) + " }"
    return {f"f{number:03}.mcdp": text for number in range(10 * percent - 1)}, None


def choice(numbers):
    return "choose {" + "".join(f" b{number:03}: f{number:03};" for number in numbers) + " }"


def dense(percent):
    count = 10 * percent - 1
    files = {f"f{at:03}.mcdp": choice(range(at + 1, count)) for at in range(count - 1)}
    files[f"f{count - 1:03}.mcdp"] = CATALOGUE
    return files, "f000.mcdp: TooDeep at 0"


def circular(percent):
    files, _ = dense(percent)
    files[max(files)] = choice([0])
    return files, "f000.mcdp: Circular at 0"


def doubling(percent):
    """Each design is twice the one before it, so the last of forty would be a tree of 2^40 catalogues."""
    twice = "mcdp {{ provides x [Nat]; requires y [Nat]; instance a = d{0:02}; instance b = d{0:02}; a.x >= x; b.x >= x; y >= a.y + b.y; }}"
    files = {"d00.mcdp": CATALOGUE}
    files |= {f"d{at:02}.mcdp": twice.format(at - 1) for at in range(1, max(14, 40 * percent // 100))}
    return files, "d11.mcdp: TooLarge at 0"


def parameters(percent):
    """Each instance names the last parameter, so a search through the parameters would pass all others."""
    count = 200 * percent
    names = ", ".join(f"p{at:05}: plug" for at in range(count))
    parts = "".join(f" instance i{at:05} = p{count - 1:05};" for at in range(count))
    return {"both.template": f"template<{names}> mcdp {{{parts} }}", "plug.interface": "interface { }"}, None


KINDS = [("rows", rows), ("tables", tables), ("files", many), ("instances", instances), ("ports", ports),
         ("dense", dense), ("circular", circular), ("doubling", doubling), ("parameters", parameters)]


def expect(is_so, what):
    if not is_so:
        sys.exit(f"bench: {what}")


def write_library(folder, files):
    """Writes the files, and the small catalogue that is asked for: how many bytes there are."""
    name, _, _ = ASKED
    files = {f"{name}.mcdp": CATALOGUE, **files}
    expect(len(files) <= MAX_FILES + 1, f"a library of {len(files)} files has more than it may have")
    expect(all(len(text) <= MAX_FILE for text in files.values()), "a file is longer than it may be")
    expect(sum(map(len, files.values())) <= MAX_TEXT, "a library is longer than it may be")
    for name, text in files.items():
        with open(os.path.join(folder, name), "w", encoding="ascii", newline="") as file:
            file.write(text)
    return sum(map(len, files.values()))


def measured(words):
    """Runs a command: what it wrote on both streams, its seconds, and its peak memory in bytes."""
    with tempfile.TemporaryFile() as out, tempfile.TemporaryFile() as err, tempfile.NamedTemporaryFile() as note:
        if TIME:
            words = [TIME, "-f", "%M", "-o", note.name, *words]
        start = time.perf_counter()
        child = subprocess.Popen(words, stdin=subprocess.DEVNULL, stdout=out, stderr=err)
        _, _, used = os.wait4(child.pid, 0)
        seconds = time.perf_counter() - start
        out.seek(0)
        err.seek(0)
        peak = int(note.read().split()[-1]) if TIME else used.ru_maxrss
        return out.read().decode(), err.read().decode(), seconds, peak * 1024


def main():
    percents = [int(word) for word in sys.argv[1:]] or PERCENTS
    expect(all(0 < percent <= 100 for percent in percents), "a size is from 1 to 100 percent")
    subprocess.run([MCDPL, "solve", os.path.join(TOP, "examples", "motors"), "motors", "90"],
                   stdin=subprocess.DEVNULL, stdout=subprocess.DEVNULL, check=True)
    print(f"{'library':>10} {'percent':>8} {'bytes':>9} {'seconds':>8} {'peak':>9} {'peak/bytes':>11}")
    name, query, report = ASKED
    for kind, make in KINDS:
        for percent in percents:
            files, fault = make(percent)
            with tempfile.TemporaryDirectory() as folder:
                size = write_library(folder, files)
                times, peaks = [], []
                for _ in range(RUNS):
                    out, err, seconds, peak = measured([MCDPL, "solve", folder, name, query])
                    wanted = ("", f"{fault}\n") if fault else (report, "")
                    expect((out, err) == wanted, f"{kind} at {percent} percent answered '{out}' and '{err}'")
                    times.append(seconds)
                    peaks.append(peak)
            print(f"{kind:>10} {percent:>8} {size:>9} {min(times):>8.3f} {max(peaks) / 2**20:>6.1f} MB {max(peaks) / size:>11.1f}")


if __name__ == "__main__":
    main()
