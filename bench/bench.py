#!/usr/bin/env python3
"""Times the program `breakers` beside the second implementation (tests/second) and, where it is at hand, a peer in C.

bench.py [--visits N] [--peer PROGRAM]: each program reads the same files from standard input and prints the same report. Times are
processor times of whole runs, the least of several, taken in turn, less that of a program that does nothing. A visit's time is
the difference between a run with N visits (default 1,000,000) and one with a single visit, divided by the visits between. Ratios
are those of `breakers` to the others."""
import argparse
import fcntl
import os
import subprocess
import sys
import tempfile
import time

import networks

F_SETPIPE_SZ = 1031
NOTHING = "true"
FEWEST = 20_000  # visits that a visit's time can be taken from
TOP = os.path.join(os.path.dirname(os.path.abspath(__file__)), "..")


def run(program, data):
    """Seconds of processor time and output of one run."""
    with tempfile.TemporaryFile() as file, tempfile.TemporaryFile() as out:
        file.write(data)
        file.seek(0)
        child = subprocess.Popen(program, stdin=file, stdout=out)
        _, status, usage = os.wait4(child.pid, 0)
        child.returncode = status
        if status != 0:
            sys.exit(f"bench: {program[0]} failed")
        out.seek(0)
        return usage.ru_utime + usage.ru_stime, out.read()


def fastest(programs, data, times):
    """For each program its fastest run in seconds, less that of a program that does nothing; and what all print, which must be the
    same."""
    best = {name: float("inf") for name in [*programs, NOTHING]}
    for _ in range(times):
        best[NOTHING] = min(best[NOTHING], run([NOTHING], data)[0])
        texts = set()
        for name, program in programs.items():
            seconds, text = run(program, data)
            texts.add(text)
            best[name] = min(best[name], seconds)
        if len(texts) != 1:
            sys.exit("bench: the programs print different reports")
    return {name: max(best[name] - best[NOTHING], 1e-6) for name in programs}, texts.pop()


def peak_memory(program, data):
    """Peak kilobytes, read while the program waits to write its report into a pipe that has room for a page only."""
    with tempfile.TemporaryFile() as file:
        file.write(data)
        file.seek(0)
        end, start = os.pipe()
        fcntl.fcntl(start, F_SETPIPE_SZ, 4096)
        child = subprocess.Popen(program, stdin=file, stdout=start)
        os.close(start)
        time.sleep(0.5)
        with open(f"/proc/{child.pid}/status") as status:
            peak = next(line for line in status if line.startswith("VmHWM:"))
        with open(end, "rb") as rest:
            rest.read()
        child.wait()
        return int(peak.split()[1])


def visits_of(text):
    return int(next(line for line in text.decode().split() if line.startswith("C,")).split(",")[2])


def row(name, columns, programs, form):
    ours = columns["breakers"]
    cells = [form(columns[p]) for p in programs]
    cells += [f"{ours / columns[p]:.2f}" for p in programs if p != "breakers"]
    print(f"| {name} | " + " | ".join(cells) + " |")


def head(title, first, programs):
    print(f"\n{title}\n")
    names = list(programs) + [f"to {p}" for p in programs if p != "breakers"]
    print(f"| {first} | " + " | ".join(names) + " |")
    print("|---" * (len(names) + 1) + "|")


def per_visit(programs, most, **shape):
    """Nanoseconds a visit of each program, and the visits."""
    one, _ = fastest(programs, networks.network(visits=1, **shape), 5)
    many, text = fastest(programs, networks.network(visits=most, **shape), 3)
    visits = visits_of(text)
    return {p: max(many[p] - one[p], 1e-9) / max(visits - 1, 1) * 1e9 for p in programs}, visits


def main():
    parser = argparse.ArgumentParser()
    parser.add_argument("--visits", type=int, default=1_000_000)
    parser.add_argument("--peer")
    options = parser.parse_args()
    programs = {
        "breakers": [os.path.join(TOP, "target/bin/breakers")],
        "second": [os.path.join(TOP, "target/second/release/compare"), "--print"],
    }
    if options.peer:
        programs["peer"] = [options.peer]
    def us(seconds):
        return f"{seconds * 1e6:.0f}"

    head("Read, check, total and report, in us", "file", programs)
    for name, shape in [
        ("largest: 512 stations, 768 lines, 64 places", dict(shape="feeders", hanging=257)),
        ("feeders, 512 stations, 511 lines", dict(shape="feeders")),
        ("chain of 512 stations", dict(shape="chain")),
        ("star of 512 stations", dict(shape="star")),
        ("feeders, 256 stations", dict(shape="feeders", stations=256)),
        ("feeders, 128 stations", dict(shape="feeders", stations=128)),
    ]:
        best, _ = fastest(programs, networks.network(adds=0, **shape), 30)
        row(name, best, programs, us)

    head("Calls within one process, in us", "call, largest file without additions", ("breakers", "second"))
    timed = subprocess.run(programs["second"][:1] + ["--time"], input=networks.network("feeders", hanging=257, adds=0), stdout=subprocess.PIPE, check=True)
    for line in timed.stdout.decode().splitlines():
        name, ours, second = line.split()
        row(name, {"breakers": int(ours) / 1e9, "second": int(second) / 1e9}, ("breakers", "second"), us)

    head("Peak memory, in kB", "file", programs)
    data = networks.network("feeders", hanging=257, visits=1000)
    row("largest, 1,000 visits", {p: peak_memory(programs[p], data) for p in programs}, programs, str)

    def ns(number):
        return f"{number:.1f}"

    head("A visit in Search, in ns: 512 stations, 64 places, 16 additions", "shape", programs)
    for shape in networks.SHAPES:
        cost, visits = per_visit(programs, options.visits, shape=shape)
        row(f"{shape}, {visits:,} visits", cost, programs, ns)

    head("How a visit grows, in ns: feeders", "file", programs)
    growth = [dict(stations=n) for n in (128, 256, 512)] + [dict(hanging=257)]
    growth += [dict(places=n) for n in (16, 32, 64)] + [dict(adds=n) for n in (4, 8, 16)]
    for change in growth:
        cost, visits = per_visit(programs, options.visits, **{"shape": "feeders", **change})
        if visits < FEWEST:
            continue
        name = ", ".join(f"{value} {key}" for key, value in change.items())
        row(f"{name}; {visits:,} visits", cost, programs, ns)


if __name__ == "__main__":
    main()
