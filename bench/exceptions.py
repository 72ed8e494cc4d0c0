#!/usr/bin/env python3
"""Measures reads of a column with exceptions, with and without chunk offsets apart.

    python3 bench/exceptions.py [PROGRAM]

PROGRAM is the built `vx_column_bench`; if it isn't named, `rt run` builds it in its crate. The column has 1,000,000 rows and
100,000 exceptions. For each of the two columns the script prints the seconds of a run that makes it and reads 1,000 rows,
what these reads counted on average and at most, how much one may count, and the time of a read: that of a run with
1,000,000 reads less that of one with none, over the number of reads. Each time is the fastest of 3. The program looks at
each row that it reads. The script ends with 1 where a row was wrong, or a read counted more than it may.
"""
import argparse
import pathlib
import subprocess
import sys
import time

CRATE = pathlib.Path(__file__).resolve().parent.parent / "crates" / "vx_column_bench"

ROWS = 1_000_000
EVERY = 10
POINTS = 1_000
READS = 1_000_000


def built():
    """The program, built by a run of it."""
    subprocess.run(["rt", "run"], cwd=CRATE, stdout=subprocess.DEVNULL, check=True)
    return CRATE / "out" / "vx_column_bench"


def run(program, reads, offsets):
    """What the program prints of one column, by name, and the seconds that it took."""
    words = [program, str(ROWS), str(EVERY), str(reads), offsets]
    start = time.perf_counter()
    done = subprocess.run(words, capture_output=True, text=True)
    seconds = time.perf_counter() - start
    if done.returncode != 0:
        sys.exit(f"{offsets} chunk offsets: {done.stdout}{done.stderr}")
    return dict(line.rsplit(" ", 1) for line in done.stdout.splitlines()), seconds


def fastest(program, reads, offsets):
    return min(run(program, reads, offsets)[1] for _ in range(3))


def measured(program, offsets):
    """Prints the line of one column, and answers whether its reads stayed within what they may count."""
    fields, _ = run(program, POINTS, offsets)
    seconds = fastest(program, POINTS, offsets)
    read = (fastest(program, READS, offsets) - fastest(program, 0, offsets)) / READS
    mean, most, allowed = (fields[f"counted {name}"] for name in ("on average", "at most", "allowed"))
    print(f"| {offsets} | {seconds:.3f} s | {mean} | {most} | {allowed} | {read * 1e9:.0f} ns |")
    return int(most) <= int(allowed)


def main():
    parser = argparse.ArgumentParser(description="Measures reads of a column with exceptions. README.md says more.")
    parser.add_argument("program", nargs="?", help="the program, in place of vx_column_bench, which is built else")
    program = parser.parse_args().program or built()
    print("| chunk offsets | column and 1,000 reads | counted on average | at most | allowed | time of a read |")
    print("|---|---|---|---|---|---|")
    within = [measured(program, offsets) for offsets in ("without", "with")]
    sys.exit(0 if all(within) else 1)


main()
