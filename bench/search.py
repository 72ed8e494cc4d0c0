#!/usr/bin/env python3
"""Measures sorted search: comparisons of a search beside its bound, and the time of one search.

    python3 bench/search.py [PROGRAM]

PROGRAM is the built `vx_search_bench`; if it isn't named, `rt run` builds it in its crate. For 10^3 to 10^6 elements the
script runs it with many searches on each side and with none; the time of a search is the difference of the two, fastest
of 3, over the number of searches. It ends with 1 where a search made more comparisons than it may, and with an error
where the program refused, as it does where a search doesn't answer the place of its value.
"""
import argparse
import pathlib
import subprocess
import sys
import time

CRATE = pathlib.Path(__file__).resolve().parent.parent / "crates" / "vx_search_bench"

SIZES = (10**3, 10**4, 10**5, 10**6)

SEARCHES = 1_000_000

SIDES = 2


def field(line):
    """A printed line as a name and a number."""
    name, value = line.rsplit(" ", 1)
    return name, int(value)


def run(program, size, searches):
    """The fields that the program prints, and the seconds that it took."""
    start = time.perf_counter()
    done = subprocess.run([program, str(size), str(searches)], capture_output=True, text=True, check=True)
    seconds = time.perf_counter() - start
    return dict(map(field, done.stdout.splitlines())), seconds


def fastest(program, size, searches):
    """The seconds of the fastest of 3 runs."""
    return min(run(program, size, searches)[1] for _ in range(3))


def measured(program, size):
    """Prints the row of a size, and tells whether each search kept to its bound."""
    fields, _ = run(program, size, SEARCHES)
    made = max(fields["comparisons made at most, left"], fields["comparisons made at most, right"])
    allowed = fields["comparisons allowed"]
    seconds = fastest(program, size, SEARCHES) - fastest(program, size, 0)
    print(f"| {size} | {made} | {allowed} | {seconds / (SIDES * SEARCHES) * 1e9:.0f} ns |")
    return made <= allowed


def built():
    """The program, built by a run of it."""
    subprocess.run(["rt", "run"], cwd=CRATE, stdout=subprocess.DEVNULL, check=True)
    return CRATE / "out" / "vx_search_bench"


def main():
    parser = argparse.ArgumentParser(description="Measures sorted search. README.md says more.")
    parser.add_argument("program", nargs="?", help="the program, in place of vx_search_bench, which is built else")
    program = parser.parse_args().program or built()
    print("| elements | comparisons made at most | allowed | time of a search |")
    print("|---|---|---|---|")
    kept = [measured(program, size) for size in SIZES]
    sys.exit(0 if all(kept) else 1)


main()
