#!/usr/bin/env python3
"""Measures filters and takes of exceptions, each by two ways: the reads that one counts beside its bound, and its time.

    python3 bench/patches.py [PROGRAM]

PROGRAM is the built `vx_patches_bench`; if it isn't named, `rt run` builds it in its crate. Of 1,000,000 rows a tenth have an
exception. The script filters them by masks that keep 1, 10, 50 and 90 of 100 rows, with the mask's indices at hand and without, and
takes as many rows by searches and by a map. The time of one selection is the difference of a run that makes several and one that
makes none, fastest of 3, over their number. It ends with 1 where a selection counted more than it may, and with an error where the
program refused.
"""
import pathlib
import subprocess
import sys
import time

CRATE = pathlib.Path(__file__).resolve().parent.parent / "crates" / "vx_patches_bench"

ROWS = 1_000_000

EVERY = 10

SHARES = (1, 10, 50, 90)

WAYS = ("filter", "cached", "search", "map")

TIMES = 5


def field(line):
    """A printed line as a name and a number."""
    name, value = line.rsplit(" ", 1)
    return name, int(value)


def run(program, way, share, times):
    """The fields that the program prints, and the seconds that it took."""
    words = [program, way, str(ROWS), str(EVERY), str(share), str(times)]
    start = time.perf_counter()
    done = subprocess.run(words, capture_output=True, text=True, check=True)
    seconds = time.perf_counter() - start
    return dict(map(field, done.stdout.splitlines())), seconds


def fastest(program, way, share, times):
    """The seconds of the fastest of 3 runs."""
    return min(run(program, way, share, times)[1] for _ in range(3))


def measured(program, way, share):
    """Prints the row of a way and a share, and tells whether it kept to its bound."""
    fields, _ = run(program, way, share, 1)
    made = fields["reads counted"]
    allowed = fields["reads allowed"]
    seconds = (fastest(program, way, share, TIMES) - fastest(program, way, share, 0)) / TIMES
    print(f"| `{way}` | {share} | {fields['exceptions left']} | {made} | {allowed} | {seconds * 1e3:.1f} ms |")
    return made <= allowed


def built():
    """The program, built where none is named."""
    if len(sys.argv) > 1:
        return sys.argv[1]
    subprocess.run(["rt", "run"], cwd=CRATE, stdout=subprocess.DEVNULL, check=True)
    return CRATE / "out" / "vx_patches_bench"


def main():
    """Measures each way at each share."""
    if "--help" in sys.argv[1:] or "-h" in sys.argv[1:]:
        print(__doc__)
        return 0
    program = built()
    print("| Way | Of 100 rows | Exceptions left | Reads counted | Reads allowed | Time |")
    print("|---|---|---|---|---|---|")
    kept = [measured(program, way, share) for way in WAYS for share in SHARES]
    return 0 if all(kept) else 1


if __name__ == "__main__":
    sys.exit(main())
