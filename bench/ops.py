#!/usr/bin/env python3
"""Measures calls on each row of a column, beside plain loops over the same rows: the time and the reads of a row.

    python3 bench/ops.py [--rows N] [PROGRAM]

PROGRAM is the built `vx_ops_bench`; if it isn't named, `rt run` builds it in its crate. N rows (10,000,000 where none are named) are
masked, chosen from two columns, filled, cast and compared: in one piece, in 1,000 chunks, and as a list of optional numbers by a plain
loop in the same program. The time of one call is the difference of a run that makes several more and one that makes none more, fastest
of 3, over their number, which is such that they take about a second; that of a row is this over the rows. Before that each call is made
of 30,000 rows, and its rows are compared, by a digest, with those that the script works out. It ends with 1 where a digest is wrong, and
with an error where the program refused.
"""
import argparse
import pathlib
import subprocess
import sys
import time

CRATE = pathlib.Path(__file__).resolve().parent.parent / "crates" / "vx_ops_bench"

ROWS = 10_000_000

CHECKED_ROWS = 30_000

LAYOUTS = ("plain", "flat", "chunked")

WAYS = ("mask", "zip", "fill", "cast", "compare")

MOST_TIMES = 20

STRIDE = 829348951

WORD = 2**64


def row_at(place):
    """A row of the column: each tenth is null."""
    return None if place % 10 == 0 else place


def is_kept(place):
    """Whether the bit of a row is true."""
    return (place * STRIDE % WORD >> 7) % 2 == 0


def result(way, place, rows):
    """What the call gives for a row."""
    row = row_at(place)
    if way == "mask":
        return row if is_kept(place) else None
    if way == "zip":
        return row if is_kept(place) else row_at(place + 1)
    if way == "fill":
        return -1 if row is None else row
    if way == "compare":
        return None if row is None else row < rows // 2
    return row


def code(row):
    """What stands for a row in a digest."""
    if row is None:
        return 0
    return 1 + row if isinstance(row, bool) else row + 2


def digest(way, rows):
    """What the program has to print for a call on so many rows."""
    return sum((place + 1) * code(result(way, place, rows)) for place in range(rows)) % WORD


def field(line):
    """A printed line as a name and a number."""
    name, value = line.rsplit(" ", 1)
    return name, int(value)


def run(program, layout, way, rows, times):
    """The fields that the program prints, and the seconds that it took."""
    words = [program, layout, way, str(rows), str(times)]
    start = time.perf_counter()
    done = subprocess.run(words, capture_output=True, text=True, check=True)
    seconds = time.perf_counter() - start
    return dict(map(field, done.stdout.splitlines())), seconds


def is_right(program, layout, way):
    """Whether the rows of a call are those that the script works out, however often it was made before."""
    wanted = {"rows": CHECKED_ROWS, "digest": digest(way, CHECKED_ROWS)}
    right = True
    for times in (0, 2):
        fields, _ = run(program, layout, way, CHECKED_ROWS, times)
        right = right and all(fields[name] == value for name, value in wanted.items())
    if not right:
        print(f"wrong rows: {layout} {way}")
    return right


def fastest(program, layout, way, rows, times):
    """The seconds of the fastest of 3 runs."""
    return min(run(program, layout, way, rows, times)[1] for _ in range(3))


def measured(program, layout, way, rows):
    """The nanoseconds of a row, and the reads that it counts."""
    fields, one = run(program, layout, way, rows, 0)
    _, two = run(program, layout, way, rows, 1)
    times = max(1, min(MOST_TIMES, int(1 / max(two - one, 0.01))))
    more = fastest(program, layout, way, rows, times)
    fewer = fastest(program, layout, way, rows, 0)
    count = max(rows, 1)
    return (more - fewer) / times / count * 1e9, fields["reads counted"] / count


def told(program, way, rows):
    """Prints the row of a call."""
    cells = []
    for layout in LAYOUTS:
        nanoseconds, reads = measured(program, layout, way, rows)
        cells.append(f"{nanoseconds:.1f} ns" if layout == "plain" else f"{nanoseconds:.1f} ns, {reads:.2f}")
    print(f"| `{way}` | {' | '.join(cells)} |", flush=True)


def built():
    """The program, built where none is named."""
    subprocess.run(["rt", "run"], cwd=CRATE, stdout=subprocess.DEVNULL, check=True)
    return CRATE / "out" / "vx_ops_bench"


def main():
    """Checks each call, and measures it."""
    parser = argparse.ArgumentParser(description=__doc__, formatter_class=argparse.RawDescriptionHelpFormatter)
    parser.add_argument("program", nargs="?")
    parser.add_argument("--rows", type=int, default=ROWS)
    words = parser.parse_args()
    program = words.program or built()
    right = [is_right(program, layout, way) for layout in LAYOUTS for way in WAYS]
    print(f"| Call | {' | '.join(f'`{layout}`' for layout in LAYOUTS)} |")
    print("|---|" + "---|" * len(LAYOUTS))
    for way in WAYS:
        told(program, way, words.rows)
    return 0 if all(right) else 1


if __name__ == "__main__":
    sys.exit(main())
