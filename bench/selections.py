#!/usr/bin/env python3
"""Measures filters, takes and runs of columns in each layout, beside a plain gather: the time and the reads of a row.

    python3 bench/selections.py [--rows N] [PROGRAM]

PROGRAM is the built `vx_select_bench`; if it isn't named, `rt run` builds it in its crate. Of N rows (10,000,000 where none are named)
1, 10, 50 and 90 of 100 are selected: by a filter, by a take in order, by a take in no order, and by runs of as many rows in each
hundred. The time of one selection is the difference of a run that makes several more and one that makes none more, fastest of 3, over
their number, which is such that they take about a second; that of a row is this over the rows that are selected. Before that each
selection is made of 30,000 rows, and its rows are compared, by a digest, with those that the script works out. It ends with 1 where a
digest is wrong, and with an error where the program refused.
"""
import argparse
import pathlib
import subprocess
import sys
import time

CRATE = pathlib.Path(__file__).resolve().parent.parent / "crates" / "vx_select_bench"

ROWS = 10_000_000

CHECKED_ROWS = 30_000

LAYOUTS = ("plain", "flat", "chunked", "excepted", "lanes", "interleaved")

WAYS = ("filter", "take", "shuffled", "runs")

SHARES = (1, 10, 50, 90)

MOST_TIMES = 20

STRIDE = 829348951

WORD = 2**64


def is_kept(way, row, share):
    """Whether a row is one of those that are kept."""
    mixed = row if way == "runs" else (row * STRIDE % WORD) >> 7
    return mixed % 100 < share


def place_of(way, row, rows):
    """The place that is selected for a row that is kept."""
    return row * STRIDE % WORD % rows if way == "shuffled" else row


def number_at(layout, place):
    """The row at a place of a column."""
    if layout == "excepted" and place % 10 == 0:
        return place + 1
    chunk, index = divmod(place, 1024)
    if layout == "lanes" and index // 16 % 10 == 0:
        return (chunk * 16 + index % 16) * 7 + index // 160
    return place


def digest(layout, way, share):
    """What the program has to print for a selection of the rows that are checked."""
    places = [place_of(way, row, CHECKED_ROWS) for row in range(CHECKED_ROWS) if is_kept(way, row, share)]
    return sum((k + 1) * number_at(layout, place) for k, place in enumerate(places)) % WORD


def field(line):
    """A printed line as a name and a number."""
    name, value = line.rsplit(" ", 1)
    return name, int(value)


def run(program, layout, way, share, rows, times):
    """The fields that the program prints, and the seconds that it took."""
    words = [program, layout, way, str(rows), str(share), str(times)]
    start = time.perf_counter()
    done = subprocess.run(words, capture_output=True, text=True, check=True)
    seconds = time.perf_counter() - start
    return dict(map(field, done.stdout.splitlines())), seconds


def is_right(program, layout, way, share):
    """Whether the rows of a selection are those that the script works out."""
    fields, _ = run(program, layout, way, share, CHECKED_ROWS, 0)
    right = fields["digest"] == digest(layout, way, share)
    if not right:
        print(f"wrong rows: {layout} {way} {share}")
    return right


def fastest(program, layout, way, share, rows, times):
    """The seconds of the fastest of 3 runs."""
    return min(run(program, layout, way, share, rows, times)[1] for _ in range(3))


def measured(program, layout, way, share, rows):
    """The nanoseconds of a row that is selected, and the reads that it counts."""
    fields, one = run(program, layout, way, share, rows, 0)
    _, two = run(program, layout, way, share, rows, 1)
    times = max(1, min(MOST_TIMES, int(1 / max(two - one, 0.01))))
    more = fastest(program, layout, way, share, rows, times)
    fewer = fastest(program, layout, way, share, rows, 0)
    selected = max(fields["rows selected"], 1)
    return (more - fewer) / times / selected * 1e9, fields["reads counted"] / selected


def told(program, layout, way, rows):
    """Prints the row of a layout and a way."""
    cells = []
    for share in SHARES:
        nanoseconds, reads = measured(program, layout, way, share, rows)
        cells.append(f"{nanoseconds:.1f} ns" if layout == "plain" else f"{nanoseconds:.1f} ns, {reads:.2f}")
    print(f"| `{way}` | `{layout}` | {' | '.join(cells)} |", flush=True)


def built():
    """The program, built where none is named."""
    subprocess.run(["rt", "run"], cwd=CRATE, stdout=subprocess.DEVNULL, check=True)
    return CRATE / "out" / "vx_select_bench"


def main():
    """Checks each selection, and measures it."""
    parser = argparse.ArgumentParser(description=__doc__, formatter_class=argparse.RawDescriptionHelpFormatter)
    parser.add_argument("program", nargs="?")
    parser.add_argument("--rows", type=int, default=ROWS)
    words = parser.parse_args()
    program = words.program or built()
    right = [is_right(program, layout, way, share) for layout in LAYOUTS for way in WAYS for share in SHARES]
    shares = " | ".join(f"{share} of 100" for share in SHARES)
    print(f"| Selection | Layout | {shares} |")
    print("|---|---|" + "---|" * len(SHARES))
    for way in WAYS:
        for layout in LAYOUTS:
            told(program, layout, way, words.rows)
    return 0 if all(right) else 1


if __name__ == "__main__":
    sys.exit(main())
