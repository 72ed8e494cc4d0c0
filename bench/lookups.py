#!/usr/bin/env python3
"""Measures sets of elements beside plain sets, and reads of single rows through a probe that is kept and each by itself.

    python3 bench/lookups.py [--count N] [PROGRAM]

PROGRAM is the built `vx_lookup_bench`; if it isn't named, `rt run` builds it in its crate. There are N elements (1,000,000 where none are
named) and as many needles, about half of which are members, and N reads of single rows. The time of a set is the difference of a run that
makes several more and one that makes none more, fastest of 3, over their number, which is such that they take about a second; that of a
needle or of a read is told alike, by more questions about all needles or more reads of all rows, over the needles or reads. Before that
each way is run with 30,000 elements, and its answers are compared, by a digest, with those that the script works out. It ends with 1 where
an answer is wrong, and with an error where the program refused.
"""
import argparse
import pathlib
import subprocess
import sys
import time

CRATE = pathlib.Path(__file__).resolve().parent.parent / "crates" / "vx_lookup_bench"

COUNT = 1_000_000

CHECKED_COUNT = 30_000

KINDS = ("dense", "sparse", "texts")

SETS = ("haystack", "plain")

PROBES = ("kept", "single")

MOST_TIMES = 100

STRIDE = 829348951

SPREAD = 11400714819323198485

SPAN = 2**60

WORD = 2**64


def mixed(place):
    """A number that hangs on this one."""
    return (place * STRIDE % WORD) >> 7


def spread(kind, number):
    """The number itself where it's dense, and else another one of a large range."""
    return number if kind == "dense" else number * SPREAD % WORD % SPAN


def elements(kind, count):
    """The elements, of which texts are told by their numbers."""
    return [spread(kind, place * STRIDE % WORD % count * 2) for place in range(count)]


def needles(kind, count):
    """The needles, of which texts are told by their numbers."""
    return [spread(kind, mixed(place) % (count * 2)) for place in range(count)]


def answers(way, kind, count):
    """How many needles are members or rows are read, and the digest of the answers."""
    listed = elements(kind, count)
    if way in PROBES:
        rows = [listed[mixed(read) % count] for read in range(count)]
        return count, sum((read + 1) * row for read, row in enumerate(rows)) % WORD
    members = set(listed)
    found = [place + 1 for place, needle in enumerate(needles(kind, count)) if needle in members]
    return len(found), sum(found) % WORD


def field(line):
    """A printed line as a name and a number."""
    name, value = line.rsplit(" ", 1)
    return name, int(value)


def run(program, way, kind, count, made, asked):
    """The fields that the program prints, and the seconds that it took."""
    words = [program, way, kind, str(count), str(made), str(asked)]
    start = time.perf_counter()
    done = subprocess.run(words, capture_output=True, text=True, check=True)
    seconds = time.perf_counter() - start
    return dict(map(field, done.stdout.splitlines())), seconds


def is_right(program, way, kind):
    """Whether the answers are those that the script works out."""
    fields, _ = run(program, way, kind, CHECKED_COUNT, 0, 0)
    right = (fields["found"], fields["digest"]) == answers(way, kind, CHECKED_COUNT)
    if not right:
        print(f"wrong answers: {way} {kind}")
    return right


def fastest(program, way, kind, count, made, asked):
    """The seconds of the fastest of 3 runs."""
    return min(run(program, way, kind, count, made, asked)[1] for _ in range(3))


def once(program, way, kind, count, made, asked):
    """The seconds of one more set made, or of all needles asked or rows read once more, of which one of `made` and `asked` is 1."""
    fewer = fastest(program, way, kind, count, 0, 0)
    one = fastest(program, way, kind, count, made, asked)
    times = max(1, min(MOST_TIMES, int(1 / max(one - fewer, 0.001))))
    more = fastest(program, way, kind, count, made * times, asked * times)
    return (more - fewer) / times


def set_told(program, kind, way, count):
    """Prints the row of a set."""
    fields, _ = run(program, way, kind, count, 0, 0)
    making = once(program, way, kind, count, 1, 0)
    asking = once(program, way, kind, count, 0, 1)
    cells = [f"{making * 1e3:.1f} ms", f"{asking / count * 1e9:.1f} ns"]
    for name in ("reads making", "reads asking"):
        cells.append(f"{fields[name] / count:.2f}" if way == "haystack" else "")
    print(f"| `{kind}` | `{way}` | {' | '.join(cells)} | {fields['found']} |", flush=True)


def probe_told(program, kind, way, count):
    """Prints the row of a way to read."""
    fields, _ = run(program, way, kind, count, 0, 0)
    reading = once(program, way, kind, count, 0, 1)
    print(f"| `{kind}` | `{way}` | {reading / count * 1e9:.1f} ns | {fields['reads asking'] / count:.2f} |", flush=True)


def built():
    """The program, built where none is named."""
    subprocess.run(["rt", "run"], cwd=CRATE, stdout=subprocess.DEVNULL, check=True)
    return CRATE / "out" / "vx_lookup_bench"


def main():
    """Checks each way, and measures it."""
    parser = argparse.ArgumentParser(description=__doc__, formatter_class=argparse.RawDescriptionHelpFormatter)
    parser.add_argument("program", nargs="?")
    parser.add_argument("--count", type=int, default=COUNT)
    words = parser.parse_args()
    program = words.program or built()
    right = [is_right(program, way, kind) for way in SETS + PROBES for kind in KINDS]
    print("| Elements | Set | Time to make it | Time of a needle | Counted for an element | Counted for a needle | Members among the needles |")
    print("|---|---|---|---|---|---|---|")
    for kind in KINDS:
        for way in SETS:
            set_told(program, kind, way, words.count)
    print()
    print("| Rows | Probe | Time of a read | Counted for a read |")
    print("|---|---|---|---|")
    for kind in KINDS:
        for way in PROBES:
            probe_told(program, kind, way, words.count)
    return 0 if all(right) else 1


if __name__ == "__main__":
    sys.exit(main())
