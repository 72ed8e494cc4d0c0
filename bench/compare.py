#!/usr/bin/env python3
"""Times vxcol beside another program on the bench's jobs, by turns, and compares their pages. README.md says more."""

import argparse
import math
import os
import subprocess
import sys
import tempfile

import run

YARDSTICK = run.TOP / "bench" / "yardstick"
SHAPES = "flat,chunks,exceptions,lanes,interleaved,texts,whole page"


class Runs:
    """What the runs of one program on one job came to."""

    def __init__(self, name, program):
        self.name, self.program = name, program
        self.seconds, self.peak, self.fault = math.inf, 0, None

    def once(self, job, right, answer):
        status, seconds, memory = run.timed(self.program, job, answer)
        if status != 0:
            self.fault = f"{self.name} ended with status {status}"
        elif not run.filecmp.cmp(right, answer, shallow=False):
            self.fault = f"a wrong page of {self.name}"
        self.seconds, self.peak = min(self.seconds, seconds), max(self.peak, memory)


def yardstick():
    """The yardstick, built where it has to be built."""
    done = subprocess.run(["cargo", "build", "--release", "--offline", "--quiet"], cwd=YARDSTICK, check=False)
    if done.returncode != 0:
        sys.exit("bench: the yardstick was not built; README.md says what it needs")
    return str(YARDSTICK / "out" / "release" / "yardstick")


def geometric_mean(numbers):
    return math.exp(sum(map(math.log, numbers)) / len(numbers))


def compared(programs, folder, shape, megabytes, given):
    """Prints the line of one job, and returns the ratios of times and of peaks, or None where a run went wrong."""
    job, right, answer = (f"{folder}/{name}" for name in ("job", "right", "answer"))
    run.made(shape, min(megabytes * run.MEGABYTE, run.JOB_LIMIT), given.seed, job, right)
    turns = [Runs(name, program) for name, program in zip(("ours", "theirs"), programs)]
    for turn in range(given.runs):
        for each in turns if turn % 2 == 0 else reversed(turns):
            each.once(job, right, answer)
    faults = [each.fault for each in turns if each.fault]
    if faults:
        print(f"| {shape} | {megabytes} MB | {'; '.join(faults)} |", flush=True)
        return None
    ours, theirs = turns
    times, peaks = ours.seconds / theirs.seconds, ours.peak / theirs.peak
    print(
        f"| {shape} | {megabytes} MB | {ours.seconds:.3f} s | {theirs.seconds:.3f} s | {times:.2f} "
        f"| {ours.peak / run.MEGABYTE:.0f} MB | {theirs.peak / run.MEGABYTE:.0f} MB | {peaks:.2f} |",
        flush=True,
    )
    return times, peaks


def print_means(name, ratios):
    times, peaks = (geometric_mean(column) for column in zip(*ratios))
    print(f"| geometric mean | {name} | | | {times:.2f} | | | {peaks:.2f} |", flush=True)


def words():
    parser = argparse.ArgumentParser(description=__doc__)
    parser.add_argument("--program", help="our program, in place of vxcol")
    parser.add_argument("--against", help="their program, in place of the yardstick")
    parser.add_argument("--shapes", default=SHAPES, help=f"shapes, with commas between them, or all (default {SHAPES})")
    parser.add_argument("--sizes", default="10,60", help="megabytes of the jobs (default 10,60)")
    parser.add_argument("--seed", type=int, default=1, help="another seed makes other jobs (default 1)")
    parser.add_argument("--runs", type=int, default=5, help="runs of each program on a job, of which the fastest counts (default 5)")
    return parser.parse_args()


def main():
    given = words()
    programs = given.program or run.built(), given.against or yardstick()
    shapes = list(run.SHAPES) if given.shapes == "all" else given.shapes.split(",")
    sizes = [int(word) for word in given.sizes.split(",")]
    print(f"cores: {os.cpu_count()}, seed: {given.seed}, fastest of {given.runs} runs each, by turns", flush=True)
    print("\n| Shape | Job | Ours | Theirs | Ours / theirs | Our peak | Their peak | Ours / theirs |", flush=True)
    print("|---|---|---|---|---|---|---|---|", flush=True)
    of_size = {size: [] for size in sizes}
    with tempfile.TemporaryDirectory(prefix="vxcol-compare-") as folder:
        for shape in shapes:
            for size in sizes:
                of_size[size].append(compared(programs, folder, shape, size, given))
    is_good = all(ratios is not None for column in of_size.values() for ratios in column)
    for size, column in of_size.items():
        good = [ratios for ratios in column if ratios]
        if good:
            print_means(f"{size} MB", good)
    good = [ratios for column in of_size.values() for ratios in column if ratios]
    if good and len(sizes) > 1:
        print_means("all", good)
    sys.exit(0 if is_good else 1)


if __name__ == "__main__":
    main()
