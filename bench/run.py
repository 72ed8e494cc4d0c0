#!/usr/bin/env python3
"""Times the program vxcol on seeded jobs of several sizes and shapes, and checks each page. README.md says more."""

import argparse
import array
import filecmp
import itertools
import multiprocessing
import os
import pathlib
import random
import subprocess
import sys
import tempfile
import time

TOP = pathlib.Path(__file__).resolve().parent.parent
MEGABYTE = 1_000_000
JOB_LIMIT = 67_108_864  # a longer job is refused
QUOTIENT_LIMIT = 7  # of the times of the jobs of 60 and of 10 MB
CHUNK_ROWS = 1000  # in a chunk of the shape "chunks"
WIDE_CHUNKS = 100_000
WIDE_BYTES = 100  # of a chunk of the shape "wide", at least
DEEP_LEVELS = 60  # of parts in parts; JSON may be nested 127 deep, and each part takes two of these
NAMED_ROWS = 1000  # in the reads of the shapes "wide" and "deep"
PLAN_CHUNKS = 65
PLAN_STEPS = 1000
LAST_ROWS = 100  # what the plan of a small page leaves
CHUNK = 1024  # rows for which there is one chunk offset
EVERY = 10  # one row of so many has an exception in the shapes "exceptions" and "lanes"
LANES = 16  # of a chunk in the shape "lanes"


def numbers(rng):
    """Yields numbers without end, as texts."""
    while True:
        yield from map(str, array.array("i", rng.randbytes(4 * 4096)))


def rows_of(rng, size):
    """Returns numbers whose text, with a comma after each, has at most `size` bytes, and nearly as many."""
    rows, left = [], size
    for text in numbers(rng):
        left -= len(text) + 1
        if left < 0:
            return rows
        rows.append(text)


def flat(rows, kind="i64"):
    return f'{{"flat":"{kind}","rows":[' + ",".join(rows) + "]}"


def whole_numbers(kind, numbers):
    return f'{{"flat":"{kind}","rows":[' + ",".join(map(str, numbers)) + "]}"


def excepted(rows):
    """Returns a part with chunk offsets in which each row of so many is an exception over another, and its rows."""
    base = [row if at % EVERY else "0" for at, row in enumerate(rows)]
    offsets = [-(-CHUNK * chunk // EVERY) for chunk in range(-(-len(rows) // CHUNK))]
    return (
        f'{{"excepted":{flat(base)},"offset":0,"indices":{whole_numbers("u32", range(0, len(rows), EVERY))},'
        f'"values":{flat(rows[::EVERY])},"chunk_offsets":{whole_numbers("u32", offsets)}}}'
    )


def lanes(rows):
    """Returns a part of lanes in which each row of so many is an exception over another, and its rows."""
    base = [row if at % EVERY else "0" for at, row in enumerate(rows)]
    entries = [
        [at for at in range(first + lane, min(first + CHUNK, len(rows)), LANES) if at % EVERY == 0]
        for first in range(0, len(rows), CHUNK)
        for lane in range(LANES)
    ]
    exceptions = [at for entry in entries for at in entry]
    offsets = itertools.accumulate(map(len, entries), initial=0)
    return (
        f'{{"lanes":{flat(base)},"n_lanes":{LANES},"offset":0,"lane_offsets":{whole_numbers("u32", offsets)},'
        f'"indices":{whole_numbers("u16", (at % CHUNK for at in exceptions))},'
        f'"values":{flat([rows[at] for at in exceptions])}}}'
    )


def interleaved(rows):
    """Returns a part that takes its rows from two in turn."""
    arrays = (at % 2 for at in range(len(rows)))
    places = (at // 2 for at in range(len(rows)))
    return (
        f'{{"interleaved":[{flat(rows[::2])},{flat(rows[1::2])}],"array_indices":{whole_numbers("u8", arrays)},'
        f'"row_indices":{whole_numbers("u32", places)}}}'
    )


def chunked(rows, length):
    chunks = (flat(rows[at : at + length]) for at in range(0, len(rows), length))
    return '{"chunked":"i64","chunks":[' + ",".join(chunks) + "]}"


def nested(rows, levels):
    """Returns chunks in chunks: at each level a flat chunk and then the next level."""
    length = -(-len(rows) // levels)
    part = flat(rows[(levels - 1) * length :])
    for level in range(levels - 2, -1, -1):
        front = flat(rows[level * length : (level + 1) * length])
        part = f'{{"chunked":"i64","chunks":[{front},{part}]}}'
    return part


def slice_step(start, end):
    return f'{{"slice":[{start},{end}]}}'


def points_step(points, is_kept):
    return f'{{"points":[{",".join(map(str, points))}],"kept":{"true" if is_kept else "false"}}}'


def middle(rng, rows):
    """Returns a plan of one slice, and the few rows that it leaves."""
    start = max(0, len(rows) // 2 - LAST_ROWS // 2)
    end = min(len(rows), start + LAST_ROWS)
    return [slice_step(start, end)], [], rows[start:end]


def scattered(rng, rows):
    """Returns a plan of reads all over the column, of a slice that cuts both ends off, and of reads after it."""
    cut = rows[1:-1]
    before = [rng.randrange(len(rows)) for _ in range(NAMED_ROWS)]
    after = [rng.randrange(len(cut)) for _ in range(NAMED_ROWS)]
    first = max(0, len(cut) // 2 - LAST_ROWS // 2)
    last = min(len(cut), first + LAST_ROWS)
    plan = [points_step(before, False), slice_step(1, len(rows) - 1), points_step(after, False), slice_step(first, last)]
    return plan, [[rows[at] for at in before], [cut[at] for at in after]], cut[first:last]


def long_plan(rng, rows):
    """Returns a plan of slices, each within the one before it, and of points between them, its answers and rows."""
    slices = PLAN_STEPS // 2
    shrink = (min(LAST_ROWS, len(rows)) / len(rows)) ** (1 / slices)
    plan, answers = [], []
    first, length = 0, len(rows)
    for turn in range(1, slices + 1):
        shorter = max(1, min(length, round(len(rows) * shrink**turn)))
        start = rng.randint(0, length - shorter)
        plan.append(slice_step(start, start + shorter))
        first, length = first + start, shorter
        points = [rng.randrange(length) for _ in range(5)]
        plan.append(points_step(points, turn % 2 == 0))
        answers.append([rows[first + point] for point in points])
    return plan, answers, rows[first : first + length]


def every_row(rng, rows):
    """Returns the plan without steps, and all rows."""
    return [], [], rows


def wide_length(rows, size):
    """Returns the number of rows in a chunk of the shape "wide"."""
    return -(-len(rows) // min(WIDE_CHUNKS, size // WIDE_BYTES))


# For each shape: the bytes of a job of a size that its numbers may take, the part that is made of them, and the plan.
SHAPES = {
    "chunks": (lambda size: size * 299 // 300 - 200, lambda rows, size: chunked(rows, CHUNK_ROWS), middle),
    "wide": (
        lambda size: size - 25 * min(WIDE_CHUNKS, size // WIDE_BYTES) - 30_200,
        lambda rows, size: chunked(rows, wide_length(rows, size)),
        scattered,
    ),
    "deep": (lambda size: size - 40_200, lambda rows, size: nested(rows, DEEP_LEVELS), scattered),
    "flat": (lambda size: size - 200, lambda rows, size: flat(rows), middle),
    "plan": (
        lambda size: size - 100_000,
        lambda rows, size: chunked(rows, -(-len(rows) // PLAN_CHUNKS)),
        long_plan,
    ),
    "exceptions": (lambda size: (size - 40_200) * 5 // 6, lambda rows, size: excepted(rows), scattered),
    "lanes": (lambda size: (size - 40_200) * 9 // 10, lambda rows, size: lanes(rows), scattered),
    "interleaved": (lambda size: (size - 40_200) * 7 // 13, lambda rows, size: interleaved(rows), scattered),
    "texts": (lambda size: (size - 40_200) * 8 // 11, lambda rows, size: flat(rows, "utf8"), scattered),
    "whole page": (lambda size: size - 200, lambda rows, size: flat(rows), every_row),
}


def make(shape, size, seed, job, page):
    """Writes a job of at most `size` bytes, and the page that is its right answer."""
    rng = random.Random(f"{shape} {size} {seed}")
    room_of, part_of, plan_of = SHAPES[shape]
    rows, kind = rows_of(rng, room_of(size)), "i64"
    if shape == "texts":
        rows, kind = [f'"{row}\\n"' for row in rows], "utf8"
    plan, answers, left = plan_of(rng, rows)
    text = f'{{"parts":[{part_of(rows, size)}],"plan":[{",".join(plan)}]}}'
    if len(text) > size:
        sys.exit(f"bench: the job {shape} has {len(text)} bytes, above {size}")
    pathlib.Path(job).write_text(text, encoding="ascii")
    told = ",".join(f'{{"rows":[{",".join(answer)}]}}' for answer in answers)
    right = f'{{"answers":[{told}],"rows":[{",".join(left)}],"type":"{kind}"}}\n'
    pathlib.Path(page).write_text(right, encoding="ascii")


def made(*words):
    """Makes a job in a process of its own, since a child's peak memory is counted from that of its parent."""
    maker = multiprocessing.Process(target=make, args=words)
    maker.start()
    maker.join()
    if maker.exitcode != 0:
        sys.exit("bench: a job was not made")


def timed(program, job, answer):
    """Runs the program on a job. Returns its status, the seconds that passed and its peak memory in bytes."""
    with open(job, "rb") as source, open(answer, "wb") as sink:
        begin = time.perf_counter()
        child = subprocess.Popen([program, "run"], stdin=source, stdout=sink)
        _, status, usage = os.wait4(child.pid, 0)
        seconds = time.perf_counter() - begin
    child.returncode = os.waitstatus_to_exitcode(status)
    return child.returncode, seconds, usage.ru_maxrss * 1024


def measure(program, folder, shape, megabytes, seed, runs):
    """Prints one line on a job, and returns the seconds of its fastest run, or None where a run went wrong."""
    job, right, answer = (f"{folder}/{name}" for name in ("job", "right", "answer"))
    made(shape, min(megabytes * MEGABYTE, JOB_LIMIT), seed, job, right)
    size, best, peak = os.path.getsize(job), None, 0
    for _ in range(runs):
        status, seconds, memory = timed(program, job, answer)
        if status != 0 or not filecmp.cmp(right, answer, shallow=False):
            fault = f"status {status}" if status != 0 else "a wrong page"
            print(f"{shape:<12}{megabytes:>4} MB  {fault}", flush=True)
            return None
        best, peak = min(best or seconds, seconds), max(peak, memory)
    speed = size / MEGABYTE / best
    print(
        f"{shape:<12}{megabytes:>4} MB{best:>10.3f} s{speed:>9.1f} MB/s{peak / MEGABYTE:>9.1f} MB peak{peak / size:>7.1f} a byte",
        flush=True,
    )
    return best


def words():
    parser = argparse.ArgumentParser(description=__doc__)
    parser.add_argument("--sizes", default="1,10,60", help="megabytes of the jobs (default 1,10,60)")
    parser.add_argument("--seed", type=int, default=1, help="another seed makes other jobs (default 1)")
    parser.add_argument("--runs", type=int, default=3, help="runs of a job, of which the fastest counts (default 3)")
    parser.add_argument("--program", help="a program to time in place of vxcol")
    return parser.parse_args()


def built():
    """The program, built where it has to be built."""
    # Without input there is no job, which is status 3.
    status = subprocess.run([TOP / "vxcol", "run"], stdin=subprocess.DEVNULL, check=False).returncode
    if status != 3:
        sys.exit(f"bench: vxcol ended with status {status} on no input")
    return str(TOP / "crates" / "vxcol" / "out" / "vxcol")


def main():
    given = words()
    program = given.program or built()
    sizes = [int(word) for word in given.sizes.split(",")]
    print(f"cores: {os.cpu_count()}, seed: {given.seed}, fastest of {given.runs} runs", flush=True)
    is_good = True
    with tempfile.TemporaryDirectory(prefix="vxcol-bench-") as folder:
        for shape in SHAPES:
            times = {size: measure(program, folder, shape, size, given.seed, given.runs) for size in sizes}
            is_good = is_good and None not in times.values()
            if times.get(10) and times.get(60):
                quotient = times[60] / times[10]
                is_below = quotient < QUOTIENT_LIMIT
                is_good = is_good and is_below
                print(
                    f"{shape:<12}60 MB / 10 MB: {quotient:.2f}, {'below' if is_below else 'NOT BELOW'} {QUOTIENT_LIMIT}",
                    flush=True,
                )
    sys.exit(0 if is_good else 1)


if __name__ == "__main__":
    main()
