#!/usr/bin/env python3
"""Compares replies of `vxcol` to random jobs with replies that are worked out beside it, by `right_replies.py`.

    python3 tools/random_jobs.py [--seed N] [--jobs N] [--program PATH | --tried]

Each job has up to three part trees, well formed or with one thing changed that may break a rule, and a plan of any steps; one
in twenty is changed in its form, so that it is no job. The script prints each job whose reply is wrong, and how often each kind
of reply was met; it ends with 1 where a reply was wrong. The same seed makes the same jobs.

PROGRAM is the built vxcol; another that takes the same words may be named, as that of bench/yardstick. With --tried nothing has to
be built or proved: all jobs go to the driver of worked examples of jobs, in one run of `rt try`, which takes two
minutes or three and has the time for some 1,000 of them.
"""
import argparse
import collections
import functools
import json
import pathlib
import random
import subprocess
import sys
import tempfile

from right_replies import (CHUNK, INTEGERS, LAST, OPERATORS, UNSIGNED, ceiling, dtype_of, first_fault, is_integer, kind, len_of,
                           nullable, opened, place_key, replies, widened)

ROOT = pathlib.Path(__file__).resolve().parent.parent
KINDS = [*INTEGERS, *INTEGERS, "bool", "bool", "utf8", "binary", "decimal"]


# ---- random parts


def random_type(rng, kinds):
    name = rng.choice(kinds)
    if name == "decimal":
        precision = rng.choice((1, 5, 38))
        return {"decimal": [precision, rng.randint(-128, 127)], "nullable": rng.random() < 0.5}
    return name + rng.choice(("", "?"))


def random_row(rng, dtype):
    if nullable(dtype) and rng.random() < 0.3:
        return None
    name = kind(dtype)
    if name == "bool":
        return rng.random() < 0.5
    if name == "utf8":
        return "".join(rng.choice('a"\\/\n\t\x00\x1f\x7fé€😀') for _ in range(rng.randint(0, 4)))
    if name == "binary":
        return "".join(rng.choice("0123456789abcdefABCDEF") for _ in range(2 * rng.randint(0, 3)))
    if name in INTEGERS:
        low, high = INTEGERS[name]
        return rng.choice((low, high, 0, 1, rng.randint(low, high)))
    most = 10 ** name[1] - 1
    return str(rng.choice((0, most, -most, rng.randint(-most, most))))


def flat(rng, dtype, count):
    return {"flat": dtype, "rows": [random_row(rng, dtype) for _ in range(count)]}


def of_kind(rng, dtype, may_be_nothing):
    """A type that differs from this one in its nullability at most."""
    if not may_be_nothing and not nullable(dtype):
        return dtype
    return widened(dtype, rng.random() < 0.5)


def random_part(rng, dtype, depth):
    """A part of this type."""
    shapes = ["flat", "flat", "constant"]
    if depth > 0:
        shapes += ["chunked", "chunked"]
        if kind(dtype) == "bool" or kind(dtype) in INTEGERS or rng.random() < 0.2:
            shapes += ["excepted", "excepted", "interleaved", "interleaved"]
        if kind(dtype) in INTEGERS or rng.random() < 0.1:
            shapes += ["lanes", "lanes"]
    shape = rng.choice(shapes)
    if shape == "flat":
        return flat(rng, dtype, rng.choice((0, 1, 2, 3, 5, 8)))
    if shape == "constant":
        long = LAST - rng.randint(0, 1500) if rng.random() < 0.05 else rng.choice((0, 1, 4, 1030, 2100))
        return {"constant": dtype, "row": random_row(rng, dtype), "len": long}
    if shape == "chunked":
        return {"chunked": dtype, "chunks": [random_part(rng, dtype, depth - 1) for _ in range(rng.randint(0, 4))]}
    return {"lanes": random_lanes, "excepted": random_exceptions, "interleaved": random_weaving}[shape](rng, dtype, depth)


def random_lanes(rng, dtype, depth):
    inner = random_part(rng, dtype, depth - 1)
    n_lanes, offset = rng.choice((1, 2, 4, 8, 32)), rng.choice((0, 0, 1, 5, 1000, 1023))
    starts, places = [rng.choice((0, 0, 2))], []
    places += [rng.randrange(65536) for _ in range(starts[0])]
    for g in range(min(n_lanes * ceiling(offset + len_of(inner), CHUNK), 200)):
        near = [p for p in range(g % n_lanes, CHUNK, n_lanes) if p < 12 or p > 1010 or rng.random() < 0.02]
        held = sorted(rng.sample(near, min(len(near), rng.choice((0, 0, 1, 3)))))
        places += held
        starts.append(starts[-1] + len(held))
    places += [rng.randrange(65536) for _ in range(rng.choice((0, 0, 1)))]
    values = of_kind(rng, dtype, True)
    rows = flat(rng, widened(dtype, False), len(places))["rows"]
    return {"lanes": inner, "n_lanes": n_lanes, "offset": offset, "lane_offsets": {"flat": "u32", "rows": starts},
            "indices": {"flat": "u16", "rows": places}, "values": {"flat": values, "rows": rows}}


def random_exceptions(rng, dtype, depth):
    base = random_part(rng, dtype, depth - 1)
    offset = rng.choice((0, 0, 1, 1000, 1024, 5000, LAST - 2000))
    length = len_of(base)
    last = min(length, 3000)
    count = min(last, rng.choice((1, 1, 2, 4, 30)))
    named = {offset + (rng.randrange(last) if rng.random() < 0.9 else length - 1) for _ in range(count)}
    rows = sorted(min(row, LAST) for row in named)
    values = {"chunked": of_kind(rng, dtype, nullable(dtype)), "chunks": []}
    values["chunks"] = [flat(rng, values["chunked"], len(rows))]
    if rng.random() < 0.5:
        values = values["chunks"][0]
    counts = [sum(i < CHUNK * (offset // CHUNK + c) for i in rows)
              for c in range(min(ceiling(offset % CHUNK + length, CHUNK), 20))]
    chunk_offsets = {"flat": rng.choice(UNSIGNED[1:]), "rows": counts} if rng.random() < 0.6 else None
    return {"excepted": base, "offset": offset, "indices": {"flat": "u64", "rows": rows}, "values": values,
            "chunk_offsets": chunk_offsets}


def random_weaving(rng, dtype, depth):
    values = [random_part(rng, of_kind(rng, dtype, True), depth - 1) for _ in range(rng.choice((2, 2, 2, 2, 3, 3, 4, 1)))]
    named = [(a, rng.randrange(min(len_of(value), 200))) for a, value in enumerate(values) if len_of(value) for _ in range(3)]
    pairs = rng.sample(named, rng.randint(0, len(named)))
    return {"interleaved": values, "array_indices": {"flat": "u8", "rows": [a for a, _ in pairs]},
            "row_indices": {"flat": "u16", "rows": [r for _, r in pairs]}}


def spots(value):
    """Each place in a part where a number, a type of flat rows or a list stands, as a holder and its key."""
    if isinstance(value, dict):
        for key, held in value.items():
            if key in ("n_lanes", "offset", "len", "chunk_offsets") and not isinstance(held, dict):
                yield value, key
            elif key in ("rows", "chunks", "interleaved") and isinstance(held, list):
                yield value, key
            elif key == "flat":
                yield value, key
            if key != "rows":
                yield from spots(held)
    elif isinstance(value, list):
        for held in value:
            yield from spots(held)


def changed(rng, part):
    """Changes one thing in the part, so that its JSON stays a reading."""
    holder, key = rng.choice(list(spots(part)) or [(part, None)])
    if key is None:
        return
    held = holder[key]
    if key in ("n_lanes", "offset", "len"):
        holder[key] = rng.choice((0, 1, 3, held + 1, max(held - 1, 0), 256, 1024, LAST))
        holder[key] = min(holder[key], LAST)
    elif key == "chunk_offsets":
        holder[key] = {"flat": rng.choice(("u64", "i64", "u8?")), "rows": []}
    elif key == "flat":
        if kind(held) in INTEGERS and all(row is not None and 0 <= row < 128 for row in holder["rows"]):
            holder[key] = rng.choice(list(INTEGERS)) + rng.choice(("", "?"))
    elif held:
        at = rng.randrange(len(held))
        if rng.random() < 0.4:
            del held[at]
        elif rng.random() < 0.5:
            held.insert(at, json.loads(json.dumps(rng.choice(held))))
        elif key == "rows" and nullable(holder["flat"]):
            held[at] = None
        elif key == "rows" and isinstance(held[at], int) and not isinstance(held[at], bool) and kind(holder["flat"]) in INTEGERS:
            low, high = INTEGERS[kind(holder["flat"])]
            held[at] = min(high, max(low, held[at] + rng.choice((-1, 1, 2, 1024, -1024))))


# ---- random steps, each with the type and about the number of the rows that it leaves


def random_slice(rng, dtype, length):
    start = rng.choice((0, 0, 1, rng.randint(0, min(length, 2200)), length))
    end = rng.choice((length, min(length, start + rng.randint(0, 9)), start, length - 1 if length else 0))
    if rng.random() < 0.07:
        end = rng.choice((0, min(length + 1, LAST), LAST))
    return {"slice": [start, end]}, dtype, max(end - start, 0)


def near_rows(rng, length, count):
    """Numbers of rows, most of them near the front, and few that no row has."""
    near = [rng.randrange(length) if rng.random() < 0.5 else rng.randrange(min(length, 20)) for _ in range(count) if length]
    return near + ([rng.choice((length, LAST))] if rng.random() < 0.05 else [])


def random_points(rng, dtype, length):
    return {"points": near_rows(rng, length, rng.randint(0, 4)), "kept": rng.random() < 0.5}, dtype, length


def random_flags(rng, length):
    """Flags for so many rows, and a few times for one more or less."""
    share = rng.choice((0, 0.1, 0.5, 0.9, 1))
    count = length + (rng.choice((-1, 1)) if rng.random() < 0.05 else 0)
    return [rng.random() < share for _ in range(max(count, 0))]


def random_filter(rng, dtype, length):
    flags = random_flags(rng, length)
    return {"filter": flags}, dtype, sum(flags)


def random_take(rng, dtype, length):
    indices = near_rows(rng, length, rng.choice((0, 1, 4, 9, 40)))
    if rng.random() < 0.5:
        indices.insert(rng.randint(0, len(indices)), None)
    if rng.random() < 0.3:
        indices.sort(key=lambda i: -1 if i is None else i)
    return {"take": indices}, widened(dtype) if None in indices else dtype, len(indices)


def random_runs(rng, dtype, length):
    starts = near_rows(rng, length, rng.randint(0, 5))
    runs = [[start, rng.choice((0, 1, 3, rng.randint(0, 1200)))] for start in starts]
    runs = [[start, min(count, length - start)] if start < length else [start, count] for start, count in runs]
    if rng.random() < 0.2:
        runs.insert(rng.randint(0, len(runs)), [rng.choice((0, length, LAST)), 0])
    if rng.random() < 0.05:
        runs.append([rng.choice((0, 1, length, LAST)), rng.choice((1, length, LAST))])
    total = sum(count for _, count in runs)
    count = min(total, LAST) if rng.random() < 0.95 else rng.choice((0, total // 2, LAST))
    return {"runs": runs, "len": count}, dtype, min(total, LAST)


def random_mask(rng, dtype, length):
    return {"mask": random_flags(rng, length)}, widened(dtype), length


def random_value(rng, dtype, may_be_null):
    """A value, most times of the kind of this type."""
    dtype = widened(dtype, rng.random() < 0.5) if rng.random() < 0.93 else random_type(rng, KINDS)
    row = random_row(rng, dtype)
    while row is None and not may_be_null:
        row = random_row(rng, dtype)
    return {"type": dtype, "row": row}


def random_fill(rng, dtype, length):
    return {"fill": random_value(rng, dtype, rng.random() < 0.1)}, widened(dtype, False), length


def random_cast(rng, dtype, length):
    """Most times to a type that holds much, since one row that it doesn't hold is enough for a refusal."""
    targets = ["i64?", "i64?", "i64", "u64?", "i32?", random_type(rng, KINDS)]
    if is_integer(dtype):
        targets += [widened(dtype), widened(dtype), dtype]
    target = rng.choice(targets)
    return {"cast": target}, target, length


def random_compare(rng, dtype, length):
    value = random_value(rng, dtype, True)
    wide = nullable(dtype) or nullable(value["type"])
    return {"compare": rng.choice(list(OPERATORS)), "value": value}, widened("bool", wide), length


def random_search(rng, sources, dtype, length):
    """Often for a row of part 0."""
    value = random_value(rng, dtype, True)
    if sources and sources[0].length and kind(sources[0].dtype) == kind(dtype) and rng.random() < 0.6:
        value = {"type": sources[0].dtype, "row": sources[0].row(rng.randrange(min(sources[0].length, 20)))}
    return {"search": rng.choice(("left", "right")), "value": value}, dtype, length


def random_contains(rng, sources, dtype, length):
    """Most times in a part of this kind, where there is one with few rows; the part itself is one."""
    short = [number for number, source in enumerate(sources) if source.length <= 3000]
    alike = [number for number in short if kind(sources[number].dtype) == kind(dtype)]
    named = alike if alike and rng.random() < 0.9 else [*short, len(sources), LAST]
    return {"contains": rng.choice(named)}, dtype, length


def random_zip(rng, sources, dtype, length):
    """Most times with a part that has as many rows of this kind, where there is one."""
    partners = [number for number, source in enumerate(sources) if (kind(source.dtype), source.length) == (kind(dtype), length)]
    source = rng.choice(partners) if partners and rng.random() < 0.9 else rng.randint(0, len(sources))
    wide = nullable(dtype) or (source < len(sources) and nullable(sources[source].dtype))
    return {"zip": source, "choice": random_flags(rng, length)}, widened(dtype, wide), length


def random_plan(rng, sources, dtype, length):
    plan = []
    for _ in range(rng.choice((0, 1, 1, 2, 3, 4))):
        draws = [random_slice, random_slice, random_points, random_points, random_take, random_runs]
        if length <= 3000:
            draws += [random_filter, random_filter, random_mask, random_fill, random_cast, random_compare]
            draws += [functools.partial(random_zip, sources=sources)] * (3 if len(sources) > 1 else 1)
            draws += [functools.partial(asked, sources=sources) for asked in (random_search, random_contains)]
        step, dtype, length = rng.choice(draws)(rng, dtype=dtype, length=length)
        plan.append(step)
    if length > 3000:
        start = rng.randrange(min(length, 2200))
        plan.append({"slice": [start, start + rng.randint(0, min(9, length - start))]})
    return plan


# ---- random jobs


def random_partner(rng, part):
    """A part of as many rows of the same kind, if these are few."""
    dtype, length = of_kind(rng, dtype_of(part), True), len_of(part)
    if rng.random() < 0.2:
        return {"constant": dtype, "row": random_row(rng, dtype), "len": length}
    cut = rng.randint(0, length)
    chunks = [flat(rng, dtype, cut), flat(rng, dtype, length - cut)]
    return {"chunked": dtype, "chunks": chunks} if rng.random() < 0.7 else flat(rng, dtype, length)


def random_sorted(rng, dtype):
    """A part of sorted rows, which can be searched."""
    rows = sorted(flat(rng, dtype, rng.choice((1, 4, 9, 30)))["rows"], key=lambda row: place_key(dtype, row))
    cut = rng.randint(0, len(rows))
    chunks = [{"flat": dtype, "rows": held} for held in (rows[:cut], rows[cut:])]
    return {"chunked": dtype, "chunks": chunks} if rng.random() < 0.7 else {"flat": dtype, "rows": rows}


def random_job(rng):
    parts = []
    for _ in range(rng.choice((1,) * 12 + (2, 2, 3, 0))):
        dtype = random_type(rng, KINDS)
        part = random_sorted(rng, dtype) if rng.random() < 0.15 else random_part(rng, dtype, rng.randint(0, 3))
        if rng.random() < 0.3:
            changed(rng, part)
        parts.append(part)
    if parts and not first_fault(parts[0]) and len_of(parts[0]) <= 3000 and rng.random() < 0.4:
        parts.append(random_partner(rng, parts[0]))
    sources = [] if any(map(first_fault, parts)) else list(map(opened, parts))
    dtype, length = (sources[0].dtype, min(sources[0].length, LAST)) if sources else ("i32", rng.randint(0, 5))
    return {"parts": parts, "plan": random_plan(rng, sources, dtype, length)}


def objects(value):
    """Each object and list in the job."""
    if isinstance(value, (dict, list)):
        yield value
        for held in value.values() if isinstance(value, dict) else value:
            yield from objects(held)


def broken_form(rng, job):
    """Changes the form of the job in one place, so that it is no job."""
    holder = rng.choice(list(objects(job)))
    if isinstance(holder, dict) and rng.random() < 0.5:
        holder["more"] = 0
    elif isinstance(holder, dict):
        key = rng.choice(list(holder))
        if rng.random() < 0.5:
            holder[key + "s"] = holder.pop(key)
        else:
            holder[key] = rng.choice((1.5, {}, [[]]))
    else:
        holder.append(rng.choice((1.5, {}, [[]])))


# ---- the comparison


def line(value):
    return json.dumps(value, sort_keys=True, separators=(",", ":"), ensure_ascii=False) + "\n"


def right_replies(job, is_job):
    """The name of the reply, the status and the lines that are right."""
    if not is_job:
        return "no job", 3, [""]
    right = replies(job)
    name = right[0].get("rule", right[0].get("error", "a page"))
    return name, 1 if "error" in right[0] else 0, list(map(line, right))


def run_each(program, jobs):
    """Yields the status and the text that the program answers each job with."""
    for job in jobs:
        done = subprocess.run([program, "run"], input=json.dumps(job).encode(), capture_output=True)
        yield done.returncode, done.stdout.decode()


def run_tried(jobs):
    """The same of the driver of worked examples, which tells what it got where that isn't what is wanted, as it never is here."""
    cases = "\n".join(f"{number}\n{json.dumps(job)}\n= none\n" for number, job in enumerate(jobs))
    with tempfile.TemporaryFile() as source:
        source.write(cases.encode())
        source.seek(0)
        done = subprocess.run(["rt", "try"], cwd=ROOT / "crates" / "vx_job_cases", stdin=source, capture_output=True)
    got = [told for told in done.stdout.decode().split("\n") if told.startswith("  got    ")]
    if len(got) != len(jobs):
        sys.exit(f"{len(got)} answers to {len(jobs)} jobs\n{done.stderr.decode()}")
    for told in got:
        status, _, text = told[len("  got    "):].rpartition(" | reads ")[0].partition(" ")
        yield int(status), text and text + "\n"


def main():
    parser = argparse.ArgumentParser(description="Compares replies of vxcol to random jobs with replies worked out here.")
    parser.add_argument("--seed", type=int, default=1)
    parser.add_argument("--jobs", type=int, default=2000)
    parser.add_argument("--program", default=ROOT / "crates" / "vxcol" / "out" / "vxcol")
    parser.add_argument("--tried", action="store_true", help="run the code unproved, by rt try")
    words = parser.parse_args()
    asked = []
    for number in range(words.jobs):
        rng = random.Random(f"{words.seed} {number}")
        job, is_job = random_job(rng), rng.random() < 0.95
        if not is_job:
            broken_form(rng, job)
        asked.append((job, is_job))
    jobs = [job for job, _ in asked]
    met, wrong = collections.Counter(), 0
    got = run_tried(jobs) if words.tried else run_each(words.program, jobs)
    for number, ((job, is_job), (status, text)) in enumerate(zip(asked, got)):
        name, right_status, right = right_replies(job, is_job)
        met[name] += 1
        if status != right_status or text not in right:
            wrong += 1
            print(f"job {number}: {line(job)}status {status}: {text}right: status {right_status}: {right[0]}")
    print(", ".join(f"{name} {count}" for name, count in met.most_common()))
    print(f"{words.jobs} jobs, {wrong} wrong replies")
    sys.exit(1 if wrong else 0)


main()
