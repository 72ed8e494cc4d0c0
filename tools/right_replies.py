"""The right replies to a job, worked out from docs/FORMAT.md alone: `replies` gives each line that may be answered.

A row is looked up by recursion, each rule is one line, and nothing is searched or shared. Where several errors are true of a step,
each of them is right.
"""
import collections
import operator

LAST = 2**64 - 1  # the greatest length
CHUNK = 1024  # places in a chunk of exceptions

INTEGERS = {f"{sign}{bits}": (0 if sign == "u" else -(2 ** (bits - 1)), 2 ** (bits - (sign == "i")) - 1)
            for sign in "ui" for bits in (8, 16, 32, 64)}
UNSIGNED = ("u8", "u16", "u32", "u64")
OPERATORS = {"eq": operator.eq, "ne": operator.ne, "gt": operator.gt, "ge": operator.ge, "lt": operator.lt, "le": operator.le}


# ---- types and rows, as JSON has them


def kind(dtype):
    """The type without its nullability."""
    if isinstance(dtype, str):
        return dtype.rstrip("?")
    return "decimal", *dtype["decimal"]


def nullable(dtype):
    return dtype.endswith("?") if isinstance(dtype, str) else dtype["nullable"]


def widened(dtype, wide=True):
    """The type with nothings, or without."""
    if isinstance(dtype, str):
        return kind(dtype) + ("?" if wide else "")
    return {**dtype, "nullable": wide}


def printed(dtype, row):
    """The row as a page has it: bytes are printed in lower case."""
    return row.lower() if kind(dtype) == "binary" and row is not None else row


def is_integer(dtype):
    return kind(dtype) in INTEGERS


def fits(dtype, row):
    """Whether the row, a number or a null, fits a type of integers."""
    if row is None:
        return nullable(dtype)
    low, high = INTEGERS[kind(dtype)]
    return low <= row <= high


def ordered(dtype, row):
    """What a row, which is no null, is ordered by."""
    if kind(dtype) == "utf8":
        return row.encode()
    if kind(dtype) == "binary":
        return bytes.fromhex(row)
    return int(row)


def place_key(dtype, row):
    """What a row is sorted by: a null comes before all else."""
    return (False,) if row is None else (True, ordered(dtype, row))


def ceiling(a, b):
    return -(-a // b)


# ---- what a part means


def children(part):
    if "chunked" in part:
        return part["chunks"]
    if "lanes" in part:
        return [part["lanes"]]
    if "excepted" in part:
        return [part["excepted"], part["values"]]
    return part.get("interleaved", [])


def dtype_of(part):
    for key in ("flat", "constant", "chunked"):
        if key in part:
            return part[key]
    if "interleaved" in part:
        types = [dtype_of(value) for value in part["interleaved"]]
        return widened(types[0]) if any(map(nullable, types)) else types[0]
    return dtype_of(part["lanes"] if "lanes" in part else part["excepted"])


def len_of(part):
    if "flat" in part:
        return len(part["rows"])
    if "constant" in part:
        return part["len"]
    if "chunked" in part:
        return sum(map(len_of, part["chunks"]))
    if "interleaved" in part:
        return len(part["array_indices"]["rows"])
    return len_of(part["lanes"] if "lanes" in part else part["excepted"])


def lane_row(part, i):
    row = row_of(part["lanes"], i)
    if row is None:
        return None
    chunk, place = divmod(part["offset"] + i, CHUNK)
    offsets = part["lane_offsets"]["rows"]
    for entry in range(chunk * part["n_lanes"], (chunk + 1) * part["n_lanes"]):
        for k in range(offsets[entry], offsets[entry + 1]):
            if part["indices"]["rows"][k] == place:
                return row_of(part["values"], k)
    return row


def row_of(part, i):
    if "flat" in part:
        return printed(part["flat"], part["rows"][i])
    if "constant" in part:
        return printed(part["constant"], part["row"])
    if "chunked" in part:
        for chunk in part["chunks"]:
            if i < len_of(chunk):
                return row_of(chunk, i)
            i -= len_of(chunk)
    if "lanes" in part:
        return lane_row(part, i)
    if "excepted" in part:
        indices = part["indices"]["rows"]
        if part["offset"] + i in indices:
            return row_of(part["values"], indices.index(part["offset"] + i))
        return row_of(part["excepted"], i)
    value = part["interleaved"][part["array_indices"]["rows"][i]]
    return row_of(value, part["row_indices"]["rows"][i])


# ---- the first fault of a part


def is_unsigned(flat):
    return flat["flat"] in UNSIGNED


def rises(numbers, strictly):
    return all(a < b or (not strictly and a == b) for a, b in zip(numbers, numbers[1:]))


def lane_rules(part):
    """Rules of lanes in their order, each with whether it is broken where none before it is."""
    length = len_of(part["lanes"])
    n_lanes, offset = part["n_lanes"], part["offset"]
    offsets, indices, values = (part[key] for key in ("lane_offsets", "indices", "values"))
    starts, places = offsets["rows"], indices["rows"]

    def entries():
        return [(g, places[starts[g]:starts[g + 1]]) for g in range(len(starts) - 1)]

    yield "TooLong", lambda: offset + length > LAST
    yield "LaneCount", lambda: n_lanes not in (1, 2, 4, 8, 16, 32, 64, 128)
    yield "LaneOffset", lambda: offset >= CHUNK
    yield "LaneOffsetsType", lambda: offsets["flat"] != "u32"
    yield "LaneOffsetsLength", lambda: len(starts) != n_lanes * ceiling(offset + length, CHUNK) + 1
    yield "LaneOffsetsFall", lambda: not rises(starts, False)
    yield "LaneOffsetsEnd", lambda: starts[-1] > len(places)
    yield "LaneIndexType", lambda: indices["flat"] != "u16"
    yield "LaneLengths", lambda: len(places) != len(values["rows"])
    yield "LaneIndexRange", lambda: any(i >= CHUNK for i in places[starts[0]:starts[-1]])
    yield "LaneIndexLane", lambda: any(i % n_lanes != g % n_lanes for g, held in entries() for i in held)
    yield "LaneIndexOrder", lambda: not all(rises(held, True) for _, held in entries())
    yield "LaneValueType", lambda: kind(values["flat"]) != kind(dtype_of(part["lanes"]))
    yield "LaneValueNull", lambda: None in values["rows"]


def exception_rules(part):
    base, values, chunk_offsets = part["excepted"], part["values"], part["chunk_offsets"]
    length, offset, indices = len_of(base), part["offset"], part["indices"]
    rows = indices["rows"]
    yield "TooLong", lambda: offset + length > LAST
    yield "NoExceptions", lambda: not rows
    yield "IndexType", lambda: not is_unsigned(indices)
    yield "IndexOrder", lambda: not rises(rows, True)
    yield "IndexBelowOffset", lambda: rows[0] < offset
    yield "IndexPastEnd", lambda: rows[-1] >= offset + length
    yield "ValueCount", lambda: len_of(values) != len(rows)
    yield "ValueType", lambda: kind(dtype_of(values)) != kind(dtype_of(base))
    yield "ValueNullable", lambda: nullable(dtype_of(values)) and not nullable(dtype_of(base))
    if chunk_offsets is None:
        return
    counts = [sum(i < CHUNK * (offset // CHUNK + c) for i in rows)
              for c in range(min(ceiling(offset % CHUNK + length, CHUNK), len(chunk_offsets["rows"])))]
    yield "ChunkOffsetType", lambda: not is_unsigned(chunk_offsets)
    yield "ChunkOffsetCount", lambda: len(chunk_offsets["rows"]) != ceiling(offset % CHUNK + length, CHUNK)
    yield "ChunkOffsetWrong", lambda: chunk_offsets["rows"] != counts


def weaving_rules(part):
    values, arrays, rows = part["interleaved"], part["array_indices"], part["row_indices"]
    yield "TooFewValues", lambda: len(values) < 2
    yield "ValueTypes", lambda: len({kind(dtype_of(value)) for value in values}) > 1
    yield "SelectorType", lambda: not (is_unsigned(arrays) and is_unsigned(rows))
    yield "SelectorLengths", lambda: len(arrays["rows"]) != len(rows["rows"])
    yield "SelectorArray", lambda: any(a >= len(values) for a in arrays["rows"])
    yield "SelectorRow", lambda: any(r >= len_of(values[a]) for a, r in zip(arrays["rows"], rows["rows"]))


def chunk_rules(part):
    yield "TooLong", lambda: len_of(part) > LAST
    yield "ChunkType", lambda: any(dtype_of(chunk) != part["chunked"] for chunk in part["chunks"])


def unsupported(part):
    kinds = [kind(dtype_of(child)) for child in children(part)]
    if "lanes" in part:
        return kinds[0] not in INTEGERS
    if "excepted" in part:
        kinds = kinds[:1]
    elif "interleaved" not in part:
        return False
    return any(name != "bool" and name not in INTEGERS for name in kinds)


def first_fault(part):
    """The path and the rule of the first fault, the rule being none for a type that isn't supported; else none."""
    for number, child in enumerate(children(part)):
        fault = first_fault(child)
        if fault:
            return [number, *fault[0]], fault[1]
    if unsupported(part):
        return [], None
    rules = {"lanes": lane_rules, "excepted": exception_rules, "interleaved": weaving_rules, "chunked": chunk_rules}
    for key, rules_of in rules.items():
        if key in part:
            return next((([], rule) for rule, broken in rules_of(part) if broken()), None)
    return None


# ---- steps over a column: a type, a number of rows, and what each row is


def refusal(error, **fields):
    return {"error": error, **fields}


Column = collections.namedtuple("Column", "dtype length row")


def opened(part):
    return Column(dtype_of(part), len_of(part), lambda i: row_of(part, i))


def rows_at(column, numbers):
    """The rows of these numbers, and a null where there is no number."""
    return [None if i is None else column.row(i) for i in numbers]


def of_rows(dtype, rows):
    return Column(dtype, len(rows), rows.__getitem__)


def outside(column, numbers):
    """The errors of numbers that no row has."""
    return [refusal("OutOfBounds", index=min(i, LAST), len=column.length) for i in numbers if i >= column.length]


def mismatch(expected, found):
    return [refusal("LengthMismatch", expected=expected, found=min(found, LAST))] if found != expected else []


def unlike(dtype, other):
    return [refusal("MismatchedTypes")] if kind(dtype) != kind(other) else []


def zip_errors(sources, column, step):
    if step["zip"] >= len(sources):
        return [refusal("UnknownColumn", number=step["zip"])]
    other = sources[step["zip"]]
    lengths = mismatch(column.length, len(step["choice"])) + mismatch(column.length, other.length)
    return lengths + unlike(column.dtype, other.dtype)


def cast_errors(column, target):
    if not (is_integer(column.dtype) and is_integer(target)):
        return [refusal("MismatchedTypes")]
    return [refusal("BadCast", row=i) for i in range(column.length) if not fits(target, column.row(i))]


def contains_errors(sources, column, source):
    if source >= len(sources):
        return [refusal("UnknownColumn", number=source)]
    return unlike(column.dtype, sources[source].dtype)


def search_errors(column, value):
    keys = [place_key(column.dtype, row) for row in rows_at(column, range(column.length))]
    falls = any(a > b for a, b in zip(keys, keys[1:]))
    return unlike(column.dtype, value["type"]) + ([refusal("Unsorted")] if falls else [])


def errors(sources, column, step):
    """All errors that are true of a step."""
    if "slice" in step:
        start, end = step["slice"]
        wrong = [refusal("BadRange", start=start, end=end)] if start > end else []
        return wrong + ([refusal("OutOfBounds", index=end, len=column.length)] if end > column.length else [])
    if "points" in step:
        return outside(column, step["points"])
    if "filter" in step or "mask" in step:
        return mismatch(column.length, len(step.get("filter", step.get("mask"))))
    if "zip" in step:
        return zip_errors(sources, column, step)
    if "fill" in step:
        return [refusal("MismatchedTypes")] if step["fill"]["row"] is None else unlike(column.dtype, step["fill"]["type"])
    if "cast" in step:
        return cast_errors(column, step["cast"])
    if "compare" in step:
        return unlike(column.dtype, step["value"]["type"])
    if "search" in step:
        return search_errors(column, step["value"])
    if "contains" in step:
        return contains_errors(sources, column, step["contains"])
    if "take" in step:
        return outside(column, [i for i in step["take"] if i is not None])
    last_rows = [start + length - 1 for start, length in step["runs"] if length > 0]
    return mismatch(step["len"], sum(length for _, length in step["runs"])) + outside(column, last_rows)


def zipped(column, other, choice):
    dtype = widened(column.dtype, nullable(column.dtype) or nullable(other.dtype))
    return of_rows(dtype, [(column if flag else other).row(i) for i, flag in enumerate(choice)])


def compared(column, holds, value):
    """For each row whether it stands so to the value."""
    dtype = widened("bool", nullable(column.dtype) or nullable(value["type"]))

    def truth(row):
        if row is None or value["row"] is None:
            return None
        return holds(ordered(column.dtype, row), ordered(value["type"], value["row"]))

    return of_rows(dtype, [truth(row) for row in rows_at(column, range(column.length))])


def left(sources, column, step):
    """The column that a step leaves, of which no error is true."""
    if "slice" in step:
        start, end = step["slice"]
        return Column(column.dtype, end - start, lambda i: column.row(start + i))
    if "filter" in step:
        return of_rows(column.dtype, rows_at(column, [i for i, flag in enumerate(step["filter"]) if flag]))
    if "mask" in step:
        return of_rows(widened(column.dtype), rows_at(column, [i if flag else None for i, flag in enumerate(step["mask"])]))
    if "zip" in step:
        return zipped(column, sources[step["zip"]], step["choice"])
    if "fill" in step:
        value = printed(step["fill"]["type"], step["fill"]["row"])
        rows = [value if row is None else row for row in rows_at(column, range(column.length))]
        return of_rows(widened(column.dtype, False), rows)
    if "cast" in step:
        return of_rows(step["cast"], rows_at(column, range(column.length)))
    if "compare" in step:
        return compared(column, OPERATORS[step["compare"]], step["value"])
    if "take" in step:
        dtype = widened(column.dtype) if None in step["take"] else column.dtype
        return of_rows(dtype, rows_at(column, step["take"]))
    if "runs" in step:
        return of_rows(column.dtype, [column.row(i) for start, length in step["runs"] for i in range(start, start + length)])
    return column


# ---- what steps answer


def place(column, side, value):
    """How many rows are below the value, or aren't above it, and whether one is equal."""
    key = place_key(value["type"], value["row"])
    keys = [place_key(column.dtype, row) for row in rows_at(column, range(column.length))]
    before = sum(other < key or (side == "right" and other == key) for other in keys)
    return {"found" if key in keys else "not_found": before}


def bits(column, other):
    """For each row whether an equal one is among those of the other."""
    held = [ordered(other.dtype, row) for row in rows_at(other, range(other.length)) if row is not None]
    return [None if row is None else ordered(column.dtype, row) in held for row in rows_at(column, range(column.length))]


def answers_of(sources, column, step):
    """The answer of a step of which no error is true, as a list, which is empty for a step that gives none."""
    if "points" in step:
        return [{"rows": rows_at(column, step["points"])}]
    if "search" in step:
        return [place(column, step["search"], step["value"])]
    if "contains" in step:
        return [{"bits": bits(column, sources[step["contains"]])}]
    return []


# ---- the right replies to a job


def replies(job):
    """All right replies."""
    for number, part in enumerate(job["parts"]):
        fault = first_fault(part)
        if fault:
            at = [number, *fault[0]]
            return [refusal("Malformed", at=at, rule=fault[1]) if fault[1] else refusal("Unsupported", at=at)]
    if not job["parts"]:
        return [refusal("UnknownColumn", number=0)]
    sources, answers = list(map(opened, job["parts"])), []
    column = sources[0]
    for step in job["plan"]:
        wrong = errors(sources, column, step)
        if wrong:
            return wrong
        answers += answers_of(sources, column, step)
        column = left(sources, column, step)
    return [{"answers": answers, "rows": rows_at(column, range(column.length)), "type": column.dtype}]
