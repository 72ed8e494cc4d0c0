#!/usr/bin/env python3
"""Counts the instructions of programs on three small jobs of the bench, and tells where they go.

    python3 bench/instructions.py [--functions N] [PROGRAM ..]

It needs valgrind, and takes some seconds a job. Each PROGRAM takes the words of vxcol; without one it is vxcol, built where
it has to be. The jobs have a million bytes each, in the bench's shapes flat, texts and whole page. Counts of one program on
one job are the same on each machine of a kind, but for some hundreds, however busy it is.

A table has, for each program and job, all instructions, those for each byte of the job, and three shares of them: reading the
text into JSON values, making buffers of the values, and all else (the plan, the page, letting memory go, starting and ending).
What a function takes by itself belongs to the share that its name says; if it says none, as with the C library's, to those of
its callers, as much to each as their calls took. Where no name says anything, as in a program without symbols, there are no shares.
"""

import argparse
import collections
import pathlib
import re
import subprocess
import sys
import tempfile

import run

SIZE = 1_000_000
SHAPES = ("flat", "texts", "whole page")
SHARES = ("reading", "buffers", "else")

# Which share a function's name says, by the first of these that is found in it: names of vxcol and of the yardstick.
NAMED = (
    ("else", re.compile(r"drop_in_place|\bdrop\b|::drop_")),
    ("reading", re.compile(r"\bserde_json::(de|read|typed)\b|\bDeserialize for serde_json\b|(?<!\w)json::(?!write)|\bsimdutf8::")),
    ("buffers", re.compile(r"(?<!\w)vx_json(_rows)?::|\byardstick::(job|dtype)::|\byardstick::flat::(Flat::from_json|read|unsigned|signed|decimal|binary)\b")),
)


class Profile:
    """What callgrind wrote: the instructions of each function by itself, and those of its calls by caller."""

    def __init__(self, path):
        self.alone = collections.Counter()
        self.calls = collections.defaultdict(collections.Counter)
        names, function, callee, is_call = {}, None, None, False
        for line in pathlib.Path(path).read_text(errors="replace").splitlines():
            key, _, value = line.partition("=")
            if key in ("fn", "cfn"):
                number, _, name = value.partition(" ")
                name = names.setdefault(number, name)
                function, callee = (name, callee) if key == "fn" else (function, name)
            elif key == "calls":
                is_call = True
            elif line[:1].isdigit() or line[:1] in ("+", "-", "*"):
                cost = int(line.split()[1])
                if is_call:
                    self.calls[callee][function] += cost
                else:
                    self.alone[function] += cost
                is_call = False

    def total(self):
        return sum(self.alone.values())

    def shares(self):
        """The instructions of each share, or none where no name says one."""
        of = {name: weights_of(name) for name in self.alone}
        if not any(weights and not weights["else"] for weights in of.values()):
            return None
        silent = [name for name, weights in of.items() if weights is None]
        of.update((name, dict(zip(SHARES, (0.0, 0.0, 1.0)))) for name in silent)
        for _ in range(100):
            for name in silent:
                of[name] = self.weights_by_callers(name, of) or of[name]
        return {share: sum(cost * of[name][share] for name, cost in self.alone.items()) for share in SHARES}

    def weights_by_callers(self, name, of):
        callers = {caller: cost for caller, cost in self.calls[name].items() if caller != name and caller in of}
        whole = sum(callers.values())
        if not whole:
            return None
        return {share: sum(cost * of[caller][share] for caller, cost in callers.items()) / whole for share in SHARES}


def weights_of(name):
    """How much of a function belongs to each share, if its name says it."""
    for share, pattern in NAMED:
        if pattern.search(name):
            return {each: float(each == share) for each in SHARES}
    return None


def profiled(program, folder, job, right):
    """The profile of one run, whose page has to be right."""
    out = f"{folder}/profile"
    command = ["valgrind", "--tool=callgrind", f"--callgrind-out-file={out}", program, "run"]
    with open(job, "rb") as source:
        done = subprocess.run(command, stdin=source, capture_output=True, check=False)
    if done.returncode != 0:
        sys.exit(f"instructions: {program} ended with status {done.returncode}\n{done.stderr.decode(errors='replace')}")
    if done.stdout != pathlib.Path(right).read_bytes():
        sys.exit(f"instructions: a wrong page of {program}")
    return Profile(out)


def line_of(name, shape, profile):
    total, shares = profile.total(), profile.shares()
    told = [f"{shares[share] / total:.1%}" for share in SHARES] if shares else ["-"] * len(SHARES)
    return f"| {name} | {shape} | {total:,} | {total / SIZE:.1f} | {' | '.join(told)} |"


def words():
    parser = argparse.ArgumentParser(description=__doc__, formatter_class=argparse.RawDescriptionHelpFormatter)
    parser.add_argument("program", nargs="*", help="programs, in place of vxcol")
    parser.add_argument("--functions", type=int, default=0, help="names so many functions that take the most by themselves")
    return parser.parse_args()


def main():
    given = words()
    programs = given.program or [run.built()]
    print("| Program | Job of 1 MB | Instructions | A byte | Reading text | Values to buffers | All else |", flush=True)
    print("|---|---|---|---|---|---|---|", flush=True)
    tops = []
    with tempfile.TemporaryDirectory(prefix="vxcol-instructions-") as folder:
        for shape in SHAPES:
            job, right = f"{folder}/job", f"{folder}/right"
            run.made(shape, SIZE, 1, job, right)
            for program in programs:
                name = pathlib.Path(program).name
                profile = profiled(program, folder, job, right)
                print(line_of(name, shape, profile), flush=True)
                tops.append((f"{name}, {shape}", profile))
    for title, profile in tops if given.functions else []:
        print(f"\n{title}")
        for function, cost in profile.alone.most_common(given.functions):
            print(f"{cost:>14,} {cost / profile.total():6.1%}  {function}")


if __name__ == "__main__":
    main()
