#!/usr/bin/env python3
"""Writes the cases of metadata bytes that vx_wire is tested on: messages as `protoc --encode` gives them, and behind them
those of by_hand.txt, of which the last one is wrong on purpose.

It wants Debian's protobuf-compiler and nothing else. A seed fixes the messages, so each run writes the same file:

    python3 tools/wire_vectors/make.py

With --check it writes nothing, and ends with 1 where the file differs from what it would write.
"""

import argparse
import pathlib
import random
import subprocess
import sys

HERE = pathlib.Path(__file__).resolve().parent
CASES = HERE.parent.parent / "crates" / "vx_wire_cases" / "stdin"
SEED = 20261201
PATCHES = 260
LANES = 80

U64 = 2**64 - 1
U32 = 2**32 - 1
# Numbers about the places where a varint takes one byte more, and the greatest.
LONG = [0, 1, 127, 128, 300, 16383, 16384, 2**21, 2**28 - 1, 2**32 - 1, 2**32, 2**56, 2**63 - 1, 2**63, U64 - 1, U64]
SHORT = [0, 1, 2, 32, 64, 127, 128, 1023, 16384, 2**21 - 1, 2**28, 2**31 - 1, 2**31, U32]
INTEGERS = ["U8", "U16", "U32", "U64", "I8", "I16", "I32", "I64"]
TYPES = [0, 1, 2, 3, 4, 5, 6, 7, 8, 10, 11, 127, 128, 2**31 - 1, -1, -2, -128, -(2**31)]


def protoc(message, fields):
    """The bytes that protoc gives for the fields that are present."""
    text = "".join(f"{name}: {number}\n" for name, number in fields.items() if number is not None)
    done = subprocess.run(
        ["protoc", f"--proto_path={HERE}", f"--encode=metadata.{message}", "metadata.proto"],
        input=text.encode(),
        stdout=subprocess.PIPE,
        check=True,
    )
    return done.stdout


def number(random_source, edges, greatest):
    """An edge as often as not, else a number of any length in bits."""
    if random_source.random() < 0.5:
        return random_source.choice(edges)
    return random_source.randrange(2 ** random_source.randint(1, greatest.bit_length()))


def patches_messages(random_source):
    names = ["len", "offset", "indices_ptype", "chunk_offsets_len", "chunk_offsets_ptype", "offset_within_chunk"]
    yield dict.fromkeys(names[:3], 0) | dict.fromkeys(names[3:])
    yield dict.fromkeys(names, 0)
    yield dict(zip(names, [U64, U64, 2**31 - 1, U64, 2**31 - 1, U64]))
    yield dict(zip(names, [U64, U64, -(2**31), U64, -(2**31), U64]))
    for kind in TYPES:
        yield dict(zip(names, [0, 0, kind, None, kind, None]))
    while True:
        yield {
            "len": number(random_source, LONG, U64),
            "offset": number(random_source, LONG, U64),
            "indices_ptype": random_source.choice(TYPES),
            "chunk_offsets_len": random_source.choice([None, 0, number(random_source, LONG, U64)]),
            "chunk_offsets_ptype": random_source.choice([None, 0, random_source.choice(TYPES)]),
            "offset_within_chunk": random_source.choice([None, 0, number(random_source, LONG, U64)]),
        }


def lanes_messages(random_source):
    names = ["n_patches", "n_lanes", "offset"]
    yield dict.fromkeys(names, 0)
    yield dict.fromkeys(names, U32)
    while True:
        yield {name: number(random_source, SHORT, U32) for name in names}


def different(messages, count):
    """The first so many that differ."""
    found = []
    for message in messages:
        if message not in found:
            found.append(message)
        if len(found) == count:
            return found


def hex_of(message, name):
    """The bytes that protoc gives, in hex."""
    return " ".join(f"{byte:02x}" for byte in protoc(name, message))


def type_word(number, unsigned_alone=False):
    """What a number of a type is read as: a type of integers, or what is wrong with it."""
    if number is None:
        return "-"
    if number in range(4, 8) and unsigned_alone:
        return f"NotUnsigned {{ number: {number} }}"
    if number in range(8):
        return INTEGERS[number]
    if number in range(8, 11):
        return f"FloatType {{ number: {number} }}"
    return f"UnknownType {{ number: {number} }}"


def patches_words(message):
    """The fields as they are read, `-` where absent."""
    words = {name: "-" if value is None else str(value) for name, value in message.items()}
    words["indices_ptype"] = type_word(message["indices_ptype"], unsigned_alone=True)
    words["chunk_offsets_ptype"] = type_word(message["chunk_offsets_ptype"])
    return " ".join(words.values())


def block(*lines):
    return "\n".join(lines) + "\n"


def patches_case(number, message):
    """What the bytes are read as, and that they are written again."""
    found = hex_of(message, "PatchesMetadata")
    asked = f" {found}".rstrip()
    return block(
        f"patches as protoc writes them, {number}",
        f"read patches{asked}",
        f"rewrite patches{asked}",
        f"= {patches_words(message)}",
        f"= {found or 'no bytes'}",
    )


def lanes_case(number, message):
    """What the bytes are read as, and that the message is written to them."""
    found = hex_of(message, "PatchedMetadata")
    asked = f" {found}".rstrip()
    words = " ".join(map(str, message.values()))
    return block(
        f"lanes as protoc writes them, {number}",
        f"read lanes{asked}",
        f"write lanes {words}",
        f"= {words}",
        f"= {found or 'no bytes'}",
    )


def cases():
    random_source = random.Random(SEED)
    yield block(
        "# Metadata bytes. How a case is written is said in src/main.rt and in vx_cases. Made by tools/wire_vectors/make.py",
        "# from what protoc encodes and from by_hand.txt beside it.",
    )
    for number, message in enumerate(different(patches_messages(random_source), PATCHES)):
        yield patches_case(number, message)
    for number, message in enumerate(different(lanes_messages(random_source), LANES)):
        yield lanes_case(number, message)
    yield (HERE / "by_hand.txt").read_text()


def main():
    parser = argparse.ArgumentParser(description="Writes the cases of metadata bytes that vx_wire is tested on.")
    parser.add_argument("--check", action="store_true", help="write nothing, and end with 1 where the file differs")
    given = parser.parse_args()
    text = "\n".join(cases())
    if given.check:
        return int(CASES.read_text() != text)
    CASES.write_text(text)
    return 0


if __name__ == "__main__":
    sys.exit(main())
