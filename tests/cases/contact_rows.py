#!/usr/bin/env python3
"""The rows of `replay_batches`'s table 5 on standard output: parts of a batch, with the text of their first contact.

Each block is one of examples/every-answer.batch, named by its status or its refusal. docs/REPLAYS.md says what a row is like."""
import pathlib
import struct
import sys

BATCH = (pathlib.Path(__file__).resolve().parents[2] / "examples/every-answer.batch").read_bytes()
PLACE = {"H": 1, "S": 2, "O": 5, "8": 6, "11": 10, "F": 12, "10": 14}  # the number of a block with that answer
ROOM, PART = 9 * 512, 65536

NONE, FIRST, LAST, BETWEEN, AFTER_128, BEHIND_SHORT, NO_INPUT = range(1, 8)
# kind, blocks before, the part's blocks, how many bytes of another block follow, the answer
ROWS = [
    (NONE, 0, "S", 0, "none"),
    (NONE, 0, "S F 8 10 11", 0, "none"),
    (NONE, 0, "F F F", 511, "none"),
    (NONE, 128, "S F", 0, "none"),
    (FIRST, 0, "H", 0, "1"),
    (FIRST, 0, "O H S", 0, "1"),
    (LAST, 0, "S S S S S S S S H", 0, "9"),
    (LAST, 0, "S F O", 100, "3"),
    (BETWEEN, 0, "S F 10 11 8 O H", 0, "6"),
    (AFTER_128, 128, "O S", 0, "129"),
    (AFTER_128, 256, "F S H", 1, "259"),
    (BEHIND_SHORT, 0, "S S", -100, "none"),
    (BEHIND_SHORT, 128, "S", -1, "none"),
    (NO_INPUT, 0, "", 0, "none"),
]


def block(answer):
    return BATCH[512 * (PLACE[answer] - 1) : 512 * PLACE[answer]]


def part(names, more):
    """The blocks, and bytes of a contact behind them; for a number below 0 so many bytes of a clear block before a whole contact."""
    whole = b"".join(map(block, names.split()))
    return whole + (block("H")[:more] if more >= 0 else block("S")[:-more] + block("H"))


def row(kind, before, names, more, answer):
    data = part(names, more)
    return struct.pack("<3I24s", kind, before, len(data), answer.encode() + b"\n") + data.ljust(ROOM, b"\0")


def main():
    if sys.argv[1:]:
        sys.exit(__doc__)
    rows = b"".join(row(*r) for r in ROWS)
    sys.stdout.buffer.write((struct.pack("<4I", 5, 0, 0, 0) + rows).ljust(PART, b"\0"))


if __name__ == "__main__":
    main()
