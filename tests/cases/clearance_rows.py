#!/usr/bin/env python3
"""clearance_rows.py CLEARANCE: the rows of `replay_clearance`'s table 13 on standard output: blocks, each with its line and the TOTAL behind it.

CLEARANCE are the words that run the program `clearance`, which answers the blocks; that its answers are sound is compared by tests/oracle/clearance.sh. The blocks
are those of the program's own stored run and of examples/every-answer.batch, short ends left out. docs/REPLAYS.md says what a row is like."""
import pathlib
import struct
import subprocess
import sys

HERE = pathlib.Path(__file__).resolve().parent
PART, SIZE = 65536, 672
KINDS = {"CLEAR": 16, "TOUCH": 17, "OPEN": 18}


def blocks():
    found = []
    for batch in (HERE.parents[1] / "crates/clearance/stdin", HERE.parents[1] / "examples/every-answer.batch"):
        data = batch.read_bytes()
        found += [data[i : i + 512] for i in range(0, len(data) - 511, 512)]
    return found


def row(n, block, line):
    """Row n + 1: its line, and the TOTAL where the n blocks before it were refused."""
    fields = line.split()
    word = fields[3] if len(fields) > 3 else ""
    counts = [word == "CLEAR", word == "TOUCH", word == "OPEN"]
    text = f"{line}\nTOTAL {n + 1} {' '.join(str(int(c)) for c in counts)} {n + (not any(counts))}\n".encode()
    assert len(text) <= 156, text
    return block + text.ljust(156, b"\0") + struct.pack("<I", KINDS.get(word) or int(fields[2]))


def main():
    if len(sys.argv) != 2:
        sys.exit(__doc__)
    given = blocks()
    lines = subprocess.run(sys.argv[1].split(), input=b"".join(given), stdout=subprocess.PIPE, check=True).stdout.decode().split("\n")
    rows = [row(n, block, line) for n, (block, line) in enumerate(zip(given, lines))]
    each = (PART - 16) // SIZE
    for first in range(0, len(rows), each):
        part = struct.pack("<4I", 13, first, 0, 0) + b"".join(rows[first : first + each])
        sys.stdout.buffer.write(part.ljust(PART, b"\0"))


if __name__ == "__main__":
    main()
